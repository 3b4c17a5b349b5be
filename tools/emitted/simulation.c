// A filter manager in user mode, which runs drivers that fltstack emits and writes the journal of the run, for tools/try-emitted.
//
//     simulation SEED OPERATIONS JOURNAL
//
// OPERATIONS operations, of the kinds of operations.h, arrive at the filters of filters.h, from the top of the stack to its end. Threads
// make the machine's moves and run the callbacks, one at a time: before each step that others may see, the turn goes to another thread by
// chance. All chances come from SEED, so a run can be repeated. Where a filter does what the manager can tell is wrong, it says so on the
// standard error and ends with status 1: a call other than the one of the text's statement, a call above its level, a context that was
// freed or is of the other kind, an operation that is settled twice.

#include <pthread.h>
#include <stdarg.h>
#include <stdio.h>
#include <stdlib.h>

#include "fltKernel.h"
#include "trace.h"

enum { THREADS = 4, FILES = 3, MAX_FILTERS = 16, MAX_OPERATIONS = 256, MAX_WAITS = 3000, MAX_IDLE = 6000 };
enum visit_kind { PRE, POST, DRAIN };

// The kinds of operations: how a journal names each, its major function, and whether it also comes as fast I/O.
static const struct {
    const char *name;
    UCHAR major;
    int may_be_fast;
} KINDS[] = {
#define OPERATION(name, major, may_be_fast) {#name, major, may_be_fast},
#include "operations.h"
};
enum { KIND_COUNT = sizeof KINDS / sizeof KINDS[0] };

// A context; what the filter sees of it comes after it.
struct context {
    int references;
    FLT_CONTEXT_TYPE type;
    struct context **slot; // where it is set, if it is
};

// A callback that runs: its level; how many steps of its own it made after the last one that others may see; and, if such a one is due, the
// call that it makes, "" for none.
struct activation {
    int number;
    struct _FLT_FILTER *filter;
    int level;
    int own_steps;
    const char *due;
    struct activation *caller;
};

struct _FLT_INSTANCE {
    struct _FLT_FILTER *filter;
};

struct _FLT_FILTER {
    const FLT_REGISTRATION *registration;
    unsigned altitude;
    struct _FLT_INSTANCE instance;
    struct context *streams[FILES], *own;
    PFLT_CALLBACK_DATA_QUEUE queue;
    int is_queue_disabled;
    int is_detaching, is_tearing_down, is_detached;
    int activations, items, entries;
};

struct operation {
    int serial;
    unsigned kind; // its place in KINDS
    int is_fast;
    FILE_OBJECT file;
    unsigned at; // the filter that it comes to next on its way down
    int is_up;   // it is on its way up
    int is_away; // a filter has it
    int is_cancelled, is_done;
    struct {
        struct _FLT_FILTER *filter;
        PVOID context;
    } frames[MAX_FILTERS];
    int frame_count;
};

// An operation at a filter. The filter knows its data, which come first.
struct visit {
    FLT_CALLBACK_DATA data;
    FLT_IO_PARAMETER_BLOCK parameters;
    struct operation *operation;
    struct _FLT_FILTER *filter;
    enum visit_kind kind;
    int is_settled;
};

struct _FLT_DEFERRED_IO_WORKITEM {
    PFLT_CALLBACK_DATA data;
};

struct _FLT_GENERIC_WORKITEM {
    PVOID object;
};

// A work item that is queued.
struct item {
    int number;
    struct _FLT_FILTER *filter;
    PFLT_DEFERRED_IO_WORKITEM deferred;
    PFLT_DEFERRED_IO_WORKITEM_ROUTINE deferred_routine;
    PFLT_GENERIC_WORKITEM generic;
    PFLT_GENERIC_WORKITEM_ROUTINE generic_routine;
    PVOID context;
    struct item *next;
};

static struct _FLT_FILTER filters[MAX_FILTERS];
static unsigned filter_count;
static struct operation operations[MAX_OPERATIONS];
static int operation_count, wanted_operations;
static struct item *items;
static int item_count, activation_count, running_moves, waits, faults;
static FILE *journal;

static __thread struct activation *current;
static __thread int is_in_queue; // the manager calls the queue's own callbacks

// ---- chances, turns and the journal

static uint64_t chances;

static unsigned chance(unsigned below) {
    chances ^= chances << 13;
    chances ^= chances >> 7;
    chances ^= chances << 17;
    return (unsigned)((chances >> 11) % below);
}

// Whether a call that asks for memory or a work item has it.
static int is_granted(void) {
    return chance(10) != 0;
}

static void faulty(const char *what) {
    fprintf(stderr, "%s\n", what);
    faults++;
}

static pthread_mutex_t mutex = PTHREAD_MUTEX_INITIALIZER;
static pthread_cond_t turns[THREADS];
static int turn, is_alive[THREADS];
static __thread int own_number;

static void give_turn(void) {
    int alive[THREADS], count = 0;
    for (int thread = 0; thread < THREADS; thread++) {
        if (is_alive[thread]) {
            alive[count++] = thread;
        }
    }
    if (count) {
        turn = alive[chance(count)];
        pthread_cond_signal(&turns[turn]);
    }
}

static void await_turn(void) {
    while (turn != own_number) {
        pthread_cond_wait(&turns[own_number], &mutex);
    }
}

static void pass_turn(void) {
    give_turn();
    await_turn();
}

__attribute__((format(printf, 1, 2))) static void enter(const char *form, ...) {
    va_list arguments;
    va_start(arguments, form);
    vfprintf(journal, form, arguments);
    va_end(arguments);
    fputc('\n', journal);
    waits = 0;
}

static void finish(void) {
    fputs("end\n", journal);
    fclose(journal);
}

// Waits until others made a step. If they don't, the run ends here.
static void wait_for_others(void) {
    if (++waits > MAX_WAITS) {
        faulty("deadlock");
        finish();
        exit(1);
    }
    pass_turn();
}

// ---- activations and their steps

// The step that is due takes effect.
static void takes_effect(int is_granted) {
    enter("go %d %d %s", current->number, current->own_steps + 1, is_granted ? "yes" : "no");
    current->own_steps = 0;
    current->due = NULL;
}

// A call of this name, which must be that of the step that is due. The teardown's calls are no steps.
static void called(const char *name, int is_granted) {
    if (!current) {
        return;
    }
    if (!current->due || strcmp(current->due, name) != 0) {
        faulty(name);
        faulty("is called in another place than in the text");
    }
    takes_effect(is_granted);
}

// The step that is due takes effect, if there is one: it makes no call.
static void goes_on(void) {
    if (current->due && *current->due) {
        faulty(current->due);
        faulty("isn't called");
    }
    if (current->due) {
        takes_effect(1);
    }
}

void trace_local(void) {
    goes_on();
    current->own_steps++;
    if (chance(4) == 0) {
        pass_turn();
    }
}

void trace_board(const char *call) {
    goes_on();
    pass_turn();
    current->due = call;
}

int trace_test(int holds) {
    trace_local();
    return holds;
}

int trace_grant(int is_granted) {
    if (current->due && !is_granted) {
        takes_effect(0);
    }
    return is_granted;
}

static void begin(struct _FLT_FILTER *filter, int level) {
    struct activation *activation = calloc(1, sizeof *activation);
    activation->number = activation_count++;
    activation->filter = filter;
    activation->level = level;
    activation->caller = current;
    current = activation;
    filter->activations++;
}

static void end(void) {
    struct activation *activation = current;
    goes_on();
    activation->filter->activations--;
    current = activation->caller;
    free(activation);
}

void trace_leave(void) {
    end();
}

static void at_most(int level) {
    if (current && level < current->level) {
        faulty("a call above its level");
    }
}

// ---- operations and their visits

static const FLT_OPERATION_REGISTRATION *row_of(struct _FLT_FILTER *filter, unsigned kind) {
    const FLT_OPERATION_REGISTRATION *row = filter->registration->OperationRegistration;
    for (; row->MajorFunction != IRP_MJ_OPERATION_END; row++) {
        if (row->MajorFunction == KINDS[kind].major) {
            return row;
        }
    }
    return NULL;
}

static void end_if_done(struct operation *operation) {
    operation->is_done = operation->is_up && !operation->frame_count && !operation->is_away;
}

static struct visit *visit_of(struct operation *operation, struct _FLT_FILTER *filter, enum visit_kind kind) {
    struct visit *visit = calloc(1, sizeof *visit);
    visit->operation = operation;
    visit->filter = filter;
    visit->kind = kind;
    visit->data.Iopb = &visit->parameters;
    visit->data.Flags = operation->is_fast ? FLTFL_CALLBACK_DATA_FAST_IO_OPERATION : FLTFL_CALLBACK_DATA_IRP_OPERATION;
    visit->parameters.MajorFunction = KINDS[operation->kind].major;
    visit->parameters.TargetFileObject = &operation->file;
    visit->parameters.TargetInstance = &filter->instance;
    return visit;
}

static FLT_RELATED_OBJECTS objects_of(struct visit *visit) {
    FLT_RELATED_OBJECTS objects = {.Size = sizeof objects};
    objects.Filter = visit->filter;
    objects.Instance = &visit->filter->instance;
    objects.FileObject = &visit->operation->file;
    return objects;
}

static int is_settled_now(struct visit *visit) {
    if (visit->is_settled) {
        faulty("an operation that is settled twice");
        return 0;
    }
    visit->is_settled = 1;
    return 1;
}

static void settle_pre(struct visit *visit, FLT_PREOP_CALLBACK_STATUS status, PVOID context) {
    struct operation *operation = visit->operation;
    if (!is_settled_now(visit)) {
        return;
    }
    operation->is_away = 0;
    switch (status) {
    case FLT_PREOP_SUCCESS_WITH_CALLBACK:
    case FLT_PREOP_SYNCHRONIZE:
        if (row_of(visit->filter, operation->kind)->PostOperation) {
            operation->frames[operation->frame_count].filter = visit->filter;
            operation->frames[operation->frame_count++].context = context;
        }
        operation->at++;
        break;
    case FLT_PREOP_COMPLETE:
    case FLT_PREOP_DISALLOW_FASTIO:
        operation->is_up = 1;
        break;
    default:
        operation->at++;
    }
    end_if_done(operation);
}

static void settle_post(struct visit *visit) {
    if (is_settled_now(visit) && visit->kind == POST) {
        visit->operation->is_away = 0;
        end_if_done(visit->operation);
    }
}

static int moves_down(struct operation *operation) {
    if (operation->at == filter_count) {
        enter("lower %d", operation->serial);
        operation->is_up = 1;
        end_if_done(operation);
        return 1;
    }
    struct _FLT_FILTER *filter = &filters[operation->at];
    const FLT_OPERATION_REGISTRATION *row = row_of(filter, operation->kind);
    if (!row || filter->is_detaching) {
        enter("skip %d", operation->serial);
        operation->at++;
        return 1;
    }
    enter("pre %d", operation->serial);
    operation->is_away = 1;
    begin(filter, chance(2) ? APC_LEVEL : PASSIVE_LEVEL);
    struct visit *visit = visit_of(operation, filter, PRE);
    FLT_RELATED_OBJECTS objects = objects_of(visit);
    PVOID context = NULL;
    FLT_PREOP_CALLBACK_STATUS status = row->PreOperation(&visit->data, &objects, &context);
    goes_on();
    if (status != FLT_PREOP_PENDING) {
        settle_pre(visit, status, context);
    }
    end();
    return 1;
}

// Runs the post callback of a frame that was taken off.
static void run_post(struct operation *operation, struct _FLT_FILTER *filter, PVOID context, enum visit_kind kind) {
    begin(filter, KINDS[operation->kind].major == IRP_MJ_CREATE ? PASSIVE_LEVEL : (int)chance(3));
    struct visit *visit = visit_of(operation, filter, kind);
    FLT_RELATED_OBJECTS objects = objects_of(visit);
    FLT_POST_OPERATION_FLAGS flags = kind == DRAIN ? FLTFL_POST_OPERATION_DRAINING : 0;
    FLT_POSTOP_CALLBACK_STATUS status = row_of(filter, operation->kind)->PostOperation(&visit->data, &objects, context, flags);
    goes_on();
    if (status == FLT_POSTOP_FINISHED_PROCESSING) {
        settle_post(visit);
    }
    end();
}

static int moves_up(struct operation *operation) {
    if (!operation->frame_count) {
        return 0;
    }
    operation->frame_count--;
    operation->is_away = 1;
    enter("post %d", operation->serial);
    run_post(operation, operation->frames[operation->frame_count].filter, operation->frames[operation->frame_count].context, POST);
    return 1;
}

static int moves_some_operation(void) {
    int first = operation_count ? (int)chance(operation_count) : 0;
    for (int count = 0; count < operation_count; count++) {
        struct operation *operation = &operations[(first + count) % operation_count];
        if (!operation->is_done && !operation->is_away) {
            return operation->is_up ? moves_up(operation) : moves_down(operation);
        }
    }
    return 0;
}

VOID FltCompletePendedPreOperation(PFLT_CALLBACK_DATA data, FLT_PREOP_CALLBACK_STATUS status, PVOID context) {
    at_most(APC_LEVEL);
    called(__func__, 1);
    settle_pre((struct visit *)data, status, context);
}

VOID FltCompletePendedPostOperation(PFLT_CALLBACK_DATA data) {
    at_most(DISPATCH_LEVEL);
    called(__func__, 1);
    settle_post((struct visit *)data);
}

// ---- contexts

static struct context *context_of(PFLT_CONTEXT object) {
    return (struct context *)object - 1;
}

// What the filter sees of a context, with one more reference.
static PFLT_CONTEXT referenced(struct context *context) {
    if (!context) {
        return NULL;
    }
    context->references++;
    return context + 1;
}

static struct context *live(PFLT_CONTEXT object) {
    struct context *context = context_of(object);
    if (context->references == 0) {
        faulty("a context that was freed");
    }
    return context;
}

// Freed contexts stay, so that their use is seen.
static void drop(struct context *context) {
    if (context->references > 0) {
        context->references--;
    }
}

static struct context *taken_out(struct context **slot) {
    struct context *context = *slot;
    *slot = NULL;
    if (context) {
        context->slot = NULL;
    }
    return context;
}

NTSTATUS FltAllocateContext(PFLT_FILTER filter, FLT_CONTEXT_TYPE type, SIZE_T size, POOL_TYPE pool, PFLT_CONTEXT *object) {
    (void)filter, (void)pool;
    at_most(APC_LEVEL);
    int has_memory = is_granted();
    called(__func__, has_memory);
    if (!has_memory) {
        return STATUS_INSUFFICIENT_RESOURCES;
    }
    struct context *context = calloc(1, sizeof *context + size);
    memset(context + 1, 0xaa, size);
    context->type = type;
    *object = referenced(context);
    return STATUS_SUCCESS;
}

VOID FltReferenceContext(PFLT_CONTEXT object) {
    at_most(DISPATCH_LEVEL);
    called(__func__, 1);
    live(object)->references++;
}

VOID FltReleaseContext(PFLT_CONTEXT object) {
    at_most(DISPATCH_LEVEL);
    called(__func__, 1);
    drop(live(object));
}

VOID FltDeleteContext(PFLT_CONTEXT object) {
    at_most(APC_LEVEL);
    called(__func__, 1);
    struct context *context = live(object);
    if (context->slot) {
        drop(taken_out(context->slot));
    }
}

static NTSTATUS set(const char *name, PFLT_INSTANCE instance, struct context **slot, FLT_CONTEXT_TYPE type, FLT_SET_CONTEXT_OPERATION mode,
    PFLT_CONTEXT object, PFLT_CONTEXT *old) {
    at_most(APC_LEVEL);
    called(name, 1);
    struct context *context = live(object);
    if (context->type != type) {
        faulty("a context of the other kind");
    }
    if (instance->filter->is_detaching) {
        return STATUS_FLT_DELETING_OBJECT;
    }
    if (context->slot) {
        return STATUS_FLT_CONTEXT_ALREADY_LINKED;
    }
    if (*slot && mode == FLT_SET_CONTEXT_KEEP_IF_EXISTS) {
        if (old) {
            *old = referenced(*slot);
        }
        return STATUS_FLT_CONTEXT_ALREADY_DEFINED;
    }
    struct context *replaced = taken_out(slot);
    *slot = context;
    context->slot = slot;
    context->references++;
    if (replaced && old) {
        *old = replaced + 1;
    } else if (replaced) {
        drop(replaced);
    }
    return STATUS_SUCCESS;
}

static NTSTATUS get(const char *name, struct context **slot, PFLT_CONTEXT *object) {
    at_most(APC_LEVEL);
    called(name, 1);
    *object = referenced(*slot);
    return *object ? STATUS_SUCCESS : STATUS_NOT_FOUND;
}

static NTSTATUS delete(const char *name, struct context **slot, PFLT_CONTEXT *old) {
    at_most(APC_LEVEL);
    called(name, 1);
    struct context *context = taken_out(slot);
    if (!context) {
        return STATUS_NOT_FOUND;
    }
    if (old) {
        *old = context + 1;
    } else {
        drop(context);
    }
    return STATUS_SUCCESS;
}

static struct context **stream(PFLT_INSTANCE instance, PFILE_OBJECT file) {
    return &instance->filter->streams[(ULONG_PTR)file->FsContext];
}

NTSTATUS FltSetStreamContext(
    PFLT_INSTANCE instance, PFILE_OBJECT file, FLT_SET_CONTEXT_OPERATION mode, PFLT_CONTEXT object, PFLT_CONTEXT *old) {
    return set(__func__, instance, stream(instance, file), FLT_STREAM_CONTEXT, mode, object, old);
}

NTSTATUS FltGetStreamContext(PFLT_INSTANCE instance, PFILE_OBJECT file, PFLT_CONTEXT *object) {
    return get(__func__, stream(instance, file), object);
}

NTSTATUS FltDeleteStreamContext(PFLT_INSTANCE instance, PFILE_OBJECT file, PFLT_CONTEXT *old) {
    return delete(__func__, stream(instance, file), old);
}

NTSTATUS FltSetInstanceContext(PFLT_INSTANCE instance, FLT_SET_CONTEXT_OPERATION mode, PFLT_CONTEXT object, PFLT_CONTEXT *old) {
    return set(__func__, instance, &instance->filter->own, FLT_INSTANCE_CONTEXT, mode, object, old);
}

NTSTATUS FltGetInstanceContext(PFLT_INSTANCE instance, PFLT_CONTEXT *object) {
    return get(__func__, &instance->filter->own, object);
}

NTSTATUS FltDeleteInstanceContext(PFLT_INSTANCE instance, PFLT_CONTEXT *old) {
    return delete(__func__, &instance->filter->own, old);
}

// ---- the queue

static void acquire(PFLT_CALLBACK_DATA_QUEUE queue) {
    KIRQL before;
    is_in_queue = 1;
    queue->Acquire(queue, &before);
}

static void release(PFLT_CALLBACK_DATA_QUEUE queue) {
    queue->Release(queue, PASSIVE_LEVEL);
    is_in_queue = 0;
}

static void take_out(PFLT_CALLBACK_DATA_QUEUE queue, PFLT_CALLBACK_DATA data) {
    queue->RemoveIo(queue, data);
    queue->Instance->filter->entries--;
}

NTSTATUS FltCbdqInitialize(PFLT_INSTANCE instance, PFLT_CALLBACK_DATA_QUEUE queue, PFLT_CALLBACK_DATA_QUEUE_INSERT_IO insert,
    PFLT_CALLBACK_DATA_QUEUE_REMOVE_IO remove, PFLT_CALLBACK_DATA_QUEUE_PEEK_NEXT_IO peek, PFLT_CALLBACK_DATA_QUEUE_ACQUIRE acquire,
    PFLT_CALLBACK_DATA_QUEUE_RELEASE release, PFLT_CALLBACK_DATA_QUEUE_COMPLETE_CANCELED_IO complete) {
    *queue = (FLT_CALLBACK_DATA_QUEUE){1, instance, insert, remove, peek, acquire, release, complete};
    instance->filter->queue = queue;
    return STATUS_SUCCESS;
}

// Runs the callback for an operation that was taken out of the queue.
static void run_canceled(PFLT_CALLBACK_DATA_QUEUE queue, PFLT_CALLBACK_DATA data) {
    begin(queue->Instance->filter, APC_LEVEL);
    queue->CompleteCanceledIo(queue, data);
    end();
}

NTSTATUS FltCbdqInsertIo(
    PFLT_CALLBACK_DATA_QUEUE queue, PFLT_CALLBACK_DATA data, PFLT_CALLBACK_DATA_QUEUE_IO_CONTEXT io_context, PVOID insert_context) {
    (void)io_context;
    struct _FLT_FILTER *filter = queue->Instance->filter;
    struct operation *operation = ((struct visit *)data)->operation;
    at_most(APC_LEVEL);
    called(__func__, 1);
    if (filter->is_queue_disabled) {
        return STATUS_FLT_CBDQ_DISABLED;
    }
    acquire(queue);
    NTSTATUS status = queue->InsertIo(queue, data, insert_context);
    filter->entries++;
    int is_cancelled = operation->is_cancelled && chance(2);
    if (is_cancelled) {
        take_out(queue, data);
    }
    release(queue);
    if (is_cancelled) {
        enter("canceled %u %d", filter->altitude, operation->serial);
        run_canceled(queue, data);
    }
    return status;
}

// Called by a callback, or by the teardown, which then runs the callback for cancelled operations.
PFLT_CALLBACK_DATA FltCbdqRemoveNextIo(PFLT_CALLBACK_DATA_QUEUE queue, PVOID peek_context) {
    struct _FLT_FILTER *filter = queue->Instance->filter;
    int is_teardown = !current;
    at_most(APC_LEVEL);
    called(__func__, 1);
    acquire(queue);
    PFLT_CALLBACK_DATA data = queue->PeekNextIo(queue, NULL, peek_context);
    if (data) {
        take_out(queue, data);
    }
    release(queue);
    if (data && is_teardown) {
        enter("canceled %u %d", filter->altitude, ((struct visit *)data)->operation->serial);
        begin(filter, APC_LEVEL);
    }
    return data;
}

VOID FltCbdqDisable(PFLT_CALLBACK_DATA_QUEUE queue) {
    queue->Instance->filter->is_queue_disabled = 1;
}

static PFLT_CALLBACK_DATA cancelled_in(PFLT_CALLBACK_DATA_QUEUE queue) {
    PFLT_CALLBACK_DATA data = queue->PeekNextIo(queue, NULL, NULL);
    while (data && !((struct visit *)data)->operation->is_cancelled) {
        data = queue->PeekNextIo(queue, data, NULL);
    }
    return data;
}

// ---- work items

PFLT_DEFERRED_IO_WORKITEM FltAllocateDeferredIoWorkItem(VOID) {
    at_most(DISPATCH_LEVEL);
    return is_granted() ? calloc(1, sizeof(struct _FLT_DEFERRED_IO_WORKITEM)) : NULL;
}

VOID FltFreeDeferredIoWorkItem(PFLT_DEFERRED_IO_WORKITEM work) {
    free(work);
}

PFLT_GENERIC_WORKITEM FltAllocateGenericWorkItem(VOID) {
    at_most(DISPATCH_LEVEL);
    return is_granted() ? calloc(1, sizeof(struct _FLT_GENERIC_WORKITEM)) : NULL;
}

VOID FltFreeGenericWorkItem(PFLT_GENERIC_WORKITEM work) {
    free(work);
}

static struct item *queued_item(struct _FLT_FILTER *filter, PVOID context) {
    struct item *item = calloc(1, sizeof *item);
    item->number = item_count++;
    item->filter = filter;
    item->context = context;
    item->next = items;
    items = item;
    filter->items++;
    return item;
}

NTSTATUS FltQueueDeferredIoWorkItem(PFLT_DEFERRED_IO_WORKITEM work, PFLT_CALLBACK_DATA data, PFLT_DEFERRED_IO_WORKITEM_ROUTINE routine,
    WORK_QUEUE_TYPE queue, PVOID context) {
    (void)queue;
    at_most(DISPATCH_LEVEL);
    if (!FLT_IS_IRP_OPERATION(data)) {
        faulty("a deferred work item for a fast operation");
    }
    int is_queued = is_granted();
    called(__func__, is_queued);
    if (!is_queued) {
        return STATUS_INSUFFICIENT_RESOURCES;
    }
    struct item *item = queued_item(((struct visit *)data)->filter, context);
    work->data = data;
    item->deferred = work;
    item->deferred_routine = routine;
    return STATUS_SUCCESS;
}

NTSTATUS FltQueueGenericWorkItem(
    PFLT_GENERIC_WORKITEM work, PVOID object, PFLT_GENERIC_WORKITEM_ROUTINE routine, WORK_QUEUE_TYPE queue, PVOID context) {
    (void)queue;
    at_most(DISPATCH_LEVEL);
    int is_queued = is_granted();
    called(__func__, is_queued);
    if (!is_queued) {
        return STATUS_INSUFFICIENT_RESOURCES;
    }
    struct item *item = queued_item(((PFLT_INSTANCE)object)->filter, context);
    work->object = object;
    item->generic = work;
    item->generic_routine = routine;
    return STATUS_SUCCESS;
}

// ---- locks

static void initialize(struct lock *lock, int level) {
    *lock = (struct lock){.level = level};
}

static void take(const char *name, struct lock *lock, int is_shared) {
    if (is_in_queue) {
        return;
    }
    at_most(lock->level == DISPATCH_LEVEL ? DISPATCH_LEVEL : APC_LEVEL);
    if (lock->holder == current) {
        faulty("a lock that is taken twice");
        return;
    }
    while (lock->holder || (!is_shared && lock->sharers)) {
        wait_for_others();
    }
    called(name, 1);
    if (is_shared) {
        lock->sharers++;
        return;
    }
    lock->holder = current;
    lock->before = (KIRQL)current->level;
    if (current->level < lock->level) {
        current->level = lock->level;
    }
}

static void give_back(const char *name, struct lock *lock) {
    if (is_in_queue) {
        return;
    }
    called(name, 1);
    if (lock->sharers) {
        lock->sharers--;
    } else if (lock->holder == current) {
        lock->holder = NULL;
        current->level = lock->before;
    } else {
        faulty("a lock that wasn't taken");
    }
}

void KeInitializeSpinLock(PKSPIN_LOCK lock) {
    initialize(lock, DISPATCH_LEVEL);
}

void KeAcquireSpinLock(PKSPIN_LOCK lock, PKIRQL before) {
    *before = (KIRQL)(current ? current->level : PASSIVE_LEVEL);
    take(__func__, lock, 0);
}

void KeReleaseSpinLock(PKSPIN_LOCK lock, KIRQL before) {
    (void)before;
    give_back(__func__, lock);
}

void ExInitializeFastMutex(PFAST_MUTEX lock) {
    initialize(lock, APC_LEVEL);
}

void ExAcquireFastMutex(PFAST_MUTEX lock) {
    take(__func__, lock, 0);
}

void ExReleaseFastMutex(PFAST_MUTEX lock) {
    give_back(__func__, lock);
}

VOID FltInitializePushLock(PEX_PUSH_LOCK lock) {
    initialize(lock, PASSIVE_LEVEL);
}

VOID FltDeletePushLock(PEX_PUSH_LOCK lock) {
    if (lock->holder || lock->sharers) {
        faulty("a lock that is deleted while it is taken");
    }
}

VOID FltAcquirePushLockExclusive(PEX_PUSH_LOCK lock) {
    take(__func__, lock, 0);
}

VOID FltAcquirePushLockShared(PEX_PUSH_LOCK lock) {
    take(__func__, lock, 1);
}

VOID FltReleasePushLock(PEX_PUSH_LOCK lock) {
    give_back(__func__, lock);
}

// ---- registration

NTSTATUS FltRegisterFilter(PDRIVER_OBJECT driver, const FLT_REGISTRATION *registration, PFLT_FILTER *filter) {
    (void)driver;
    *filter = &filters[filter_count];
    (*filter)->registration = registration;
    (*filter)->instance.filter = *filter;
    return STATUS_SUCCESS;
}

NTSTATUS FltStartFiltering(PFLT_FILTER filter) {
    FLT_RELATED_OBJECTS objects = {.Size = sizeof objects, .Filter = filter, .Instance = &filter->instance};
    return filter->registration->InstanceSetupCallback(&objects, 0, 0, FLT_FSTYPE_NTFS);
}

VOID FltUnregisterFilter(PFLT_FILTER filter) {
    filter->is_detached = 1;
}

// ---- other moves

// Most operations are of a kind that some filter has callbacks for.
static unsigned some_kind(void) {
    unsigned kinds[KIND_COUNT], kind;
    int count = 0;
    for (kind = 0; kind < KIND_COUNT; kind++) {
        for (unsigned filter = 0; filter < filter_count; filter++) {
            if (row_of(&filters[filter], kind)) {
                kinds[count++] = kind;
                break;
            }
        }
    }
    return count && chance(8) ? kinds[chance(count)] : chance(KIND_COUNT);
}

static int arrives(void) {
    if (operation_count == wanted_operations) {
        return 0;
    }
    struct operation *operation = &operations[operation_count];
    unsigned file = chance(FILES);
    operation->serial = operation_count++;
    operation->kind = some_kind();
    operation->is_fast = KINDS[operation->kind].may_be_fast && chance(4) == 0;
    operation->file.FsContext = (PVOID)(ULONG_PTR)file;
    enter("arrive %s %s %u", KINDS[operation->kind].name, operation->is_fast ? "fast" : "irp", file);
    return 1;
}

static int is_cancelled_now(void) {
    if (!operation_count) {
        return 0;
    }
    struct operation *operation = &operations[chance(operation_count)];
    if (operation->is_done || operation->is_cancelled) {
        return 0;
    }
    operation->is_cancelled = 1;
    enter("cancel %d", operation->serial);
    return 1;
}

static int completes_cancelled(void) {
    for (unsigned number = 0; number < filter_count; number++) {
        struct _FLT_FILTER *filter = &filters[number];
        PFLT_CALLBACK_DATA data = filter->queue ? cancelled_in(filter->queue) : NULL;
        if (data) {
            take_out(filter->queue, data);
            enter("canceled %u %d", filter->altitude, ((struct visit *)data)->operation->serial);
            run_canceled(filter->queue, data);
            return 1;
        }
    }
    return 0;
}

static int works(void) {
    int count = 0;
    for (struct item *item = items; item; item = item->next) {
        count++;
    }
    if (!count) {
        return 0;
    }
    struct item **place = &items;
    for (count = (int)chance(count); count; count--) {
        place = &(*place)->next;
    }
    struct item *item = *place;
    *place = item->next;
    item->filter->items--;
    enter("work %d", item->number);
    begin(item->filter, PASSIVE_LEVEL);
    if (item->generic) {
        item->generic_routine(item->generic, item->generic->object, item->context);
    } else {
        item->deferred_routine(item->deferred, item->deferred->data, item->context);
    }
    end();
    free(item);
    return 1;
}

static int detaches(struct _FLT_FILTER *filter) {
    if (filter->is_detaching || operation_count < wanted_operations / 2) {
        return 0;
    }
    filter->is_detaching = 1;
    enter("detach %u", filter->altitude);
    if (filter->registration->InstanceTeardownStartCallback) {
        FLT_RELATED_OBJECTS objects = {.Size = sizeof objects, .Filter = filter, .Instance = &filter->instance};
        filter->is_tearing_down = 1;
        filter->registration->InstanceTeardownStartCallback(&objects, 0);
        filter->is_tearing_down = 0;
    }
    return 1;
}

static int drains(struct _FLT_FILTER *filter) {
    for (int serial = 0; serial < operation_count; serial++) {
        struct operation *operation = &operations[serial];
        for (int frame = 0; frame < operation->frame_count; frame++) {
            if (operation->frames[frame].filter == filter) {
                PVOID context = operation->frames[frame].context;
                operation->frame_count--;
                for (int next = frame; next < operation->frame_count; next++) {
                    operation->frames[next] = operation->frames[next + 1];
                }
                enter("drain %u %d", filter->altitude, serial);
                run_post(operation, filter, context, DRAIN);
                end_if_done(operation);
                return 1;
            }
        }
    }
    return 0;
}

static int unlinks(struct _FLT_FILTER *filter) {
    if (filter->own) {
        drop(taken_out(&filter->own));
        enter("unlink %u instance", filter->altitude);
        return 1;
    }
    for (int file = 0; file < FILES; file++) {
        if (filter->streams[file]) {
            drop(taken_out(&filter->streams[file]));
            enter("unlink %u stream %d", filter->altitude, file);
            return 1;
        }
    }
    return 0;
}

static int tears_down(struct _FLT_FILTER *filter) {
    if (!filter->is_detaching || filter->is_detached || filter->is_tearing_down) {
        return 0;
    }
    if (drains(filter) || unlinks(filter)) {
        return 1;
    }
    if (filter->activations || filter->items || filter->entries) {
        return 0;
    }
    FLT_RELATED_OBJECTS objects = {.Size = sizeof objects, .Filter = filter, .Instance = &filter->instance};
    filter->is_detached = 1;
    enter("detached %u", filter->altitude);
    filter->registration->InstanceTeardownCompleteCallback(&objects, 0);
    return 1;
}

static int moves(void) {
    switch (chance(9)) {
    case 0:
        return arrives();
    case 1:
        return works();
    case 2:
        return chance(3) == 0 && is_cancelled_now();
    case 3:
        return completes_cancelled();
    case 4:
        return chance(4) == 0 && detaches(&filters[chance(filter_count)]);
    case 5:
        return tears_down(&filters[chance(filter_count)]);
    default:
        return moves_some_operation();
    }
}

// Whether a move may still be made. Operations in a queue may stay there.
static int is_something_left(void) {
    if (operation_count < wanted_operations || items || running_moves) {
        return 1;
    }
    for (int serial = 0; serial < operation_count; serial++) {
        if (!operations[serial].is_done && !operations[serial].is_away) {
            return 1;
        }
    }
    for (unsigned number = 0; number < filter_count; number++) {
        struct _FLT_FILTER *filter = &filters[number];
        if ((filter->is_detaching && !filter->is_detached) || (filter->queue && cancelled_in(filter->queue))) {
            return 1;
        }
    }
    return 0;
}

static void *run(void *number) {
    own_number = (int)(intptr_t)number;
    pthread_mutex_lock(&mutex);
    await_turn();
    for (int idle = 0; idle < MAX_IDLE && (idle < 60 || is_something_left()); idle++) {
        pass_turn();
        running_moves++;
        int is_moved = moves();
        running_moves--;
        if (is_moved) {
            idle = 0;
        }
    }
    is_alive[own_number] = 0;
    give_turn();
    pthread_mutex_unlock(&mutex);
    return NULL;
}

#define FILTER(name, altitude) NTSTATUS DriverEntry_##name(PDRIVER_OBJECT, PUNICODE_STRING);
#include "filters.h"
#undef FILTER

static const struct {
    NTSTATUS (*entry)(PDRIVER_OBJECT, PUNICODE_STRING);
    unsigned altitude;
} DRIVERS[] = {
#define FILTER(name, altitude) {DriverEntry_##name, altitude},
#include "filters.h"
};

int main(int count, char **words) {
    pthread_t threads[THREADS];
    if (count != 4 || !(journal = fopen(words[3], "w"))) {
        return 2;
    }
    chances = strtoul(words[1], NULL, 10) * 0x9e3779b97f4a7c15 + 12345;
    wanted_operations = atoi(words[2]) < MAX_OPERATIONS ? atoi(words[2]) : MAX_OPERATIONS;
    fputs("fltjournal 1\n", journal);
    while (filter_count < sizeof DRIVERS / sizeof DRIVERS[0]) {
        filters[filter_count].altitude = DRIVERS[filter_count].altitude;
        if (!NT_SUCCESS(DRIVERS[filter_count].entry(NULL, NULL))) {
            faulty("a driver that doesn't begin");
            return 1;
        }
        filter_count++;
    }
    for (int thread = 0; thread < THREADS; thread++) {
        pthread_cond_init(&turns[thread], NULL);
        is_alive[thread] = 1;
    }
    for (int thread = 0; thread < THREADS; thread++) {
        pthread_create(&threads[thread], NULL, run, (void *)(intptr_t)thread);
    }
    for (int thread = 0; thread < THREADS; thread++) {
        pthread_join(threads[thread], NULL);
    }
    finish();
    for (unsigned number = 0; number < filter_count; number++) {
        filters[number].registration->FilterUnloadCallback(0);
    }
    return faults > 0;
}
