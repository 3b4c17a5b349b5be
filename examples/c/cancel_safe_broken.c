/*
 * The driver of cancel_safe.c with a bug: LetGo doesn't release the context that PreRead hands over, neither in C nor in the text.
 */

#include "kit.h"

/*@flt
filter cancel_safe altitude 370080
queue */

/* An instance's context, with its queue. The word `queue` of the text is the queue of any instance, with its list and its lock. */
typedef struct _INSTANCE_CONTEXT {
    FLT_CALLBACK_DATA_QUEUE Queue;
    KSPIN_LOCK Lock;
    LIST_ENTRY Waiting;
} INSTANCE_CONTEXT, *PINSTANCE_CONTEXT;

/* `Csq` in a listing of pool. */
#define CANCEL_SAFE_TAG 0x20717343

static PFLT_FILTER Filter;

static void LetGo(PFLT_GENERIC_WORKITEM Item, PVOID Object, PVOID Context);
static void CompleteCanceledIo(PFLT_CALLBACK_DATA_QUEUE Queue, PFLT_CALLBACK_DATA Data);

/* The list of a queue and its lock, which the filter manager calls. These five have no text. */

static NTSTATUS
InsertIo(PFLT_CALLBACK_DATA_QUEUE Queue, PFLT_CALLBACK_DATA Data, PVOID Context)
{
    UNREFERENCED_PARAMETER(Context);
    InsertTailList(&CONTAINING_RECORD(Queue, INSTANCE_CONTEXT, Queue)->Waiting, &Data->QueueLinks);
    return STATUS_SUCCESS;
}

static void
RemoveIo(PFLT_CALLBACK_DATA_QUEUE Queue, PFLT_CALLBACK_DATA Data)
{
    UNREFERENCED_PARAMETER(Queue);
    RemoveEntryList(&Data->QueueLinks);
}

static PFLT_CALLBACK_DATA
PeekNextIo(PFLT_CALLBACK_DATA_QUEUE Queue, PFLT_CALLBACK_DATA Data, PVOID Context)
{
    LIST_ENTRY *head = &CONTAINING_RECORD(Queue, INSTANCE_CONTEXT, Queue)->Waiting;
    LIST_ENTRY *next = Data == NULL ? head->Flink : Data->QueueLinks.Flink;

    UNREFERENCED_PARAMETER(Context);
    return next == head ? NULL : CONTAINING_RECORD(next, FLT_CALLBACK_DATA, QueueLinks);
}

static void
Acquire(PFLT_CALLBACK_DATA_QUEUE Queue, KIRQL *Irql)
{
    KeAcquireSpinLock(&CONTAINING_RECORD(Queue, INSTANCE_CONTEXT, Queue)->Lock, Irql);
}

static void
Release(PFLT_CALLBACK_DATA_QUEUE Queue, KIRQL Irql)
{
    KeReleaseSpinLock(&CONTAINING_RECORD(Queue, INSTANCE_CONTEXT, Queue)->Lock, Irql);
}

/* A text has no InstanceSetup: its statements are those of `pre create`, which this driver doesn't have. */
static NTSTATUS
InstanceSetup(PCFLT_RELATED_OBJECTS FltObjects, FLT_INSTANCE_SETUP_FLAGS Flags,
              DEVICE_TYPE Device, FLT_FILESYSTEM_TYPE FileSystem)
{                                                        /*@flt-only*/ //@flt pre create {
    PFLT_CONTEXT context = NULL;
    PINSTANCE_CONTEXT instance;
    NTSTATUS status;

    UNREFERENCED_PARAMETER(Flags);
    UNREFERENCED_PARAMETER(Device);
    UNREFERENCED_PARAMETER(FileSystem);
                                                         /*@flt-only*/ //@flt   if FltGetInstanceContext c0 { } else {
    status = FltAllocateContext(Filter, FLT_INSTANCE_CONTEXT, sizeof(INSTANCE_CONTEXT),
                                NonPagedPool, &context);
    if (!NT_SUCCESS(status)) {
        goto Cleanup;
    }                                                                  //@flt     if FltAllocateContext c0 {
    instance = context;
    KeInitializeSpinLock(&instance->Lock);
    InitializeListHead(&instance->Waiting);
    status = FltCbdqInitialize(FltObjects->Instance, &instance->Queue, InsertIo, RemoveIo,
                               PeekNextIo, Acquire, Release, CompleteCanceledIo);
    if (!NT_SUCCESS(status)) {
        goto Cleanup;
    }
    status = FltSetInstanceContext(FltObjects->Instance, FLT_SET_CONTEXT_KEEP_IF_EXISTS,
                                   context, NULL);                     //@flt       if FltSetInstanceContext KEEP_IF_EXISTS c0 { }
                                                                       //@flt   } }

Cleanup:
    if (context != NULL) {                                             //@flt   if c0 != NULL {
        FltReleaseContext(context);                                    //@flt     FltReleaseContext c0
    }                                                                  //@flt   }
    return status;                                                     //@flt   return NO_CALLBACK
}                                                                      //@flt }

/* The machine cancels what waits when a filter is detached. So what is done here is the text of CompleteCanceledIo. */
static void
InstanceTeardownStart(PCFLT_RELATED_OBJECTS FltObjects, FLT_INSTANCE_TEARDOWN_FLAGS Reason)
{
    PFLT_CONTEXT context = NULL;
    PINSTANCE_CONTEXT instance;
    PFLT_CALLBACK_DATA data;

    UNREFERENCED_PARAMETER(Reason);
    if (NT_SUCCESS(FltGetInstanceContext(FltObjects->Instance, &context))) {
        instance = context;
        FltCbdqDisable(&instance->Queue);
        while ((data = FltCbdqRemoveNextIo(&instance->Queue, NULL)) != NULL) {
            CompleteCanceledIo(&instance->Queue, data);
        }
        FltReleaseContext(context);
    }
}

static FLT_PREOP_CALLBACK_STATUS
PreRead(PFLT_CALLBACK_DATA Data, PCFLT_RELATED_OBJECTS FltObjects, PVOID *CompletionContext)
{                                                                      //@flt pre read {
    FLT_PREOP_CALLBACK_STATUS answer = FLT_PREOP_SUCCESS_NO_CALLBACK;
    PFLT_GENERIC_WORKITEM item;
    PFLT_CALLBACK_DATA first;
    PFLT_CONTEXT context = NULL;
    PINSTANCE_CONTEXT instance;
    NTSTATUS status;

    UNREFERENCED_PARAMETER(CompletionContext);
    if (!FLT_IS_IRP_OPERATION(Data)) {                                 //@flt   if irp data { } else {
        return FLT_PREOP_DISALLOW_FASTIO;                              //@flt     return DISALLOW_FASTIO
    }                                                                  //@flt   }

    /* The memory manager can't wait. A text can't ask for flags: the file gives a number in place of the answer. */
    if (FlagOn(Data->Iopb->IrpFlags, IRP_PAGING_IO | IRP_SYNCHRONOUS_PAGING_IO)) {
                                                                       //@flt   n0 = file data if n0 == 1 {
        return FLT_PREOP_SUCCESS_NO_CALLBACK;                          //@flt     return NO_CALLBACK
    }                                                                  //@flt   }

    status = FltGetInstanceContext(FltObjects->Instance, &context);
    if (!NT_SUCCESS(status)) {
        goto Cleanup;
    }                                                                  //@flt   if FltGetInstanceContext c0 {
    instance = context;

    status = FltCbdqInsertIo(&instance->Queue, Data, NULL, NULL);
    if (!NT_SUCCESS(status)) {
        goto Cleanup;
    }                                                                  //@flt     if FltCbdqInsertIo data {
    answer = FLT_PREOP_PENDING;

    item = FltAllocateGenericWorkItem();
    status = STATUS_INSUFFICIENT_RESOURCES;
    if (item != NULL) {
        status = FltQueueGenericWorkItem(item, FltObjects->Instance, LetGo, DelayedWorkQueue, context);
    }
    if (NT_SUCCESS(status)) {                                          //@flt       if FltQueueGenericWorkItem let_go context c0 {
        context = NULL; /* LetGo releases it */                        //@flt         c0 = NULL
    } else {                                                           //@flt       } else {
        if (item != NULL) {
            FltFreeGenericWorkItem(item);
        }
        first = FltCbdqRemoveNextIo(&instance->Queue, NULL);
        if (first != NULL) {                                           //@flt         if FltCbdqRemoveNextIo o0 context c1 {
                                                         /*@flt-only*/ //@flt           if c1 != NULL { FltReleaseContext c1 }
            FltCompletePendedPreOperation(first, FLT_PREOP_SUCCESS_NO_CALLBACK, NULL);
                                                                       //@flt           FltCompletePendedPreOperation o0 NO_CALLBACK
        }                                                              //@flt         }
    }                                                                  //@flt       }

    /* A status of a text is a word and no variable. So the text has the lines below this label once for each answer. */
Cleanup:                                                 /*@flt-only*/ //@flt       if c0 != NULL { FltReleaseContext c0 }
                                                                       //@flt       return PENDING
                                                                       //@flt   } }
    if (context != NULL) {                                             //@flt   if c0 != NULL {
        FltReleaseContext(context);                                    //@flt     FltReleaseContext c0
    }                                                                  //@flt   }
    return answer;                                                     //@flt   return NO_CALLBACK
}                                                                      //@flt }

static void
LetGo(PFLT_GENERIC_WORKITEM Item, PVOID Object, PVOID Context)
{                                                                      //@flt generic let_go {
    PINSTANCE_CONTEXT instance = Context;
    PFLT_CALLBACK_DATA data;

    UNREFERENCED_PARAMETER(Object);
    /* This goes on until the queue is empty. A loop of a text has a number of turns. */
    while ((data = FltCbdqRemoveNextIo(&instance->Queue, NULL)) != NULL) {
                                                                       //@flt   repeat 16 { if FltCbdqRemoveNextIo o0 context c0 {
                                                         /*@flt-only*/ //@flt     if c0 != NULL { FltReleaseContext c0 }
        FltCompletePendedPreOperation(data, FLT_PREOP_SUCCESS_NO_CALLBACK, NULL);
                                                                       //@flt     FltCompletePendedPreOperation o0 NO_CALLBACK
    }                                                                  //@flt   } }
    FltFreeGenericWorkItem(Item);
}                                                                      //@flt }

static void
CompleteCanceledIo(PFLT_CALLBACK_DATA_QUEUE Queue, PFLT_CALLBACK_DATA Data)
{                                                                      //@flt canceled {
    UNREFERENCED_PARAMETER(Queue);
                                                         /*@flt-only*/ //@flt   if arg != NULL { FltReleaseContext arg }
    Data->IoStatus.Status = STATUS_CANCELLED;
    FltCompletePendedPreOperation(Data, FLT_PREOP_COMPLETE, NULL);
                                                                       //@flt   FltCompletePendedPreOperation data COMPLETE STATUS_CANCELLED
}                                                                      //@flt }

static NTSTATUS
Unload(FLT_FILTER_UNLOAD_FLAGS Flags)
{
    UNREFERENCED_PARAMETER(Flags);
    FltUnregisterFilter(Filter);
    return STATUS_SUCCESS;
}

static const FLT_CONTEXT_REGISTRATION Contexts[] = {
    { FLT_INSTANCE_CONTEXT, 0, NULL, sizeof(INSTANCE_CONTEXT), CANCEL_SAFE_TAG },
    { FLT_CONTEXT_END, 0, NULL, 0, 0 }
};

static const FLT_OPERATION_REGISTRATION Callbacks[] = {
    { IRP_MJ_READ, 0, PreRead, NULL },
    { IRP_MJ_OPERATION_END, 0, NULL, NULL }
};

static const FLT_REGISTRATION Registration = {
    sizeof(FLT_REGISTRATION), FLT_REGISTRATION_VERSION, 0, Contexts, Callbacks, Unload,
    InstanceSetup, NULL, InstanceTeardownStart
};

NTSTATUS
DriverEntry(PDRIVER_OBJECT Driver, PUNICODE_STRING RegistryPath)
{
    NTSTATUS status;

    UNREFERENCED_PARAMETER(RegistryPath);
    status = FltRegisterFilter(Driver, &Registration, &Filter);
    if (NT_SUCCESS(status)) {
        status = FltStartFiltering(Filter);
        if (!NT_SUCCESS(status)) {
            FltUnregisterFilter(Filter);
        }
    }
    return status;
}
