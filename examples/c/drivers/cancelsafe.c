/*++
    cancelsafe.c - after the WDK's cancelSafe sample: reads wait in a cancel-safe queue, a work item lets them go.
    As shipped by a throttling product: a queue per instance, a limit, statistics by interlocked counters, a drain at teardown.
--*/
#include "fltKernel.h"

#define CSQ_TAG 'qsCT'
#define CSQ_MAX_DEPTH 64

typedef struct _QUEUE_CONTEXT { FLT_CALLBACK_DATA_QUEUE_IO_CONTEXT CbdqIoContext; LARGE_INTEGER Queued; } QUEUE_CONTEXT, *PQUEUE_CONTEXT;
typedef struct _INSTANCE_CONTEXT {
    PFLT_INSTANCE Instance;
    FLT_CALLBACK_DATA_QUEUE Cbdq;
    LIST_ENTRY QueueHead;
    FAST_MUTEX Lock;
    volatile LONG WorkerThreadFlag;
    volatile LONG Depth, Delayed, Passed;
    KEVENT TeardownEvent;
} INSTANCE_CONTEXT, *PINSTANCE_CONTEXT;

struct { PFLT_FILTER FilterHandle; NPAGED_LOOKASIDE_LIST QueueContextLookaside; LONG Enabled; UNICODE_STRING MappingPath; } Globals;

VOID PreReadWorkItemRoutine(PFLT_GENERIC_WORKITEM WorkItem, PVOID Filter, PVOID Context);

/* --- queue callbacks, which have no text --- */
VOID CsqAcquire(PFLT_CALLBACK_DATA_QUEUE DataQueue, PKIRQL Irql) { PINSTANCE_CONTEXT c = CONTAINING_RECORD(DataQueue, INSTANCE_CONTEXT, Cbdq); UNREFERENCED_PARAMETER(Irql); ExAcquireFastMutex(&c->Lock); }
VOID CsqRelease(PFLT_CALLBACK_DATA_QUEUE DataQueue, KIRQL Irql) { PINSTANCE_CONTEXT c = CONTAINING_RECORD(DataQueue, INSTANCE_CONTEXT, Cbdq); UNREFERENCED_PARAMETER(Irql); ExReleaseFastMutex(&c->Lock); }

NTSTATUS
CsqInsertIo(PFLT_CALLBACK_DATA_QUEUE DataQueue, PFLT_CALLBACK_DATA Data, PVOID Context)
{
    PINSTANCE_CONTEXT c = CONTAINING_RECORD(DataQueue, INSTANCE_CONTEXT, Cbdq);
    BOOLEAN wasEmpty = IsListEmpty(&c->QueueHead);
    PFLT_GENERIC_WORKITEM workItem;
    NTSTATUS status = STATUS_SUCCESS;

    UNREFERENCED_PARAMETER(Context);
    InsertTailList(&c->QueueHead, &Data->QueueLinks);
    if (wasEmpty && InterlockedIncrement(&c->WorkerThreadFlag) == 1) {
        workItem = FltAllocateGenericWorkItem();
        if (workItem == NULL) {
            status = STATUS_INSUFFICIENT_RESOURCES;
        } else {
            FltReferenceContext(c);
            status = FltQueueGenericWorkItem(workItem, c->Instance, PreReadWorkItemRoutine, DelayedWorkQueue, c);
            if (!NT_SUCCESS(status)) {
                FltReleaseContext(c);
                FltFreeGenericWorkItem(workItem);
            }
        }
        if (!NT_SUCCESS(status)) {
            RemoveEntryList(&Data->QueueLinks);
            InterlockedDecrement(&c->WorkerThreadFlag);
        }
    }
    return status;
}

VOID CsqRemoveIo(PFLT_CALLBACK_DATA_QUEUE DataQueue, PFLT_CALLBACK_DATA Data) { UNREFERENCED_PARAMETER(DataQueue); RemoveEntryList(&Data->QueueLinks); }

PFLT_CALLBACK_DATA
CsqPeekNextIo(PFLT_CALLBACK_DATA_QUEUE DataQueue, PFLT_CALLBACK_DATA Data, PVOID PeekContext)
{
    PINSTANCE_CONTEXT c = CONTAINING_RECORD(DataQueue, INSTANCE_CONTEXT, Cbdq);
    PLIST_ENTRY next = Data == NULL ? c->QueueHead.Flink : Data->QueueLinks.Flink;

    UNREFERENCED_PARAMETER(PeekContext);
    return next == &c->QueueHead ? NULL : CONTAINING_RECORD(next, FLT_CALLBACK_DATA, QueueLinks);
}

VOID
CsqCompleteCanceledIo(PFLT_CALLBACK_DATA_QUEUE DataQueue, PFLT_CALLBACK_DATA Data)
{
    PQUEUE_CONTEXT queueContext = (PQUEUE_CONTEXT)Data->QueueContext[0];

    UNREFERENCED_PARAMETER(DataQueue);
    Data->IoStatus.Status = STATUS_CANCELLED;
    Data->IoStatus.Information = 0;
    ExFreeToNPagedLookasideList(&Globals.QueueContextLookaside, queueContext);
    FltCompletePendedPreOperation(Data, FLT_PREOP_COMPLETE, 0);
}

/* --- instance --- */
NTSTATUS
InstanceSetup(PCFLT_RELATED_OBJECTS FltObjects, FLT_INSTANCE_SETUP_FLAGS Flags, DEVICE_TYPE VolumeDeviceType, FLT_FILESYSTEM_TYPE FsType)
{
    PINSTANCE_CONTEXT instCtx = NULL;
    NTSTATUS status;

    UNREFERENCED_PARAMETER(Flags);
    UNREFERENCED_PARAMETER(FsType);
    UNREFERENCED_PARAMETER(VolumeDeviceType);
    status = FltAllocateContext(Globals.FilterHandle, FLT_INSTANCE_CONTEXT, sizeof(INSTANCE_CONTEXT), NonPagedPool, (PFLT_CONTEXT *)&instCtx);
    if (!NT_SUCCESS(status)) {
        goto InstanceSetupCleanup;
    }
    status = FltCbdqInitialize(FltObjects->Instance, &instCtx->Cbdq, CsqInsertIo, CsqRemoveIo, CsqPeekNextIo, CsqAcquire, CsqRelease, CsqCompleteCanceledIo);
    if (!NT_SUCCESS(status)) {
        goto InstanceSetupCleanup;
    }
    InitializeListHead(&instCtx->QueueHead);
    ExInitializeFastMutex(&instCtx->Lock);
    KeInitializeEvent(&instCtx->TeardownEvent, NotificationEvent, FALSE);
    instCtx->WorkerThreadFlag = 0;
    instCtx->Instance = FltObjects->Instance;
    status = FltSetInstanceContext(FltObjects->Instance, FLT_SET_CONTEXT_KEEP_IF_EXISTS, instCtx, NULL);

InstanceSetupCleanup:
    if (instCtx != NULL) {
        FltReleaseContext(instCtx);
    }
    return status;
}

VOID
InstanceTeardownStart(PCFLT_RELATED_OBJECTS FltObjects, FLT_INSTANCE_TEARDOWN_FLAGS Flags)
{
    PINSTANCE_CONTEXT instCtx = NULL;
    PFLT_CALLBACK_DATA data;
    NTSTATUS status;

    UNREFERENCED_PARAMETER(Flags);
    status = FltGetInstanceContext(FltObjects->Instance, (PFLT_CONTEXT *)&instCtx);
    if (!NT_SUCCESS(status)) {
        return;
    }
    FltCbdqDisable(&instCtx->Cbdq);
    while ((data = FltCbdqRemoveNextIo(&instCtx->Cbdq, NULL)) != NULL) {
        data->IoStatus.Status = STATUS_CANCELLED;
        data->IoStatus.Information = 0;
        ExFreeToNPagedLookasideList(&Globals.QueueContextLookaside, data->QueueContext[0]);
        FltCompletePendedPreOperation(data, FLT_PREOP_COMPLETE, NULL);
    }
    KeSetEvent(&instCtx->TeardownEvent, 0, FALSE);
    FltReleaseContext(instCtx);
}

FLT_PREOP_CALLBACK_STATUS
PreRead(PFLT_CALLBACK_DATA Data, PCFLT_RELATED_OBJECTS FltObjects, PVOID *CompletionContext)
{
    PINSTANCE_CONTEXT instCtx = NULL;
    PQUEUE_CONTEXT queueCtx = NULL;
    FLT_PREOP_CALLBACK_STATUS cbStatus = FLT_PREOP_SUCCESS_NO_CALLBACK;
    NTSTATUS status;

    UNREFERENCED_PARAMETER(CompletionContext);
    if (!Globals.Enabled) {
        return FLT_PREOP_SUCCESS_NO_CALLBACK;
    }
    if (!FLT_IS_IRP_OPERATION(Data)) {
        return FLT_PREOP_DISALLOW_FASTIO;
    }
    if (FlagOn(Data->Iopb->IrpFlags, IRP_PAGING_IO | IRP_SYNCHRONOUS_PAGING_IO) || IoGetTopLevelIrp() != NULL) {

        return FLT_PREOP_SUCCESS_NO_CALLBACK;
    }

    queueCtx = ExAllocateFromNPagedLookasideList(&Globals.QueueContextLookaside);
    if (queueCtx == NULL) {
        Data->IoStatus.Status = STATUS_INSUFFICIENT_RESOURCES;
        Data->IoStatus.Information = 0;
        cbStatus = FLT_PREOP_COMPLETE;
        goto PreReadCleanup;
    }
    RtlZeroMemory(queueCtx, sizeof(QUEUE_CONTEXT));

    status = FltGetInstanceContext(FltObjects->Instance, (PFLT_CONTEXT *)&instCtx);
    if (!NT_SUCCESS(status)) {
        goto PreReadCleanup;
    }

    if (instCtx->Depth >= CSQ_MAX_DEPTH) {
        InterlockedIncrement(&instCtx->Passed);

        goto PreReadCleanup;
    }

    Data->QueueContext[0] = queueCtx;
    KeQuerySystemTime(&queueCtx->Queued);
    InterlockedIncrement(&instCtx->Depth);

    status = FltCbdqInsertIo(&instCtx->Cbdq, Data, &queueCtx->CbdqIoContext, 0);
    if (status == STATUS_SUCCESS) {
        /* CsqInsertIo has queued the work item, below the queue's lock, where it was the first. */

        cbStatus = FLT_PREOP_PENDING;
        queueCtx = NULL;
    } else {
        InterlockedDecrement(&instCtx->Depth);

    }

PreReadCleanup:
    if (queueCtx != NULL) {
        ExFreeToNPagedLookasideList(&Globals.QueueContextLookaside, queueCtx);
    }
    if (instCtx != NULL) {
        FltReleaseContext(instCtx);
    }
    return cbStatus;
}

VOID
PreReadWorkItemRoutine(PFLT_GENERIC_WORKITEM WorkItem, PVOID Filter, PVOID Context)
{
    PINSTANCE_CONTEXT instCtx = Context;
    PFLT_CALLBACK_DATA data;
    PQUEUE_CONTEXT queueCtx;
    LARGE_INTEGER delay;

    UNREFERENCED_PARAMETER(Filter);
    delay.QuadPart = -10 * 1000 * 5;
    while (TRUE) {
        KeWaitForSingleObject(&instCtx->TeardownEvent, Executive, KernelMode, FALSE, &delay);
        data = FltCbdqRemoveNextIo(&instCtx->Cbdq, NULL);
        if (data == NULL) {
            if (InterlockedDecrement(&instCtx->WorkerThreadFlag) == 0) {
                break;
            }
            continue;
        }
        queueCtx = (PQUEUE_CONTEXT)data->QueueContext[0];
        InterlockedDecrement(&instCtx->Depth);

        InterlockedIncrement(&instCtx->Delayed);

        ExFreeToNPagedLookasideList(&Globals.QueueContextLookaside, queueCtx);
        data->IoStatus.Status = STATUS_SUCCESS;
        FltCompletePendedPreOperation(data, FLT_PREOP_SUCCESS_NO_CALLBACK, NULL);
    }
    FltReleaseContext(instCtx);
    FltFreeGenericWorkItem(WorkItem);
}

VOID ContextCleanup(PFLT_CONTEXT Context, FLT_CONTEXT_TYPE ContextType) { UNREFERENCED_PARAMETER(Context); UNREFERENCED_PARAMETER(ContextType); }
NTSTATUS Unload(FLT_FILTER_UNLOAD_FLAGS Flags) { UNREFERENCED_PARAMETER(Flags); FltUnregisterFilter(Globals.FilterHandle); ExDeleteNPagedLookasideList(&Globals.QueueContextLookaside); return STATUS_SUCCESS; }

const FLT_CONTEXT_REGISTRATION Contexts[] = { { FLT_INSTANCE_CONTEXT, 0, ContextCleanup, sizeof(INSTANCE_CONTEXT), CSQ_TAG }, { FLT_CONTEXT_END } };
const FLT_OPERATION_REGISTRATION Callbacks[] = {
    { IRP_MJ_READ, 0, PreRead, NULL },
    { IRP_MJ_OPERATION_END }
};
const FLT_REGISTRATION Registration = { sizeof(FLT_REGISTRATION), FLT_REGISTRATION_VERSION, 0, Contexts, Callbacks, Unload, InstanceSetup, NULL, InstanceTeardownStart, NULL };

NTSTATUS
DriverEntry(PDRIVER_OBJECT DriverObject, PUNICODE_STRING RegistryPath)
{
    NTSTATUS status;

    UNREFERENCED_PARAMETER(RegistryPath);
    ExInitializeNPagedLookasideList(&Globals.QueueContextLookaside, NULL, NULL, 0, sizeof(QUEUE_CONTEXT), CSQ_TAG, 0);
    Globals.Enabled = 1;
    status = FltRegisterFilter(DriverObject, &Registration, &Globals.FilterHandle);
    if (NT_SUCCESS(status)) {
        status = FltStartFiltering(Globals.FilterHandle);
        if (!NT_SUCCESS(status)) {
            FltUnregisterFilter(Globals.FilterHandle);
        }
    }
    if (!NT_SUCCESS(status)) {
        ExDeleteNPagedLookasideList(&Globals.QueueContextLookaside);
    }
    return status;
}
