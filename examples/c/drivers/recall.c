/*++
    recall.c - a storage-tiering (HSM) filter: reads and writes of a stub are pended, a service fills the file through a port, a
    deferred work item lets the operation go. Its oplocks are checked; a recall that fails completes the operation with an error.
--*/
#include "fltKernel.h"

#define HSM_TAG 'mshR'

typedef struct _HSM_STREAM_CONTEXT { volatile LONG State; LONG Recalls, Failures; EX_PUSH_LOCK Lock; KEVENT Recalled; OPLOCK Oplock; } HSM_STREAM_CONTEXT, *PHSM_STREAM_CONTEXT;
typedef struct _HSM_REQUEST { ULONG64 FileId; ULONG Length; LARGE_INTEGER Offset; } HSM_REQUEST, *PHSM_REQUEST;
enum { HsmResident, HsmStub, HsmRecalling };

struct { PFLT_FILTER Filter; PFLT_PORT Port; volatile LONG Outstanding; KSPIN_LOCK Lock; ULONG Limit; } Hsm;

static NTSTATUS
HsmRecall(PFLT_INSTANCE Instance, PFILE_OBJECT FileObject, PHSM_STREAM_CONTEXT stream)
{
    HSM_REQUEST request; ULONG reply, length = sizeof(reply); LARGE_INTEGER timeout; NTSTATUS status;

    UNREFERENCED_PARAMETER(Instance); UNREFERENCED_PARAMETER(FileObject); UNREFERENCED_PARAMETER(stream);
    timeout.QuadPart = -10LL * 1000 * 1000 * 60;
    status = FltSendMessage(Hsm.Filter, &Hsm.Port, &request, sizeof(request), &reply, &length, &timeout);
    if (status == STATUS_TIMEOUT || (NT_SUCCESS(status) && reply != 0)) {
        status = STATUS_UNSUCCESSFUL;
    }
    return status;
}

FLT_PREOP_CALLBACK_STATUS
HsmPreCreate(PFLT_CALLBACK_DATA Data, PCFLT_RELATED_OBJECTS FltObjects, PVOID *CompletionContext)
{
    UNREFERENCED_PARAMETER(FltObjects);
    UNREFERENCED_PARAMETER(CompletionContext);
    if (FlagOn(Data->Iopb->OperationFlags, SL_OPEN_PAGING_FILE)) {
        return FLT_PREOP_SUCCESS_NO_CALLBACK;
    }
    return FLT_PREOP_SYNCHRONIZE;
}

FLT_POSTOP_CALLBACK_STATUS
HsmPostCreate(PFLT_CALLBACK_DATA Data, PCFLT_RELATED_OBJECTS FltObjects, PVOID CompletionContext, FLT_POST_OPERATION_FLAGS Flags)
{
    PHSM_STREAM_CONTEXT stream = NULL;
    NTSTATUS status;

    UNREFERENCED_PARAMETER(CompletionContext);
    if (FlagOn(Flags, FLTFL_POST_OPERATION_DRAINING) || !NT_SUCCESS(Data->IoStatus.Status) || Data->IoStatus.Status == STATUS_REPARSE) {

        return FLT_POSTOP_FINISHED_PROCESSING;
    }
    status = FltAllocateContext(Hsm.Filter, FLT_STREAM_CONTEXT, sizeof(HSM_STREAM_CONTEXT), NonPagedPool, (PFLT_CONTEXT *)&stream);
    if (!NT_SUCCESS(status)) {
        return FLT_POSTOP_FINISHED_PROCESSING;
    }
    RtlZeroMemory(stream, sizeof(*stream));
    stream->State = HsmStub;
    FltInitializePushLock(&stream->Lock);
    FltInitializeOplock(&stream->Oplock);
    (VOID)FltSetStreamContext(FltObjects->Instance, FltObjects->FileObject, FLT_SET_CONTEXT_KEEP_IF_EXISTS, stream, NULL);

    FltReleaseContext(stream);
    return FLT_POSTOP_FINISHED_PROCESSING;
}

static VOID HsmReadWorker(PFLT_DEFERRED_IO_WORKITEM Item, PFLT_CALLBACK_DATA Data, PVOID Context);

FLT_PREOP_CALLBACK_STATUS
HsmPreRead(PFLT_CALLBACK_DATA Data, PCFLT_RELATED_OBJECTS FltObjects, PVOID *CompletionContext)
{
    PHSM_STREAM_CONTEXT stream = NULL;
    PFLT_DEFERRED_IO_WORKITEM item = NULL;
    FLT_PREOP_CALLBACK_STATUS oplockStatus;
    NTSTATUS status;
    KIRQL irql;

    UNREFERENCED_PARAMETER(CompletionContext);
    status = FltGetStreamContext(FltObjects->Instance, FltObjects->FileObject, (PFLT_CONTEXT *)&stream);
    if (!NT_SUCCESS(status)) {
        return FLT_PREOP_SUCCESS_NO_CALLBACK;
    }
    if (stream->State == HsmResident) {
        FltReleaseContext(stream);
        return FLT_PREOP_SUCCESS_NO_CALLBACK;
    }
    if (!FLT_IS_IRP_OPERATION(Data)) {
        FltReleaseContext(stream);
        return FLT_PREOP_DISALLOW_FASTIO;
    }

    /* The oplock package may pend the operation itself: PENDING without a queue of ours. The language has no oplocks. */
    oplockStatus = FltCheckOplock(&stream->Oplock, Data, NULL, NULL, NULL);
    if (oplockStatus == FLT_PREOP_COMPLETE) {
        FltReleaseContext(stream);
        return FLT_PREOP_COMPLETE;
    }
    if (oplockStatus == FLT_PREOP_PENDING) {
        FltReleaseContext(stream);
        return FLT_PREOP_PENDING;
    }

    item = FltAllocateDeferredIoWorkItem();
    if (item == NULL) {
        FltReleaseContext(stream);
        Data->IoStatus.Status = STATUS_INSUFFICIENT_RESOURCES;
        Data->IoStatus.Information = 0;
        return FLT_PREOP_COMPLETE;
    }
    KeAcquireSpinLock(&Hsm.Lock, &irql);
    Hsm.Outstanding++;
    KeReleaseSpinLock(&Hsm.Lock, irql);
    status = FltQueueDeferredIoWorkItem(item, Data, HsmReadWorker, DelayedWorkQueue, stream);
    if (!NT_SUCCESS(status)) {
        KeAcquireSpinLock(&Hsm.Lock, &irql);
        Hsm.Outstanding--;
        KeReleaseSpinLock(&Hsm.Lock, irql);
        FltFreeDeferredIoWorkItem(item);
        FltReleaseContext(stream);
        Data->IoStatus.Status = STATUS_INSUFFICIENT_RESOURCES;
        Data->IoStatus.Information = 0;
        return FLT_PREOP_COMPLETE;
    }
    return FLT_PREOP_PENDING;
}

static VOID
HsmReadWorker(PFLT_DEFERRED_IO_WORKITEM Item, PFLT_CALLBACK_DATA Data, PVOID Context)
{

    PHSM_STREAM_CONTEXT stream = Context;
    NTSTATUS status = STATUS_SUCCESS;
    BOOLEAN mine = FALSE;
    KIRQL irql;

    FltAcquirePushLockExclusive(&stream->Lock);
    if (stream->State == HsmStub) {
        stream->State = HsmRecalling;
        mine = TRUE;
    }
    FltReleasePushLock(&stream->Lock);
    if (mine) {
        status = HsmRecall(Data->Iopb->TargetInstance, Data->Iopb->TargetFileObject, stream);
        FltAcquirePushLockExclusive(&stream->Lock);
        stream->State = NT_SUCCESS(status) ? HsmResident : HsmStub;
        FltReleasePushLock(&stream->Lock);
        KeSetEvent(&stream->Recalled, 0, FALSE);
    } else {
        KeWaitForSingleObject(&stream->Recalled, Executive, KernelMode, FALSE, NULL);
    }
    KeAcquireSpinLock(&Hsm.Lock, &irql);
    Hsm.Outstanding--;
    KeReleaseSpinLock(&Hsm.Lock, irql);
    if (NT_SUCCESS(status)) {
        FltCompletePendedPreOperation(Data, FLT_PREOP_SUCCESS_NO_CALLBACK, NULL);
    } else {
        Data->IoStatus.Status = status;
        Data->IoStatus.Information = 0;
        FltCompletePendedPreOperation(Data, FLT_PREOP_COMPLETE, NULL);
    }
    FltReleaseContext(stream);
    FltFreeDeferredIoWorkItem(Item);
}

FLT_PREOP_CALLBACK_STATUS
HsmPreWrite(PFLT_CALLBACK_DATA Data, PCFLT_RELATED_OBJECTS FltObjects, PVOID *CompletionContext)
{
    PHSM_STREAM_CONTEXT stream = NULL;
    NTSTATUS status;

    UNREFERENCED_PARAMETER(CompletionContext);
    if (FlagOn(Data->Iopb->IrpFlags, IRP_PAGING_IO)) {
        return FLT_PREOP_SUCCESS_NO_CALLBACK;
    }
    if (!NT_SUCCESS(FltGetStreamContext(FltObjects->Instance, FltObjects->FileObject, (PFLT_CONTEXT *)&stream))) {

        return FLT_PREOP_SUCCESS_NO_CALLBACK;
    }
    status = HsmRecall(FltObjects->Instance, FltObjects->FileObject, stream);
    if (!NT_SUCCESS(status)) {
        FltAcquirePushLockExclusive(&stream->Lock);
        stream->Failures++;
        FltReleasePushLock(&stream->Lock);
        FltReleaseContext(stream);
        Data->IoStatus.Status = status;
        Data->IoStatus.Information = 0;
        return FLT_PREOP_COMPLETE;
    }
    *CompletionContext = stream;
    return FLT_PREOP_SUCCESS_WITH_CALLBACK;
}

FLT_POSTOP_CALLBACK_STATUS
HsmPostWrite(PFLT_CALLBACK_DATA Data, PCFLT_RELATED_OBJECTS FltObjects, PVOID CompletionContext, FLT_POST_OPERATION_FLAGS Flags)
{
    PHSM_STREAM_CONTEXT stream = CompletionContext;

    UNREFERENCED_PARAMETER(FltObjects);
    if (!FlagOn(Flags, FLTFL_POST_OPERATION_DRAINING) && NT_SUCCESS(Data->IoStatus.Status)) {
        InterlockedIncrement(&stream->Recalls);
    }
    FltReleaseContext(stream);
    return FLT_POSTOP_FINISHED_PROCESSING;
}

const FLT_CONTEXT_REGISTRATION Contexts[] = { { FLT_STREAM_CONTEXT, 0, NULL, sizeof(HSM_STREAM_CONTEXT), HSM_TAG }, { FLT_CONTEXT_END } };
const FLT_OPERATION_REGISTRATION Callbacks[] = {
    { IRP_MJ_CREATE, 0, HsmPreCreate, HsmPostCreate },
    { IRP_MJ_READ, 0, HsmPreRead, NULL },
    { IRP_MJ_WRITE, 0, HsmPreWrite, HsmPostWrite },
    { IRP_MJ_OPERATION_END }
};
const FLT_REGISTRATION FilterRegistration = { sizeof(FLT_REGISTRATION), FLT_REGISTRATION_VERSION, 0, Contexts, Callbacks };
NTSTATUS DriverEntry(PDRIVER_OBJECT D, PUNICODE_STRING R) { UNREFERENCED_PARAMETER(R); KeInitializeSpinLock(&Hsm.Lock); return FltRegisterFilter(D, &FilterRegistration, &Hsm.Filter); }
