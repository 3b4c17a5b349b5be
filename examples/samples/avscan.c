/* What matters of a driver after the driver kit's sample avscan, written anew: `avscan.flt` is its text. */

#include "../c/kit.h"

/* What is known of a stream's bytes. */
typedef struct _AV_STREAM_CONTEXT {
    EX_PUSH_LOCK State;
    BOOLEAN Clean;
} AV_STREAM_CONTEXT, *PAV_STREAM_CONTEXT;

extern PFLT_FILTER Filter;

/* Finds a stream's context or sets one, as `PostCreate` of c/ctx.c does; and asks a program in user mode. */
PAV_STREAM_CONTEXT AvFindOrSet(PCFLT_RELATED_OBJECTS FltObjects);
BOOLEAN AvScan(PAV_STREAM_CONTEXT Stream);

FLT_POSTOP_CALLBACK_STATUS
AvPostCreate(PFLT_CALLBACK_DATA Data, PCFLT_RELATED_OBJECTS FltObjects, PVOID CompletionContext, FLT_POST_OPERATION_FLAGS Flags)
{
    PAV_STREAM_CONTEXT stream;

    UNREFERENCED_PARAMETER(CompletionContext);
    if (FlagOn(Flags, FLTFL_POST_OPERATION_DRAINING) || !NT_SUCCESS(Data->IoStatus.Status)) {
        return FLT_POSTOP_FINISHED_PROCESSING;
    }
    stream = AvFindOrSet(FltObjects);
    if (stream != NULL) {
        FltAcquirePushLockExclusive(&stream->State);
        if (!stream->Clean) {
            stream->Clean = AvScan(stream);
        }
        FltReleasePushLock(&stream->State);
        FltReleaseContext(stream);
    }
    return FLT_POSTOP_FINISHED_PROCESSING;
}

FLT_PREOP_CALLBACK_STATUS
AvPreWrite(PFLT_CALLBACK_DATA Data, PCFLT_RELATED_OBJECTS FltObjects, PVOID *CompletionContext)
{
    PFLT_CONTEXT context;
    PAV_STREAM_CONTEXT stream;

    UNREFERENCED_PARAMETER(Data);
    UNREFERENCED_PARAMETER(CompletionContext);
    if (NT_SUCCESS(FltGetStreamContext(FltObjects->Instance, FltObjects->FileObject, &context))) {
        stream = context;
        FltAcquirePushLockExclusive(&stream->State);
        stream->Clean = FALSE;
        FltReleasePushLock(&stream->State);
        FltReleaseContext(context);
    }
    return FLT_PREOP_SUCCESS_NO_CALLBACK;
}

void
AvScanRoutine(PFLT_GENERIC_WORKITEM Item, PVOID Object, PVOID Context)
{
    PAV_STREAM_CONTEXT stream = Context;

    UNREFERENCED_PARAMETER(Object);
    FltAcquirePushLockExclusive(&stream->State);
    if (!stream->Clean) {
        stream->Clean = AvScan(stream);
    }
    FltReleasePushLock(&stream->State);
    FltReleaseContext(stream);
    FltFreeGenericWorkItem(Item);
}

FLT_PREOP_CALLBACK_STATUS
AvPreCleanup(PFLT_CALLBACK_DATA Data, PCFLT_RELATED_OBJECTS FltObjects, PVOID *CompletionContext)
{
    PFLT_CONTEXT context;
    PFLT_GENERIC_WORKITEM item;
    NTSTATUS status = STATUS_INSUFFICIENT_RESOURCES;

    UNREFERENCED_PARAMETER(Data);
    UNREFERENCED_PARAMETER(CompletionContext);
    if (NT_SUCCESS(FltGetStreamContext(FltObjects->Instance, FltObjects->FileObject, &context))) {
        item = FltAllocateGenericWorkItem();
        if (item != NULL) {
            status = FltQueueGenericWorkItem(item, FltObjects->Instance, AvScanRoutine, DelayedWorkQueue, context);
        }
        if (!NT_SUCCESS(status)) {
            if (item != NULL) {
                FltFreeGenericWorkItem(item);
            }
            FltReleaseContext(context);
        }
    }
    return FLT_PREOP_SUCCESS_NO_CALLBACK;
}
