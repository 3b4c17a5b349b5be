/* What matters of a driver after the driver kit's sample scanner, written anew: `scanner.flt` is its text. */

#include "../c/kit.h"

typedef struct _SCANNER_CONTEXT {
    BOOLEAN RescanRequired;
} SCANNER_CONTEXT, *PSCANNER_CONTEXT;

extern PFLT_FILTER Filter;

/* Whether a file of this extension is scanned; what a program in user mode says of a file's bytes, and of those of a write. */
BOOLEAN IsScanned(PFILE_OBJECT File);
BOOLEAN IsSafe(PCFLT_RELATED_OBJECTS FltObjects);
BOOLEAN IsSafeToWrite(PFLT_CALLBACK_DATA Data);

FLT_POSTOP_CALLBACK_STATUS
ScannerPostCreate(PFLT_CALLBACK_DATA Data, PCFLT_RELATED_OBJECTS FltObjects, PVOID CompletionContext,
                  FLT_POST_OPERATION_FLAGS Flags)
{
    PFLT_CONTEXT context;
    NTSTATUS status;

    UNREFERENCED_PARAMETER(CompletionContext);
    if (FlagOn(Flags, FLTFL_POST_OPERATION_DRAINING)) {
        return FLT_POSTOP_FINISHED_PROCESSING;
    }
    if (!NT_SUCCESS(Data->IoStatus.Status) || Data->IoStatus.Status == STATUS_REPARSE
        || !IsScanned(FltObjects->FileObject)) {
        return FLT_POSTOP_FINISHED_PROCESSING;
    }
    if (!IsSafe(FltObjects)) {
        FltCancelFileOpen(FltObjects->Instance, FltObjects->FileObject);
        Data->IoStatus.Status = STATUS_ACCESS_DENIED;
        Data->IoStatus.Information = 0;
        return FLT_POSTOP_FINISHED_PROCESSING;
    }
    if (FltObjects->FileObject->WriteAccess) {
        status = FltAllocateContext(Filter, FLT_STREAMHANDLE_CONTEXT, sizeof(SCANNER_CONTEXT), NonPagedPool, &context);
        if (NT_SUCCESS(status)) {
            ((PSCANNER_CONTEXT)context)->RescanRequired = TRUE;
            FltSetStreamHandleContext(FltObjects->Instance, FltObjects->FileObject, FLT_SET_CONTEXT_KEEP_IF_EXISTS, context, NULL);
            FltReleaseContext(context);
        }
    }
    return FLT_POSTOP_FINISHED_PROCESSING;
}

FLT_PREOP_CALLBACK_STATUS
ScannerPreWrite(PFLT_CALLBACK_DATA Data, PCFLT_RELATED_OBJECTS FltObjects, PVOID *CompletionContext)
{
    FLT_PREOP_CALLBACK_STATUS answer = FLT_PREOP_SUCCESS_NO_CALLBACK;
    PFLT_CONTEXT context = NULL;
    NTSTATUS status;

    UNREFERENCED_PARAMETER(CompletionContext);
    status = FltGetStreamHandleContext(FltObjects->Instance, FltObjects->FileObject, &context);
    if (!NT_SUCCESS(status)) {
        return FLT_PREOP_SUCCESS_NO_CALLBACK;
    }
    if (!IsSafeToWrite(Data)) {
        Data->IoStatus.Status = STATUS_ACCESS_DENIED;
        Data->IoStatus.Information = 0;
        answer = FLT_PREOP_COMPLETE;
    }
    FltReleaseContext(context);
    return answer;
}

FLT_PREOP_CALLBACK_STATUS
ScannerPreCleanup(PFLT_CALLBACK_DATA Data, PCFLT_RELATED_OBJECTS FltObjects, PVOID *CompletionContext)
{
    PFLT_CONTEXT context = NULL;
    NTSTATUS status;

    UNREFERENCED_PARAMETER(Data);
    UNREFERENCED_PARAMETER(CompletionContext);
    status = FltGetStreamHandleContext(FltObjects->Instance, FltObjects->FileObject, &context);
    if (NT_SUCCESS(status)) {
        if (((PSCANNER_CONTEXT)context)->RescanRequired) {
            IsSafe(FltObjects);
        }
        FltReleaseContext(context);
    }
    return FLT_PREOP_SUCCESS_NO_CALLBACK;
}
