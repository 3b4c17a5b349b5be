/* What matters of a driver after the driver kit's sample delete, written anew: `delete.flt` is its text. */

#include "../c/kit.h"

typedef struct _DELETE_CONTEXT {
    volatile LONG Operations;
    BOOLEAN DeleteOnClose;
} DELETE_CONTEXT, *PDELETE_CONTEXT;

extern PFLT_FILTER Filter;

void ReportDeleted(PFILE_OBJECT File);

FLT_PREOP_CALLBACK_STATUS
DeletePreCreate(PFLT_CALLBACK_DATA Data, PCFLT_RELATED_OBJECTS FltObjects, PVOID *CompletionContext)
{
    PFLT_CONTEXT context;
    NTSTATUS status;

    UNREFERENCED_PARAMETER(FltObjects);
    if (!FlagOn(Data->Iopb->Parameters.Create.Options, FILE_DELETE_ON_CLOSE)) {
        return FLT_PREOP_SUCCESS_NO_CALLBACK;
    }
    status = FltAllocateContext(Filter, FLT_STREAM_CONTEXT, sizeof(DELETE_CONTEXT), NonPagedPool, &context);
    if (!NT_SUCCESS(status)) {
        return FLT_PREOP_SUCCESS_NO_CALLBACK;
    }
    ((PDELETE_CONTEXT)context)->Operations = 0;
    ((PDELETE_CONTEXT)context)->DeleteOnClose = FALSE;
    *CompletionContext = context;
    return FLT_PREOP_SUCCESS_WITH_CALLBACK;
}

FLT_POSTOP_CALLBACK_STATUS
DeletePostCreate(PFLT_CALLBACK_DATA Data, PCFLT_RELATED_OBJECTS FltObjects, PVOID CompletionContext,
                 FLT_POST_OPERATION_FLAGS Flags)
{
    PFLT_CONTEXT context = CompletionContext, linked = NULL;
    NTSTATUS status;

    if (FlagOn(Flags, FLTFL_POST_OPERATION_DRAINING) || !NT_SUCCESS(Data->IoStatus.Status)) {
        FltReleaseContext(context);
        return FLT_POSTOP_FINISHED_PROCESSING;
    }
    status = FltSetStreamContext(FltObjects->Instance, FltObjects->FileObject, FLT_SET_CONTEXT_KEEP_IF_EXISTS, context, &linked);
    if (!NT_SUCCESS(status)) {
        FltReleaseContext(context);
        context = linked;
    }
    if (context != NULL) {
        ((PDELETE_CONTEXT)context)->DeleteOnClose = TRUE;
        FltReleaseContext(context);
    }
    return FLT_POSTOP_FINISHED_PROCESSING;
}

FLT_PREOP_CALLBACK_STATUS
DeletePreSetInformation(PFLT_CALLBACK_DATA Data, PCFLT_RELATED_OBJECTS FltObjects, PVOID *CompletionContext)
{
    PFLT_CONTEXT context;
    NTSTATUS status;

    if (Data->Iopb->Parameters.SetFileInformation.FileInformationClass != FileDispositionInformation) {
        return FLT_PREOP_SUCCESS_NO_CALLBACK;
    }
    status = FltGetStreamContext(FltObjects->Instance, FltObjects->FileObject, &context);
    if (!NT_SUCCESS(status)) {
        return FLT_PREOP_SUCCESS_NO_CALLBACK;
    }
    InterlockedIncrement(&((PDELETE_CONTEXT)context)->Operations);
    *CompletionContext = context;
    return FLT_PREOP_SYNCHRONIZE;
}

FLT_POSTOP_CALLBACK_STATUS
DeletePostSetInformation(PFLT_CALLBACK_DATA Data, PCFLT_RELATED_OBJECTS FltObjects, PVOID CompletionContext,
                         FLT_POST_OPERATION_FLAGS Flags)
{
    UNREFERENCED_PARAMETER(Data);
    UNREFERENCED_PARAMETER(FltObjects);
    UNREFERENCED_PARAMETER(Flags);
    InterlockedDecrement(&((PDELETE_CONTEXT)CompletionContext)->Operations);
    FltReleaseContext(CompletionContext);
    return FLT_POSTOP_FINISHED_PROCESSING;
}

FLT_PREOP_CALLBACK_STATUS
DeletePreCleanup(PFLT_CALLBACK_DATA Data, PCFLT_RELATED_OBJECTS FltObjects, PVOID *CompletionContext)
{
    UNREFERENCED_PARAMETER(Data);
    if (NT_SUCCESS(FltGetStreamContext(FltObjects->Instance, FltObjects->FileObject, CompletionContext))) {
        return FLT_PREOP_SYNCHRONIZE;
    }
    return FLT_PREOP_SUCCESS_NO_CALLBACK;
}

FLT_POSTOP_CALLBACK_STATUS
DeletePostCleanup(PFLT_CALLBACK_DATA Data, PCFLT_RELATED_OBJECTS FltObjects, PVOID CompletionContext,
                  FLT_POST_OPERATION_FLAGS Flags)
{
    PDELETE_CONTEXT context = CompletionContext;
    FILE_STANDARD_INFORMATION information;
    NTSTATUS status;

    UNREFERENCED_PARAMETER(Data);
    if (!FlagOn(Flags, FLTFL_POST_OPERATION_DRAINING) && (context->DeleteOnClose || context->Operations == 0)) {
        status = FltQueryInformationFile(FltObjects->Instance, FltObjects->FileObject, &information, sizeof(information),
                                         FileStandardInformation, NULL);
        if (status == STATUS_FILE_DELETED) {
            ReportDeleted(FltObjects->FileObject);
        }
    }
    FltReleaseContext(context);
    return FLT_POSTOP_FINISHED_PROCESSING;
}
