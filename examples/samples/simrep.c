/* What matters of a driver after the driver kit's sample simrep, written anew: `simrep.flt` is its text. */

#include "../c/kit.h"

/* Whether a name is mapped, and to which name. */
BOOLEAN IsMapped(const UNICODE_STRING *Name, UNICODE_STRING *Mapped);

FLT_PREOP_CALLBACK_STATUS
SimRepPreCreate(PFLT_CALLBACK_DATA Data, PCFLT_RELATED_OBJECTS FltObjects, PVOID *CompletionContext)
{
    FLT_PREOP_CALLBACK_STATUS answer = FLT_PREOP_SUCCESS_NO_CALLBACK;
    PFLT_FILE_NAME_INFORMATION name = NULL;
    UNICODE_STRING mapped;
    NTSTATUS status;

    UNREFERENCED_PARAMETER(CompletionContext);
    status = FltGetFileNameInformation(Data, FLT_FILE_NAME_OPENED | FLT_FILE_NAME_QUERY_DEFAULT, &name);
    if (!NT_SUCCESS(status)) {
        goto Cleanup;
    }
    if (!IsMapped(&name->Name, &mapped)) {
        goto Cleanup;
    }
    Data->IoStatus.Status = IoReplaceFileObjectName(FltObjects->FileObject, mapped.Buffer, mapped.Length);
    if (NT_SUCCESS(Data->IoStatus.Status)) {
        Data->IoStatus.Status = STATUS_REPARSE;
        Data->IoStatus.Information = IO_REPARSE;
    }
    answer = FLT_PREOP_COMPLETE;

Cleanup:
    if (name != NULL) {
        FltReleaseFileNameInformation(name);
    }
    return answer;
}

FLT_PREOP_CALLBACK_STATUS
SimRepPreNetworkQueryOpen(PFLT_CALLBACK_DATA Data, PCFLT_RELATED_OBJECTS FltObjects, PVOID *CompletionContext)
{
    UNREFERENCED_PARAMETER(FltObjects);
    UNREFERENCED_PARAMETER(CompletionContext);
    if (FLT_IS_IRP_OPERATION(Data)) {
        return FLT_PREOP_SUCCESS_NO_CALLBACK;
    }
    return FLT_PREOP_DISALLOW_FASTIO;
}
