/* What matters of the reads of a driver after the driver kit's sample swapBuffers, written anew: `swap_buffers.flt` is its text. */

#include "../c/kit.h"

/* `Swb` in a listing of pool. */
#define SWAP_TAG 0x20627753

typedef struct _VOLUME_CONTEXT {
    ULONG SectorSize;
} VOLUME_CONTEXT, *PVOLUME_CONTEXT;

FLT_PREOP_CALLBACK_STATUS
SwapPreRead(PFLT_CALLBACK_DATA Data, PCFLT_RELATED_OBJECTS FltObjects, PVOID *CompletionContext)
{
    ULONG length = Data->Iopb->Parameters.Read.Length, sector;
    PFLT_CONTEXT volume;
    PVOID buffer;
    PMDL mdl;
    NTSTATUS status;

    status = FltGetVolumeContext(FltObjects->Filter, FltObjects->Volume, &volume);
    if (!NT_SUCCESS(status)) {
        return FLT_PREOP_SUCCESS_NO_CALLBACK;
    }
    sector = ((PVOLUME_CONTEXT)volume)->SectorSize;
    FltReleaseContext(volume);

    /* Whole sectors. */
    length = (length + sector - 1) / sector * sector;
    buffer = length == 0 ? NULL : FltAllocatePoolAlignedWithTag(FltObjects->Instance, NonPagedPool, length, SWAP_TAG);
    if (buffer == NULL) {
        return FLT_PREOP_SUCCESS_NO_CALLBACK;
    }
    mdl = IoAllocateMdl(buffer, length, FALSE, FALSE, NULL);
    if (mdl == NULL) {
        FltFreePoolAlignedWithTag(FltObjects->Instance, buffer, SWAP_TAG);
        return FLT_PREOP_SUCCESS_NO_CALLBACK;
    }
    MmBuildMdlForNonPagedPool(mdl);
    Data->Iopb->Parameters.Read.ReadBuffer = buffer;
    Data->Iopb->Parameters.Read.MdlAddress = mdl; /* the filter manager frees it */
    FltSetCallbackDataDirty(Data);
    *CompletionContext = buffer;
    return FLT_PREOP_SUCCESS_WITH_CALLBACK;
}

/* Its Data has the parameters of the user again. */
FLT_POSTOP_CALLBACK_STATUS
SwapPostReadWhenSafe(PFLT_CALLBACK_DATA Data, PCFLT_RELATED_OBJECTS FltObjects, PVOID CompletionContext,
                     FLT_POST_OPERATION_FLAGS Flags)
{
    PVOID user = NULL;

    UNREFERENCED_PARAMETER(Flags);
    if (NT_SUCCESS(Data->IoStatus.Status)) {
        if (NT_SUCCESS(FltLockUserBuffer(Data))) {
            user = MmGetSystemAddressForMdlSafe(Data->Iopb->Parameters.Read.MdlAddress, NormalPagePriority);
        }
        if (user != NULL) {
            RtlCopyMemory(user, CompletionContext, Data->IoStatus.Information);
        } else {
            Data->IoStatus.Status = STATUS_INSUFFICIENT_RESOURCES;
            Data->IoStatus.Information = 0;
        }
    }
    FltFreePoolAlignedWithTag(FltObjects->Instance, CompletionContext, SWAP_TAG);
    return FLT_POSTOP_FINISHED_PROCESSING;
}

FLT_POSTOP_CALLBACK_STATUS
SwapPostRead(PFLT_CALLBACK_DATA Data, PCFLT_RELATED_OBJECTS FltObjects, PVOID CompletionContext, FLT_POST_OPERATION_FLAGS Flags)
{
    FLT_POSTOP_CALLBACK_STATUS answer = FLT_POSTOP_FINISHED_PROCESSING;

    if (FlagOn(Flags, FLTFL_POST_OPERATION_DRAINING)) {
        FltFreePoolAlignedWithTag(FltObjects->Instance, CompletionContext, SWAP_TAG);
        return FLT_POSTOP_FINISHED_PROCESSING;
    }
    if (!FltDoCompletionProcessingWhenSafe(Data, FltObjects, CompletionContext, Flags, SwapPostReadWhenSafe, &answer)) {
        FltFreePoolAlignedWithTag(FltObjects->Instance, CompletionContext, SWAP_TAG);
        Data->IoStatus.Status = STATUS_INSUFFICIENT_RESOURCES;
        Data->IoStatus.Information = 0;
    }
    return answer;
}
