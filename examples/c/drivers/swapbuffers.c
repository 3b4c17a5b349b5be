/*++
    swapbuffers.c - after the WDK's swapBuffers: reads, writes and directory queries get a buffer of the filter's; it is
    copied in the post callback, at once or when it is safe.
--*/
#include "fltKernel.h"

#define BUFFER_SWAP_TAG 'bdBS'
#define CONTEXT_TAG 'xcBS'

typedef struct _VOLUME_CONTEXT { UNICODE_STRING Name; ULONG SectorSize; } VOLUME_CONTEXT, *PVOLUME_CONTEXT;
typedef struct _PRE_2_POST_CONTEXT { PVOLUME_CONTEXT VolCtx; PVOID SwappedBuffer; } PRE_2_POST_CONTEXT, *PPRE_2_POST_CONTEXT;

PFLT_FILTER gFilterHandle;
NPAGED_LOOKASIDE_LIST Pre2PostContextList;

NTSTATUS
InstanceSetup(PCFLT_RELATED_OBJECTS FltObjects, FLT_INSTANCE_SETUP_FLAGS Flags, DEVICE_TYPE VolumeDeviceType, FLT_FILESYSTEM_TYPE FsType)
{
    PVOLUME_CONTEXT ctx = NULL;
    NTSTATUS status;
    UCHAR volPropBuffer[512];

    UNREFERENCED_PARAMETER(Flags); UNREFERENCED_PARAMETER(VolumeDeviceType); UNREFERENCED_PARAMETER(FsType);
    status = FltAllocateContext(FltObjects->Filter, FLT_VOLUME_CONTEXT, sizeof(VOLUME_CONTEXT), NonPagedPool, (PFLT_CONTEXT *)&ctx);
    if (!NT_SUCCESS(status)) {
        goto done;
    }
    status = FltGetVolumeProperties(FltObjects->Volume, volPropBuffer, sizeof(volPropBuffer), NULL);
    if (!NT_SUCCESS(status)) {
        goto done;
    }
    ctx->SectorSize = 0x200;
    ctx->Name.Buffer = NULL;
    status = FltSetVolumeContext(FltObjects->Volume, FLT_SET_CONTEXT_KEEP_IF_EXISTS, ctx, NULL);
    if (status == STATUS_FLT_CONTEXT_ALREADY_DEFINED) {
        status = STATUS_SUCCESS;
    }
done:
    if (ctx != NULL) {
        FltReleaseContext(ctx);
    }
    return status;
}

FLT_PREOP_CALLBACK_STATUS
SwapPreReadBuffers(PFLT_CALLBACK_DATA Data, PCFLT_RELATED_OBJECTS FltObjects, PVOID *CompletionContext)
{
    PFLT_IO_PARAMETER_BLOCK iopb = Data->Iopb;
    FLT_PREOP_CALLBACK_STATUS retValue = FLT_PREOP_SUCCESS_NO_CALLBACK;
    PVOID newBuf = NULL;
    PMDL newMdl = NULL;
    PVOLUME_CONTEXT volCtx = NULL;
    PPRE_2_POST_CONTEXT p2pCtx;
    ULONG readLen = iopb->Parameters.Read.Length;
    NTSTATUS status;

    try_start:
    if (readLen == 0) {
        goto ReadCleanup;
    }
    status = FltGetVolumeContext(FltObjects->Filter, FltObjects->Volume, (PFLT_CONTEXT *)&volCtx);
    if (!NT_SUCCESS(status)) {
        goto ReadCleanup;
    }
    if (FlagOn(IRP_NOCACHE, iopb->IrpFlags)) {
        readLen = (readLen + volCtx->SectorSize - 1) / volCtx->SectorSize * volCtx->SectorSize;
    }
    newBuf = FltAllocatePoolAlignedWithTag(FltObjects->Instance, NonPagedPool, readLen, BUFFER_SWAP_TAG);
    if (newBuf == NULL) {
        goto ReadCleanup;
    }
    if (FlagOn(Data->Flags, 1)) {
        newMdl = IoAllocateMdl(newBuf, readLen, FALSE, FALSE, NULL);
        if (newMdl == NULL) {
            goto ReadCleanup;
        }
        MmBuildMdlForNonPagedPool(newMdl);
    }
    p2pCtx = ExAllocateFromNPagedLookasideList(&Pre2PostContextList);
    if (p2pCtx == NULL) {
        goto ReadCleanup;
    }
    iopb->Parameters.Read.ReadBuffer = newBuf;
    iopb->Parameters.Read.MdlAddress = newMdl;
    FltSetCallbackDataDirty(Data);
    p2pCtx->SwappedBuffer = newBuf;
    p2pCtx->VolCtx = volCtx;
    *CompletionContext = p2pCtx;
    retValue = FLT_PREOP_SUCCESS_WITH_CALLBACK;

ReadCleanup:
    if (retValue != FLT_PREOP_SUCCESS_WITH_CALLBACK) {
        if (newBuf != NULL) {
            FltFreePoolAlignedWithTag(FltObjects->Instance, newBuf, BUFFER_SWAP_TAG);
        }
        if (newMdl != NULL) {
            IoFreeMdl(newMdl);
        }
        if (volCtx != NULL) {
            FltReleaseContext(volCtx);
        }
    }
    return retValue;
}

FLT_POSTOP_CALLBACK_STATUS
SwapPostReadBuffersWhenSafe(PFLT_CALLBACK_DATA Data, PCFLT_RELATED_OBJECTS FltObjects, PVOID CompletionContext, FLT_POST_OPERATION_FLAGS Flags)
{
    PPRE_2_POST_CONTEXT p2pCtx = CompletionContext;
    PVOID origBuf;
    NTSTATUS status;

    UNREFERENCED_PARAMETER(Flags);
    FLT_ASSERT(Data->IoStatus.Information != 0);
    status = FltLockUserBuffer(Data);
    if (!NT_SUCCESS(status)) {
        Data->IoStatus.Status = status;
        Data->IoStatus.Information = 0;
    } else {
        origBuf = MmGetSystemAddressForMdlSafe(Data->Iopb->Parameters.Read.MdlAddress, NormalPagePriority);
        if (origBuf == NULL) {
            Data->IoStatus.Status = STATUS_INSUFFICIENT_RESOURCES;
            Data->IoStatus.Information = 0;
        } else {
            RtlCopyMemory(origBuf, p2pCtx->SwappedBuffer, Data->IoStatus.Information);
        }
    }
    FltFreePoolAlignedWithTag(FltObjects->Instance, p2pCtx->SwappedBuffer, BUFFER_SWAP_TAG);
    FltReleaseContext(p2pCtx->VolCtx);
    ExFreeToNPagedLookasideList(&Pre2PostContextList, p2pCtx);
    return FLT_POSTOP_FINISHED_PROCESSING;
}

FLT_POSTOP_CALLBACK_STATUS
SwapPostReadBuffers(PFLT_CALLBACK_DATA Data, PCFLT_RELATED_OBJECTS FltObjects, PVOID CompletionContext, FLT_POST_OPERATION_FLAGS Flags)
{
    PVOID origBuf;
    PFLT_IO_PARAMETER_BLOCK iopb = Data->Iopb;
    FLT_POSTOP_CALLBACK_STATUS retValue = FLT_POSTOP_FINISHED_PROCESSING;
    PPRE_2_POST_CONTEXT p2pCtx = CompletionContext;
    BOOLEAN cleanupAllocatedBuffer = TRUE;

    FLT_ASSERT(!FlagOn(Flags, FLTFL_POST_OPERATION_DRAINING));
    if (!NT_SUCCESS(Data->IoStatus.Status) || Data->IoStatus.Information == 0) {
        goto PostReadCleanup;
    }
    if (iopb->Parameters.Read.MdlAddress != NULL) {
        origBuf = MmGetSystemAddressForMdlSafe(iopb->Parameters.Read.MdlAddress, NormalPagePriority);
        if (origBuf == NULL) {
            Data->IoStatus.Status = STATUS_INSUFFICIENT_RESOURCES;
            Data->IoStatus.Information = 0;
            goto PostReadCleanup;
        }
    } else if (FlagOn(Data->Flags, 2)) {
        origBuf = iopb->Parameters.Read.ReadBuffer;
    } else {
        if (FltDoCompletionProcessingWhenSafe(Data, FltObjects, CompletionContext, Flags, SwapPostReadBuffersWhenSafe, &retValue)) {

            cleanupAllocatedBuffer = FALSE;
        } else {
            Data->IoStatus.Status = STATUS_UNSUCCESSFUL;
            Data->IoStatus.Information = 0;
        }
        goto PostReadCleanup;
    }
    __try {
        RtlCopyMemory(origBuf, p2pCtx->SwappedBuffer, Data->IoStatus.Information);
    } __except (EXCEPTION_EXECUTE_HANDLER) {
        Data->IoStatus.Status = STATUS_ACCESS_DENIED;
        Data->IoStatus.Information = 0;
    }

PostReadCleanup:
    if (cleanupAllocatedBuffer) {
        FltFreePoolAlignedWithTag(FltObjects->Instance, p2pCtx->SwappedBuffer, BUFFER_SWAP_TAG);
        FltReleaseContext(p2pCtx->VolCtx);
        ExFreeToNPagedLookasideList(&Pre2PostContextList, p2pCtx);
    }
    return retValue;
}

FLT_PREOP_CALLBACK_STATUS
SwapPreWriteBuffers(PFLT_CALLBACK_DATA Data, PCFLT_RELATED_OBJECTS FltObjects, PVOID *CompletionContext)
{
    PFLT_IO_PARAMETER_BLOCK iopb = Data->Iopb;
    FLT_PREOP_CALLBACK_STATUS retValue = FLT_PREOP_SUCCESS_NO_CALLBACK;
    PVOID newBuf = NULL, origBuf;
    PVOLUME_CONTEXT volCtx = NULL;
    PPRE_2_POST_CONTEXT p2pCtx;
    NTSTATUS status;

    if (iopb->Parameters.Write.Length == 0) {
        return FLT_PREOP_SUCCESS_NO_CALLBACK;
    }
    status = FltGetVolumeContext(FltObjects->Filter, FltObjects->Volume, (PFLT_CONTEXT *)&volCtx);
    if (!NT_SUCCESS(status)) {
        return FLT_PREOP_SUCCESS_NO_CALLBACK;
    }
    newBuf = FltAllocatePoolAlignedWithTag(FltObjects->Instance, NonPagedPool, iopb->Parameters.Write.Length, BUFFER_SWAP_TAG);
    if (newBuf == NULL) {
        FltReleaseContext(volCtx);
        return FLT_PREOP_SUCCESS_NO_CALLBACK;
    }
    __try {
        origBuf = iopb->Parameters.Write.WriteBuffer;
        RtlCopyMemory(newBuf, origBuf, iopb->Parameters.Write.Length);
    } __except (EXCEPTION_EXECUTE_HANDLER) {
        Data->IoStatus.Status = STATUS_ACCESS_DENIED;
        Data->IoStatus.Information = 0;
        FltFreePoolAlignedWithTag(FltObjects->Instance, newBuf, BUFFER_SWAP_TAG);
        FltReleaseContext(volCtx);
        return FLT_PREOP_COMPLETE;
    }
    p2pCtx = ExAllocateFromNPagedLookasideList(&Pre2PostContextList);
    if (p2pCtx == NULL) {
        FltFreePoolAlignedWithTag(FltObjects->Instance, newBuf, BUFFER_SWAP_TAG);
        FltReleaseContext(volCtx);
        return FLT_PREOP_SUCCESS_NO_CALLBACK;
    }
    iopb->Parameters.Write.WriteBuffer = newBuf;
    iopb->Parameters.Write.MdlAddress = NULL;
    FltSetCallbackDataDirty(Data);
    p2pCtx->SwappedBuffer = newBuf;
    p2pCtx->VolCtx = volCtx;
    *CompletionContext = p2pCtx;
    retValue = FLT_PREOP_SUCCESS_WITH_CALLBACK;
    return retValue;
}

FLT_POSTOP_CALLBACK_STATUS
SwapPostWriteBuffers(PFLT_CALLBACK_DATA Data, PCFLT_RELATED_OBJECTS FltObjects, PVOID CompletionContext, FLT_POST_OPERATION_FLAGS Flags)
{
    PPRE_2_POST_CONTEXT p2pCtx = CompletionContext;

    UNREFERENCED_PARAMETER(Data);
    UNREFERENCED_PARAMETER(Flags);
    FltFreePoolAlignedWithTag(FltObjects->Instance, p2pCtx->SwappedBuffer, BUFFER_SWAP_TAG);
    FltReleaseContext(p2pCtx->VolCtx);
    ExFreeToNPagedLookasideList(&Pre2PostContextList, p2pCtx);
    return FLT_POSTOP_FINISHED_PROCESSING;
}

VOID CleanupVolumeContext(PFLT_CONTEXT Context, FLT_CONTEXT_TYPE ContextType) { PVOLUME_CONTEXT ctx = Context; UNREFERENCED_PARAMETER(ContextType); if (ctx->Name.Buffer != NULL) { ExFreePool(ctx->Name.Buffer); ctx->Name.Buffer = NULL; } }
NTSTATUS FilterUnload(FLT_FILTER_UNLOAD_FLAGS Flags) { UNREFERENCED_PARAMETER(Flags); FltUnregisterFilter(gFilterHandle); ExDeleteNPagedLookasideList(&Pre2PostContextList); return STATUS_SUCCESS; }
const FLT_CONTEXT_REGISTRATION ContextNotifications[] = { { FLT_VOLUME_CONTEXT, 0, CleanupVolumeContext, sizeof(VOLUME_CONTEXT), CONTEXT_TAG }, { FLT_CONTEXT_END } };
const FLT_OPERATION_REGISTRATION Callbacks[] = {
    { IRP_MJ_READ, 0, SwapPreReadBuffers, SwapPostReadBuffers },
    { IRP_MJ_WRITE, 0, SwapPreWriteBuffers, SwapPostWriteBuffers },
    { IRP_MJ_OPERATION_END }
};
const FLT_REGISTRATION FilterRegistration = { sizeof(FLT_REGISTRATION), FLT_REGISTRATION_VERSION, 0, ContextNotifications, Callbacks, FilterUnload, InstanceSetup };
NTSTATUS
DriverEntry(PDRIVER_OBJECT DriverObject, PUNICODE_STRING RegistryPath)
{
    NTSTATUS status;

    UNREFERENCED_PARAMETER(RegistryPath);
    ExInitializeNPagedLookasideList(&Pre2PostContextList, NULL, NULL, 0, sizeof(PRE_2_POST_CONTEXT), 'ppBS', 0);
    status = FltRegisterFilter(DriverObject, &FilterRegistration, &gFilterHandle);
    if (NT_SUCCESS(status)) {
        status = FltStartFiltering(gFilterHandle);
        if (!NT_SUCCESS(status)) {
            FltUnregisterFilter(gFilterHandle);
        }
    }
    if (!NT_SUCCESS(status)) {
        ExDeleteNPagedLookasideList(&Pre2PostContextList);
    }
    return status;
}
