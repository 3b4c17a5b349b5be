/*++
    scanner.c - after the WDK's scanner: files with certain extensions are scanned by a user-mode program through a
    communication port, at open, at write and at cleanup.
--*/
#include "fltKernel.h"

#define SCANNER_TAG 'nacS'
#define SCANNER_READ_BUFFER_SIZE 1024

typedef struct _SCANNER_STREAM_HANDLE_CONTEXT { BOOLEAN RescanRequired; } SCANNER_STREAM_HANDLE_CONTEXT, *PSCANNER_STREAM_HANDLE_CONTEXT;
typedef struct _SCANNER_NOTIFICATION { ULONG BytesToScan, Reserved; UCHAR Contents[SCANNER_READ_BUFFER_SIZE]; } SCANNER_NOTIFICATION, *PSCANNER_NOTIFICATION;
typedef struct _SCANNER_REPLY { BOOLEAN SafeToOpen; } SCANNER_REPLY, *PSCANNER_REPLY;

struct { PDRIVER_OBJECT DriverObject; PFLT_FILTER Filter; PFLT_PORT ServerPort, ClientPort; PEPROCESS UserProcess; } ScannerData;
UNICODE_STRING ScannedExtensions[4]; ULONG ScannedExtensionCount;

static BOOLEAN
ScannerpCheckExtension(PUNICODE_STRING Extension)
{
    ULONG i;

    if (Extension->Length == 0) {
        return FALSE;
    }
    for (i = 0; i < ScannedExtensionCount; i++) {
        if (RtlEqualUnicodeString(Extension, &ScannedExtensions[i], TRUE)) {
            return TRUE;
        }
    }
    return FALSE;
}

/* Called by pre cleanup and post create. Its buffer comes from pool, and the volume object is referenced by the reads. */
static NTSTATUS
ScannerpScanFileInUserMode(PFLT_INSTANCE Instance, PFILE_OBJECT FileObject, PBOOLEAN SafeToOpen)
{
    NTSTATUS status = STATUS_SUCCESS;
    PVOID buffer = NULL;
    ULONG bytesRead, replyLength;
    PSCANNER_NOTIFICATION notification = NULL;
    LARGE_INTEGER offset;

    *SafeToOpen = TRUE;
    if (ScannerData.ClientPort == NULL) {
        return STATUS_SUCCESS;
    }
    __try {
        buffer = FltAllocatePoolAlignedWithTag(Instance, NonPagedPool, SCANNER_READ_BUFFER_SIZE, SCANNER_TAG);
        if (buffer == NULL) {
            status = STATUS_INSUFFICIENT_RESOURCES;
            leave;
        }
        notification = ExAllocatePoolWithTag(NonPagedPool, sizeof(SCANNER_NOTIFICATION), SCANNER_TAG);
        if (notification == NULL) {
            status = STATUS_INSUFFICIENT_RESOURCES;
            leave;
        }
        offset.QuadPart = bytesRead = 0;
        status = FltReadFile(Instance, FileObject, &offset, SCANNER_READ_BUFFER_SIZE, buffer, 0, &bytesRead, NULL, NULL);
        if (NT_SUCCESS(status) && bytesRead != 0) {
            notification->BytesToScan = bytesRead;
            RtlCopyMemory(&notification->Contents, buffer, min(bytesRead, SCANNER_READ_BUFFER_SIZE));
            replyLength = sizeof(SCANNER_REPLY);
            status = FltSendMessage(ScannerData.Filter, &ScannerData.ClientPort, notification, sizeof(SCANNER_NOTIFICATION), notification, &replyLength, NULL);
            if (status == STATUS_SUCCESS) {
                *SafeToOpen = ((PSCANNER_REPLY)notification)->SafeToOpen;
            }
        }
    } __finally {
        if (buffer != NULL) {
            FltFreePoolAlignedWithTag(Instance, buffer, SCANNER_TAG);
        }
        if (notification != NULL) {
            ExFreePoolWithTag(notification, SCANNER_TAG);
        }
    }
    return status;
}

NTSTATUS
ScannerPortConnect(PFLT_PORT ClientPort, PVOID ServerPortCookie, PVOID ConnectionContext, ULONG SizeOfContext, PVOID *ConnectionCookie)
{
    UNREFERENCED_PARAMETER(ServerPortCookie);
    UNREFERENCED_PARAMETER(ConnectionContext);
    UNREFERENCED_PARAMETER(SizeOfContext);
    UNREFERENCED_PARAMETER(ConnectionCookie);
    ScannerData.ClientPort = ClientPort;
    return STATUS_SUCCESS;
}

VOID ScannerPortDisconnect(PVOID ConnectionCookie) { UNREFERENCED_PARAMETER(ConnectionCookie); FltCloseClientPort(ScannerData.Filter, &ScannerData.ClientPort); ScannerData.UserProcess = NULL; }

FLT_PREOP_CALLBACK_STATUS
ScannerPreCreate(PFLT_CALLBACK_DATA Data, PCFLT_RELATED_OBJECTS FltObjects, PVOID *CompletionContext)
{
    UNREFERENCED_PARAMETER(FltObjects);
    UNREFERENCED_PARAMETER(CompletionContext);
    if (IoThreadToProcess(Data->Thread) == ScannerData.UserProcess) {
        return FLT_PREOP_SUCCESS_NO_CALLBACK;
    }
    return FLT_PREOP_SUCCESS_WITH_CALLBACK;
}

FLT_POSTOP_CALLBACK_STATUS
ScannerPostCreate(PFLT_CALLBACK_DATA Data, PCFLT_RELATED_OBJECTS FltObjects, PVOID CompletionContext, FLT_POST_OPERATION_FLAGS Flags)
{
    PSCANNER_STREAM_HANDLE_CONTEXT scannerContext;
    FLT_POSTOP_CALLBACK_STATUS returnStatus = FLT_POSTOP_FINISHED_PROCESSING;
    PFLT_FILE_NAME_INFORMATION nameInfo;
    NTSTATUS status;
    BOOLEAN safeToOpen, scanFile;

    UNREFERENCED_PARAMETER(CompletionContext);
    if (FlagOn(Flags, FLTFL_POST_OPERATION_DRAINING)) {
        return FLT_POSTOP_FINISHED_PROCESSING;
    }

    if (!NT_SUCCESS(Data->IoStatus.Status) || (STATUS_REPARSE == Data->IoStatus.Status)) {

        return FLT_POSTOP_FINISHED_PROCESSING;
    }

    status = FltGetFileNameInformation(Data, FLT_FILE_NAME_NORMALIZED | FLT_FILE_NAME_QUERY_DEFAULT, &nameInfo);
    if (!NT_SUCCESS(status)) {
        return FLT_POSTOP_FINISHED_PROCESSING;
    }
    FltParseFileNameInformation(nameInfo);
    scanFile = ScannerpCheckExtension(&nameInfo->Extension);
    FltReleaseFileNameInformation(nameInfo);
    if (!scanFile) {
        return FLT_POSTOP_FINISHED_PROCESSING;
    }

    (VOID)ScannerpScanFileInUserMode(FltObjects->Instance, FltObjects->FileObject, &safeToOpen);
    if (!safeToOpen) {
        FltCancelFileOpen(FltObjects->Instance, FltObjects->FileObject);
        Data->IoStatus.Status = STATUS_ACCESS_DENIED;
        Data->IoStatus.Information = 0;
        returnStatus = FLT_POSTOP_FINISHED_PROCESSING;
    } else if (FltObjects->FileObject->WriteAccess) {
        status = FltAllocateContext(ScannerData.Filter, FLT_STREAMHANDLE_CONTEXT, sizeof(SCANNER_STREAM_HANDLE_CONTEXT), PagedPool, (PFLT_CONTEXT *)&scannerContext);
        if (NT_SUCCESS(status)) {
            scannerContext->RescanRequired = TRUE;
            (VOID)FltSetStreamHandleContext(FltObjects->Instance, FltObjects->FileObject, FLT_SET_CONTEXT_REPLACE_IF_EXISTS, scannerContext, NULL);

            FltReleaseContext(scannerContext);
        }
    }
    return returnStatus;
}

FLT_PREOP_CALLBACK_STATUS
ScannerPreCleanup(PFLT_CALLBACK_DATA Data, PCFLT_RELATED_OBJECTS FltObjects, PVOID *CompletionContext)
{
    PSCANNER_STREAM_HANDLE_CONTEXT context;
    NTSTATUS status;
    BOOLEAN safe;

    UNREFERENCED_PARAMETER(Data);
    UNREFERENCED_PARAMETER(CompletionContext);
    status = FltGetStreamHandleContext(FltObjects->Instance, FltObjects->FileObject, (PFLT_CONTEXT *)&context);
    if (NT_SUCCESS(status)) {
        if (context->RescanRequired) {
            (VOID)ScannerpScanFileInUserMode(FltObjects->Instance, FltObjects->FileObject, &safe);
            if (!safe) {
                DbgPrint("!!! scanner.sys -- foul language detected in precleanup !!!\n");
            }
        }
        FltReleaseContext(context);
    }
    return FLT_PREOP_SUCCESS_NO_CALLBACK;
}

FLT_PREOP_CALLBACK_STATUS
ScannerPreWrite(PFLT_CALLBACK_DATA Data, PCFLT_RELATED_OBJECTS FltObjects, PVOID *CompletionContext)
{
    FLT_PREOP_CALLBACK_STATUS returnStatus = FLT_PREOP_SUCCESS_NO_CALLBACK;
    PSCANNER_STREAM_HANDLE_CONTEXT context = NULL;
    PSCANNER_NOTIFICATION notification = NULL;
    ULONG replyLength;
    BOOLEAN safe = TRUE;
    PUCHAR buffer;
    NTSTATUS status;

    UNREFERENCED_PARAMETER(CompletionContext);
    if (ScannerData.ClientPort == NULL) {
        return FLT_PREOP_SUCCESS_NO_CALLBACK;
    }
    status = FltGetStreamHandleContext(FltObjects->Instance, FltObjects->FileObject, (PFLT_CONTEXT *)&context);
    if (!NT_SUCCESS(status)) {
        return FLT_PREOP_SUCCESS_NO_CALLBACK;
    }
    __try {
        if (Data->Iopb->Parameters.Write.Length != 0) {
            if (Data->Iopb->Parameters.Write.MdlAddress != NULL) {
                buffer = MmGetSystemAddressForMdlSafe(Data->Iopb->Parameters.Write.MdlAddress, NormalPagePriority);
                if (buffer == NULL) {
                    Data->IoStatus.Status = STATUS_INSUFFICIENT_RESOURCES;
                    Data->IoStatus.Information = 0;
                    returnStatus = FLT_PREOP_COMPLETE;
                    leave;
                }
            } else {
                buffer = Data->Iopb->Parameters.Write.WriteBuffer;
            }
            notification = ExAllocatePoolWithTag(NonPagedPool, sizeof(SCANNER_NOTIFICATION), SCANNER_TAG);
            if (notification == NULL) {
                Data->IoStatus.Status = STATUS_INSUFFICIENT_RESOURCES;
                Data->IoStatus.Information = 0;
                returnStatus = FLT_PREOP_COMPLETE;
                leave;
            }
            notification->BytesToScan = min(Data->Iopb->Parameters.Write.Length, SCANNER_READ_BUFFER_SIZE);
            __try {
                RtlCopyMemory(&notification->Contents, buffer, notification->BytesToScan);
            } __except (EXCEPTION_EXECUTE_HANDLER) {
                Data->IoStatus.Status = STATUS_ACCESS_DENIED;
                Data->IoStatus.Information = 0;
                returnStatus = FLT_PREOP_COMPLETE;
                leave;
            }
            replyLength = sizeof(SCANNER_REPLY);
            status = FltSendMessage(ScannerData.Filter, &ScannerData.ClientPort, notification, sizeof(SCANNER_NOTIFICATION), notification, &replyLength, NULL);
            if (STATUS_SUCCESS == status) {
                safe = ((PSCANNER_REPLY)notification)->SafeToOpen;
            }
            if (!safe) {
                Data->IoStatus.Status = STATUS_ACCESS_DENIED;
                Data->IoStatus.Information = 0;
                returnStatus = FLT_PREOP_COMPLETE;
            }
        }
    } __finally {
        if (notification != NULL) {
            ExFreePoolWithTag(notification, SCANNER_TAG);
        }
        if (context != NULL) {
            FltReleaseContext(context);
        }
    }
    return returnStatus;
}

NTSTATUS ScannerUnload(FLT_FILTER_UNLOAD_FLAGS Flags) { UNREFERENCED_PARAMETER(Flags); FltCloseCommunicationPort(ScannerData.ServerPort); FltUnregisterFilter(ScannerData.Filter); return STATUS_SUCCESS; }

const FLT_CONTEXT_REGISTRATION ContextRegistration[] = { { FLT_STREAMHANDLE_CONTEXT, 0, NULL, sizeof(SCANNER_STREAM_HANDLE_CONTEXT), 'chBS' }, { FLT_CONTEXT_END } };
const FLT_OPERATION_REGISTRATION Callbacks[] = {
    { IRP_MJ_CREATE, 0, ScannerPreCreate, ScannerPostCreate },
    { IRP_MJ_CLEANUP, 0, ScannerPreCleanup, NULL },
    { IRP_MJ_WRITE, 0, ScannerPreWrite, NULL },
    { IRP_MJ_OPERATION_END }
};
const FLT_REGISTRATION FilterRegistration = { sizeof(FLT_REGISTRATION), FLT_REGISTRATION_VERSION, 0, ContextRegistration, Callbacks, ScannerUnload };

NTSTATUS
DriverEntry(PDRIVER_OBJECT DriverObject, PUNICODE_STRING RegistryPath)
{
    NTSTATUS status;

    UNREFERENCED_PARAMETER(RegistryPath);
    status = FltRegisterFilter(DriverObject, &FilterRegistration, &ScannerData.Filter);
    if (!NT_SUCCESS(status)) {
        return status;
    }
    status = FltCreateCommunicationPort(ScannerData.Filter, &ScannerData.ServerPort, NULL, NULL, ScannerPortConnect, ScannerPortDisconnect, NULL, 1);
    if (NT_SUCCESS(status)) {
        status = FltStartFiltering(ScannerData.Filter);
        if (NT_SUCCESS(status)) {
            return STATUS_SUCCESS;
        }
        FltCloseCommunicationPort(ScannerData.ServerPort);
    }
    FltUnregisterFilter(ScannerData.Filter);
    return status;
}
