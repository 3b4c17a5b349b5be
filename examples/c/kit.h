/*
 * The names of the driver kit that the drivers in this folder use, so that a compiler can read them where there is no driver kit. Types,
 * layouts and numbers are not those of Windows, and nothing here can be linked or loaded. A driver includes <fltKernel.h> instead.
 */
#ifndef KIT_H
#define KIT_H

#include <stddef.h>

#define UNREFERENCED_PARAMETER(P) ((void)(P))
#define FlagOn(F, FLAG) (((F) & (FLAG)) != 0)

typedef int NTSTATUS, LONG;
typedef unsigned char BOOLEAN, KIRQL;
#define TRUE 1
#define FALSE 0
typedef unsigned short USHORT;
typedef unsigned int ULONG;
typedef void *PVOID;

/* Lists, as the kit's own macros and functions keep them. */
typedef struct _LIST_ENTRY { struct _LIST_ENTRY *Flink, *Blink; } LIST_ENTRY;
void InitializeListHead(LIST_ENTRY *Head);
void InsertTailList(LIST_ENTRY *Head, LIST_ENTRY *Entry);
BOOLEAN RemoveEntryList(LIST_ENTRY *Entry);
#define CONTAINING_RECORD(ADDRESS, TYPE, FIELD) ((TYPE *)((char *)(ADDRESS) - offsetof(TYPE, FIELD)))

#define NT_SUCCESS(S) ((S) >= 0)
#define STATUS_SUCCESS 0
#define STATUS_REPARSE 1
#define STATUS_CANCELLED (-1)
#define STATUS_INSUFFICIENT_RESOURCES (-2)
#define STATUS_ACCESS_DENIED (-3)
#define STATUS_FILE_DELETED (-4)

typedef struct { USHORT Length; USHORT *Buffer; } UNICODE_STRING, *PUNICODE_STRING;
typedef struct _DRIVER_OBJECT *PDRIVER_OBJECT;
typedef struct { BOOLEAN WriteAccess; } FILE_OBJECT, *PFILE_OBJECT;
typedef struct _FLT_FILTER *PFLT_FILTER;
typedef struct _MDL *PMDL;
typedef struct _FLT_VOLUME *PFLT_VOLUME;
typedef struct _FLT_INSTANCE *PFLT_INSTANCE;
typedef struct _FLT_GENERIC_WORKITEM *PFLT_GENERIC_WORKITEM;
typedef PVOID PFLT_CONTEXT;

/* Locks. */
typedef struct { PVOID Word; } KSPIN_LOCK, EX_PUSH_LOCK;
void KeInitializeSpinLock(KSPIN_LOCK *Lock);
void KeAcquireSpinLock(KSPIN_LOCK *Lock, KIRQL *OldIrql);
void KeReleaseSpinLock(KSPIN_LOCK *Lock, KIRQL NewIrql);
void FltInitializePushLock(EX_PUSH_LOCK *Lock);
void FltAcquirePushLockExclusive(EX_PUSH_LOCK *Lock);
void FltReleasePushLock(EX_PUSH_LOCK *Lock);
void FltDeletePushLock(EX_PUSH_LOCK *Lock);
LONG InterlockedIncrement(volatile LONG *Number);
LONG InterlockedDecrement(volatile LONG *Number);

/* Operations and what callbacks are given. */
typedef struct { NTSTATUS Status; ULONG Information; } IO_STATUS_BLOCK;
typedef enum { FileStandardInformation, FileDispositionInformation } FILE_INFORMATION_CLASS;
typedef struct { ULONG Size; } FILE_STANDARD_INFORMATION;
typedef struct {
    ULONG IrpFlags;
    union {
        struct { ULONG Options; } Create;
        struct { ULONG Length; PVOID ReadBuffer; PMDL MdlAddress; } Read;
        struct { FILE_INFORMATION_CLASS FileInformationClass; } SetFileInformation;
    } Parameters;
} FLT_IO_PARAMETER_BLOCK;
#define FILE_DELETE_ON_CLOSE 0x1000
#define IO_REPARSE 0
#define IRP_PAGING_IO 0x2
#define IRP_SYNCHRONOUS_PAGING_IO 0x40
typedef struct {
    ULONG Flags;
    FLT_IO_PARAMETER_BLOCK *Iopb;
    IO_STATUS_BLOCK IoStatus;
    LIST_ENTRY QueueLinks;
} FLT_CALLBACK_DATA, *PFLT_CALLBACK_DATA;
typedef struct { PFLT_FILTER Filter; PFLT_VOLUME Volume; PFLT_INSTANCE Instance; PFILE_OBJECT FileObject; } FLT_RELATED_OBJECTS;
typedef const FLT_RELATED_OBJECTS *PCFLT_RELATED_OBJECTS;
#define FLT_IS_IRP_OPERATION(D) (FlagOn((D)->Flags, 1))

typedef enum {
    FLT_PREOP_SUCCESS_WITH_CALLBACK,
    FLT_PREOP_SUCCESS_NO_CALLBACK,
    FLT_PREOP_PENDING,
    FLT_PREOP_DISALLOW_FASTIO,
    FLT_PREOP_COMPLETE,
    FLT_PREOP_SYNCHRONIZE
} FLT_PREOP_CALLBACK_STATUS;
typedef enum { FLT_POSTOP_FINISHED_PROCESSING, FLT_POSTOP_MORE_PROCESSING_REQUIRED } FLT_POSTOP_CALLBACK_STATUS;
typedef ULONG FLT_POST_OPERATION_FLAGS;
#define FLTFL_POST_OPERATION_DRAINING 1
void FltCompletePendedPreOperation(PFLT_CALLBACK_DATA Data, FLT_PREOP_CALLBACK_STATUS Status, PVOID Context);
BOOLEAN FltDoCompletionProcessingWhenSafe(PFLT_CALLBACK_DATA Data, PCFLT_RELATED_OBJECTS FltObjects, PVOID CompletionContext,
                                          FLT_POST_OPERATION_FLAGS Flags,
                                          FLT_POSTOP_CALLBACK_STATUS (*WhenSafe)(PFLT_CALLBACK_DATA Data, PCFLT_RELATED_OBJECTS FltObjects,
                                                                                 PVOID CompletionContext, FLT_POST_OPERATION_FLAGS Flags),
                                          FLT_POSTOP_CALLBACK_STATUS *Answer);
void FltSetCallbackDataDirty(PFLT_CALLBACK_DATA Data);
NTSTATUS FltLockUserBuffer(PFLT_CALLBACK_DATA Data);
void FltCancelFileOpen(PFLT_INSTANCE Instance, PFILE_OBJECT File);
NTSTATUS FltQueryInformationFile(PFLT_INSTANCE Instance, PFILE_OBJECT File, PVOID Information, ULONG Length, FILE_INFORMATION_CLASS Class,
                                 ULONG *Returned);
void RtlCopyMemory(PVOID To, const void *From, size_t Length);
PVOID FltAllocatePoolAlignedWithTag(PFLT_INSTANCE Instance, int Pool, size_t Length, ULONG Tag);
void FltFreePoolAlignedWithTag(PFLT_INSTANCE Instance, PVOID Buffer, ULONG Tag);
PMDL IoAllocateMdl(PVOID Buffer, ULONG Length, BOOLEAN Secondary, BOOLEAN ChargeQuota, PVOID Irp);
void MmBuildMdlForNonPagedPool(PMDL Mdl);
PVOID MmGetSystemAddressForMdlSafe(PMDL Mdl, ULONG Priority);
#define NormalPagePriority 16

/* Names, which are references too. */
typedef struct { UNICODE_STRING Name; } FLT_FILE_NAME_INFORMATION, *PFLT_FILE_NAME_INFORMATION;
#define FLT_FILE_NAME_OPENED 1
#define FLT_FILE_NAME_QUERY_DEFAULT 0x100
NTSTATUS FltGetFileNameInformation(PFLT_CALLBACK_DATA Data, ULONG Options, PFLT_FILE_NAME_INFORMATION *Name);
void FltReleaseFileNameInformation(PFLT_FILE_NAME_INFORMATION Name);
NTSTATUS IoReplaceFileObjectName(PFILE_OBJECT File, const USHORT *Name, USHORT Length);

/* Contexts. */
typedef USHORT FLT_CONTEXT_TYPE;
typedef USHORT FLT_CONTEXT_REGISTRATION_FLAGS;
typedef enum { NonPagedPool } POOL_TYPE;
typedef enum { FLT_SET_CONTEXT_REPLACE_IF_EXISTS, FLT_SET_CONTEXT_KEEP_IF_EXISTS } FLT_SET_CONTEXT_OPERATION;
#define FLT_VOLUME_CONTEXT 1
#define FLT_INSTANCE_CONTEXT 2
#define FLT_STREAM_CONTEXT 8
#define FLT_STREAMHANDLE_CONTEXT 16
#define FLT_CONTEXT_END 0xffff
typedef void (*PFLT_CONTEXT_CLEANUP_CALLBACK)(PFLT_CONTEXT Context, FLT_CONTEXT_TYPE Type);
typedef struct {
    FLT_CONTEXT_TYPE ContextType;
    FLT_CONTEXT_REGISTRATION_FLAGS Flags;
    PFLT_CONTEXT_CLEANUP_CALLBACK ContextCleanupCallback;
    size_t Size;
    ULONG PoolTag;
} FLT_CONTEXT_REGISTRATION;
NTSTATUS FltAllocateContext(PFLT_FILTER Filter, FLT_CONTEXT_TYPE Type, size_t Size, POOL_TYPE Pool, PFLT_CONTEXT *Context);
NTSTATUS FltGetStreamContext(PFLT_INSTANCE Instance, PFILE_OBJECT File, PFLT_CONTEXT *Context);
NTSTATUS FltSetStreamContext(PFLT_INSTANCE Instance, PFILE_OBJECT File, FLT_SET_CONTEXT_OPERATION How, PFLT_CONTEXT New, PFLT_CONTEXT *Old);
NTSTATUS FltGetStreamHandleContext(PFLT_INSTANCE Instance, PFILE_OBJECT File, PFLT_CONTEXT *Context);
NTSTATUS FltSetStreamHandleContext(PFLT_INSTANCE Instance, PFILE_OBJECT File, FLT_SET_CONTEXT_OPERATION How, PFLT_CONTEXT New,
                                   PFLT_CONTEXT *Old);
NTSTATUS FltGetVolumeContext(PFLT_FILTER Filter, PFLT_VOLUME Volume, PFLT_CONTEXT *Context);
NTSTATUS FltGetInstanceContext(PFLT_INSTANCE Instance, PFLT_CONTEXT *Context);
NTSTATUS FltSetInstanceContext(PFLT_INSTANCE Instance, FLT_SET_CONTEXT_OPERATION How, PFLT_CONTEXT New, PFLT_CONTEXT *Old);
void FltReferenceContext(PFLT_CONTEXT Context);
void FltReleaseContext(PFLT_CONTEXT Context);

/* Cancel-safe queues of callback data: a driver gives each the callbacks that keep its list. */
typedef struct _FLT_CALLBACK_DATA_QUEUE { PVOID Words[8]; } FLT_CALLBACK_DATA_QUEUE, *PFLT_CALLBACK_DATA_QUEUE;
NTSTATUS FltCbdqInitialize(PFLT_INSTANCE Instance, PFLT_CALLBACK_DATA_QUEUE Queue,
                           NTSTATUS (*InsertIo)(PFLT_CALLBACK_DATA_QUEUE Queue, PFLT_CALLBACK_DATA Data, PVOID Context),
                           void (*RemoveIo)(PFLT_CALLBACK_DATA_QUEUE Queue, PFLT_CALLBACK_DATA Data),
                           PFLT_CALLBACK_DATA (*PeekNextIo)(PFLT_CALLBACK_DATA_QUEUE Queue, PFLT_CALLBACK_DATA Data, PVOID Context),
                           void (*Acquire)(PFLT_CALLBACK_DATA_QUEUE Queue, KIRQL *Irql),
                           void (*Release)(PFLT_CALLBACK_DATA_QUEUE Queue, KIRQL Irql),
                           void (*CompleteCanceledIo)(PFLT_CALLBACK_DATA_QUEUE Queue, PFLT_CALLBACK_DATA Data));
NTSTATUS FltCbdqInsertIo(PFLT_CALLBACK_DATA_QUEUE Queue, PFLT_CALLBACK_DATA Data, PVOID IoContext, PVOID InsertContext);
PFLT_CALLBACK_DATA FltCbdqRemoveNextIo(PFLT_CALLBACK_DATA_QUEUE Queue, PVOID PeekContext);
void FltCbdqDisable(PFLT_CALLBACK_DATA_QUEUE Queue);

/* Work items. */
typedef enum { DelayedWorkQueue } WORK_QUEUE_TYPE;
typedef void (*PFLT_GENERIC_WORKITEM_ROUTINE)(PFLT_GENERIC_WORKITEM Item, PVOID Object, PVOID Context);
PFLT_GENERIC_WORKITEM FltAllocateGenericWorkItem(void);
void FltFreeGenericWorkItem(PFLT_GENERIC_WORKITEM Item);
NTSTATUS FltQueueGenericWorkItem(PFLT_GENERIC_WORKITEM Item, PVOID Object, PFLT_GENERIC_WORKITEM_ROUTINE Routine, WORK_QUEUE_TYPE Queue,
                                 PVOID Context);

/* What a driver registers. */
#define IRP_MJ_CREATE 0x00
#define IRP_MJ_READ 0x03
#define IRP_MJ_CLEANUP 0x12
#define IRP_MJ_OPERATION_END 0x80
typedef ULONG FLT_OPERATION_REGISTRATION_FLAGS, FLT_INSTANCE_SETUP_FLAGS, FLT_INSTANCE_TEARDOWN_FLAGS, FLT_FILTER_UNLOAD_FLAGS;
typedef ULONG DEVICE_TYPE;
typedef enum { FLT_FSTYPE_UNKNOWN } FLT_FILESYSTEM_TYPE;
typedef struct {
    unsigned char MajorFunction;
    FLT_OPERATION_REGISTRATION_FLAGS Flags;
    FLT_PREOP_CALLBACK_STATUS (*PreOperation)(PFLT_CALLBACK_DATA Data, PCFLT_RELATED_OBJECTS FltObjects, PVOID *CompletionContext);
    FLT_POSTOP_CALLBACK_STATUS (*PostOperation)(PFLT_CALLBACK_DATA Data, PCFLT_RELATED_OBJECTS FltObjects, PVOID CompletionContext,
                                                FLT_POST_OPERATION_FLAGS Flags);
} FLT_OPERATION_REGISTRATION;
#define FLT_REGISTRATION_VERSION 0x0203
typedef struct {
    USHORT Size;
    USHORT Version;
    ULONG Flags;
    const FLT_CONTEXT_REGISTRATION *ContextRegistration;
    const FLT_OPERATION_REGISTRATION *OperationRegistration;
    NTSTATUS (*FilterUnloadCallback)(FLT_FILTER_UNLOAD_FLAGS Flags);
    NTSTATUS (*InstanceSetupCallback)(PCFLT_RELATED_OBJECTS FltObjects, FLT_INSTANCE_SETUP_FLAGS Flags, DEVICE_TYPE Device,
                                      FLT_FILESYSTEM_TYPE FileSystem);
    NTSTATUS (*InstanceQueryTeardownCallback)(PCFLT_RELATED_OBJECTS FltObjects, ULONG Flags);
    void (*InstanceTeardownStartCallback)(PCFLT_RELATED_OBJECTS FltObjects, FLT_INSTANCE_TEARDOWN_FLAGS Reason);
} FLT_REGISTRATION;
NTSTATUS FltRegisterFilter(PDRIVER_OBJECT Driver, const FLT_REGISTRATION *Registration, PFLT_FILTER *Filter);
NTSTATUS FltStartFiltering(PFLT_FILTER Filter);
void FltUnregisterFilter(PFLT_FILTER Filter);

#endif
