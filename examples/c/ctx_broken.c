/*
 * The driver of ctx.c with a bug: PreCleanup doesn't release the context that it gets, neither in C nor in the text.
 */

#include "kit.h"

/*@flt
filter ctx altitude 370070
lock push resource = &stream->Resource */

/* The stream's context. Each has a lock of its own; the text's lock `resource` is any of them. */
typedef struct _STREAM_CONTEXT {
    EX_PUSH_LOCK Resource;
    ULONG Opens;
} STREAM_CONTEXT, *PSTREAM_CONTEXT;

typedef struct _INSTANCE_CONTEXT {
    PFLT_INSTANCE Instance;
} INSTANCE_CONTEXT, *PINSTANCE_CONTEXT;

/* `Ctx` in a listing of pool. */
#define CTX_TAG 0x20787443

static PFLT_FILTER Filter;

/*
 * A text has no InstanceSetup. Its statements begin the callback of a create in the text: each create looks for the context, and the first
 * one sets it.
 */
static NTSTATUS
InstanceSetup(PCFLT_RELATED_OBJECTS FltObjects, FLT_INSTANCE_SETUP_FLAGS Flags,
              DEVICE_TYPE Device, FLT_FILESYSTEM_TYPE FileSystem)
{                                                                      //@flt pre create {
    PFLT_CONTEXT context = NULL;
    NTSTATUS status;

    UNREFERENCED_PARAMETER(Flags);
    UNREFERENCED_PARAMETER(Device);
    UNREFERENCED_PARAMETER(FileSystem);
                                                         /*@flt-only*/ //@flt   if FltGetInstanceContext c0 { } else {
    status = FltAllocateContext(Filter, FLT_INSTANCE_CONTEXT, sizeof(INSTANCE_CONTEXT),
                                NonPagedPool, &context);               //@flt     if FltAllocateContext c0 {
    if (NT_SUCCESS(status)) {
        ((PINSTANCE_CONTEXT)context)->Instance = FltObjects->Instance;
        status = FltSetInstanceContext(FltObjects->Instance, FLT_SET_CONTEXT_KEEP_IF_EXISTS,
                                       context, NULL);                 //@flt       if FltSetInstanceContext KEEP_IF_EXISTS c0 { }
    }                                                                  //@flt     }
                                                                       //@flt   }
    if (context != NULL) {                                             //@flt   if c0 != NULL {
        FltReleaseContext(context);                                    //@flt     FltReleaseContext c0
    }                                                                  //@flt   }
    return status;
}

static FLT_PREOP_CALLBACK_STATUS
PreCreate(PFLT_CALLBACK_DATA Data, PCFLT_RELATED_OBJECTS FltObjects, PVOID *CompletionContext)
{
    UNREFERENCED_PARAMETER(Data);
    UNREFERENCED_PARAMETER(FltObjects);
    *CompletionContext = NULL;
    return FLT_PREOP_SUCCESS_WITH_CALLBACK;                            //@flt   return WITH_CALLBACK
}                                                                      //@flt }

static FLT_POSTOP_CALLBACK_STATUS
PostCreate(PFLT_CALLBACK_DATA Data, PCFLT_RELATED_OBJECTS FltObjects, PVOID CompletionContext,
           FLT_POST_OPERATION_FLAGS Flags)
{                                                                      //@flt post create {
    PFLT_CONTEXT context = NULL, linked = NULL;
    PSTREAM_CONTEXT stream;
    NTSTATUS status;

    /* PreCreate hands no context over. The rules don't look at that, so the text releases what there might be. */
    UNREFERENCED_PARAMETER(CompletionContext);           /*@flt-only*/ //@flt   if arg != NULL { FltReleaseContext arg }

    if (FlagOn(Flags, FLTFL_POST_OPERATION_DRAINING)) {                //@flt   if draining {
        goto Cleanup;                                                  //@flt     return FINISHED_PROCESSING
    }                                                                  //@flt   }

    /* A text can't ask how the create went: the file gives a number in place of the answer. */
    if (!NT_SUCCESS(Data->IoStatus.Status)
        || Data->IoStatus.Status == STATUS_REPARSE) {                  //@flt   n0 = file data if n0 == 1 {
        goto Cleanup;                                                  //@flt     return FINISHED_PROCESSING
    }                                                                  //@flt   }

    status = FltGetStreamContext(FltObjects->Instance, FltObjects->FileObject, &context);
                                                                       //@flt   if FltGetStreamContext c0 {
    if (!NT_SUCCESS(status)) {                                         //@flt   } else {
        status = FltAllocateContext(Filter, FLT_STREAM_CONTEXT, sizeof(STREAM_CONTEXT),
                                    NonPagedPool, &context);           //@flt     if FltAllocateContext c0 {
        if (!NT_SUCCESS(status)) {
            goto Cleanup; /* c0 is NULL then, and the text goes on to its end */
        }
        stream = context;
        FltInitializePushLock(&stream->Resource);
        stream->Opens = 0;
        status = FltSetStreamContext(FltObjects->Instance, FltObjects->FileObject,
                                     FLT_SET_CONTEXT_KEEP_IF_EXISTS, context, &linked);
                                                                       //@flt       if FltSetStreamContext KEEP_IF_EXISTS c0 old c1 {
        if (!NT_SUCCESS(status)) {                                     //@flt       } else {
            FltReleaseContext(context);                                //@flt         FltReleaseContext c0
            context = NULL;                                            //@flt         c0 = NULL
            if (linked != NULL) {                                      //@flt         if c1 != NULL {
                context = linked;                        /*@flt-only*/ //@flt           FltReferenceContext c1 as c0
                                                         /*@flt-only*/ //@flt           FltReleaseContext c1
            }                                                          //@flt         }
        }                                                              //@flt       }
    }                                                                  //@flt   } }

    if (context != NULL) {                                             //@flt   if c0 != NULL {
        stream = context;
        FltAcquirePushLockExclusive(&stream->Resource);                //@flt     FltAcquirePushLockExclusive resource
        stream->Opens++;                                               //@flt     n0 = value c0 n0 = n0 + 1 value c0 = n0
        FltReleasePushLock(&stream->Resource);                         //@flt     FltReleasePushLock resource
        FltReleaseContext(context);                                    //@flt     FltReleaseContext c0
    }                                                                  //@flt   }

Cleanup:
    return FLT_POSTOP_FINISHED_PROCESSING;                             //@flt   return FINISHED_PROCESSING
}                                                                      //@flt }

static FLT_PREOP_CALLBACK_STATUS
PreCleanup(PFLT_CALLBACK_DATA Data, PCFLT_RELATED_OBJECTS FltObjects, PVOID *CompletionContext)
{                                                                      //@flt pre cleanup {
    PFLT_CONTEXT context = NULL;
    PSTREAM_CONTEXT stream;
    NTSTATUS status;

    UNREFERENCED_PARAMETER(Data);
    UNREFERENCED_PARAMETER(CompletionContext);
    status = FltGetStreamContext(FltObjects->Instance, FltObjects->FileObject, &context);
    if (NT_SUCCESS(status)) {                                          //@flt   if FltGetStreamContext c0 {
        stream = context;
        FltAcquirePushLockExclusive(&stream->Resource);                //@flt     FltAcquirePushLockExclusive resource
        stream->Opens--;                                               //@flt     n0 = value c0 n0 = n0 - 1 value c0 = n0
        FltReleasePushLock(&stream->Resource);                         //@flt     FltReleasePushLock resource
    }                                                                  //@flt   }
    return FLT_PREOP_SUCCESS_NO_CALLBACK;                              //@flt   return NO_CALLBACK
}                                                                      //@flt }

/* The filter manager calls this when the last reference to a context is gone. A text doesn't have it. */
static void
ContextCleanup(PFLT_CONTEXT Context, FLT_CONTEXT_TYPE Type)
{
    if (Type == FLT_STREAM_CONTEXT) {
        FltDeletePushLock(&((PSTREAM_CONTEXT)Context)->Resource);
    }
}

static NTSTATUS
Unload(FLT_FILTER_UNLOAD_FLAGS Flags)
{
    UNREFERENCED_PARAMETER(Flags);
    FltUnregisterFilter(Filter);
    return STATUS_SUCCESS;
}

static const FLT_CONTEXT_REGISTRATION Contexts[] = {
    { FLT_INSTANCE_CONTEXT, 0, NULL, sizeof(INSTANCE_CONTEXT), CTX_TAG },
    { FLT_STREAM_CONTEXT, 0, ContextCleanup, sizeof(STREAM_CONTEXT), CTX_TAG },
    { FLT_CONTEXT_END, 0, NULL, 0, 0 }
};

static const FLT_OPERATION_REGISTRATION Callbacks[] = {
    { IRP_MJ_CREATE, 0, PreCreate, PostCreate },
    { IRP_MJ_CLEANUP, 0, PreCleanup, NULL },
    { IRP_MJ_OPERATION_END, 0, NULL, NULL }
};

static const FLT_REGISTRATION Registration = {
    sizeof(FLT_REGISTRATION), FLT_REGISTRATION_VERSION, 0, Contexts, Callbacks, Unload, InstanceSetup, NULL, NULL
};

NTSTATUS
DriverEntry(PDRIVER_OBJECT Driver, PUNICODE_STRING RegistryPath)
{
    NTSTATUS status;

    UNREFERENCED_PARAMETER(RegistryPath);
    status = FltRegisterFilter(Driver, &Registration, &Filter);
    if (NT_SUCCESS(status)) {
        status = FltStartFiltering(Filter);
        if (!NT_SUCCESS(status)) {
            FltUnregisterFilter(Filter);
        }
    }
    return status;
}
