/*
 * Counts the opens of each stream in a context of its own, after the driver kit's sample of contexts. The comments that begin with @flt
 * are the filter's text: `fltstack extract counts_opens.c` prints it, and `fltstack analyse` says whether it keeps the rules.
 */

/*@flt filter counts_opens altitude 370160
       lock spin counting */

#include <fltKernel.h>

#pragma prefast(disable:__WARNING_ENCODE_MEMBER_FUNCTION_POINTER, "don't warn")

typedef struct _OPENS {
    ULONG Count;
} OPENS, *POPENS;

static PFLT_FILTER Filter;
static KSPIN_LOCK Counting;

FLT_PREOP_CALLBACK_STATUS
PreCreate(PFLT_CALLBACK_DATA Data, PCFLT_RELATED_OBJECTS Objects, PVOID *Completion)    //@flt pre create {
{
    UNREFERENCED_PARAMETER(Data);
    UNREFERENCED_PARAMETER(Objects);
    *Completion = NULL;
    return FLT_PREOP_SUCCESS_WITH_CALLBACK;                                             //@flt   return WITH_CALLBACK
}                                                                                       //@flt }

FLT_POSTOP_CALLBACK_STATUS
PostCreate(PFLT_CALLBACK_DATA Data, PCFLT_RELATED_OBJECTS Objects, PVOID Completion, FLT_POST_OPERATION_FLAGS Flags)
{                                                                                       //@flt post create {
    POPENS opens = NULL, linked = NULL;
    NTSTATUS status;
    KIRQL level;

    if (Completion != NULL) {                                                           //@flt   if arg != NULL {
        FltReleaseContext(Completion);                                                  //@flt     FltReleaseContext arg
    }                                                                                   //@flt   }
    if (FlagOn(Flags, FLTFL_POST_OPERATION_DRAINING)) {                                 //@flt   if draining {
        return FLT_POSTOP_FINISHED_PROCESSING;                                          //@flt     return FINISHED_PROCESSING
    }                                                                                   //@flt   }
    if (!NT_SUCCESS(Data->IoStatus.Status)) {
        /* The text has no statuses of creates: it takes this path for granted where no context can be had. */
        return FLT_POSTOP_FINISHED_PROCESSING;
    }
    status = FltGetStreamContext(Objects->Instance, Objects->FileObject, &opens);       //@flt   if FltGetStreamContext c0 {
    if (!NT_SUCCESS(status)) {                                                          //@flt   } else {
        status = FltAllocateContext(Filter, FLT_STREAM_CONTEXT, sizeof(OPENS),
                                    NonPagedPool, &opens);                              //@flt     if FltAllocateContext c0 {
        if (NT_SUCCESS(status)) {
            opens->Count = 0;                                                           //@flt       value c0 = 0
            status = FltSetStreamContext(Objects->Instance, Objects->FileObject,
                                         FLT_SET_CONTEXT_KEEP_IF_EXISTS, opens, &linked);
                                                            //@flt       if FltSetStreamContext KEEP_IF_EXISTS c0 old c1 {
            if (status == STATUS_FLT_CONTEXT_ALREADY_DEFINED) {
                FltReleaseContext(opens);                   //@flt       } else { if c1 != NULL { FltReleaseContext c0
                opens = linked;               /*@flt-only*/ //@flt           FltReferenceContext c1 as c0 FltReleaseContext c1
            }                                               //@flt       } }
        }                                                                               //@flt     }
    }                                                                                   //@flt   }
    if (opens != NULL) {                                                                //@flt   if c0 != NULL {
        KeAcquireSpinLock(&Counting, &level);                                           //@flt     KeAcquireSpinLock counting
        opens->Count++;                                                                 //@flt     n0 = value c0 n0 = n0 + 1 value c0 = n0
        KeReleaseSpinLock(&Counting, level);                                            //@flt     KeReleaseSpinLock counting
        FltReleaseContext(opens);                                                       //@flt     FltReleaseContext c0
    }                                                                                   //@flt   }
    return FLT_POSTOP_FINISHED_PROCESSING;                                              //@flt   return FINISHED_PROCESSING
}                                                                                       //@flt }

#if 0
/* A cleanup that isn't there yet: no compiler reads this group, and its annotations aren't the text's. */
PreCleanup(PFLT_CALLBACK_DATA Data) {                                                   //@flt pre cleanup {
    /* It doesn't release what it gets. */                                              //@flt   if FltGetStreamContext c0 { } }
}
#endif

const FLT_OPERATION_REGISTRATION Callbacks[] = {
    { IRP_MJ_CREATE, 0, PreCreate, PostCreate },
    { IRP_MJ_OPERATION_END }
};
