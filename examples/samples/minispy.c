/* What matters of a driver after the driver kit's sample minispy, written anew: `minispy.flt` is its text. */

#include "../c/kit.h"

typedef struct _RECORD {
    LIST_ENTRY List;
} RECORD, *PRECORD;

extern KSPIN_LOCK OutputLock;
extern LIST_ENTRY OutputList;

/* A record of a list of free ones, or NULL; and what is written into it. */
PRECORD SpyNewRecord(void);
void SpyFreeRecord(PRECORD Record);
void SpyLogPreOperation(PFLT_CALLBACK_DATA Data, PCFLT_RELATED_OBJECTS FltObjects, PRECORD Record);
void SpyLogPostOperation(PFLT_CALLBACK_DATA Data, PRECORD Record);

/* The callbacks of every operation. */
FLT_PREOP_CALLBACK_STATUS
SpyPreOperation(PFLT_CALLBACK_DATA Data, PCFLT_RELATED_OBJECTS FltObjects, PVOID *CompletionContext)
{
    PRECORD record = SpyNewRecord();

    if (record == NULL) {
        return FLT_PREOP_SUCCESS_NO_CALLBACK;
    }
    SpyLogPreOperation(Data, FltObjects, record);
    *CompletionContext = record;
    return FLT_PREOP_SUCCESS_WITH_CALLBACK;
}

FLT_POSTOP_CALLBACK_STATUS
SpyPostOperation(PFLT_CALLBACK_DATA Data, PCFLT_RELATED_OBJECTS FltObjects, PVOID CompletionContext,
                 FLT_POST_OPERATION_FLAGS Flags)
{
    PRECORD record = CompletionContext;
    KIRQL level;

    UNREFERENCED_PARAMETER(FltObjects);
    if (FlagOn(Flags, FLTFL_POST_OPERATION_DRAINING)) {
        SpyFreeRecord(record);
        return FLT_POSTOP_FINISHED_PROCESSING;
    }
    SpyLogPostOperation(Data, record);
    KeAcquireSpinLock(&OutputLock, &level);
    InsertTailList(&OutputList, &record->List);
    KeReleaseSpinLock(&OutputLock, level);
    return FLT_POSTOP_FINISHED_PROCESSING;
}
