/*
 * kernel.h - the base types and routines of the driver kit that emitted drivers use, for the simulation on Linux. Written from memory of
 * the kit's public documentation; what nothing uses is left out.
 */
#pragma once

#include <assert.h>
#include <stddef.h>
#include <stdint.h>
#include <string.h>

#define NTAPI
#define _In_
#define _In_opt_
#define _Inout_
#define _Out_opt_

typedef void VOID;
typedef void *PVOID;
typedef uint8_t UCHAR, BOOLEAN;
typedef uint16_t USHORT;
typedef int32_t LONG;
typedef uint32_t ULONG;
typedef uint64_t ULONG64;
typedef size_t SIZE_T;
typedef uintptr_t ULONG_PTR;
typedef LONG NTSTATUS;
typedef ULONG DEVICE_TYPE;
typedef UCHAR KIRQL, *PKIRQL;

#define TRUE 1
#define FALSE 0

enum { PASSIVE_LEVEL, APC_LEVEL, DISPATCH_LEVEL };

#define NT_SUCCESS(status) ((NTSTATUS)(status) >= 0)
#define STATUS_SUCCESS ((NTSTATUS)0)
#define STATUS_PENDING ((NTSTATUS)0x103)
#define STATUS_ACCESS_DENIED ((NTSTATUS)0xC0000022)
#define STATUS_CANCELLED ((NTSTATUS)0xC0000120)
#define STATUS_INSUFFICIENT_RESOURCES ((NTSTATUS)0xC000009A)
#define STATUS_INVALID_PARAMETER ((NTSTATUS)0xC000000D)
#define STATUS_NOT_FOUND ((NTSTATUS)0xC0000225)

#define UNREFERENCED_PARAMETER(parameter) ((void)(parameter))
#define FlagOn(flags, flag) ((flags) & (flag))
#define FLT_ASSERT(condition) assert(condition)
#define RtlZeroMemory(to, count) memset((to), 0, (count))
#define CONTAINING_RECORD(address, type, field) ((type *)((char *)(address)-offsetof(type, field)))
#define ReadULong64NoFence(from) __atomic_load_n((from), __ATOMIC_RELAXED)
#define WriteULong64NoFence(to, value) __atomic_store_n((to), (value), __ATOMIC_RELAXED)
#define InterlockedCompareExchange(to, value, old) __sync_val_compare_and_swap((to), (old), (value))
#define InterlockedExchange(to, value) __atomic_exchange_n((to), (value), __ATOMIC_SEQ_CST)

typedef enum { NonPagedPoolNx = 512 } POOL_TYPE;
typedef enum { DelayedWorkQueue = 1 } WORK_QUEUE_TYPE;

typedef struct _LIST_ENTRY {
    struct _LIST_ENTRY *Flink, *Blink;
} LIST_ENTRY, *PLIST_ENTRY;

static inline void InitializeListHead(PLIST_ENTRY head) {
    head->Flink = head->Blink = head;
}

static inline void InsertTailList(PLIST_ENTRY head, PLIST_ENTRY entry) {
    entry->Flink = head;
    entry->Blink = head->Blink;
    head->Blink->Flink = entry;
    head->Blink = entry;
}

static inline BOOLEAN RemoveEntryList(PLIST_ENTRY entry) {
    entry->Blink->Flink = entry->Flink;
    entry->Flink->Blink = entry->Blink;
    return entry->Flink == entry->Blink;
}

typedef struct {
    NTSTATUS Status;
    ULONG_PTR Information;
} IO_STATUS_BLOCK;

typedef struct _FILE_OBJECT {
    PVOID FsContext;
} FILE_OBJECT, *PFILE_OBJECT;

typedef struct _DRIVER_OBJECT *PDRIVER_OBJECT;
typedef struct _UNICODE_STRING *PUNICODE_STRING;
typedef NTSTATUS DRIVER_INITIALIZE(PDRIVER_OBJECT, PUNICODE_STRING);

#define IRP_MJ_CREATE 0
#define IRP_MJ_CREATE_NAMED_PIPE 1
#define IRP_MJ_CLOSE 2
#define IRP_MJ_READ 3
#define IRP_MJ_WRITE 4
#define IRP_MJ_QUERY_INFORMATION 5
#define IRP_MJ_SET_INFORMATION 6
#define IRP_MJ_QUERY_EA 7
#define IRP_MJ_SET_EA 8
#define IRP_MJ_FLUSH_BUFFERS 9
#define IRP_MJ_QUERY_VOLUME_INFORMATION 10
#define IRP_MJ_SET_VOLUME_INFORMATION 11
#define IRP_MJ_DIRECTORY_CONTROL 12
#define IRP_MJ_FILE_SYSTEM_CONTROL 13
#define IRP_MJ_DEVICE_CONTROL 14
#define IRP_MJ_INTERNAL_DEVICE_CONTROL 15
#define IRP_MJ_SHUTDOWN 16
#define IRP_MJ_LOCK_CONTROL 17
#define IRP_MJ_CLEANUP 18
#define IRP_MJ_CREATE_MAILSLOT 19
#define IRP_MJ_QUERY_SECURITY 20
#define IRP_MJ_SET_SECURITY 21
#define IRP_MJ_POWER 22
#define IRP_MJ_SYSTEM_CONTROL 23
#define IRP_MJ_DEVICE_CHANGE 24
#define IRP_MJ_QUERY_QUOTA 25
#define IRP_MJ_SET_QUOTA 26
#define IRP_MJ_PNP 27

/* A lock of any kind: who has it, how many share it, and the level before. */
struct lock {
    int level;
    struct activation *holder;
    int sharers;
    KIRQL before;
};

typedef struct lock KSPIN_LOCK, *PKSPIN_LOCK, FAST_MUTEX, *PFAST_MUTEX, EX_PUSH_LOCK, *PEX_PUSH_LOCK;

void KeInitializeSpinLock(PKSPIN_LOCK lock);
void KeAcquireSpinLock(PKSPIN_LOCK lock, PKIRQL before);
void KeReleaseSpinLock(PKSPIN_LOCK lock, KIRQL before);
void ExInitializeFastMutex(PFAST_MUTEX lock);
void ExAcquireFastMutex(PFAST_MUTEX lock);
void ExReleaseFastMutex(PFAST_MUTEX lock);
