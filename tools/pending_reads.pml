/*
 * A model of examples/pending_reads.flt for the model checker spin: N reads, and one filter that pends each read that comes as
 * an IRP in its cancel-safe queue. docs/PERFORMANCE.md says what an exhaustive search of it takes.
 *
 * Its steps are those of the machine (docs/MACHINE.md), each of them indivisible. Between two of them any other may come:
 * - a read arrives, as an IRP or as fast I/O. Where the filter is attached its pre callback starts, otherwise it is skipped;
 * - the pre callback makes one step for each statement that others see: `irp data`, the insertion, the return;
 * - a read that was passed down or skipped is carried out, and is up;
 * - a read that has arrived and isn't up is cancelled, once;
 * - an entry of the queue whose read is cancelled, or whose filter is being detached, is taken out, and `canceled` starts with
 *   it. `canceled` makes a step for the completion and one for its end; its test of `arg`, which nobody sees, is left out;
 * - the filter is detached: from then on its queue refuses insertions. Teardown ends when the queue is empty and no callback
 *   runs. The system refuses nothing else here: the filter allocates nothing and has no work items.
 *
 * The properties are assertions:
 * - OWNED: a callback asks about, queues, passes on and completes a read only while it owns it, returns PENDING only when it
 *   doesn't any more, and owns nothing when it has ended;
 * - ONCE: the filter's part in a read is settled once, by a return or by a completion;
 * - PACKET: only an IRP is queued or pended;
 * - NOT LOST: where nothing can go on, each read is up: it was completed, or was passed down and carried out. A read that
 *   waits in the queue isn't the end: it can still be cancelled.
 * A teardown that never ends is reported by pan itself, as an invalid end state.
 *
 * Left out, since this filter can't tell the difference: creates, writes and cleanups, which it doesn't see; the numbers of
 * files, contexts, locks, work items and post callbacks, which it doesn't use; other filters above and below it; and levels:
 * both callbacks are entered at APC_LEVEL, where each of their calls is legal, and nothing raises it.
 *
 * To run it for three reads:
 *   spin -DN=3 -a pending_reads.pml
 *   gcc -O2 -w -DSAFETY -DNOFAIR -DMEMLIM=8000 -o pan pan.c
 *   ./pan -m1000000 -w26
 * With one of -DFAULT=1 to -DFAULT=6 beside -DN=3 the model has an error, and pan finds a run that breaks an assertion.
 * `spin -t -p` with the same -D prints that run.
 */

#ifndef N
#define N 3
#endif
#ifndef FAULT
#define FAULT 0
#endif

mtype:presence = { ATTACHED, DETACHING, DETACHED }
mtype:position = { NOT_ARRIVED, AT_FILTER, IN_VISIT, BELOW, UP }
mtype:owner = { NOBODY, PRE_CALLBACK, QUEUE, CANCELED_CALLBACK }

mtype:presence presence = ATTACHED;             /* of the filter */
byte running = 0;                               /* its callbacks that have started and not ended */
chan queue = [N] of { byte };                   /* the reads in its queue, the front entry first */
mtype:position position[N] = NOT_ARRIVED;       /* where each read is */
bool cancelled[N] = false;                      /* whether it was cancelled */
bool settled[N] = false;                        /* whether the filter's part in it is over; for the assertions alone */
mtype:owner owner[N] = NOBODY;                  /* who may complete it or hand it over; for the assertions alone */

inline start_callback(read, callback)
{
    owner[read] = callback;
    running++
}

inline end_callback(read, callback)
{
    assert(owner[read] != callback);            /* OWNED */
    running--
}

inline use(read, callback)
{
    assert(owner[read] == callback)             /* OWNED */
}

/* the callback gives the read back, which goes on from there */
inline settle(read, callback, onward)
{
    assert(!settled[read]);                     /* ONCE */
    use(read, callback);
    settled[read] = true;
    owner[read] = NOBODY;
    position[read] = onward
}

inline return_no_callback(read)
{
    d_step { settle(read, PRE_CALLBACK, BELOW); end_callback(read, PRE_CALLBACK) }
}

inline return_pending(read)
{
    d_step { assert(irp); /* PACKET */ end_callback(read, PRE_CALLBACK) }
}

/* pre read { if irp data { if FltCbdqInsertIo data { return PENDING } } return NO_CALLBACK } */
inline pre_read(read)
{
    if
#if FAULT == 1  /* fast I/O is queued, too */
    :: d_step { true -> use(read, PRE_CALLBACK) };
#else
    :: d_step { irp -> use(read, PRE_CALLBACK) };
#endif
        if
        :: d_step {
                presence == ATTACHED ->
                assert(irp);                    /* PACKET */
                use(read, PRE_CALLBACK);
                owner[read] = QUEUE;
                queue ! read
            };
#if FAULT == 2  /* what was queued is passed on */
            return_no_callback(read)
#else
            return_pending(read)
#endif
        :: d_step { presence != ATTACHED -> use(read, PRE_CALLBACK) };
#if FAULT == 3  /* what wasn't queued is pended */
            return_pending(read)
#else
            return_no_callback(read)
#endif
        fi
    :: d_step { !irp -> use(read, PRE_CALLBACK) };
        return_no_callback(read)
    fi
}

/* one read, and the pre callback that it meets */
proctype operation(byte read)
{
    bool irp;
    /* arrive */
    atomic { if :: irp = true :: irp = false fi; position[read] = AT_FILTER };
    if
    :: d_step { /* pre */ presence == ATTACHED -> position[read] = IN_VISIT; start_callback(read, PRE_CALLBACK) };
        pre_read(read)
    :: d_step { /* skip */ presence != ATTACHED -> position[read] = BELOW }
    fi;
end: /* a read that is pended stays here, and `canceled` completes it */
    d_step { /* lower */ position[read] == BELOW -> position[read] = UP }
}

proctype cancel(byte read)
{
end:
    d_step { position[read] != NOT_ARRIVED && position[read] != UP -> cancelled[read] = true }
}

/* canceled { FltCompletePendedPreOperation data COMPLETE STATUS_CANCELLED } */
proctype canceled(byte read)
{
end:
    d_step {
#if FAULT == 6  /* no entry is ever taken out */
        false ->
#else
        (cancelled[read] || presence == DETACHING) && queue ?? [eval(read)] ->
#endif
        queue ?? eval(read);
        start_callback(read, CANCELED_CALLBACK)
    };
#if FAULT != 4  /* otherwise the completion is forgotten */
    d_step { settle(read, CANCELED_CALLBACK, UP) };
#endif
#if FAULT == 5  /* the read is completed again */
    d_step { settle(read, CANCELED_CALLBACK, UP) };
#endif
    d_step { end_callback(read, CANCELED_CALLBACK) }
}

/* the filter is detached, and its teardown ends */
proctype detach()
{
    presence = DETACHING;
    d_step { running == 0 && len(queue) == 0 -> presence = DETACHED }
}

init
{
    byte read;
    atomic {
        for (read : 0 .. N - 1) { run operation(read); run cancel(read); run canceled(read) }
        run detach();
        read = 0
    };
    timeout;                                                            /* nothing else can go on */
    d_step { for (read : 0 .. N - 1) { assert(position[read] == UP) } } /* NOT LOST */
}
