/*
 * trace.h - what tools/try-emitted puts before the statements of an emitted source: at which point a callback is. The simulation writes
 * the journal by it.
 */
#pragma once

/* A statement that others can't see, and one that they can, before which the turn may go to another thread: the call that the text has
   there, or "" for none. */
void trace_local(void);
void trace_board(const char *call);

/* Whether a `repeat` has turns left, and whether a call that asks for memory or a work item has it. */
int trace_test(int holds);
int trace_grant(int is_granted);

/* After an operation that the teardown took out of the queue. */
void trace_leave(void);
