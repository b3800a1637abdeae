/*
 * painted.h: how much stack a call takes. It is made on a stack of its own that was painted before, and what lost its paint is counted. For x86-64 alone,
 * as the library is.
 */
#ifndef WILLOWBLINK_PAINTED_H
#define WILLOWBLINK_PAINTED_H

#include <stdint.h>

/* No call may take as much. */
#define PAINTED 8192

/* Goes in the place of a call, with whatever arguments: it notes the stack pointer and goes on to the call that is named here. */
void painted_entry(void);
extern void (*painted_call)(void);

/*
 * Runs make() on the painted stack, which makes that one call. Answers the bytes from the call's return address, counted, down to the deepest one that
 * lost its paint: room that a call sets aside and never writes below that byte is not seen, and what memcpy and memset use is. Compiled with
 * -fno-optimize-sibling-calls, since what a caller has left below it before it jumps to the call would be counted too.
 */
long painted_depth(void (*make)(void), uint8_t colour);

#endif
