/*
 * dtman_arena.h: the calls of dtman.h over memory of the caller's, in the place of malloc. A program that links libdtman_arena.a, and not
 * libdtman.a, gives the library an arena once, before its first call; so it needs no heap and no libc: of that it wants memcpy, memmove,
 * memset, memcmp and bcmp alone.
 *
 * The arena. Its bytes are the caller's, of any alignment, and in the library's hands until another arena is given or the last call is
 * made: nobody else reads or writes them, and no input and no buffer of a call overlaps them. Each call gives all that it took back when it
 * returns, but for what stands behind a board's seats: no other arena is given while a seat is filled. A call that wants more than there is
 * is refused with the number 0, and all else is as it was; what was enough is enough again.
 *
 * How much. An overlay of a board of Linux took 16 times base and overlay at most, and an arena of 24 times was enough for each; a source
 * took 19 times its text. How much is enough is known only by trying, so who can give more gives twice as much as long as memory lacks:
 *
 *	size_t length = 24 * (base_length + overlay_length) + (64 << 10);
 *	struct dtman_answer answer;
 *
 *	for (;; length *= 2) {
 *		dtman_use_arena(arena, length < most ? length : most);
 *		answer = dtman_overlay(base, base_length, overlay, overlay_length, seed, out, room);
 *		if (answer.status != DTMAN_REFUSED || answer.number || length >= most)
 *			break;
 *	}
 *
 * Who has no more to give gives all at once. examples/c/overlay.c does the former.
 *
 * Threads. There is one arena, so one call at a time is in the library, in all of the program: no other thread and no interrupt makes one
 * meanwhile. In all else the rules of dtman.h stand.
 */
#ifndef DTMAN_ARENA_H
#define DTMAN_ARENA_H

#include "dtman.h"

#ifdef __cplusplus
extern "C" {
#endif

/* Which calls there are: it grows by one with each call more, and by a hundred where one changes. */
#define DTMAN_ARENA_VERSION 100

/*
 * Gives the library these bytes to take memory from, all of them free, in the place of those that it had. Tells how many of them blocks can
 * have: one in 17 marks the others. An arena of no bytes has none to give.
 */
size_t dtman_use_arena(void *arena, size_t length);

struct dtman_arena_use {
	size_t most;    /* the most bytes that blocks had at a time */
	size_t refused; /* the greatest block that wasn't there, in bytes; 0 where each was */
};

/* What was taken since the arena was given. */
struct dtman_arena_use dtman_arena_used(void);

#ifdef __cplusplus
}
#endif

#endif
