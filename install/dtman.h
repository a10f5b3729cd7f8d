/*
 * dtman.h: devicetree sources compiled, overlays applied, blobs printed, devices planned and schedules replayed, each from the caller's
 * bytes to bytes in the caller's buffer; and a board, over which threads of the caller's own probe the devices of a plan.
 *
 * Bytes. A pointer is followed by how many bytes stand there. It is never NULL, where there are none too: DTMAN_NONE, 0 says so. Inputs
 * are only read, and nothing of them is kept behind a call. Texts need no NUL at their end and get none. Blobs are the flattened
 * devicetrees of the Devicetree Specification v0.4, chapter 5; they need no alignment. No input has 2^63 bytes or more.
 *
 * The buffer. `out` is the caller's, of `room` bytes. It overlaps no input. What fits is written to its front, the rest stays as it was;
 * what doesn't fit leaves all of it as it was, and `length` says how much room it wants. So a call with DTMAN_NONE, 0 asks for the
 * length alone; it does all the work, so give room for what you expect first.
 *
 * Faults. A refusal has a number, the same as that of the program dtman: `dtman explain NUMBER` and docs/errors.md say what each means.
 *
 * The seed. Calls that look names up hash them. No answer depends on the seed, and any number will do; take one that whoever made the
 * input can't guess (of getrandom or of the board's generator) where an input may be made to slow the call down.
 *
 * Memory. A call takes memory by malloc, realloc and free, and has given all of it back when it returns, but for what stands behind a
 * board's seats. Where malloc has none the call is refused with the number 0. The three are of one allocator, which aligns a block to
 * each power of two up to 16 that divides its size. Besides them the library wants memcpy, memmove, memset, memcmp and bcmp. It opens no
 * file, makes no system call and starts no thread. libdtman_arena.a, in its place, takes memory of the caller's own: dtman_arena.h.
 *
 * Stack. How deep an input is nested takes stack, how long it is doesn't: 256 KB are enough for every input.
 *
 * Threads. The library has no state of its own: any number of threads may be in its calls at a time, each with an `out` of its own. An
 * input may be shared by calls while no one writes it. A seat is in one call at a time; another thread gets it by a lock, the start or
 * the end of a thread, or a sequentially consistent atomic. No call may be made from a signal handler, or in the forked child of a
 * process with threads.
 */
#ifndef DTMAN_H
#define DTMAN_H

#include <stdbool.h>
#include <stddef.h>
#include <stdint.h>

#ifdef __cplusplus
extern "C" {
#endif

/* How a call ended. */
enum {
	DTMAN_WRITTEN = 0, /* the answer is in the buffer */
	DTMAN_SHORT = 1,   /* the buffer is too short, and as it was */
	DTMAN_REFUSED = 2, /* there is no answer; the buffer is as it was */
	DTMAN_UNNAMED = 3, /* of dtman_name alone: no fault has the number */

	/* Of the board alone. */
	DTMAN_DONE = 0,     /* the call did what it is for */
	DTMAN_NOTHING = 4,  /* no device is left to take */
	DTMAN_NO_SEAT = 5,  /* the seat that is given is empty */
	DTMAN_OCCUPIED = 6, /* the seat that is to be filled isn't empty */
	DTMAN_SHARED = 7    /* other seats of the board aren't given back */
};

struct dtman_answer {
	uint32_t status; /* one of the above */
	uint32_t number; /* of the fault; 0 where there is none, and of the fault NoMemory */
	size_t length;   /* bytes of the answer, in the buffer or not; 0 where refused */
	size_t line;     /* of the text that is refused, from 1; 0 where the fault has none */
	size_t byte;     /* of the source that is refused, from 1; 0 where the fault tells none */
	size_t event;    /* of the schedule that is refused, from 1; 0 where the fault has none */
};

/* No bytes. */
#define DTMAN_NONE ((uint8_t *)"")

/* Which calls there are: it grows by one with each call more, and by a hundred where one changes. */
#define DTMAN_VERSION 301

/* The most bytes of a blob and of its printed source (38 above it), and of a source (17 above it). */
#define DTMAN_MAX_BLOB 268435456
#define DTMAN_MAX_SOURCE 16777216

/*
 * The blob of a source, as the C preprocessor leaves it. With `symbols` it has the paths of all labelled nodes, as the base of an overlay
 * needs it. A source with the tag /plugin/ becomes an overlay. Refused: 10 to 28 with line and byte, 38.
 */
struct dtman_answer dtman_compile(const void *source, size_t source_length, bool symbols, uint64_t seed,
	void *out, size_t room);

/* The file that an `/incbin/` of a source names. */
struct dtman_file {
	uint32_t at; /* where the word `/incbin/` begins in the source, in bytes */
	const uint8_t *bytes;
	size_t length;
};

/* How a source in dtc's language is compiled. */
struct dtman_dtc {
	bool symbols;         /* with the paths of all labelled nodes */
	bool names_processor; /* the system boots on the processor that stands here, and else on the source's own */
	uint32_t boot_processor;
};

/*
 * The blob of a source in dtc's language, as the C preprocessor leaves it and with what it takes in by /include/ in its place. `files` are
 * those that its /incbin/ name, in the order of the text; it isn't NULL where there are none, either. Refused: 10 to 28 with line and byte, 10
 * also at the /incbin/ whose file isn't the next; 38.
 */
struct dtman_answer dtman_compile_dtc(const void *source, size_t source_length, const struct dtman_file *files,
	size_t files_count, const struct dtman_dtc *choice, uint64_t seed, void *out, size_t room);

/* The blob of a base with an overlay applied. Refused: 30 to 38, of the base before those of the overlay, and 40 to 46. */
struct dtman_answer dtman_overlay(const void *base, size_t base_length, const void *overlay,
	size_t overlay_length, uint64_t seed, void *out, size_t room);

/* The canonical source of a blob. Refused: 30 to 38. */
struct dtman_answer dtman_dump(const void *blob, size_t blob_length, void *out, size_t room);

/*
 * The plan of a blob's devices by a driver file, as text; dtman-plan(5) tells of its form. Refused: 30 to 38, and 50 to 56 with the line
 * of the driver file.
 */
struct dtman_answer dtman_plan(const void *blob, size_t blob_length, const void *drivers,
	size_t drivers_length, uint64_t seed, void *out, size_t room);

/*
 * The report of the bus after a schedule over a plan, as text. Refused: 50 to 56 with the line of the plan or of the schedule, and 60 to 67
 * with the event.
 */
struct dtman_answer dtman_replay(const void *plan, size_t plan_length, const void *schedule,
	size_t schedule_length, uint64_t seed, void *out, size_t room);

/* The name of the fault with a number, with no NUL behind it: no name has more than 24 bytes. DTMAN_UNNAMED. Takes no memory. */
struct dtman_answer dtman_name(uint32_t number, void *out, size_t room);

/* The room of a name with a NUL behind it. */
#define DTMAN_NAME_ROOM 25

/* The name of the fault with a number as a string, in the caller's room; NULL where no fault has the number. */
static inline const char *dtman_name_text(uint32_t number, char text[DTMAN_NAME_ROOM])
{
	struct dtman_answer told = dtman_name(number, text, DTMAN_NAME_ROOM - 1);

	if (told.status != DTMAN_WRITTEN)
		return NULL;
	text[told.length] = 0;
	return text;
}

/*
 * The board: threads of the caller's own probe the devices of a plan, each over a seat of its own, and no call waits for another. A
 * device is named by its place in the plan, from 0: the lines that begin with a path, in their order. A thread takes a device, looks at
 * each of its suppliers, probes it, and settles it where all were found bound, or defers it on one that wasn't; then it wakes what it
 * owes a wake, and takes again, until nothing is left to take. Whether a device binds or fails is the plan's word. A call that is
 * against the rules is refused, and the seat is as it was.
 *
 * A seat is the caller's memory, all zeros where it is empty. What a filled one has is the library's: the caller doesn't write it, and
 * doesn't use a copy of it beside it. What is neither given back nor closed is memory lost. No seat is given twice to a call.
 */
struct dtman_seat {
	uint64_t state; /* 0 where it is empty */
	void *held;
};

#define DTMAN_EMPTY_SEAT { 0, 0 }

/* How far a device has come. */
enum {
	DTMAN_FRESH = 0,    /* it was never tried */
	DTMAN_TRYING = 1,   /* it is in its first flight */
	DTMAN_WAITING = 2,  /* it was deferred */
	DTMAN_WOKEN = 3,    /* it was deferred, and its suppliers are bound */
	DTMAN_RETRYING = 4, /* it is in its second flight */
	DTMAN_BOUND = 5,
	DTMAN_FAILED = 6,
	DTMAN_UNMATCHED = 7 /* it isn't available, or has no driver */
};

/* How a call of a seat ended: DTMAN_NO_SEAT where the seat is empty. */
struct dtman_told {
	uint32_t status; /* one of the above */
	uint32_t number; /* of the fault where refused; else 0, or what the call says below */
	size_t device;   /* 0, or what the call says below */
};

/*
 * A board of a plan's devices on which nothing was begun, and its first seat, into an empty one. `length` is how many devices there are.
 * Refused: 50 to 56 with the line. DTMAN_OCCUPIED.
 */
struct dtman_answer dtman_board_open(const void *plan, size_t plan_length, uint64_t seed, struct dtman_seat *seat);

/* A further seat of the board that `from` is of, into an empty one. DTMAN_OCCUPIED. */
struct dtman_told dtman_board_seat(struct dtman_seat *from, struct dtman_seat *seat);

/*
 * Claims a device: `device` is the one, which is no other seat's until the flight ends. DTMAN_NOTHING where there is none to claim; who
 * wakes one takes again, so a thread may leave then. Refused: 60 where the seat has a flight.
 */
struct dtman_told dtman_board_take(struct dtman_seat *seat);

/*
 * Whether a supplier of the flight's device is bound: 1 or 0 in `number`. Refused: 64 where it is no supplier, 66 where there is no
 * flight.
 */
struct dtman_told dtman_board_look(struct dtman_seat *seat, size_t supplier);

/*
 * Ends the flight: DTMAN_BOUND or DTMAN_FAILED in `number`. Where the device binds, the seat owes its consumers a wake. Refused: 63
 * where the last look at a supplier didn't find it bound or there was none, 66 where there is no flight.
 */
struct dtman_told dtman_board_settle(struct dtman_seat *seat);

/*
 * Ends the flight on a supplier that the last look didn't find bound: the device waits, and the seat owes it a wake. Refused: 64 where
 * it isn't such a one, 66 where there is no flight.
 */
struct dtman_told dtman_board_defer(struct dtman_seat *seat, size_t supplier);

/* Wakes each device that the seat owes a wake, where it waits and all its suppliers are bound: it may be taken again. */
struct dtman_told dtman_board_wake_owed(struct dtman_seat *seat);

/* Gives a seat back to another one of its board, and empties it. Refused: 60 where it has a flight or owes a wake. */
struct dtman_told dtman_board_give_back(struct dtman_seat *into, struct dtman_seat *seat);

/*
 * Ends the board with its last seat, and empties that. `out` gets a byte for each device, one of DTMAN_FRESH to DTMAN_UNMATCHED;
 * `number` is 1 where nothing was left to do, and else 0; `device` is how many devices there are. DTMAN_SHORT where `room` is less,
 * DTMAN_SHARED.
 */
struct dtman_told dtman_board_close(struct dtman_seat *seat, void *out, size_t room);

#ifdef __cplusplus
}
#endif

#endif
