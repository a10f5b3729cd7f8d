/*
 * Overlays applied before there is a heap: overlay BASE OVERLAY.. OUT
 *
 * The library's memory is an arena in static storage (libdtman_arena.a), of which a call gets twice as much as long as memory lacks. Each
 * overlay is applied to what the one before it left, from one of two buffers into the other; then the blob is written, and what was taken of
 * the arena is printed.
 */
#include <stdio.h>
#include <stdlib.h>

#include "bytes.h"
#include "dtman_arena.h"

/* No stranger makes a boot loader's own blobs. */
#define SEED 0

#define ROOM (4 << 20)

static uint8_t arena[16 << 20], buffers[2][ROOM];

static size_t most_taken;

/* 24 times base and overlay are enough for a board of Linux; all of the arena is the last that is tried. */
static struct dtman_answer apply(struct bytes base, struct bytes overlay, uint8_t *out)
{
	size_t length = 24 * (base.length + overlay.length) + (64 << 10), taken;
	struct dtman_answer answer;

	for (;; length *= 2) {
		dtman_use_arena(arena, length < sizeof arena ? length : sizeof arena);
		answer = dtman_overlay(base.at, base.length, overlay.at, overlay.length, SEED, out, ROOM);
		taken = dtman_arena_used().most;
		most_taken = most_taken < taken ? taken : most_taken;
		if (answer.status != DTMAN_REFUSED || answer.number || length >= sizeof arena)
			return answer;
	}
}

int main(int count, char **words)
{
	struct bytes blob;

	if (count < 4) {
		fprintf(stderr, "usage: overlay BASE OVERLAY.. OUT\n");
		return 2;
	}
	blob = read_file(words[1]);
	for (int i = 2; i < count - 1; i++) {
		struct bytes overlay = read_file(words[i]);
		uint8_t *out = buffers[i % 2];
		struct dtman_answer answer = apply(blob, overlay, out);

		free(overlay.at);
		if (answer.status == DTMAN_SHORT)
			fprintf(stderr, "%s: the blob has %zu bytes, and %d are there\n", words[i], answer.length, ROOM);
		if (answer.status == DTMAN_SHORT)
			return 1;
		if (answer.status != DTMAN_WRITTEN)
			refuse(words[i], answer);
		if (i == 2)
			free(blob.at);
		blob = (struct bytes){ out, answer.length };
	}
	write_file(words[count - 1], blob);
	printf("%zu bytes at most were taken of the arena\n", most_taken);
	return 0;
}
