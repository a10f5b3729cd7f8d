/*
 * Times an overlay over an arena, or with -DMALLOC over malloc: overlay BASE OVERLAY
 *
 * Prints the bytes of base and overlay, the most that was taken of the arena, the least arena that is enough, and the milliseconds of a call,
 * the least of several.
 */
#include <stdio.h>
#include <stdlib.h>
#include <time.h>

#ifdef MALLOC
#include "dtman.h"
#else
#include "dtman_arena.h"
#endif

#define SEED 7
#define ROUNDS 9

struct bytes {
	uint8_t *at;
	size_t length;
};

static struct bytes read_file(const char *path)
{
	FILE *file = fopen(path, "rb");
	struct bytes bytes = { NULL, 0 };

	if (!file || fseek(file, 0, SEEK_END))
		exit(3);
	bytes.length = ftell(file);
	rewind(file);
	bytes.at = malloc(bytes.length);
	if (!bytes.at || fread(bytes.at, 1, bytes.length, file) != bytes.length)
		exit(3);
	fclose(file);
	return bytes;
}

static struct bytes base, over, out;

static struct dtman_answer apply(void)
{
	return dtman_overlay(base.at, base.length, over.at, over.length, SEED, out.at, out.length);
}

static double milliseconds(void)
{
	struct timespec now;

	clock_gettime(CLOCK_MONOTONIC, &now);
	return now.tv_sec * 1e3 + now.tv_nsec / 1e6;
}

static double least_time(void)
{
	double least = 1e9;

	for (int i = 0; i < ROUNDS; i++) {
		double begun = milliseconds(), took;

		if (apply().status != DTMAN_WRITTEN)
			exit(1);
		took = milliseconds() - begun;
		least = took < least ? took : least;
	}
	return least;
}

#ifndef MALLOC
static int is_enough(void *arena, size_t length)
{
	dtman_use_arena(arena, length);
	return apply().status == DTMAN_WRITTEN;
}

static size_t least_arena(void *arena, size_t most)
{
	size_t below = 0;

	while (most - below > 1024) {
		size_t middle = below + (most - below) / 2;

		if (is_enough(arena, middle))
			most = middle;
		else
			below = middle;
	}
	return most;
}
#endif

int main(int count, char **words)
{
	if (count != 3)
		return 2;
	base = read_file(words[1]);
	over = read_file(words[2]);
	out.length = 2 * base.length + 2 * over.length + 4096;
	out.at = malloc(out.length);
#ifdef MALLOC
	printf("%zu %.3f\n", base.length + over.length, least_time());
#else
	size_t length = 64 * (base.length + over.length) + (1 << 20), least;
	void *arena = malloc(length);
	double ample, scarce;

	dtman_use_arena(arena, length);
	ample = least_time();
	printf("%zu %zu ", base.length + over.length, dtman_arena_used().most);
	least = least_arena(arena, length);
	dtman_use_arena(arena, least);
	scarce = least_time();
	printf("%zu %.3f %.3f\n", least, ample, scarce);
#endif
	return 0;
}
