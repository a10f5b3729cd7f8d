/*
 * The arena tried as an allocator: arena REQUESTS
 *
 * Takes blocks, makes them longer and shorter and gives them back, in arenas of each length and alignment, and holds what stands in them
 * against a copy. Blocks have to be aligned, apart, inside of the arena and outside of what marks them; all of it is free at the end. Then an
 * overlay is made and applied over arenas of each length, from none on, and of twice the length as long as memory lacks: the answer is
 * 0 NoMemory or that of an ample one, and whatever it is, all is free behind it.
 */
#include <stdio.h>
#include <stdlib.h>
#include <string.h>

#include "dtman_arena.h"

struct tried {
	bool ok;
	void *block;
};

struct tried rattle_alloc(size_t size, size_t align);
struct tried rattle_realloc(void *block, size_t kept, size_t size, size_t align);
void rattle_dealloc(void *block);

#define BLOCKS 64
#define MOST 700

static struct held {
	uint8_t *block, copy[MOST];
	size_t size;
} held[BLOCKS];

static uint64_t state = 0x9e3779b97f4a7c15;

static uint64_t next_number(void)
{
	state ^= state << 13;
	state ^= state >> 7;
	state ^= state << 17;
	return state;
}

static void check(bool so, const char *what)
{
	if (so)
		return;
	fprintf(stderr, "arena: %s\n", what);
	exit(1);
}

static void write_new(struct held *it, size_t from)
{
	for (size_t i = from; i < it->size; i++)
		it->block[i] = it->copy[i] = (uint8_t)next_number();
}

/* One request for a block or of it; what was refused is as it was. */
static void request(struct held *it)
{
	size_t size = next_number() % (next_number() % 8 ? 60 : MOST);
	struct tried tried;

	if (!it->block) {
		tried = rattle_alloc(size, 16);
		if (!tried.ok)
			return;
		*it = (struct held){ .block = tried.block, .size = size };
		write_new(it, 0);
	} else if (next_number() % 2) {
		size_t kept = it->size < size ? it->size : size;

		tried = rattle_realloc(it->block, kept, size, 16);
		if (!tried.ok)
			return;
		it->block = tried.block;
		it->size = size;
		write_new(it, kept);
	} else {
		rattle_dealloc(it->block);
		it->block = NULL;
	}
}

static void look(const uint8_t *arena, size_t length)
{
	for (int i = 0; i < BLOCKS; i++) {
		const struct held *it = &held[i];

		if (!it->block)
			continue;
		check((uintptr_t)it->block % 16 == 0, "a block isn't aligned");
		check(it->block >= arena && it->block + (it->size ? it->size : 1) <= arena + length, "a block stands outside");
		check(!memcmp(it->block, it->copy, it->size), "a block's bytes are others");
	}
}

static void try_arena(size_t length, size_t skew, unsigned long requests)
{
	uint8_t *room = malloc(length + skew), *arena = room + skew;
	size_t usable = dtman_use_arena(arena, length);
	struct tried all;

	check(usable <= length, "more is told than there is");
	while (requests--) {
		request(&held[next_number() % BLOCKS]);
		if (requests % 16 == 0)
			look(arena, length);
	}
	look(arena, length);
	check(dtman_arena_used().most <= usable, "more was taken than there is");
	for (int i = 0; i < BLOCKS; i++) {
		if (held[i].block)
			rattle_dealloc(held[i].block);
		held[i].block = NULL;
	}
	all = rattle_alloc(usable, 16);
	check(all.ok == (usable > 0), "not all is free at the end");
	check(!rattle_alloc(1, 16).ok, "there is more than all");
	free(room);
}

/* As install/arena.c has them. */
struct taken {
	bool found;
	size_t at;
};

struct taken dtman_arena_take(uint8_t *marks, size_t granules, size_t from, size_t count);
size_t dtman_arena_length(const uint8_t *marks, size_t granules, size_t at);
size_t dtman_arena_give(uint8_t *marks, size_t granules, size_t at);
bool dtman_arena_resize(uint8_t *marks, size_t granules, size_t at, size_t count);

/* The rows of docs/model/arena.md: a call, where, how many granules, its answer, and the marks behind it. */
static const struct row {
	char call;
	size_t at, count, answer;
	const char *marks;
} rows[] = {
	{ 't', 0, 3, 0, "12200000" },
	{ 't', 3, 2, 3, "12212000" },
	{ 't', 0, 4, 9, "12212000" },
	{ 'r', 3, 5, 1, "12212222" },
	{ 'r', 0, 4, 0, "12212222" },
	{ 'r', 3, 1, 1, "12210000" },
	{ 'g', 0, 0, 3, "00010000" },
	{ 't', 1, 4, 4, "00011222" },
	{ 'g', 5, 0, 0, "00011222" },
	{ 'l', 4, 0, 4, "00011222" },
	{ 'l', 5, 0, 0, "00011222" },
	{ 'l', 8, 0, 0, "00011222" },
	{ 't', 9, 3, 0, "12211222" },
	{ 'r', 3, 0, 0, "12211222" },
	{ 't', 0, 0, 9, "12211222" },
};

static size_t answer_of(const struct row *row, uint8_t *marks)
{
	struct taken taken;

	switch (row->call) {
	case 't':
		taken = dtman_arena_take(marks, 8, row->at, row->count);
		return taken.found ? taken.at : 9;
	case 'r':
		return dtman_arena_resize(marks, 8, row->at, row->count);
	case 'g':
		return dtman_arena_give(marks, 8, row->at);
	}
	return dtman_arena_length(marks, 8, row->at);
}

static void try_rows(void)
{
	uint8_t marks[8] = { 0 };

	for (size_t i = 0; i < sizeof rows / sizeof *rows; i++) {
		check(answer_of(&rows[i], marks) == rows[i].answer, "a row has another answer");
		for (int k = 0; k < 8; k++)
			check(marks[k] == rows[i].marks[k] - '0', "a row leaves other marks");
	}
}

static const char board[] = "/dts-v1/; / { #address-cells = <1>; fan: fan@1 { speed = <(1 + 2)>, [01 02]; on = <&fan &{/fan@1}>; }; };";
static const char hat[] = "/dts-v1/; /plugin/; &fan { speed = <42>; blade { of = <&fan>; }; };";

/* The overlay applied, from sources, over an arena of this length; its bytes in `both`, or a refusal. */
static struct dtman_answer overlaid(size_t length, uint8_t *both, size_t room)
{
	uint8_t *arena = malloc(length ? length : 1), base[1024], overlay[1024];
	size_t usable = dtman_use_arena(arena, length);
	struct dtman_answer b, o, x;
	struct tried all;

	x = b = dtman_compile(board, sizeof board - 1, true, 7, base, sizeof base);
	if (b.status == DTMAN_WRITTEN)
		x = o = dtman_compile(hat, sizeof hat - 1, false, 7, overlay, sizeof overlay);
	if (x.status == DTMAN_WRITTEN)
		x = dtman_overlay(base, b.length, overlay, o.length, 7, both, room);
	if (x.status == DTMAN_WRITTEN)
		check(dtman_overlay(base, b.length, overlay, o.length, 7, both, room).status == DTMAN_WRITTEN, "what was enough isn't enough again");
	check((x.status == DTMAN_REFUSED) == (dtman_arena_used().refused > 0), "a refusal isn't told as one of the arena");
	all = rattle_alloc(usable, 16);
	check(all.ok == (usable > 0), "a call left something taken");
	free(arena);
	return x;
}

static void try_overlays(size_t stride)
{
	uint8_t wanted[1024], both[1024];
	struct dtman_answer ample = overlaid(1 << 20, wanted, sizeof wanted), answer;
	size_t length, least = 0;

	check(ample.status == DTMAN_WRITTEN, "an ample arena isn't enough");
	for (length = 0; length < 40000; length += stride * (length < 2000 ? 1 : 32)) {
		answer = overlaid(length, both, sizeof both);
		if (answer.status == DTMAN_REFUSED) {
			check(answer.number == 0, "another refusal than of memory");
			continue;
		}
		check(answer.length == ample.length && !memcmp(both, wanted, ample.length), "another blob than over an ample arena");
		least = least ? least : length;
	}
	check(least > 0, "no arena was enough");
	for (length = 1; (answer = overlaid(length, both, sizeof both)).status == DTMAN_REFUSED; length *= 2)
		check(answer.number == 0 && length < 1 << 20, "twice as much again and again is never enough");
	check(answer.length == ample.length && !memcmp(both, wanted, ample.length), "another blob where the arena was doubled");
	check(overlaid(length, both, 9).status == DTMAN_SHORT, "a short buffer isn't told");
}

int main(int count, char **words)
{
	unsigned long requests = count == 2 ? strtoul(words[1], NULL, 10) : 1000;

	try_rows();
	check(!rattle_alloc(1, 16).ok, "there is a block before there is an arena");
	for (size_t length = 0; length < 200; length++)
		try_arena(length, length % 17, 20);
	for (size_t skew = 0; skew < 17; skew++)
		try_arena(3000 + 100 * skew, skew, requests);
	try_arena(100000, 3, 20 * requests);
	try_overlays(requests < 1000 ? 16 : 1);
	puts("arena: blocks are aligned, apart and inside, and all is free at the end");
	return 0;
}
