/*
 * The three functions by which the library takes memory, over the caller's arena in the place of malloc. What is handed out stands in marks
 * of a byte a granule, and the calls that change them are proved (crates/dtman_arena_c); here granules become pointers. The toolchain's
 * clang, which compiles this, brings no headers.
 */
typedef __SIZE_TYPE__ size_t;
typedef __UINTPTR_TYPE__ uintptr_t;

enum { GRANULE = 16 };

/* As the proved calls return it. */
struct taken {
	_Bool found;
	size_t at;
};

/* As the library wants it: the pointer isn't null in either case. */
struct tried {
	_Bool ok;
	void *block;
};

#ifndef DTMAN_ARENA_H /* the gate holds the header against this file */
struct dtman_arena_use {
	size_t most, refused;
};
#endif

struct taken dtman_arena_take(unsigned char *marks, size_t granules, size_t from, size_t count);
size_t dtman_arena_length(const unsigned char *marks, size_t granules, size_t at);
size_t dtman_arena_give(unsigned char *marks, size_t granules, size_t at);
_Bool dtman_arena_resize(unsigned char *marks, size_t granules, size_t at, size_t count);
void *memcpy(void *to, const void *from, size_t count);
void *memset(void *to, int byte, size_t count);

size_t dtman_use_arena(void *arena, size_t length);
struct dtman_arena_use dtman_arena_used(void);
struct tried rattle_alloc(size_t size, size_t align);
struct tried rattle_realloc(void *block, size_t kept, size_t size, size_t align);
void rattle_dealloc(void *block);

static unsigned char nothing[GRANULE];

/* No granules are handed out before there is an arena. */
static struct {
	unsigned char *marks, *blocks;
	size_t granules, next, held, most, refused;
} arena = { nothing, nothing, 0, 0, 0, 0, 0 };

/* A block of no bytes has a granule, too. */
static size_t granules_of(size_t size)
{
	return size ? (size - 1) / GRANULE + 1 : 1;
}

static size_t place_of(const void *block)
{
	return ((const unsigned char *)block - arena.blocks) / GRANULE;
}

static void hold(size_t more, size_t less)
{
	arena.held += more;
	arena.held -= less;
	if (arena.most < arena.held)
		arena.most = arena.held;
}

static struct tried refused(size_t size)
{
	if (arena.refused < size)
		arena.refused = size;
	return (struct tried){ 0, nothing };
}

size_t dtman_use_arena(void *start, size_t length)
{
	size_t granules = length < GRANULE ? 0 : (length - (GRANULE - 1)) / (GRANULE + 1);
	size_t skip = -((uintptr_t)start + granules) % GRANULE;

	arena.marks = granules ? start : nothing;
	arena.blocks = granules ? arena.marks + granules + skip : nothing;
	arena.granules = granules;
	arena.next = arena.held = arena.most = arena.refused = 0;
	memset(arena.marks, 0, granules);
	return granules * GRANULE;
}

struct dtman_arena_use dtman_arena_used(void)
{
	return (struct dtman_arena_use){ arena.most * GRANULE, arena.refused };
}

/* No type of the library's is aligned to more than 16 bytes. */
struct tried rattle_alloc(size_t size, size_t align)
{
	size_t count = granules_of(size);
	struct taken taken = dtman_arena_take(arena.marks, arena.granules, arena.next, count);

	(void)align;
	if (!taken.found)
		return refused(size);
	arena.next = taken.at + count;
	hold(count, 0);
	return (struct tried){ 1, arena.blocks + taken.at * GRANULE };
}

struct tried rattle_realloc(void *block, size_t kept, size_t size, size_t align)
{
	size_t at = place_of(block), count = granules_of(size), length = dtman_arena_length(arena.marks, arena.granules, at);
	struct tried moved;

	if (dtman_arena_resize(arena.marks, arena.granules, at, count)) {
		if (arena.next == at + length)
			arena.next = at + count;
		hold(count, length);
		return (struct tried){ 1, block };
	}
	moved = rattle_alloc(size, align);
	if (moved.ok) {
		memcpy(moved.block, block, kept);
		rattle_dealloc(block);
	}
	return moved;
}

/* Where nothing is held the next block is looked for at the front, so what was enough for a call is enough for it again. */
void rattle_dealloc(void *block)
{
	size_t at = place_of(block), length = dtman_arena_give(arena.marks, arena.granules, at);

	hold(0, length);
	if (!arena.held)
		arena.next = 0;
	else if (arena.next == at + length)
		arena.next = at;
}
