/*
 * Two sources compiled and one applied to the other in static buffers, without libc, heap or a system: `make freestanding` links this with nothing
 * but libdtman_arena.a and libdtman_view.a. It ends with the cell that the overlay set, or with 255; before that it sees that an arena of
 * no bytes is told as want of memory.
 */
#include "dtman_arena.h"
#include "dtman_view.h"

/* Who makes a board's own blobs doesn't try to slow them down. */
#define SEED 0

static const char board[] = "/dts-v1/; / { fan: fan@1 { speed = <(1 + 2)>; }; };";
static const char hat[] = "/dts-v1/; /plugin/; &fan { speed = <42>; };";

static uint8_t arena[64 << 10], base[1024], overlay[1024], both[1024];

static struct dtman_view_part speed_of(const uint8_t *blob, size_t length)
{
	struct dtman_view view = DTMAN_NO_VIEW;
	struct dtman_view_part value = DTMAN_NO_PART;
	struct dtman_view_told told = dtman_view_open(blob, length, &view);

	if (told.status == DTMAN_VIEW_DONE)
		told = dtman_view_find(&view, "/fan@1", 6);
	if (told.status == DTMAN_VIEW_DONE)
		dtman_view_value(&view, told.at, "speed", 5, &value);
	return value;
}

long run(void);

long run(void)
{
	struct dtman_answer b, o, x;
	struct dtman_view_part speed;
	uint32_t cell;

	b = dtman_compile(board, sizeof board - 1, true, SEED, base, sizeof base);
	if (b.status != DTMAN_REFUSED || b.number)
		return 255;
	dtman_use_arena(arena, sizeof arena);
	b = dtman_compile(board, sizeof board - 1, true, SEED, base, sizeof base);
	o = dtman_compile(hat, sizeof hat - 1, false, SEED, overlay, sizeof overlay);
	if (b.status != DTMAN_WRITTEN || o.status != DTMAN_WRITTEN)
		return 255;
	x = dtman_overlay(base, b.length, overlay, o.length, SEED, both, sizeof both);
	if (x.status != DTMAN_WRITTEN)
		return 255;
	speed = speed_of(both, x.length);
	if (dtman_view_cell(speed.bytes, speed.length, 0, &cell).status != DTMAN_VIEW_DONE)
		return 255;
	return cell;
}
