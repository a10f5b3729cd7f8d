/*
 * A blob's property found without libc, memory or a system, as before a boot loader has any: `make freestanding` links this with nothing but
 * libdtman_view.a. It ends with the cell that the root's property `a` has, or with 255.
 */
#include "dtman_view.h"

/* `/ { a = <7>; };` */
static const uint8_t blob[] = {
	0xd0, 0x0d, 0xfe, 0xed, 0, 0, 0, 0x5a, 0, 0, 0, 0x38, 0, 0, 0, 0x58, 0, 0, 0, 0x28, 0, 0, 0, 17, 0, 0, 0, 16, 0, 0, 0, 0, 0, 0, 0, 2, 0, 0, 0, 0x20,
	0, 0, 0, 0, 0, 0, 0, 0, 0, 0, 0, 0, 0, 0, 0, 0,
	0, 0, 0, 1, 0, 0, 0, 0, 0, 0, 0, 3, 0, 0, 0, 4, 0, 0, 0, 0, 0, 0, 0, 7, 0, 0, 0, 2, 0, 0, 0, 9,
	'a', 0
};

long run(void);

long run(void)
{
	struct dtman_view view = DTMAN_NO_VIEW;
	struct dtman_view_part value = DTMAN_NO_PART;

	if (dtman_view_open(blob, sizeof blob, &view).status != DTMAN_VIEW_DONE)
		return 255;
	if (dtman_view_value(&view, dtman_view_root(&view).at, (const uint8_t *)"a", 1, &value).status != DTMAN_VIEW_DONE || value.length != 4)
		return 255;
	return value.bytes[3];
}
