/*
 * The boot arguments of a blob in a static buffer set in place, and a property added in the room behind it, without libc, memory or a
 * system, as before a boot loader has any: `make freestanding` links this with nothing but libdtman_view.a. It ends with the last digit of what the
 * blob then has, or with 255.
 */
#include "dtman_view.h"

/* `/ { chosen { bootargs = "console=ttyS0"; }; };`, 125 bytes; behind it the room for a property, 20 bytes, and its name, 12. */
static uint8_t blob[125 + 20 + 12] = {
	0xd0, 13, 0xfe, 0xed, 0, 0, 0, 0x7d, 0, 0, 0, 0x38, 0, 0, 0, 0x74, 0, 0, 0, 0x28, 0, 0, 0, 17, 0, 0, 0, 16, 0, 0, 0, 0,
	0, 0, 0, 9, 0, 0, 0, 0x3c,
	0, 0, 0, 0, 0, 0, 0, 0, 0, 0, 0, 0, 0, 0, 0, 0,
	0, 0, 0, 1, 0, 0, 0, 0, 0, 0, 0, 1, 0x63, 0x68, 0x6f, 0x73, 0x65, 0x6e, 0, 0, 0, 0, 0, 3, 0, 0, 0, 14, 0, 0, 0, 0,
	0x63, 0x6f, 0x6e, 0x73, 0x6f, 0x6c, 0x65, 0x3d, 0x74, 0x74, 0x79, 0x53, 0x30, 0, 0, 0, 0, 0, 0, 2, 0, 0, 0, 2, 0, 0, 0, 9,
	0x62, 0x6f, 0x6f, 0x74, 0x61, 0x72, 0x67, 0x73, 0
};

static const uint8_t chosen[] = "/chosen", bootargs[] = "bootargs", wanted[] = "console=ttyS1";

/* Adds a property in the room that is there; one of four bytes more has too little. */
static int add(void)
{
	struct dtman_view_told told = dtman_edit_set(blob, sizeof blob, chosen, 7, "stdout-path", 11, "serial0", 8);

	if (told.status != DTMAN_VIEW_DONE)
		return 0;
	told = dtman_edit_set(blob, sizeof blob, chosen, 7, "stdout-path", 11, "serial0:9", 10);
	return told.status == DTMAN_EDIT_SHORT && told.at == sizeof blob + 4;
}

long run(void);

long run(void)
{
	struct dtman_view view = DTMAN_NO_VIEW;
	struct dtman_view_part value = DTMAN_NO_PART;

	if (dtman_edit_set_in_place(blob, sizeof blob, chosen, 7, bootargs, 8, wanted, sizeof wanted).status != DTMAN_VIEW_DONE)
		return 255;
	if (dtman_edit_set_in_place(blob, sizeof blob, chosen, 7, bootargs, 8, wanted, 3).status != DTMAN_EDIT_OTHER_LENGTH)
		return 255;
	if (!add() || dtman_view_open(blob, sizeof blob, &view).status != DTMAN_VIEW_DONE)
		return 255;
	if (dtman_view_value(&view, dtman_view_find(&view, chosen, 7).at, "stdout-path", 11, &value).status != DTMAN_VIEW_DONE || value.length != 8)
		return 255;
	if (dtman_view_value(&view, dtman_view_find(&view, chosen, 7).at, bootargs, 8, &value).status != DTMAN_VIEW_DONE || value.length != sizeof wanted)
		return 255;
	return value.bytes[sizeof wanted - 2] - '0';
}
