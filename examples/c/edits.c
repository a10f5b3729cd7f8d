/*
 * Each call that changes a blob in place, and each way in which one ends, over a blob in a static buffer; behind each change the blob is
 * opened and walked whole. No memory but the buffer's.
 */
#include <stdio.h>

#include "dtman_view.h"

enum { LONG = 125, ROOM = 512 };

/* `/ { chosen { bootargs = "console=ttyS0"; }; };`, 125 bytes, and room. */
static uint8_t blob[ROOM] = {
	0xd0, 13, 0xfe, 0xed, 0, 0, 0, 0x7d, 0, 0, 0, 0x38, 0, 0, 0, 0x74, 0, 0, 0, 0x28, 0, 0, 0, 17, 0, 0, 0, 16, 0, 0, 0, 0,
	0, 0, 0, 9, 0, 0, 0, 0x3c,
	0, 0, 0, 0, 0, 0, 0, 0, 0, 0, 0, 0, 0, 0, 0, 0,
	0, 0, 0, 1, 0, 0, 0, 0, 0, 0, 0, 1, 0x63, 0x68, 0x6f, 0x73, 0x65, 0x6e, 0, 0, 0, 0, 0, 3, 0, 0, 0, 14, 0, 0, 0, 0,
	0x63, 0x6f, 0x6e, 0x73, 0x6f, 0x6c, 0x65, 0x3d, 0x74, 0x74, 0x79, 0x53, 0x30, 0, 0, 0, 0, 0, 0, 2, 0, 0, 0, 2, 0, 0, 0, 9,
	0x62, 0x6f, 0x6f, 0x74, 0x61, 0x72, 0x67, 0x73, 0
};

#define TEXT(text) (text), sizeof(text) - 1

static void tell_properties(const struct dtman_view *view, size_t node)
{
	struct dtman_view_property property = DTMAN_NO_PROPERTY;
	struct dtman_view_told told = dtman_view_first_property(view, node);

	for (; told.status == DTMAN_VIEW_DONE; told = dtman_view_next_property(view, told.at)) {
		dtman_view_property(view, told.at, &property);
		printf(" %.*s of %zu", (int)property.name.length, (const char *)property.name.bytes, property.value.length);
	}
}

/* A line a node: how deep it stands and its parent's name, its own, and its properties. */
static void walk(void)
{
	struct dtman_view view = DTMAN_NO_VIEW;
	struct dtman_view_part name = DTMAN_NO_PART, above = DTMAN_NO_PART;
	struct dtman_view_told told = dtman_view_open(blob, ROOM, &view), up;

	if (told.status != DTMAN_VIEW_DONE) {
		printf("  no blob: %u\n", told.number);
		return;
	}
	for (told = dtman_view_root(&view); told.status == DTMAN_VIEW_DONE; told = dtman_view_next_node(&view, told.at)) {
		dtman_view_name(&view, told.at, &name);
		printf("  %zu /%.*s", dtman_view_depth(&view, told.at).at, (int)name.length, (const char *)name.bytes);
		up = dtman_view_parent(&view, told.at);
		if (up.status == DTMAN_VIEW_DONE) {
			dtman_view_name(&view, up.at, &above);
			printf(" in /%.*s", (int)above.length, (const char *)above.bytes);
		}
		tell_properties(&view, told.at);
		putchar('\n');
	}
}

static void tell(const char *what, struct dtman_view_told told)
{
	static const char *const ends[] = { "done", NULL, "refused", NULL, "nothing", NULL, NULL, NULL, "bad offset", "bad path", "other length",
		"unordered", "short", "bad name", "root", "exists", "too deep", "end pair" };

	printf("%s: %s", what, ends[told.status]);
	if (told.status == DTMAN_EDIT_SHORT)
		printf(", %zu", told.at);
	putchar('\n');
	if (told.status == DTMAN_VIEW_DONE)
		walk();
}

static void add_nodes(void)
{
	tell("reserve, too little room", dtman_edit_reserve(blob, LONG, 0x1000, 0x100));
	tell("add, too little room", dtman_edit_add_node(blob, LONG, TEXT("/"), TEXT("memory@80000000")));
	tell("add", dtman_edit_add_node(blob, ROOM, TEXT("/"), TEXT("memory@80000000")));
	tell("add again", dtman_edit_add_node(blob, ROOM, TEXT("/"), TEXT("memory@80000000")));
	tell("add, a name with a space", dtman_edit_add_node(blob, ROOM, TEXT("/"), TEXT("a b")));
	tell("add, to no node", dtman_edit_add_node(blob, ROOM, TEXT("/soc"), TEXT("uart")));
	tell("add, to no path", dtman_edit_add_node(blob, ROOM, TEXT("soc"), TEXT("uart")));
	tell("add below", dtman_edit_add_node(blob, ROOM, TEXT("/chosen"), TEXT("framebuffer")));
	tell("set", dtman_edit_set(blob, ROOM, TEXT("/memory@80000000"), TEXT("reg"), "\x80\0\0\0\x10\0\0", 8));
}

static void take_out(void)
{
	tell("delete a property", dtman_edit_delete_property(blob, ROOM, TEXT("/chosen"), TEXT("bootargs")));
	tell("delete it again", dtman_edit_delete_property(blob, ROOM, TEXT("/chosen"), TEXT("bootargs")));
	tell("delete a property of no node", dtman_edit_delete_property(blob, ROOM, TEXT("/soc"), TEXT("bootargs")));
	tell("delete the root", dtman_edit_delete_node(blob, ROOM, TEXT("/")));
	tell("delete a node", dtman_edit_delete_node(blob, ROOM, TEXT("/chosen")));
	tell("delete it again", dtman_edit_delete_node(blob, ROOM, TEXT("/chosen")));
	tell("delete no path", dtman_edit_delete_node(blob, ROOM, TEXT("chosen")));
}

/* The pairs of the reserved memory. */
static void tell_reservations(void)
{
	struct dtman_view view = DTMAN_NO_VIEW;
	struct dtman_view_reservation pair = { 0, 0 };

	dtman_view_open(blob, ROOM, &view);
	for (size_t i = 0; dtman_view_reservation(&view, i, &pair).status == DTMAN_VIEW_DONE; i++)
		printf("  %llx, %llx\n", (unsigned long long)pair.address, (unsigned long long)pair.size);
}

static void reserve(void)
{
	tell("reserve nothing", dtman_edit_reserve(blob, ROOM, 0, 0));
	tell("reserve", dtman_edit_reserve(blob, ROOM, 0x1000, 0x100));
	tell("reserve more", dtman_edit_reserve(blob, ROOM, 0, 0x200));
	tell_reservations();
	tell("unreserve", dtman_edit_unreserve(blob, ROOM, 0));
	tell_reservations();
	tell("unreserve, behind the last", dtman_edit_unreserve(blob, ROOM, 1));
}

/* Of version 16, whose header doesn't tell where the structure block ends, nothing is moved; and no blob is refused. */
static void refuse(void)
{
	blob[23] = 16;
	tell("add, version 16", dtman_edit_add_node(blob, ROOM, TEXT("/"), TEXT("soc")));
	blob[0] = 0;
	tell("delete, no blob", dtman_edit_delete_node(blob, ROOM, TEXT("/memory@80000000")));
}

int main(void)
{
	add_nodes();
	take_out();
	reserve();
	refuse();
	return 0;
}
