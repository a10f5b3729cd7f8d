/*
 * Changes of a blob at random, by libdtman_view.a and by libfdt side by side: changes BLOB COUNT. Behind each change both have the same structure
 * block, strings and reserved memory, byte by byte, or refuse it both; and of the node that is changed both tell the same parent and depth. A new
 * property isn't tried, since libfdt puts it first.
 */
#include <libfdt.h>
#include <stdio.h>
#include <stdlib.h>
#include <string.h>

#include "dtman_view.h"

enum { ROOM = 65536, LONGEST = 4096, MOST = 4 << 20 };

static char raw[MOST], ours[MOST + ROOM], theirs[MOST + ROOM];
static size_t room;

static unsigned chance(unsigned many)
{
	static unsigned seed = 1;

	seed = seed * 1103515245 + 12345;
	return (seed >> 8) % many;
}

static void fail(const char *what, const char *path)
{
	printf("%s at %s\n", what, path);
	exit(1);
}

static int are_same(const char *a, const char *b, size_t at, size_t size)
{
	return !memcmp(a + at, b + at, size);
}

static void compare(const char *path)
{
	size_t at = fdt_off_dt_struct(ours), size = fdt_size_dt_struct(ours), names = fdt_off_dt_strings(ours), text = fdt_size_dt_strings(ours);

	if (at != fdt_off_dt_struct(theirs) || size != fdt_size_dt_struct(theirs) || names != fdt_off_dt_strings(theirs) || text != fdt_size_dt_strings(theirs))
		fail("blocks elsewhere", path);
	if (!are_same(ours, theirs, at, size) || !are_same(ours, theirs, names, text))
		fail("other bytes", path);
	if (!are_same(ours, theirs, fdt_off_mem_rsvmap(ours), at - fdt_off_mem_rsvmap(ours)))
		fail("other reserved memory", path);
}

/* A node at random, and its path. */
static int choose(char *path)
{
	int count = 0, node;

	for (node = 0; node >= 0; node = fdt_next_node(theirs, node, NULL))
		count++;
	count = chance(count);
	for (node = 0; count--; node = fdt_next_node(theirs, node, NULL))
		;
	fdt_get_path(theirs, node, path, LONGEST);
	return node;
}

static void look(const char *path, int node)
{
	struct dtman_view view = DTMAN_NO_VIEW;
	struct dtman_view_told told;
	int parent = fdt_parent_offset(theirs, node);

	if (dtman_view_open(ours, room, &view).status != DTMAN_VIEW_DONE)
		fail("no blob", path);
	told = dtman_view_find(&view, path, strlen(path));
	if (told.status != DTMAN_VIEW_DONE || told.at != (size_t)node || dtman_view_depth(&view, node).at != (size_t)fdt_node_depth(theirs, node))
		fail("another place or depth", path);
	told = dtman_view_parent(&view, node);
	if (parent < 0 ? told.status != DTMAN_VIEW_NOTHING : told.status != DTMAN_VIEW_DONE || told.at != (size_t)parent)
		fail("another parent", path);
}

static void drop_property(const char *path, int node, int *theirs_end, struct dtman_view_told *ours_end)
{
	int at = fdt_first_property_offset(theirs, node), next;
	const char *found = "none";
	char name[256];

	for (int skip = chance(4); at >= 0 && skip && (next = fdt_next_property_offset(theirs, at)) >= 0; skip--)
		at = next;
	if (at >= 0)
		fdt_getprop_by_offset(theirs, at, &found, NULL);
	snprintf(name, sizeof name, "%s", found);
	*theirs_end = fdt_delprop(theirs, node, name);
	*ours_end = dtman_edit_delete_property(ours, room, path, strlen(path), name, strlen(name));
}

static void change(const char *path, int node, int *theirs_end, struct dtman_view_told *ours_end)
{
	unsigned which = chance(16);
	uint64_t address = chance(99), size = 1 + chance(99);
	char name[64];

	if (which < 6) {
		drop_property(path, node, theirs_end, ours_end);
	} else if (which < 11 || !node) {
		sprintf(name, "new-%u@%x", chance(7), chance(3));
		*theirs_end = fdt_add_subnode(theirs, node, name);
		*ours_end = dtman_edit_add_node(ours, room, path, strlen(path), name, strlen(name));
	} else if (which < 12) {
		*theirs_end = fdt_del_node(theirs, node);
		*ours_end = dtman_edit_delete_node(ours, room, path, strlen(path));
	} else if (which < 14) {
		*theirs_end = fdt_add_mem_rsv(theirs, address, size);
		*ours_end = dtman_edit_reserve(ours, room, address, size);
	} else {
		size = chance(fdt_num_mem_rsv(theirs) + 1);
		*theirs_end = fdt_del_mem_rsv(theirs, size);
		*ours_end = dtman_edit_unreserve(ours, room, size);
	}
}

int main(int count, char **words)
{
	FILE *file = count == 3 ? fopen(words[1], "rb") : NULL;
	char path[LONGEST];
	int made = 0, refused = 0;

	if (!file)
		return 2;
	room = fread(raw, 1, sizeof raw, file) + ROOM;
	fclose(file);
	if (fdt_open_into(raw, theirs, room) || fdt_open_into(raw, ours, room))
		return 3;
	for (int left = atoi(words[2]); left; left--) {
		struct dtman_view_told ours_end;
		int node = choose(path), theirs_end;

		look(path, node);
		change(path, node, &theirs_end, &ours_end);
		if ((theirs_end < 0) != (ours_end.status != DTMAN_VIEW_DONE))
			fail("refused by one", path);
		*(theirs_end < 0 ? &refused : &made) += 1;
		compare(path);
	}
	printf("%s: %d changes alike, %d refused by both\n", words[1], made, refused);
	return 0;
}
