/*
 * A blob walked, looked up and changed in place by the view and by libfdt: view BLOB. Prints nanoseconds an operation, the least of several rounds.
 */
#include <libfdt.h>
#include <stdio.h>
#include <stdlib.h>
#include <string.h>
#include <time.h>

#include "dtman_view.h"

enum { ROUNDS = 15, PATHS = 200, LONGEST = 4096, ROOM = 65536 };

struct input {
	uint8_t *blob;
	size_t length;
	uint8_t *roomy; /* the blob, with room behind it */
	struct dtman_view view;
	char *paths[PATHS]; /* spread over the nodes */
	int path_count;
	uint32_t phandle; /* the last one */
};

static uint64_t sink; /* what is found, so that nothing is left out */

static double now(void)
{
	struct timespec at;

	clock_gettime(CLOCK_PROCESS_CPUTIME_ID, &at);
	return at.tv_sec * 1e9 + at.tv_nsec;
}

static struct dtman_view_told told;

static void open_view(struct input *in)
{
	told = dtman_view_open(in->blob, in->length, &in->view);
	sink += told.status;
}

static void open_fdt(struct input *in)
{
	sink += fdt_check_full(in->blob, in->length);
}

static void walk_view(struct input *in)
{
	struct dtman_view_property property = DTMAN_NO_PROPERTY;
	size_t node = dtman_view_root(&in->view).at;

	for (;;) {
		for (told = dtman_view_first_property(&in->view, node); told.status == DTMAN_VIEW_DONE; told = dtman_view_next_property(&in->view, told.at)) {
			dtman_view_property(&in->view, told.at, &property);
			sink += property.value.length + property.name.bytes[0];
		}
		told = dtman_view_next_node(&in->view, node);
		if (told.status != DTMAN_VIEW_DONE)
			return;
		node = told.at;
	}
}

static void walk_fdt(struct input *in)
{
	int node, property, length;
	const char *name;

	for (node = 0; node >= 0; node = fdt_next_node(in->blob, node, NULL))
		fdt_for_each_property_offset(property, in->blob, node) {
			fdt_getprop_by_offset(in->blob, property, &name, &length);
			sink += length + (uint8_t)name[0];
		}
}

static void find_view(struct input *in)
{
	for (int i = 0; i < in->path_count; i++) {
		struct dtman_view_part part = DTMAN_NO_PART;

		told = dtman_view_find(&in->view, (const uint8_t *)in->paths[i], strlen(in->paths[i]));
		dtman_view_value(&in->view, told.at, (const uint8_t *)"compatible", 10, &part);
		sink += part.length;
	}
}

static void find_fdt(struct input *in)
{
	for (int i = 0; i < in->path_count; i++) {
		int length = 0, node = fdt_path_offset(in->blob, in->paths[i]);

		fdt_getprop(in->blob, node, "compatible", &length);
		sink += length > 0 ? length : 0;
	}
}

static void phandle_view(struct input *in)
{
	sink += dtman_view_by_phandle(&in->view, in->phandle).at;
}

static void phandle_fdt(struct input *in)
{
	sink += fdt_node_offset_by_phandle(in->blob, in->phandle);
}

/* The same value again, so that both sides go on with the same blob. */
static void set_view(struct input *in)
{
	uint8_t value[LONGEST];

	for (int i = 0; i < in->path_count; i++) {
		struct dtman_view_part part = DTMAN_NO_PART;

		told = dtman_view_find(&in->view, (const uint8_t *)in->paths[i], strlen(in->paths[i]));
		dtman_view_value(&in->view, told.at, (const uint8_t *)"compatible", 10, &part);
		memcpy(value, part.bytes, part.length);
		told = dtman_edit_set_in_place(in->blob, in->length, (const uint8_t *)in->paths[i], strlen(in->paths[i]), (const uint8_t *)"compatible", 10, value, part.length);
		sink += told.status;
	}
}

static void set_fdt(struct input *in)
{
	uint8_t value[LONGEST];

	for (int i = 0; i < in->path_count; i++) {
		int length = 0, node = fdt_path_offset(in->blob, in->paths[i]);
		const void *part = fdt_getprop(in->blob, node, "compatible", &length);

		length = length > 0 ? length : 0;
		memcpy(value, part, length);
		sink += fdt_setprop_inplace(in->blob, fdt_path_offset(in->blob, in->paths[i]), "compatible", value, length);
	}
}

/* Values of two lengths in turn, so that what stands behind the property moves each time. */
static void resize_view(struct input *in)
{
	static const uint8_t value[24];

	for (int i = 0; i < in->path_count; i++)
		for (size_t length = 8; length <= sizeof value; length += 16) {
			told = dtman_edit_set(in->roomy, in->length + ROOM, in->paths[i], strlen(in->paths[i]), "bench", 5, value, length);
			sink += told.status;
		}
}

static void resize_fdt(struct input *in)
{
	static const uint8_t value[24];

	for (int i = 0; i < in->path_count; i++)
		for (size_t length = 8; length <= sizeof value; length += 16)
			sink += fdt_setprop(in->roomy, fdt_path_offset(in->roomy, in->paths[i]), "bench", value, length);
}

/* A property that is new, and gone again. */
static void delete_view(struct input *in)
{
	static const uint8_t value[24];

	for (int i = 0; i < in->path_count; i++) {
		told = dtman_edit_set(in->roomy, in->length + ROOM, in->paths[i], strlen(in->paths[i]), "brief", 5, value, sizeof value);
		sink += told.status;
		told = dtman_edit_delete_property(in->roomy, in->length + ROOM, in->paths[i], strlen(in->paths[i]), "brief", 5);
		sink += told.status;
	}
}

static void delete_fdt(struct input *in)
{
	static const uint8_t value[24];

	for (int i = 0; i < in->path_count; i++) {
		sink += fdt_setprop(in->roomy, fdt_path_offset(in->roomy, in->paths[i]), "brief", value, sizeof value);
		sink += fdt_delprop(in->roomy, fdt_path_offset(in->roomy, in->paths[i]), "brief");
	}
}

/* A node that is new, and gone again. */
static void node_view(struct input *in)
{
	char path[LONGEST + 16];

	for (int i = 0; i < in->path_count; i++) {
		int length = sprintf(path, "%s/brief", in->paths[i][1] ? in->paths[i] : "");

		told = dtman_edit_add_node(in->roomy, in->length + ROOM, in->paths[i], strlen(in->paths[i]), "brief", 5);
		sink += told.status;
		told = dtman_edit_delete_node(in->roomy, in->length + ROOM, path, length);
		sink += told.status;
	}
}

static void node_fdt(struct input *in)
{
	char path[LONGEST + 16];

	for (int i = 0; i < in->path_count; i++) {
		sprintf(path, "%s/brief", in->paths[i][1] ? in->paths[i] : "");
		sink += fdt_add_subnode(in->roomy, fdt_path_offset(in->roomy, in->paths[i]), "brief");
		sink += fdt_del_node(in->roomy, fdt_path_offset(in->roomy, path));
	}
}

static double least(void (*step)(struct input *), struct input *in, int times)
{
	double best = 1e18;

	for (int round = 0; round < ROUNDS; round++) {
		double begun = now();

		for (int i = 0; i < times; i++)
			step(in);
		begun = (now() - begun) / times;
		best = begun < best ? begun : best;
	}
	return best;
}

static void measure(const char *what, struct input *in, void (*view)(struct input *), void (*fdt)(struct input *), int times, int of)
{
	double one = least(view, in, times) / of, other = least(fdt, in, times) / of;

	printf("%s: %.0f ns, libfdt %.0f ns, %.2f times\n", what, one, other, one / other);
}

static void read_blob(struct input *in, const char *path)
{
	FILE *file = fopen(path, "rb");

	if (!file || fseek(file, 0, SEEK_END)) {
		perror(path);
		exit(3);
	}
	in->length = ftell(file);
	in->blob = malloc(in->length);
	rewind(file);
	if (fread(in->blob, 1, in->length, file) != in->length)
		exit(3);
	fclose(file);
	in->roomy = malloc(in->length + ROOM);
	if (!in->roomy || fdt_open_into(in->blob, in->roomy, in->length + ROOM))
		exit(3);
}

static void choose(struct input *in)
{
	int count = 0, at = 0, node;
	char path[LONGEST];

	for (node = 0; node >= 0; node = fdt_next_node(in->blob, node, NULL)) {
		uint32_t phandle = fdt_get_phandle(in->blob, node);

		count++;
		in->phandle = phandle ? phandle : in->phandle;
	}
	for (node = 0; node >= 0 && in->path_count < PATHS; node = fdt_next_node(in->blob, node, NULL))
		if (at++ % (count / PATHS + 1) == 0 && !fdt_get_path(in->blob, node, path, sizeof path))
			in->paths[in->path_count++] = strdup(path);
}

int main(int count, char **words)
{
	struct input in = { .view = DTMAN_NO_VIEW };

	if (count != 2)
		return 2;
	read_blob(&in, words[1]);
	choose(&in);
	measure("open", &in, open_view, open_fdt, 20, 1);
	measure("all properties", &in, walk_view, walk_fdt, 20, 1);
	measure("a property by its path", &in, find_view, find_fdt, 1, in.path_count);
	measure("a node by its phandle", &in, phandle_view, phandle_fdt, 10, 1);
	measure("a property read and set in place by its path", &in, set_view, set_fdt, 1, in.path_count);
	measure("a property set to another length by its path", &in, resize_view, resize_fdt, 1, 2 * in.path_count);
	measure("a property added and deleted by its path", &in, delete_view, delete_fdt, 1, in.path_count);
	measure("a node added and deleted by its path", &in, node_view, node_fdt, 1, in.path_count);
	return sink == 42;
}
