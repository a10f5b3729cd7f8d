/*
 * A boot loader's step: boot BLOB BYTES ARGUMENTS START SIZE OUT
 *
 * In a buffer with some room: finds the board's memory, makes its first region one of BYTES, tells the kernel its ARGUMENTS and where the
 * initial file system stands, keeps the kernel out of that by reserving it, and writes the blob. All of it in place and without memory of its
 * own, by libdtman_view.a alone; boot_libfdt.c is the same by libfdt.
 */
#include <stdio.h>
#include <stdlib.h>
#include <string.h>

#include "dtman_view.h"

#define ROOM (1 << 20)

static uint8_t buffer[ROOM];

/* A text with its length, as calls take one. */
#define TEXT(text) (text), strlen(text)

static struct dtman_view_told checked(const char *what, struct dtman_view_told told)
{
	if (told.status == DTMAN_VIEW_DONE)
		return told;
	fprintf(stderr, "%s: status %u, error %u, %zu\n", what, told.status, told.number, told.at);
	exit(1);
}

static void write_blob(const char *path)
{
	size_t size = (size_t)buffer[4] << 24 | buffer[5] << 16 | buffer[6] << 8 | buffer[7];
	FILE *file = fopen(path, "wb");

	if (!file || fwrite(buffer, 1, size, file) != size || fclose(file)) {
		perror(path);
		exit(1);
	}
}

static struct dtman_view opened(size_t length)
{
	struct dtman_view view = DTMAN_NO_VIEW;

	checked("open", dtman_view_open(buffer, length, &view));
	return view;
}

/* The blob, which has to be there whole: what stands behind it in the buffer is no part of it. */
static void read_blob(const char *path)
{
	FILE *file = fopen(path, "rb");

	if (!file) {
		perror(path);
		exit(1);
	}
	opened(fread(buffer, 1, sizeof buffer, file));
	fclose(file);
}

static int is_memory(const struct dtman_view *view, size_t node)
{
	struct dtman_view_part kind = DTMAN_NO_PART;
	struct dtman_view_told told = dtman_view_value(view, node, TEXT("device_type"), &kind);

	return told.status == DTMAN_VIEW_DONE && kind.length == 7 && !memcmp(kind.bytes, "memory", 7);
}

/* The first node below the root that is memory. */
static size_t find_memory(const struct dtman_view *view)
{
	struct dtman_view_told told = dtman_view_first_child(view, dtman_view_root(view).at);

	while (told.status == DTMAN_VIEW_DONE && !is_memory(view, told.at))
		told = dtman_view_next_sibling(view, told.at);
	return checked("memory", told).at;
}

static void print_memory(void)
{
	struct dtman_view view = opened(sizeof buffer);
	struct dtman_view_region region;
	struct dtman_view_reservation held;
	size_t node = find_memory(&view), root = dtman_view_root(&view).at;

	for (size_t i = 0; dtman_view_region(&view, root, node, i, &region).status == DTMAN_VIEW_DONE; i++)
		printf("memory: %#llx bytes at %#llx\n", (unsigned long long)region.size, (unsigned long long)region.address);
	for (size_t i = 0; dtman_view_reservation(&view, i, &held).status == DTMAN_VIEW_DONE; i++)
		printf("reserved: %#llx bytes at %#llx\n", (unsigned long long)held.size, (unsigned long long)held.address);
}

/* A number of so many cells, the higher ones first. */
static size_t put_number(uint8_t *to, uint32_t cells, uint64_t number)
{
	for (size_t i = 0; i < 4 * cells; i++)
		to[4 * cells - 1 - i] = i < 8 ? number >> 8 * i : 0;
	return 4 * cells;
}

static void set(const char *path, const char *name, const void *value, size_t length)
{
	checked(name, dtman_edit_set(buffer, sizeof buffer, TEXT(path), TEXT(name), value, length));
}

/* The first region of the memory gets this size, and is the only one then. */
static void set_memory(uint64_t size)
{
	struct dtman_view view = opened(sizeof buffer);
	struct dtman_view_reg_cells cells;
	struct dtman_view_region region;
	struct dtman_view_part name = DTMAN_NO_PART;
	size_t node = find_memory(&view), root = dtman_view_root(&view).at, length;
	char path[256];
	uint8_t reg[16];

	checked("cells", dtman_view_reg_cells(&view, root, &cells));
	checked("reg", dtman_view_region(&view, root, node, 0, &region));
	checked("name", dtman_view_name(&view, node, &name));
	snprintf(path, sizeof path, "/%.*s", (int)name.length, (const char *)name.bytes);
	length = put_number(reg, cells.address, region.address);
	length += put_number(reg + length, cells.size, size);
	set(path, "reg", reg, length);
}

static void set_double(const char *name, uint64_t number)
{
	uint8_t value[8];

	set("/chosen", name, value, put_number(value, 2, number));
}

/* Where the initial file system stands, and that nothing else may stand there. */
static void set_initial_files(uint64_t start, uint64_t size)
{
	set_double("linux,initrd-start", start);
	set_double("linux,initrd-end", start + size);
	checked("reserve", dtman_edit_reserve(buffer, sizeof buffer, start, size));
}

static void print_arguments(void)
{
	struct dtman_view view = opened(sizeof buffer);
	struct dtman_view_part text = DTMAN_NO_PART;

	checked("bootargs", dtman_view_value(&view, checked("/chosen", dtman_view_find(&view, TEXT("/chosen"))).at, TEXT("bootargs"), &text));
	checked("bootargs", dtman_view_string(text.bytes, text.length, 0, &text));
	printf("arguments: %.*s\n", (int)text.length, (const char *)text.bytes);
}

int main(int count, char **words)
{
	if (count != 7) {
		fprintf(stderr, "usage: boot BLOB BYTES ARGUMENTS START SIZE OUT\n");
		return 2;
	}
	read_blob(words[1]);
	print_memory();
	set_memory(strtoull(words[2], NULL, 0));
	set("/chosen", "bootargs", words[3], strlen(words[3]) + 1);
	set_initial_files(strtoull(words[4], NULL, 0), strtoull(words[5], NULL, 0));
	print_memory();
	print_arguments();
	write_blob(words[6]);
	return 0;
}
