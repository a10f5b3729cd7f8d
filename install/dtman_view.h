/*
 * dtman_view.h: a blob read in place. Over the caller's bytes, without memory of the library's own and without recursion: for a boot loader,
 * before there is a heap.
 *
 * Blobs are the flattened devicetrees of the Devicetree Specification v0.4, chapter 5, of versions 16 and 17. dtman_view_open makes the
 * tests of a blob once; each other call then reads by offsets. A call over a view never reads outside the blob, whatever offset it is given.
 *
 * Bytes. A pointer is followed by how many bytes stand there, and is never NULL: DTMAN_VIEW_NONE, 0 says none. Names, paths and texts need
 * no NUL at their end; those that a view hands out have none counted. The blob is only read. It must stay as it was opened, and where it
 * was, as long as the view and what the view hands out are used. It needs no alignment.
 *
 * Offsets. A node and a property are named by where they begin in the structure block, as libfdt counts. An offset that a call handed out
 * is right; where no node begins, the call answers DTMAN_BAD_OFFSET. An offset inside of a value that looks like a node is taken for one.
 *
 * Names. Siblings of one name, and properties of one name, are not looked for: of equals each call answers the first. The program's other
 * calls refuse such a blob by 37.
 *
 * The library takes no memory, opens no file, makes no system call and has no state of its own. It wants nothing of libc, or of these at
 * most: memcpy, memmove, memset, memcmp and bcmp. docs/libfdt.md says which call stands for which of libfdt.
 */
#ifndef DTMAN_VIEW_H
#define DTMAN_VIEW_H

#include <stddef.h>
#include <stdint.h>

#ifdef __cplusplus
extern "C" {
#endif

/* Which calls there are: it grows by one with each call more, and by a hundred where one changes. */
#define DTMAN_VIEW_VERSION 227

/* No bytes. */
#define DTMAN_VIEW_NONE ((const uint8_t *)"")

/* How a call ended. */
enum {
	DTMAN_VIEW_DONE = 0,       /* it found what it tells */
	DTMAN_VIEW_REFUSED = 2,    /* of open and of changes: the blob has the fault with `number`, 30 to 38 */
	DTMAN_VIEW_NOTHING = 4,    /* there is none */
	DTMAN_VIEW_BAD_OFFSET = 8, /* no node, or no property, begins at the offset */
	DTMAN_VIEW_BAD_PATH = 9,   /* the bytes are no path */
	DTMAN_EDIT_OTHER_LENGTH = 10, /* of changes alone: the value has another length */
	DTMAN_EDIT_UNORDERED = 11, /* of changes alone: the blocks don't stand in order and apart, or the blob has version 16 */
	DTMAN_EDIT_SHORT = 12,     /* of changes alone: the buffer wants `at` bytes */
	DTMAN_EDIT_BAD_NAME = 13,  /* of changes alone: what is added has no lawful name */
	DTMAN_EDIT_ROOT = 14,      /* of changes alone: the root isn't deleted */
	DTMAN_EDIT_EXISTS = 15,    /* of changes alone: the node has a child of the name */
	DTMAN_EDIT_TOO_DEEP = 16,  /* of changes alone: 64 nodes are round the node, so it has no child */
	DTMAN_EDIT_END_PAIR = 17,  /* of changes alone: a size of zero, which ends the list of reserved memory for some readers */
	DTMAN_VIEW_OUT = 18        /* of dtman_view_step alone: a node ended that is in none of those that are counted */
};

struct dtman_view_told {
	uint32_t status; /* one of the above */
	uint32_t number; /* of the fault where refused, of a token where one is told, else 0 */
	size_t at;       /* the offset of what was found, or how many bytes are wanted where SHORT, else 0 */
};

/* Bytes of the caller's blob. */
struct dtman_view_part {
	const uint8_t *bytes;
	size_t length;
};

/* A view is the caller's memory; `= DTMAN_NO_VIEW` before it is opened. What stands in it is read, and only open writes it. */
struct dtman_view {
	struct dtman_view_part reserves, structure, strings;
	uint32_t boot_cpu; /* the processor that boots */
};

#define DTMAN_NO_PART { DTMAN_VIEW_NONE, 0 }
#define DTMAN_NO_VIEW { DTMAN_NO_PART, DTMAN_NO_PART, DTMAN_NO_PART, 0 }

struct dtman_view_property {
	struct dtman_view_part name, value;
};

#define DTMAN_NO_PROPERTY { DTMAN_NO_PART, DTMAN_NO_PART }

struct dtman_view_reservation {
	uint64_t address, size;
};

/* How many cells of 32 bits an address and a size have in `reg`. */
struct dtman_view_reg_cells {
	uint32_t address, size;
};

/* An entry of `reg`. */
struct dtman_view_region {
	uint64_t address, size;
};

/*
 * The view of a blob. All tests of the blob are made here, in the order in which the program makes them, but for equal names.
 * REFUSED: 30 Truncated, 31 BadMagic, 32 BadVersion, 33 BadLayout, 34 BadToken, 35 BadString, 36 PropertyAfterNode, 37 BadTree,
 * 38 TooLarge. The view is then as it was.
 */
struct dtman_view_told dtman_view_open(const void *blob, size_t length, struct dtman_view *view);

/*
 * The view of a blob by its header alone, for a blob that was opened before, or where a look-up is all that is wanted: a few words are read.
 * Over a blob whose structure block is broken each call still returns, with some answer, and reads nothing outside. REFUSED by 30 to 33 or
 * 38; the view is then as it was.
 */
struct dtman_view_told dtman_view_over(const void *blob, size_t length, struct dtman_view *view);

/* The root. */
struct dtman_view_told dtman_view_root(const struct dtman_view *view);

/* The first child of a node. NOTHING where it has none. BAD_OFFSET. */
struct dtman_view_told dtman_view_first_child(const struct dtman_view *view, size_t node);

/* The next child of the same parent. NOTHING behind the last. BAD_OFFSET. */
struct dtman_view_told dtman_view_next_sibling(const struct dtman_view *view, size_t node);

/*
 * The next node in the order of the blob: a node stands before all below it, and a child with all below it before the next child. NOTHING
 * behind the last. BAD_OFFSET.
 */
struct dtman_view_told dtman_view_next_node(const struct dtman_view *view, size_t node);

/*
 * The same, with how deep the node stands in `deep`, where this one stands at `depth`: a child is one deeper. OUT where the node of depth 0
 * ends before another begins; `at` is then the offset behind its end. NOTHING behind the last, with the depth that is left in `deep`. OUT and
 * BAD_OFFSET leave it as it was.
 */
struct dtman_view_told dtman_view_step(const struct dtman_view *view, size_t node, uint32_t depth, size_t *deep);

/*
 * The parent of a node: the structure block is read from its beginning up to the node. NOTHING of the root. BAD_OFFSET, also where a value
 * only looks like a node.
 */
struct dtman_view_told dtman_view_parent(const struct dtman_view *view, size_t node);

/* How many nodes are round a node, as `at`: 0 of the root. It is read like the parent. BAD_OFFSET. */
struct dtman_view_told dtman_view_depth(const struct dtman_view *view, size_t node);

/* The child of a node by its whole name, unit address and all. NOTHING where it has no such child. BAD_OFFSET. */
struct dtman_view_told dtman_view_child(const struct dtman_view *view, size_t node, const void *name, size_t name_length);

/* The node at a path: `/`, or one or more times `/` and a whole name. NOTHING where there is none. BAD_PATH. */
struct dtman_view_told dtman_view_find(const struct dtman_view *view, const void *path, size_t path_length);

/*
 * The first child whose name is this one or, where the name has no unit address, this one with a unit address behind it. NOTHING where it
 * has no such child. BAD_OFFSET.
 */
struct dtman_view_told dtman_view_child_like(const struct dtman_view *view, size_t node, const void *name, size_t name_length);

/*
 * The node at a path as libfdt finds it: each name as dtman_view_child_like takes it, any number of slashes between two names, and in the
 * place of the first slash an alias, whose text begins with a slash. NOTHING where there is no such node. BAD_PATH where the path begins
 * with no slash and no alias.
 */
struct dtman_view_told dtman_view_find_like(const struct dtman_view *view, const void *path, size_t path_length);

/*
 * The node at the path that an alias stands for: the property of this name in `/aliases`. NOTHING where there is no such alias or no node
 * at its path. BAD_PATH where its text is no path.
 */
struct dtman_view_told dtman_view_alias(const struct dtman_view *view, const void *name, size_t name_length);

/* The first node in the order of the blob with a phandle. NOTHING where there is none. */
struct dtman_view_told dtman_view_by_phandle(const struct dtman_view *view, uint32_t phandle);

/* The next node behind this one, in the order of the blob, whose property `compatible` lists a text. NOTHING behind the last. BAD_OFFSET. */
struct dtman_view_told dtman_view_next_compatible(const struct dtman_view *view, size_t node, const void *text,
	size_t text_length);

/* The first property of a node. NOTHING where it has none. BAD_OFFSET. */
struct dtman_view_told dtman_view_first_property(const struct dtman_view *view, size_t node);

/* The next property of the same node. NOTHING behind the last. BAD_OFFSET. */
struct dtman_view_told dtman_view_next_property(const struct dtman_view *view, size_t property);

/* A node's name, with its unit address; the root's has no bytes. BAD_OFFSET, and `part` is then as it was. */
struct dtman_view_told dtman_view_name(const struct dtman_view *view, size_t node, struct dtman_view_part *part);

/* A property's name and value. BAD_OFFSET, and `into` is then as it was. */
struct dtman_view_told dtman_view_property(const struct dtman_view *view, size_t property, struct dtman_view_property *into);

/* The value of a node's property by its name. NOTHING where it has no such property, BAD_OFFSET; `part` is then as it was. */
struct dtman_view_told dtman_view_value(const struct dtman_view *view, size_t node, const void *name, size_t name_length,
	struct dtman_view_part *part);

/*
 * The token at an offset of the structure block, whatever stands before it: `number` is 1 where a node begins, 2 where one ends, 3 of a
 * property, 4 of a NOP, 9 at the end of the block; `at` is the offset behind it. BAD_OFFSET where no whole token stands.
 */
struct dtman_view_told dtman_view_token(const struct dtman_view *view, size_t at);

/* So many bytes of the structure block from an offset on. NOTHING where they aren't there whole, and `part` is then as it was. */
struct dtman_view_told dtman_view_raw(const struct dtman_view *view, size_t at, size_t count, struct dtman_view_part *part);

/* The text that begins at an offset of the strings. NOTHING where the NUL at its end lacks, and `part` is then as it was. */
struct dtman_view_told dtman_view_text_at(const struct dtman_view *view, size_t at, struct dtman_view_part *part);

/* How many bytes the reserved memory has, as `at`, with the 16 at its end that are zero. NOTHING where it has no end. */
struct dtman_view_told dtman_view_reserved_size(const struct dtman_view *view);

/* The reserved memory by its place, from 0 on. NOTHING behind the last, and `into` is then as it was. */
struct dtman_view_told dtman_view_reservation(const struct dtman_view *view, size_t index, struct dtman_view_reservation *into);

/*
 * How many cells the `reg` of a node's children has for an address and for a size: `#address-cells` and `#size-cells` of the node, 2 and 1
 * where it hasn't them. NOTHING where one of the two isn't one cell, BAD_OFFSET; `into` is then as it was.
 */
struct dtman_view_told dtman_view_reg_cells(const struct dtman_view *view, size_t parent, struct dtman_view_reg_cells *into);

/*
 * The entry of a node's `reg` by its place, from 0 on, with the cells that its parent tells. NOTHING where it isn't there whole, where a
 * count of cells is no cell or more than 2, and where an address has none; BAD_OFFSET where one of the two offsets is no node's. `into` is
 * then as it was.
 */
struct dtman_view_told dtman_view_region(const struct dtman_view *view, size_t parent, size_t node, size_t index,
	struct dtman_view_region *into);

/* The cell of a value by its place, counted in cells from 0. NOTHING where it isn't there whole, and `into` is then as it was. */
struct dtman_view_told dtman_view_cell(const void *value, size_t value_length, size_t place, uint32_t *into);

/* The number of two cells of a value, the higher one first, by the place of that one, counted in cells. NOTHING, as above. */
struct dtman_view_told dtman_view_double_cell(const void *value, size_t value_length, size_t place, uint64_t *into);

/*
 * The string of a list of strings by its place, from 0 on, without the NUL at its end. NOTHING behind the last and where the NUL lacks;
 * `part` is then as it was.
 */
struct dtman_view_told dtman_view_string(const void *value, size_t value_length, size_t place, struct dtman_view_part *part);

/*
 * The string that a list of strings begins with, without the NUL at its end, and what the list has behind that NUL. NOTHING where the NUL
 * lacks; `part` is then as it was.
 */
struct dtman_view_told dtman_view_first_string(const void *value, size_t value_length, struct dtman_view_part *part);
struct dtman_view_told dtman_view_other_strings(const void *value, size_t value_length, struct dtman_view_part *part);

/*
 * Changes. They are made in the caller's bytes, and nothing but what they name is another: a blob that holds a tree holds the changed tree.
 * The look-up goes from the root, and no view is wanted. A blob that wasn't opened before has its header tested alone. Where a change isn't
 * DONE, the bytes are as they were.
 */

/*
 * Sets a property of the node at a path to a value of the same length, in place: nothing moves, and a view that is open over the blob stays
 * right. NOTHING where there is no such node or property, BAD_PATH, OTHER_LENGTH, UNORDERED, REFUSED.
 */
struct dtman_view_told dtman_edit_set_in_place(void *blob, size_t length, const void *path, size_t path_length, const void *name,
	size_t name_length, const void *value, size_t value_length);

/*
 * Sets a property of the node at a path to a value of any length: in its place, or behind the last property of the node where it is new. The
 * blob stands at the front of a buffer of `length` bytes, which may have room behind it. What stands behind the property is moved once, and
 * a name that is new goes to the end of the strings. Views over the buffer are to be opened anew. NOTHING where there is no such node,
 * BAD_PATH, BAD_NAME, UNORDERED, SHORT, REFUSED. The path, the name and the value stand outside of the buffer.
 */
struct dtman_view_told dtman_edit_set(void *buffer, size_t length, const void *path, size_t path_length, const void *name,
	size_t name_length, const void *value, size_t value_length);

/*
 * Deletes a property of the node at a path, in place: what stands behind it is moved once. Its name stays in the strings, and the blob's
 * size in the header as it was. Views over the blob are to be opened anew. NOTHING where there is no such node or property, BAD_PATH,
 * UNORDERED, REFUSED.
 */
struct dtman_view_told dtman_edit_delete_property(void *blob, size_t length, const void *path, size_t path_length, const void *name,
	size_t name_length);

/*
 * Adds an empty node to the node at a path, by a whole name, unit address and all: behind the properties, before the first child. The blob
 * stands at the front of a buffer of `length` bytes, which may have room behind it. What stands behind the node is moved once. Views over
 * the buffer are to be opened anew. NOTHING where there is no node at the path, BAD_PATH, BAD_NAME, EXISTS, TOO_DEEP, UNORDERED, SHORT,
 * REFUSED. The path and the name stand outside of the buffer.
 */
struct dtman_view_told dtman_edit_add_node(void *buffer, size_t length, const void *path, size_t path_length, const void *name,
	size_t name_length);

/*
 * Deletes the node at a path with all below it, in place: what stands behind it is moved once. Phandles and aliases that name it stay.
 * Views over the blob are to be opened anew. NOTHING where there is no such node, BAD_PATH, ROOT, UNORDERED, REFUSED.
 */
struct dtman_view_told dtman_edit_delete_node(void *blob, size_t length, const void *path, size_t path_length);

/*
 * Adds an address and a size to the reserved memory, behind those that are there. The blob stands at the front of a buffer of `length` bytes,
 * which may have room behind it; it wants 16 bytes. What stands behind the reservation is moved once. Views over the buffer are to be opened
 * anew. END_PAIR, UNORDERED, SHORT, REFUSED.
 */
struct dtman_view_told dtman_edit_reserve(void *buffer, size_t length, uint64_t address, uint64_t size);

/*
 * Takes the reservation at a place, from 0 on, out of the reserved memory, in place: what stands behind it is moved once. Views over the
 * blob are to be opened anew. NOTHING where there is no such reservation, UNORDERED, REFUSED.
 */
struct dtman_view_told dtman_edit_unreserve(void *blob, size_t length, size_t index);

/*
 * Sets a part of a value, from a place of it on, of the property of a name of the node at an offset: nothing moves, and the blocks may stand in
 * any order. A view that is open over the blob stays right. NOTHING where the node has no such property, OTHER_LENGTH where its value ends
 * before the part does, BAD_OFFSET, REFUSED by 30 to 33 or 38.
 */
struct dtman_view_told dtman_edit_set_part(void *blob, size_t length, size_t node, const void *name, size_t name_length, size_t index,
	const void *part, size_t part_length);

/*
 * Makes FDT_NOPs of the property, or of the node with all below it, that begins right at an offset: nothing moves, names stay in the strings,
 * and the blocks may stand in any order. A view that is open over the blob stays right, but for offsets inside of what went. BAD_OFFSET,
 * REFUSED; by 34 where a node has no end. Where the root went, the bytes hold no tree.
 */
struct dtman_view_told dtman_edit_nop_property(void *blob, size_t length, size_t property);
struct dtman_view_told dtman_edit_nop_node(void *blob, size_t length, size_t node);

/*
 * Makes a buffer the blob of a tree whose root has nothing in it, with all room behind it: its size in the header is the buffer's. SHORT in
 * less than 80 bytes, REFUSED by 38 in more than 2^28.
 */
struct dtman_view_told dtman_edit_create(void *buffer, size_t length);

/*
 * Makes the header of the blob at the front of a buffer tell the buffer's size, so that what is behind the blob is its room; nothing else is
 * another. Views over the buffer are to be opened anew. REFUSED by 30 to 33 or 38, or UNORDERED.
 */
struct dtman_view_told dtman_edit_grow(void *buffer, size_t length);

/*
 * Makes the header of a blob tell the size up to the end of its strings, so that no room is behind them; nothing else is another, and no
 * block moves. Views over the blob are to be opened anew. REFUSED by 30 to 33 or 38, or UNORDERED.
 */
struct dtman_view_told dtman_edit_trim(void *blob, size_t length);

#ifdef __cplusplus
}
#endif

#endif
