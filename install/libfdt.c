/*
 * libfdt's look-ups over the proved calls of dtman_view.h: bin/libfdt/libfdt.a and libfdt.so.1. No call here reads a blob but by those. What
 * differs from libfdt, and what isn't served, docs/libfdt.md says.
 */
#include "libfdt_shims.h"

/* ---- the blob as a whole */

int fdt_check_header(const void *fdt)
{
	struct dtman_view view = DTMAN_NO_VIEW;

	return view_of(fdt, &view);
}

int fdt_check_full(const void *fdt, size_t bufsize)
{
	struct dtman_view view = DTMAN_NO_VIEW;
	int error = bufsize < FDT_V1_SIZE ? -FDT_ERR_TRUNCATED : fdt_check_header(fdt);

	if (error)
		return error;
	return bufsize < fdt_totalsize(fdt) ? -FDT_ERR_TRUNCATED : offset_of(dtman_view_open(fdt, fdt_totalsize(fdt), &view));
}

size_t fdt_header_size_(uint32_t version)
{
	return version <= 1 ? FDT_V1_SIZE : version <= 2 ? FDT_V2_SIZE : version <= 3 ? FDT_V3_SIZE : version <= 16 ? FDT_V16_SIZE : FDT_V17_SIZE;
}

size_t fdt_header_size(const void *fdt)
{
	return fdt_header_size_(fdt_version(fdt));
}

int fdt_move(const void *fdt, void *buf, int bufsize)
{
	struct dtman_view view = DTMAN_NO_VIEW;
	int error = view_of(fdt, &view);

	if (error)
		return error;
	if (bufsize < 0 || fdt_totalsize(fdt) > (uint32_t)bufsize)
		return -FDT_ERR_NOSPACE;
	memmove(buf, fdt, fdt_totalsize(fdt));
	return 0;
}

const char *fdt_strerror(int errval)
{
	static const char *const names[] = { "<no error>", "FDT_ERR_NOTFOUND", "FDT_ERR_EXISTS", "FDT_ERR_NOSPACE", "FDT_ERR_BADOFFSET",
		"FDT_ERR_BADPATH", "FDT_ERR_BADPHANDLE", "FDT_ERR_BADSTATE", "FDT_ERR_TRUNCATED", "FDT_ERR_BADMAGIC", "FDT_ERR_BADVERSION",
		"FDT_ERR_BADSTRUCTURE", "FDT_ERR_BADLAYOUT", "FDT_ERR_INTERNAL", "FDT_ERR_BADNCELLS", "FDT_ERR_BADVALUE",
		"FDT_ERR_BADOVERLAY", "FDT_ERR_NOPHANDLES", "FDT_ERR_BADFLAGS" };

	if (errval > 0)
		return "<valid offset/length>";
	return errval < -FDT_ERR_BADFLAGS ? "<unknown error>" : names[-errval];
}

/* ---- places of the blocks */

const void *fdt_offset_ptr(const void *fdt, int offset, unsigned int checklen)
{
	struct dtman_view view = DTMAN_NO_VIEW;
	struct dtman_view_part part = DTMAN_NO_PART;

	if (offset < 0 || view_of(fdt, &view) || dtman_view_raw(&view, offset, checklen, &part).status)
		return NULL;
	return part.bytes;
}

uint32_t fdt_next_tag(const void *fdt, int offset, int *nextoffset)
{
	struct dtman_view view = DTMAN_NO_VIEW;
	struct dtman_view_part part = DTMAN_NO_PART;
	struct dtman_view_told told;

	*nextoffset = -FDT_ERR_TRUNCATED;
	if (offset < 0 || view_of(fdt, &view) || dtman_view_raw(&view, offset, FDT_TAGSIZE, &part).status)
		return FDT_END;
	told = dtman_view_token(&view, offset);
	*nextoffset = told.status ? -FDT_ERR_BADSTRUCTURE : (int)told.at;
	return told.status ? FDT_END : told.number;
}

const char *fdt_get_string(const void *fdt, int stroffset, int *lenp)
{
	struct dtman_view view = DTMAN_NO_VIEW;
	struct dtman_view_part text = DTMAN_NO_PART;
	int error = view_of(fdt, &view);

	if (!error && (stroffset < 0 || (size_t)stroffset >= view.strings.length))
		error = -FDT_ERR_BADOFFSET;
	if (!error && dtman_view_text_at(&view, stroffset, &text).status)
		error = -FDT_ERR_TRUNCATED;
	if (lenp)
		*lenp = error ? error : (int)text.length;
	return error ? NULL : (const char *)text.bytes;
}

const char *fdt_string(const void *fdt, int stroffset)
{
	return fdt_get_string(fdt, stroffset, NULL);
}

int fdt_num_mem_rsv(const void *fdt)
{
	struct dtman_view view = DTMAN_NO_VIEW;
	struct dtman_view_told told;
	int error = view_of(fdt, &view);

	if (error)
		return error;
	told = dtman_view_reserved_size(&view);
	return told.status ? -FDT_ERR_TRUNCATED : (int)(told.at / sizeof(struct fdt_reserve_entry)) - 1;
}

int fdt_get_mem_rsv(const void *fdt, int n, uint64_t *address, uint64_t *size)
{
	struct dtman_view view = DTMAN_NO_VIEW;
	struct dtman_view_reservation pair = { 0, 0 };
	int error = view_of(fdt, &view);

	if (error)
		return error;
	if (n < 0 || (dtman_view_reservation(&view, n, &pair).status && n != fdt_num_mem_rsv(fdt)))
		return -FDT_ERR_BADOFFSET;
	*address = pair.address;
	*size = pair.size;
	return 0;
}

/* ---- walks */

int fdt_next_node(const void *fdt, int offset, int *depth)
{
	struct dtman_view view = DTMAN_NO_VIEW;
	struct dtman_view_told told;
	uint32_t from = depth && *depth > 0 ? *depth : 0;
	size_t deep = from;
	int error = offset < 0 ? view_of(fdt, &view) : view_at(fdt, offset, FDT_BEGIN_NODE, &view);

	if (error)
		return error;
	told = offset < 0 ? dtman_view_root(&view) : depth ? dtman_view_step(&view, offset, from, &deep) : dtman_view_next_node(&view, offset);
	if (depth)
		*depth += offset < 0 ? 1 : told.status == DTMAN_VIEW_OUT ? -1 - (int)from : (int)deep - (int)from;
	return told.status == DTMAN_VIEW_OUT ? (int)told.at : walked(told);
}

int fdt_first_subnode(const void *fdt, int offset)
{
	struct dtman_view view = DTMAN_NO_VIEW;
	struct dtman_view_told told = { DTMAN_VIEW_NOTHING, 0, 0 };

	if (offset < 0 && !view_of(fdt, &view))
		told = dtman_view_root(&view);
	else if (!view_at(fdt, offset, FDT_BEGIN_NODE, &view))
		told = dtman_view_first_child(&view, offset);
	return told.status ? -FDT_ERR_NOTFOUND : (int)told.at;
}

int fdt_next_subnode(const void *fdt, int offset)
{
	struct dtman_view view = DTMAN_NO_VIEW;
	struct dtman_view_told told = { DTMAN_VIEW_NOTHING, 0, 0 };

	if (!view_at(fdt, offset, FDT_BEGIN_NODE, &view))
		told = dtman_view_next_sibling(&view, offset);
	return told.status ? -FDT_ERR_NOTFOUND : (int)told.at;
}

/* The property at an offset, behind NOPs. */
static int property_from(const struct dtman_view *view, int at)
{
	struct dtman_view_told told = dtman_view_token(view, at);

	for (; told.number == FDT_NOP; told = dtman_view_token(view, at))
		at = told.at;
	if (told.status || told.number == FDT_END)
		return -FDT_ERR_BADSTRUCTURE;
	return told.number == FDT_PROP ? at : -FDT_ERR_NOTFOUND;
}

int fdt_first_property_offset(const void *fdt, int nodeoffset)
{
	struct dtman_view view = DTMAN_NO_VIEW;
	int error = view_at(fdt, nodeoffset, FDT_BEGIN_NODE, &view);

	return error ? error : property_from(&view, dtman_view_token(&view, nodeoffset).at);
}

int fdt_next_property_offset(const void *fdt, int offset)
{
	struct dtman_view view = DTMAN_NO_VIEW;
	int error = view_at(fdt, offset, FDT_PROP, &view);

	return error ? error : property_from(&view, dtman_view_token(&view, offset).at);
}

int fdt_node_depth(const void *fdt, int nodeoffset)
{
	struct dtman_view view = DTMAN_NO_VIEW;
	int error = view_at(fdt, nodeoffset, FDT_BEGIN_NODE, &view);

	return error ? error : offset_of(dtman_view_depth(&view, nodeoffset));
}

int fdt_parent_offset(const void *fdt, int nodeoffset)
{
	struct dtman_view view = DTMAN_NO_VIEW;
	int error = view_at(fdt, nodeoffset, FDT_BEGIN_NODE, &view);

	return error ? error : offset_of(dtman_view_parent(&view, nodeoffset));
}

/* Lawful blobs have 64 nodes round a node at most; of deeper ones each step up would read all again. */
int fdt_supernode_atdepth_offset(const void *fdt, int nodeoffset, int supernodedepth, int *nodedepth)
{
	int depth = supernodedepth < 0 ? -FDT_ERR_NOTFOUND : fdt_node_depth(fdt, nodeoffset);
	int steps = depth - supernodedepth;

	if (depth < 0)
		return depth;
	if (nodedepth)
		*nodedepth = depth;
	if (steps < 0)
		return -FDT_ERR_NOTFOUND;
	if (steps > 64)
		return NOT_SERVED;
	for (; steps; steps--)
		nodeoffset = fdt_parent_offset(fdt, nodeoffset);
	return nodeoffset;
}

/* ---- names and paths */

int fdt_subnode_offset_namelen(const void *fdt, int parentoffset, const char *name, int namelen)
{
	struct dtman_view view = DTMAN_NO_VIEW;
	int error = view_of(fdt, &view);

	if (error || parentoffset < 0)
		return error ? error : parentoffset;
	if (!stands(&view, parentoffset, FDT_BEGIN_NODE))
		return -FDT_ERR_BADOFFSET;
	return walked(dtman_view_child_like(&view, parentoffset, name, namelen));
}

int fdt_subnode_offset(const void *fdt, int parentoffset, const char *name)
{
	return fdt_subnode_offset_namelen(fdt, parentoffset, name, strlen(name));
}

/* Of a path of no length, too, libfdt looks at the first byte. */
int fdt_path_offset_namelen(const void *fdt, const char *path, int namelen)
{
	struct dtman_view view = DTMAN_NO_VIEW;
	int error = view_of(fdt, &view);

	return error ? error : offset_of(dtman_view_find_like(&view, path, namelen ? namelen : *path == '/'));
}

int fdt_path_offset(const void *fdt, const char *path)
{
	return fdt_path_offset_namelen(fdt, path, strlen(path));
}

const char *fdt_get_name(const void *fdt, int nodeoffset, int *lenp)
{
	struct dtman_view view = DTMAN_NO_VIEW;
	struct dtman_view_part name = DTMAN_NO_PART;
	int error = view_at(fdt, nodeoffset, FDT_BEGIN_NODE, &view);

	if (!error)
		error = offset_of(dtman_view_name(&view, nodeoffset, &name));
	if (lenp)
		*lenp = error ? error : (int)name.length;
	return error ? NULL : (const char *)name.bytes;
}

const char *fdt_get_alias_namelen(const void *fdt, const char *name, int namelen)
{
	int aliases = fdt_path_offset(fdt, "/aliases");

	return aliases < 0 ? NULL : fdt_getprop_namelen(fdt, aliases, name, namelen, NULL);
}

const char *fdt_get_alias(const void *fdt, const char *name)
{
	return fdt_get_alias_namelen(fdt, name, strlen(name));
}

/* The path up to a node, written from the buffer's end on; gives where it begins there, or an error. */
static int path_behind(const struct dtman_view *view, int node, char *buf, int end)
{
	struct dtman_view_part name = DTMAN_NO_PART;
	struct dtman_view_told told = dtman_view_parent(view, node);

	for (; told.status == DTMAN_VIEW_DONE; told = dtman_view_parent(view, node)) {
		dtman_view_name(view, node, &name);
		if (name.length >= (size_t)end)
			return -FDT_ERR_NOSPACE;
		end -= name.length + 1;
		buf[end] = '/';
		memcpy(buf + end + 1, name.bytes, name.length);
		node = told.at;
	}
	return told.status == DTMAN_VIEW_NOTHING ? end : error_of(told);
}

int fdt_get_path(const void *fdt, int nodeoffset, char *buf, int buflen)
{
	struct dtman_view view = DTMAN_NO_VIEW;
	int error = buflen < 2 ? -FDT_ERR_NOSPACE : view_at(fdt, nodeoffset, FDT_BEGIN_NODE, &view);
	int from = error ? error : path_behind(&view, nodeoffset, buf, buflen - 1);

	if (from < 0)
		return from;
	if (from == buflen - 1)
		buf[--from] = '/';
	memmove(buf, buf + from, buflen - 1 - from);
	buf[buflen - 1 - from] = '\0';
	return 0;
}

/* ---- properties */

const void *fdt_getprop_namelen(const void *fdt, int nodeoffset, const char *name, int namelen, int *lenp)
{
	struct dtman_view view = DTMAN_NO_VIEW;
	struct dtman_view_part value = DTMAN_NO_PART;
	int error = view_at(fdt, nodeoffset, FDT_BEGIN_NODE, &view);

	if (!error)
		error = offset_of(dtman_view_value(&view, nodeoffset, (const void *)name, namelen, &value));
	return tell(error, &value, lenp) ? NULL : value.bytes;
}

const void *fdt_getprop(const void *fdt, int nodeoffset, const char *name, int *lenp)
{
	return fdt_getprop_namelen(fdt, nodeoffset, name, strlen(name), lenp);
}

/* A property whose value stands there. */
static const struct fdt_property *property_round(const void *value)
{
	return value ? (const void *)((const char *)value - offsetof(struct fdt_property, data)) : NULL;
}

const struct fdt_property *fdt_get_property_namelen(const void *fdt, int nodeoffset, const char *name, int namelen, int *lenp)
{
	return property_round(fdt_getprop_namelen(fdt, nodeoffset, name, namelen, lenp));
}

const struct fdt_property *fdt_get_property(const void *fdt, int nodeoffset, const char *name, int *lenp)
{
	return fdt_get_property_namelen(fdt, nodeoffset, name, strlen(name), lenp);
}

const void *fdt_getprop_by_offset(const void *fdt, int offset, const char **namep, int *lenp)
{
	struct dtman_view view = DTMAN_NO_VIEW;
	struct dtman_view_property held = DTMAN_NO_PROPERTY;
	int error = view_at(fdt, offset, FDT_PROP, &view);

	if (!error)
		error = offset_of(dtman_view_property(&view, offset, &held));
	if (tell(error, &held.value, lenp))
		return NULL;
	if (namep)
		*namep = (const char *)held.name.bytes;
	return held.value.bytes;
}

const struct fdt_property *fdt_get_property_by_offset(const void *fdt, int offset, int *lenp)
{
	return property_round(fdt_getprop_by_offset(fdt, offset, NULL, lenp));
}
