/*
 * libfdt's changes over the proved calls of dtman_view.h, which name a node by its path: of a node whose path is longer than PATH_ROOM, or
 * stands for another node before it, they answer NOT_SERVED, as do the calls that aren't served at all (docs/libfdt.md).
 */
#include "libfdt_shims.h"

enum { PATH_ROOM = 1024 };

/* What DTMAN_VIEW_NONE is for the library, a null pointer is for libfdt. */
static const void *bytes_of(const void *value)
{
	return value ? value : DTMAN_VIEW_NONE;
}

/* The path of a node, by which the same node is found. */
static int path_of(const void *fdt, int node, char *path)
{
	struct dtman_view view = DTMAN_NO_VIEW;
	int error = fdt_get_path(fdt, node, path, PATH_ROOM);

	if (error)
		return error == -FDT_ERR_NOSPACE ? NOT_SERVED : error;
	return view_of(fdt, &view) || offset_of(dtman_view_find(&view, path, strlen(path))) != node ? NOT_SERVED : 0;
}

/* ---- properties */

int fdt_setprop(void *fdt, int nodeoffset, const char *name, const void *val, int len)
{
	char path[PATH_ROOM];
	int error = path_of(fdt, nodeoffset, path);

	if (error)
		return error;
	return offset_of(dtman_edit_set(fdt, fdt_totalsize(fdt), path, strlen(path), name, strlen(name), bytes_of(val), len));
}

int fdt_setprop_inplace_namelen_partial(void *fdt, int nodeoffset, const char *name, int namelen, uint32_t idx, const void *val, int len)
{
	int length;

	if (!fdt_getprop_namelen(fdt, nodeoffset, name, namelen, &length))
		return length;
	return offset_of(dtman_edit_set_part(fdt, fdt_totalsize(fdt), nodeoffset, name, namelen, idx, bytes_of(val), len));
}

int fdt_setprop_inplace(void *fdt, int nodeoffset, const char *name, const void *val, int len)
{
	int length;

	if (!fdt_getprop(fdt, nodeoffset, name, &length))
		return length;
	return length == len ? fdt_setprop_inplace_namelen_partial(fdt, nodeoffset, name, strlen(name), 0, val, len) : -FDT_ERR_NOSPACE;
}

int fdt_delprop(void *fdt, int nodeoffset, const char *name)
{
	char path[PATH_ROOM];
	int error = path_of(fdt, nodeoffset, path);

	if (error)
		return error;
	return offset_of(dtman_edit_delete_property(fdt, fdt_totalsize(fdt), path, strlen(path), name, strlen(name)));
}

/* The offset of a node's property of this name. */
static int property_of(const void *fdt, int node, const char *name)
{
	int at = fdt_first_property_offset(fdt, node);
	const char *own = NULL;

	for (; at >= 0; at = fdt_next_property_offset(fdt, at))
		if (fdt_getprop_by_offset(fdt, at, &own, NULL) && !strcmp(own, name))
			break;
	return at;
}

int fdt_nop_property(void *fdt, int nodeoffset, const char *name)
{
	int property = property_of(fdt, nodeoffset, name);

	return property < 0 ? property : offset_of(dtman_edit_nop_property(fdt, fdt_totalsize(fdt), property));
}

/* ---- nodes */

int fdt_add_subnode_namelen(void *fdt, int parentoffset, const char *name, int namelen)
{
	struct dtman_view view = DTMAN_NO_VIEW;
	char path[PATH_ROOM];
	int found = fdt_subnode_offset_namelen(fdt, parentoffset, name, namelen);
	int error = found >= 0 ? -FDT_ERR_EXISTS : found != -FDT_ERR_NOTFOUND ? found : path_of(fdt, parentoffset, path);

	if (!error)
		error = offset_of(dtman_edit_add_node(fdt, fdt_totalsize(fdt), path, strlen(path), name, namelen));
	if (!error)
		error = view_of(fdt, &view);
	return error ? error : offset_of(dtman_view_child(&view, parentoffset, name, namelen));
}

int fdt_add_subnode(void *fdt, int parentoffset, const char *name)
{
	return fdt_add_subnode_namelen(fdt, parentoffset, name, strlen(name));
}

int fdt_del_node(void *fdt, int nodeoffset)
{
	char path[PATH_ROOM];
	int error = nodeoffset < 0 ? nodeoffset : path_of(fdt, nodeoffset, path);

	return error ? error : offset_of(dtman_edit_delete_node(fdt, fdt_totalsize(fdt), path, strlen(path)));
}

int fdt_nop_node(void *fdt, int nodeoffset)
{
	struct dtman_view view = DTMAN_NO_VIEW;
	int error = nodeoffset < 0 ? nodeoffset : view_at(fdt, nodeoffset, FDT_BEGIN_NODE, &view);

	return error ? error : offset_of(dtman_edit_nop_node(fdt, fdt_totalsize(fdt), nodeoffset));
}

/* ---- reserved memory */

int fdt_add_mem_rsv(void *fdt, uint64_t address, uint64_t size)
{
	struct dtman_view view = DTMAN_NO_VIEW;
	int error = view_of(fdt, &view);

	return error ? error : offset_of(dtman_edit_reserve(fdt, fdt_totalsize(fdt), address, size));
}

int fdt_del_mem_rsv(void *fdt, int n)
{
	struct dtman_view view = DTMAN_NO_VIEW;
	int error = n < 0 ? -FDT_ERR_NOTFOUND : view_of(fdt, &view);

	return error ? error : offset_of(dtman_edit_unreserve(fdt, fdt_totalsize(fdt), n));
}

/* ---- room */

/* No block is moved: where they aren't in order, the answer is FDT_ERR_BADLAYOUT. */
int fdt_open_into(const void *fdt, void *buf, int bufsize)
{
	int error = fdt_move(fdt, buf, bufsize);

	return error ? error : offset_of(dtman_edit_grow(buf, bufsize));
}

int fdt_pack(void *fdt)
{
	struct dtman_view view = DTMAN_NO_VIEW;
	int error = view_of(fdt, &view);

	return error ? error : offset_of(dtman_edit_trim(fdt, fdt_totalsize(fdt)));
}

int fdt_create_empty_tree(void *buf, int bufsize)
{
	return bufsize < 0 ? -FDT_ERR_NOSPACE : offset_of(dtman_edit_create(buf, bufsize));
}

/* ---- not served */

#define IS_NOT_SERVED(call, ...) \
	int call(__VA_ARGS__) \
	{ \
		return NOT_SERVED; \
	}

#pragma GCC diagnostic push
#pragma GCC diagnostic ignored "-Wunused-parameter"

IS_NOT_SERVED(fdt_setprop_placeholder, void *fdt, int nodeoffset, const char *name, int len, void **prop_data)
IS_NOT_SERVED(fdt_appendprop, void *fdt, int nodeoffset, const char *name, const void *val, int len)
IS_NOT_SERVED(fdt_appendprop_addrrange, void *fdt, int parent, int nodeoffset, const char *name, uint64_t addr, uint64_t size)
IS_NOT_SERVED(fdt_set_name, void *fdt, int nodeoffset, const char *name)
IS_NOT_SERVED(fdt_create_with_flags, void *buf, int bufsize, uint32_t flags)
IS_NOT_SERVED(fdt_create, void *buf, int bufsize)
IS_NOT_SERVED(fdt_resize, void *fdt, void *buf, int bufsize)
IS_NOT_SERVED(fdt_add_reservemap_entry, void *fdt, uint64_t addr, uint64_t size)
IS_NOT_SERVED(fdt_finish_reservemap, void *fdt)
IS_NOT_SERVED(fdt_begin_node, void *fdt, const char *name)
IS_NOT_SERVED(fdt_property, void *fdt, const char *name, const void *val, int len)
IS_NOT_SERVED(fdt_property_placeholder, void *fdt, const char *name, int len, void **valp)
IS_NOT_SERVED(fdt_end_node, void *fdt)
IS_NOT_SERVED(fdt_finish, void *fdt)
IS_NOT_SERVED(fdt_overlay_apply, void *fdt, void *fdto)

#pragma GCC diagnostic pop
