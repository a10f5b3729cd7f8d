/*
 * libfdt's look-ups by what nodes hold, over the proved calls of dtman_view.h: phandles, values, lists of strings, cells.
 */
#include "libfdt_shims.h"

/* ---- phandles */

/* The phandle in a node's property of a name; 0 where there is none. */
static uint32_t phandle_in(const struct dtman_view *view, int node, const char *name)
{
	struct dtman_view_part value = DTMAN_NO_PART;
	uint32_t phandle = 0;

	if (!dtman_view_value(view, node, (const void *)name, strlen(name), &value).status && value.length == sizeof(phandle))
		dtman_view_cell(value.bytes, value.length, 0, &phandle);
	return phandle;
}

static int has_phandle(const struct dtman_view *view, int node)
{
	struct dtman_view_part value = DTMAN_NO_PART;

	return !dtman_view_value(view, node, (const void *)"phandle", 7, &value).status && value.length == sizeof(uint32_t);
}

static uint32_t phandle_of(const struct dtman_view *view, int node)
{
	return phandle_in(view, node, has_phandle(view, node) ? "phandle" : "linux,phandle");
}

uint32_t fdt_get_phandle(const void *fdt, int nodeoffset)
{
	struct dtman_view view = DTMAN_NO_VIEW;

	return view_at(fdt, nodeoffset, FDT_BEGIN_NODE, &view) ? 0 : phandle_of(&view, nodeoffset);
}

int fdt_find_max_phandle(const void *fdt, uint32_t *phandle)
{
	struct dtman_view view = DTMAN_NO_VIEW;
	int error = view_of(fdt, &view), node = error ? error : offset_of(dtman_view_root(&view));
	uint32_t most = 0;

	for (; node >= 0; node = offset_of(dtman_view_next_node(&view, node)))
		if (phandle_of(&view, node) > most)
			most = phandle_of(&view, node);
	if (node != -FDT_ERR_NOTFOUND)
		return node;
	if (phandle)
		*phandle = most;
	return 0;
}

int fdt_generate_phandle(const void *fdt, uint32_t *phandle)
{
	uint32_t most;
	int error = fdt_find_max_phandle(fdt, &most);

	if (error)
		return error;
	if (most == FDT_MAX_PHANDLE)
		return -FDT_ERR_NOPHANDLES;
	if (phandle)
		*phandle = most + 1;
	return 0;
}

/* ---- nodes by what they hold */

/* The view of a blob, and its first node, or the one behind a node. */
static int node_behind(const void *fdt, int node, struct dtman_view *view)
{
	int error = node < 0 ? view_of(fdt, view) : view_at(fdt, node, FDT_BEGIN_NODE, view);

	return error ? error : offset_of(node < 0 ? dtman_view_root(view) : dtman_view_next_node(view, node));
}

int fdt_node_offset_by_phandle(const void *fdt, uint32_t phandle)
{
	struct dtman_view view = DTMAN_NO_VIEW;
	int node = phandle == 0 || phandle == (uint32_t)-1 ? -FDT_ERR_BADPHANDLE : node_behind(fdt, -1, &view);

	while (node >= 0 && phandle_of(&view, node) != phandle)
		node = offset_of(dtman_view_next_node(&view, node));
	return node;
}

int fdt_node_offset_by_prop_value(const void *fdt, int startoffset, const char *propname, const void *propval, int proplen)
{
	struct dtman_view view = DTMAN_NO_VIEW;
	struct dtman_view_part value = DTMAN_NO_PART;
	int node = node_behind(fdt, startoffset, &view);

	for (; node >= 0; node = offset_of(dtman_view_next_node(&view, node))) {
		if (dtman_view_value(&view, node, (const void *)propname, strlen(propname), &value).status)
			continue;
		if (value.length == (size_t)proplen && !memcmp(value.bytes, propval, proplen))
			return node;
	}
	return node;
}

/* ---- lists of strings */

/* The place of a text in a list of strings. */
static int place_in(struct dtman_view_part list, const char *text)
{
	struct dtman_view_part first = DTMAN_NO_PART;
	int place;

	for (place = 0; list.length; place++) {
		if (dtman_view_first_string(list.bytes, list.length, &first).status)
			return -FDT_ERR_BADVALUE;
		if (first.length == strlen(text) && !memcmp(first.bytes, text, first.length))
			return place;
		dtman_view_other_strings(list.bytes, list.length, &list);
	}
	return -FDT_ERR_NOTFOUND;
}

/* The value of a node's property as a list. */
static int list_of(const void *fdt, int node, const char *property, struct dtman_view_part *list)
{
	int length;
	const void *value = fdt_getprop(fdt, node, property, &length);

	if (!value)
		return length;
	*list = (struct dtman_view_part){ value, length };
	return 0;
}

int fdt_stringlist_contains(const char *strlist, int listlen, const char *str)
{
	return place_in((struct dtman_view_part){ (const void *)strlist, listlen < 0 ? 0 : listlen }, str) >= 0;
}

int fdt_stringlist_count(const void *fdt, int nodeoffset, const char *property)
{
	struct dtman_view_part list = DTMAN_NO_PART;
	int count, error = list_of(fdt, nodeoffset, property, &list);

	for (count = 0; !error && list.length; count++)
		if (dtman_view_other_strings(list.bytes, list.length, &list).status)
			error = -FDT_ERR_BADVALUE;
	return error ? error : count;
}

int fdt_stringlist_search(const void *fdt, int nodeoffset, const char *property, const char *string)
{
	struct dtman_view_part list = DTMAN_NO_PART;
	int error = list_of(fdt, nodeoffset, property, &list);

	return error ? error : place_in(list, string);
}

const char *fdt_stringlist_get(const void *fdt, int nodeoffset, const char *property, int index, int *lenp)
{
	struct dtman_view_part list = DTMAN_NO_PART, first = DTMAN_NO_PART;
	int error = list_of(fdt, nodeoffset, property, &list);

	for (; !error && list.length && index; index--)
		if (dtman_view_other_strings(list.bytes, list.length, &list).status)
			error = -FDT_ERR_BADVALUE;
	if (!error && !list.length)
		error = -FDT_ERR_NOTFOUND;
	if (!error && dtman_view_first_string(list.bytes, list.length, &first).status)
		error = -FDT_ERR_BADVALUE;
	return tell(error, &first, lenp) ? NULL : (const char *)first.bytes;
}

int fdt_node_check_compatible(const void *fdt, int nodeoffset, const char *compatible)
{
	struct dtman_view_part list = DTMAN_NO_PART;
	int error = list_of(fdt, nodeoffset, "compatible", &list);

	return error ? error : place_in(list, compatible) < 0;
}

int fdt_node_offset_by_compatible(const void *fdt, int startoffset, const char *compatible)
{
	struct dtman_view view = DTMAN_NO_VIEW;
	struct dtman_view_part list = DTMAN_NO_PART;
	int node = node_behind(fdt, startoffset, &view);

	for (; node >= 0; node = offset_of(dtman_view_next_node(&view, node))) {
		if (dtman_view_value(&view, node, (const void *)"compatible", 10, &list).status)
			continue;
		if (place_in(list, compatible) >= 0)
			return node;
	}
	return node;
}

/* ---- cells */

static int cells(const void *fdt, int node, const char *name, int otherwise)
{
	int length;
	uint32_t count = 0;
	const void *value = fdt_getprop(fdt, node, name, &length);

	if (!value)
		return length == -FDT_ERR_NOTFOUND ? otherwise : length;
	if (length != sizeof(count) || dtman_view_cell(value, length, 0, &count).status || count > FDT_MAX_NCELLS)
		return -FDT_ERR_BADNCELLS;
	return count;
}

int fdt_address_cells(const void *fdt, int nodeoffset)
{
	int count = cells(fdt, nodeoffset, "#address-cells", 2);

	return count ? count : -FDT_ERR_BADNCELLS;
}

int fdt_size_cells(const void *fdt, int nodeoffset)
{
	return cells(fdt, nodeoffset, "#size-cells", 1);
}
