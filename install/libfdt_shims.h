/*
 * libfdt_shims.h: what libfdt.c, libfdt_search.c and libfdt_edit.c share. libfdt's own calls over those of dtman_view.h; libfdt.h is the user's.
 *
 * Each call opens the view anew by the blob's header (dtman_view_over: a few words), and each step then tests what it reads, as libfdt does.
 * Where an offset is given, the token that stands there is read once more than the look-up wants.
 */
#ifndef LIBFDT_SHIMS_H
#define LIBFDT_SHIMS_H

#include <libfdt.h>

#include "dtman_view.h"

/* What is not served answers so. */
#define NOT_SERVED (-FDT_ERR_INTERNAL)

/* libfdt's error of a call that found nothing. */
static inline int error_of(struct dtman_view_told told)
{
	static const int faults[] = { FDT_ERR_TRUNCATED, FDT_ERR_BADMAGIC, FDT_ERR_BADVERSION, FDT_ERR_TRUNCATED, FDT_ERR_BADSTRUCTURE,
		FDT_ERR_BADSTRUCTURE, FDT_ERR_BADSTRUCTURE, FDT_ERR_BADSTRUCTURE, FDT_ERR_INTERNAL };
	static const int ends[] = { 0, FDT_ERR_INTERNAL, FDT_ERR_INTERNAL, FDT_ERR_INTERNAL, FDT_ERR_NOTFOUND, FDT_ERR_INTERNAL,
		FDT_ERR_INTERNAL, FDT_ERR_INTERNAL, FDT_ERR_BADOFFSET, FDT_ERR_BADPATH, FDT_ERR_NOSPACE, FDT_ERR_BADLAYOUT, FDT_ERR_NOSPACE,
		FDT_ERR_BADVALUE, FDT_ERR_BADVALUE, FDT_ERR_EXISTS, FDT_ERR_BADSTRUCTURE, FDT_ERR_BADVALUE, FDT_ERR_NOTFOUND };

	return -(told.status == DTMAN_VIEW_REFUSED ? faults[told.number - 30] : ends[told.status]);
}

/* The offset that a call found, or libfdt's error. */
static inline int offset_of(struct dtman_view_told told)
{
	return told.status == DTMAN_VIEW_DONE ? (int)told.at : error_of(told);
}

/* The same of a walk from where a node or a property was seen to begin: what stands behind it is broken where it has no offset. */
static inline int walked(struct dtman_view_told told)
{
	return told.status == DTMAN_VIEW_BAD_OFFSET ? -FDT_ERR_BADSTRUCTURE : offset_of(told);
}

/* The view of a blob. Its length is the header's. */
static inline int view_of(const void *fdt, struct dtman_view *view)
{
	if (fdt_magic(fdt) != FDT_MAGIC)
		return -FDT_ERR_BADMAGIC;
	return offset_of(dtman_view_over(fdt, fdt_totalsize(fdt), view));
}

/* Whether a token of this kind stands right at an offset. */
static inline int stands(const struct dtman_view *view, int offset, uint32_t kind)
{
	return offset >= 0 && offset % FDT_TAGSIZE == 0 && dtman_view_token(view, offset).number == kind;
}

/* The view of a blob in which a node, or a property, begins at an offset. */
static inline int view_at(const void *fdt, int offset, uint32_t kind, struct dtman_view *view)
{
	int error = view_of(fdt, view);

	return error ? error : stands(view, offset, kind) ? 0 : -FDT_ERR_BADOFFSET;
}

/* The length of what was found, or why nothing was. */
static inline int tell(int error, const struct dtman_view_part *part, int *lenp)
{
	if (lenp)
		*lenp = error ? error : (int)part->length;
	return error;
}

#endif
