/*
 * What the libraries want where there is no libc: the view memcpy, memmove and memset, the engines memcmp and bcmp too, as the C
 * standard says. `volatile` keeps a compiler from making one a call of itself.
 */
#include <stddef.h>

void *memcpy(void *restrict to, const void *restrict from, size_t count);
void *memmove(void *to, const void *from, size_t count);
void *memset(void *to, int byte, size_t count);
int memcmp(const void *one, const void *other, size_t count);
int bcmp(const void *one, const void *other, size_t count);

void *memmove(void *to, const void *from, size_t count)
{
	volatile unsigned char *into = to;
	const volatile unsigned char *of = from;

	if (into < of)
		for (size_t i = 0; i < count; i++)
			into[i] = of[i];
	else
		while (count--)
			into[count] = of[count];
	return to;
}

void *memcpy(void *restrict to, const void *restrict from, size_t count)
{
	return memmove(to, from, count);
}

void *memset(void *to, int byte, size_t count)
{
	volatile unsigned char *into = to;

	for (size_t i = 0; i < count; i++)
		into[i] = (unsigned char)byte;
	return to;
}

int memcmp(const void *one, const void *other, size_t count)
{
	const volatile unsigned char *a = one, *b = other;

	for (size_t i = 0; i < count; i++)
		if (a[i] != b[i])
			return a[i] < b[i] ? -1 : 1;
	return 0;
}

int bcmp(const void *one, const void *other, size_t count)
{
	return memcmp(one, other, count);
}
