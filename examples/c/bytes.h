/* Bytes on the heap, files, and calls that make room for their answer. */
#ifndef BYTES_H
#define BYTES_H

#include <stddef.h>
#include <stdint.h>

#include "dtman.h"

struct bytes {
	uint8_t *at;
	size_t length;
};

/* Each ends the program with a line on standard error and the status 1, where it can't do what it should. */
struct bytes read_file(const char *path);
void write_file(const char *path, struct bytes bytes);
struct bytes make_room(size_t length);
_Noreturn void refuse(const char *what, struct dtman_answer answer);

#endif
