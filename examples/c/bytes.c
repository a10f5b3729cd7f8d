#include "bytes.h"

#include <stdio.h>
#include <stdlib.h>

static _Noreturn void fail(const char *what)
{
	perror(what);
	exit(1);
}

struct bytes make_room(size_t length)
{
	struct bytes room = { malloc(length ? length : 1), length };

	if (!room.at)
		fail("malloc");
	return room;
}

struct bytes read_file(const char *path)
{
	FILE *file = fopen(path, "rb");
	struct bytes bytes;
	long length;

	if (!file || fseek(file, 0, SEEK_END) || (length = ftell(file)) < 0 || fseek(file, 0, SEEK_SET))
		fail(path);
	bytes = make_room(length);
	if (fread(bytes.at, 1, bytes.length, file) != bytes.length)
		fail(path);
	fclose(file);
	return bytes;
}

void write_file(const char *path, struct bytes bytes)
{
	FILE *file = fopen(path, "wb");

	if (!file || fwrite(bytes.at, 1, bytes.length, file) != bytes.length || fclose(file))
		fail(path);
}

_Noreturn void refuse(const char *what, struct dtman_answer answer)
{
	char name[DTMAN_NAME_ROOM] = "";

	dtman_name_text(answer.number, name);
	fprintf(stderr, "%s: error %u %s", what, answer.number, name);
	if (answer.line)
		fprintf(stderr, " line %zu", answer.line);
	if (answer.byte)
		fprintf(stderr, " byte %zu", answer.byte);
	if (answer.event)
		fprintf(stderr, " event %zu", answer.event);
	fputc('\n', stderr);
	exit(1);
}
