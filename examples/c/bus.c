/*
 * A bus whose devices four threads probe over a board: bus PLAN
 *
 * Each thread has a seat of its own, and waits for no other. Prints the report at the end, which is the same in whatever order the threads
 * come.
 */
#include <pthread.h>
#include <sched.h>
#include <stdio.h>
#include <stdlib.h>
#include <string.h>

#include "bytes.h"
#include "dtman.h"

#define SEED 0
#define THREADS 4
#define BLANK " \t"

/* A line of the plan: a device is named by how many stand before it. */
struct device {
	char *path, *driver;
	size_t *suppliers, count;
};

struct bus {
	struct device *devices;
	size_t count;
};

struct worker {
	pthread_t thread;
	const struct bus *bus;
	struct dtman_seat seat;
};

static void *grow(void *old, size_t count, size_t size)
{
	void *new = realloc(old, count * size);

	if (!new)
		abort();
	return new;
}

/* What the call told, which has to be done. */
static struct dtman_told done(const char *what, struct dtman_told told)
{
	if (told.status != DTMAN_DONE)
		refuse(what, (struct dtman_answer){ .number = told.number });
	return told;
}

static size_t find(const struct bus *bus, const char *path)
{
	for (size_t i = 0; i < bus->count; i++)
		if (!strcmp(bus->devices[i].path, path))
			return i;
	abort(); /* no plan that the board takes names another path */
}

/* The devices of a plan's lines, with how each line goes on behind the verdict. */
static void list_devices(struct bus *bus, char *text, char ***rests)
{
	char *lines, *fields;

	for (char *line = strtok_r(text, "\n", &lines); line; line = strtok_r(NULL, "\n", &lines)) {
		char *path = strtok_r(line, BLANK, &fields);

		if (!path || path[0] != '/')
			continue; /* a remark, or what a device without a driver is compatible with */
		bus->devices = grow(bus->devices, bus->count + 1, sizeof *bus->devices);
		*rests = grow(*rests, bus->count + 1, sizeof **rests);
		bus->devices[bus->count] = (struct device){ .path = path, .driver = strtok_r(NULL, BLANK, &fields) };
		strtok_r(NULL, BLANK, &fields);
		(*rests)[bus->count++] = fields;
	}
}

static void read_plan(struct bus *bus, char *text)
{
	char **rests = NULL, *fields;

	list_devices(bus, text, &rests);
	for (size_t i = 0; i < bus->count; i++) {
		struct device *device = &bus->devices[i];

		for (char *path = strtok_r(rests[i], BLANK, &fields); path; path = strtok_r(NULL, BLANK, &fields)) {
			device->suppliers = grow(device->suppliers, device->count + 1, sizeof *device->suppliers);
			device->suppliers[device->count++] = find(bus, path);
		}
	}
	free(rests);
}

/* Probes the device that the seat has taken. */
static void probe(struct worker *worker, const struct device *device)
{
	const size_t *missing = NULL;

	for (size_t i = 0; i < device->count; i++)
		if (!done("look", dtman_board_look(&worker->seat, device->suppliers[i])).number && !missing)
			missing = &device->suppliers[i];
	sched_yield(); /* here a driver probes its device */
	if (missing)
		done("defer", dtman_board_defer(&worker->seat, *missing));
	else
		done("settle", dtman_board_settle(&worker->seat));
	done("wake_owed", dtman_board_wake_owed(&worker->seat));
}

/* Who wakes a device takes again, so each may leave that finds nothing to take. */
static void *work(void *given)
{
	struct worker *worker = given;
	struct dtman_told told;

	while ((told = dtman_board_take(&worker->seat)).status != DTMAN_NOTHING)
		probe(worker, &worker->bus->devices[done("take", told).device]);
	return NULL;
}

static void print(const struct bus *bus, const uint8_t *words, int quiet)
{
	for (size_t i = 0; i < bus->count; i++) {
		const struct device *device = &bus->devices[i];
		size_t missing = 0;

		while (missing < device->count && words[device->suppliers[missing]] == DTMAN_BOUND)
			missing++;
		if (words[i] == DTMAN_BOUND || words[i] == DTMAN_FAILED)
			printf("%s %s %s\n", device->path, words[i] == DTMAN_BOUND ? "bound" : "failed", device->driver);
		else if (words[i] == DTMAN_UNMATCHED)
			printf("%s %s\n", device->path, strcmp(device->driver, "!") ? "unmatched" : "disabled");
		else
			printf("%s waiting %s\n", device->path, bus->devices[device->suppliers[missing]].path);
	}
	puts(quiet ? "quiet" : "busy");
}

static void run(struct worker *workers)
{
	for (int i = 1; i < THREADS; i++)
		done("seat", dtman_board_seat(&workers[0].seat, &workers[i].seat));
	for (int i = 0; i < THREADS; i++)
		if (pthread_create(&workers[i].thread, NULL, work, &workers[i]))
			abort();
	for (int i = 0; i < THREADS; i++)
		pthread_join(workers[i].thread, NULL);
	for (int i = 1; i < THREADS; i++)
		done("give_back", dtman_board_give_back(&workers[0].seat, &workers[i].seat));
}

int main(int count, char **words)
{
	struct bus bus = { 0 };
	struct worker workers[THREADS] = { 0 };
	struct dtman_answer answer;
	struct bytes plan, ends;
	char *text;

	if (count != 2) {
		fprintf(stderr, "usage: bus PLAN\n");
		return 2;
	}
	plan = read_file(words[1]);
	answer = dtman_board_open(plan.at, plan.length, SEED, &workers[0].seat);
	if (answer.status != DTMAN_DONE)
		refuse(words[1], answer);
	text = memcpy(make_room(plan.length + 1).at, plan.at, plan.length);
	text[plan.length] = 0;
	read_plan(&bus, text);
	for (int i = 0; i < THREADS; i++)
		workers[i].bus = &bus;
	run(workers);
	ends = make_room(answer.length);
	print(&bus, ends.at, done("close", dtman_board_close(&workers[0].seat, ends.at, ends.length)).number);
	for (size_t i = 0; i < bus.count; i++)
		free(bus.devices[i].suppliers);
	free(bus.devices);
	free(text);
	free(plan.at);
	free(ends.at);
	return 0;
}
