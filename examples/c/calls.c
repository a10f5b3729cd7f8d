/*
 * Each call of the library once, and each way in which a call ends; then all of it by four threads at once, on small stacks.
 */
#include <pthread.h>
#include <stdio.h>
#include <stdlib.h>
#include <string.h>

#include "dtman.h"

#define BYTES(text) (const uint8_t *)(text), sizeof(text) - 1
#define SEED 0x9e3779b97f4a7c15
#define ROOM 4096
#define THREADS 4
#define STACK (256 * 1024)

static const char board[] = "/dts-v1/;\n"
			    "/ {\n"
			    "\tclk: clock { compatible = \"fixed-clock\"; #clock-cells = <0>; };\n"
			    "\tuart: serial { compatible = \"ns16550a\"; clocks = <&clk>; };\n"
			    "};\n";
static const char unlawful[] = "/dts-v1/;\n/ {\n\ta = <(1 / 0)>;\n};\n";
static const char unlabelled[] = "/dts-v1/;\n/ {\n\tr = <&nix>;\n};\n";
static const char hat[] = "/dts-v1/;\n/plugin/;\n&uart { status = \"okay\"; };\n";
static const char dtc_source[] = "/dts-v1/;\n"
				 "/ {\n"
				 "\tletter = <'B'>;\n"
				 "\tpart = /incbin/(\"file\", 1, 2), \"end\";\n"
				 "};\n";
static const char drivers[] = "driver clock fixed-clock\ndriver serial ns16550a\n";
static const char twice[] = "driver clock fixed-clock\ndriver clock fixed-clock\n";
static const char schedule[] = "begin /clock\nfinish /clock settled\nbegin /serial\nfinish /serial settled\n";
static const char early[] = "begin /clock\nbegin /clock\n";

/* What a call told, and what it wrote where that is text. */
static void tell(FILE *to, const char *what, struct dtman_answer answer, const uint8_t *text)
{
	static const char *const ends[] = { "written", "short", "refused", "unnamed" };
	char name[DTMAN_NAME_ROOM];

	fprintf(to, "%s: %s, %zu bytes", what, ends[answer.status], answer.length);
	if (answer.status == DTMAN_REFUSED)
		fprintf(to, ", %u %s, line %zu, byte %zu, event %zu", answer.number, dtman_name_text(answer.number, name), answer.line,
			answer.byte, answer.event);
	fputc('\n', to);
	if (text && answer.status == DTMAN_WRITTEN)
		fwrite(text, 1, answer.length, to);
}

/* What a call of a seat told. */
static void tell_seat(FILE *to, const char *what, struct dtman_told told)
{
	static const char *const ends[] = { "done", "short", "refused", NULL, "nothing", "no seat", "occupied", "shared" };
	char name[DTMAN_NAME_ROOM];

	fprintf(to, "%s: %s, number %u, device %zu", what, ends[told.status], told.number, told.device);
	if (told.status == DTMAN_REFUSED)
		fprintf(to, ", %s", dtman_name_text(told.number, name));
	fputc('\n', to);
}

/* A text so many times over, behind what is there. */
static void put(char *text, const char *piece, int times)
{
	while (times--)
		strcat(text, piece);
}

/* A source with an expression in sixty parentheses, below sixty nodes. */
static void nest(char *text)
{
	strcpy(text, "/dts-v1/; / {");
	put(text, " n {", 60);
	put(text, " a = <", 1);
	put(text, "(", 60);
	put(text, "1", 1);
	put(text, ")", 60);
	put(text, ">;", 1);
	put(text, " };", 61);
}

/* One seat settles the clock while another is at the serial port, which so waits. */
static void make_first_flights(FILE *to, struct dtman_seat *one, struct dtman_seat *two)
{
	tell_seat(to, "take", dtman_board_take(one));
	tell_seat(to, "take, with a flight", dtman_board_take(one));
	tell_seat(to, "take, another seat", dtman_board_take(two));
	tell_seat(to, "look", dtman_board_look(two, 0));
	tell_seat(to, "look, at no supplier", dtman_board_look(two, 1));
	tell_seat(to, "settle, with a supplier that isn't bound", dtman_board_settle(two));
	tell_seat(to, "settle", dtman_board_settle(one));
	tell_seat(to, "defer", dtman_board_defer(two, 0));
	tell_seat(to, "defer, without a flight", dtman_board_defer(two, 0));
	tell_seat(to, "give back, with a wake owed", dtman_board_give_back(one, two));
	tell_seat(to, "wake", dtman_board_wake_owed(one));
	tell_seat(to, "wake, another seat", dtman_board_wake_owed(two));
}

static void make_board_calls(FILE *to, const uint8_t *plan, size_t length)
{
	struct dtman_seat one = DTMAN_EMPTY_SEAT, two = DTMAN_EMPTY_SEAT;
	uint8_t words[2];

	tell(to, "open, no plan", dtman_board_open(BYTES(drivers), SEED, &one), NULL);
	tell_seat(to, "take, no seat", dtman_board_take(&one));
	fprintf(to, "open: %zu devices\n", dtman_board_open(plan, length, SEED, &one).length);
	fprintf(to, "open, into a seat: %u\n", dtman_board_open(plan, length, SEED, &one).status);
	tell_seat(to, "seat", dtman_board_seat(&one, &two));
	tell_seat(to, "seat, into a seat", dtman_board_seat(&one, &two));
	make_first_flights(to, &one, &two);
	tell_seat(to, "take, what was woken", dtman_board_take(&two));
	tell_seat(to, "look, again", dtman_board_look(&two, 0));
	tell_seat(to, "settle, again", dtman_board_settle(&two));
	tell_seat(to, "take, nothing left", dtman_board_take(&one));
	tell_seat(to, "close, with another seat", dtman_board_close(&one, words, 2));
	tell_seat(to, "give back", dtman_board_give_back(&one, &two));
	tell_seat(to, "close, too little room", dtman_board_close(&one, words, 1));
	tell_seat(to, "close", dtman_board_close(&one, words, 2));
	fprintf(to, "the words: %u %u\n", words[0], words[1]);
	tell_seat(to, "close, no seat", dtman_board_close(&one, words, 2));
}

/* A source in dtc's language, without its file and with it, on its own processor and on one that is named. */
static void make_dtc_calls(FILE *to)
{
	struct dtman_file file = { strstr(dtc_source, "/incbin/") - dtc_source, BYTES("abcd") };
	struct dtman_dtc own = { false, false, 0 }, third = { false, true, 3 };
	uint8_t blob[ROOM], text[ROOM];
	struct dtman_answer b;

	tell(to, "dtc, without its file", dtman_compile_dtc(BYTES(dtc_source), &file, 0, &own, SEED, blob, ROOM), NULL);
	file.at++;
	tell(to, "dtc, with a file of another place", dtman_compile_dtc(BYTES(dtc_source), &file, 1, &own, SEED, blob, ROOM), NULL);
	file.at--;
	b = dtman_compile_dtc(BYTES(dtc_source), &file, 1, &own, SEED, blob, ROOM);
	tell(to, "dtc, with its file", b, NULL);
	fprintf(to, "boots on %u\n", blob[31]);
	tell(to, "dump", dtman_dump(blob, b.length, text, ROOM), text);
	tell(to, "dtc, on a processor", dtman_compile_dtc(BYTES(dtc_source), &file, 1, &third, SEED, blob, ROOM), NULL);
	fprintf(to, "boots on %u\n", blob[31]);
}

static void make_calls(FILE *to)
{
	uint8_t base[ROOM], overlay[ROOM], both[ROOM], text[ROOM], plan[ROOM];
	struct dtman_answer b, o, x, p;

	b = dtman_compile(BYTES(board), true, SEED, DTMAN_NONE, 0);
	tell(to, "compile, no room", b, NULL);
	b = dtman_compile(BYTES(board), true, SEED, base, b.length);
	tell(to, "compile, that much room", b, NULL);
	tell(to, "compile, a division by zero", dtman_compile(BYTES(unlawful), false, SEED, text, ROOM), NULL);
	tell(to, "compile, no such label", dtman_compile(BYTES(unlabelled), false, SEED, text, ROOM), NULL);
	nest((char *)text);
	tell(to, "compile, sixty deep", dtman_compile(text, strlen((char *)text), false, SEED, both, ROOM), NULL);

	o = dtman_compile(BYTES(hat), false, SEED, overlay, ROOM);
	x = dtman_overlay(base, b.length, overlay, o.length, SEED, both, ROOM);
	tell(to, "overlay", x, NULL);
	tell(to, "overlay, on a base of no bytes", dtman_overlay(DTMAN_NONE, 0, overlay, o.length, SEED, both, 0), NULL);

	tell(to, "dump", dtman_dump(both, x.length, text, ROOM), text);
	memset(text, '-', 8);
	tell(to, "dump, too little room", dtman_dump(both, x.length, text, 8), NULL);
	fprintf(to, "the buffer: %.8s\n", (char *)text);

	p = dtman_plan(both, x.length, BYTES(drivers), SEED, plan, ROOM);
	tell(to, "plan", p, plan);
	tell(to, "plan, a driver twice", dtman_plan(both, x.length, BYTES(twice), SEED, text, ROOM), NULL);

	tell(to, "replay", dtman_replay(plan, p.length, BYTES(schedule), SEED, text, ROOM), text);
	tell(to, "replay, a device that is begun twice", dtman_replay(plan, p.length, BYTES(early), SEED, text, ROOM), NULL);

	make_dtc_calls(to);
	make_board_calls(to, plan, p.length);

	tell(to, "name", dtman_name(63, text, ROOM), text);
	fputc('\n', to);
	tell(to, "name, of no fault", dtman_name(99, text, ROOM), NULL);
	tell(to, "name, of a number past 255", dtman_name(256 + 63, text, ROOM), NULL);
}

/* What the calls told, as text that the caller frees. */
static void *calls_text(void *unused)
{
	char *text = NULL;
	size_t length;
	FILE *to = open_memstream(&text, &length);

	(void)unused;
	if (to) {
		make_calls(to);
		fclose(to);
	}
	return text;
}

int main(void)
{
	pthread_t threads[THREADS];
	pthread_attr_t small;
	char *first = calls_text(NULL);
	int same = 0;

	if (!first || pthread_attr_init(&small) || pthread_attr_setstacksize(&small, STACK))
		return 1;
	fputs(first, stdout);
	for (int i = 0; i < THREADS; i++)
		if (pthread_create(&threads[i], &small, calls_text, NULL))
			return 1;
	for (int i = 0; i < THREADS; i++) {
		void *text;

		pthread_join(threads[i], &text);
		same += text && !strcmp(text, first);
		free(text);
	}
	printf("%d threads told the same\n", same);
	pthread_attr_destroy(&small);
	free(first);
	return same != THREADS;
}
