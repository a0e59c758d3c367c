/* Runs stored questions through the calls of seatport.h, be they the port's or plain C's (plain_port.c):
 * vectors send|receive|stream|verify|gates|captures < stdin > stdout. tests/reference/README.md has the layout of the
 * questions and of the answers; the expected output was made by the reference. */
#include "seatport.h"

#include <inttypes.h>
#include <stdbool.h>
#include <stdio.h>
#include <stdlib.h>
#include <string.h>

/* A capture or a trace is longer than any other run of octets. */
enum { LONGEST = 2048, LONGEST_CAPTURE = 8192, ROWS = 300 };

/* What a question gives to its call, or the area in which its octets are received as they come, and what it lends to it. */
static union {
	uint8_t octets[LONGEST_CAPTURE];
	uint8_t area[LONGEST];
	struct seatport_entry entries[ROWS];
} given;

static union {
	uint8_t octets[LONGEST_CAPTURE];
	struct seatport_entry entries[ROWS];
	struct seatport_gate_event events[ROWS];
} lent;

static void fail(const char *why)
{
	fprintf(stderr, "vectors: %s.\n", why);
	exit(1);
}

/* Octets of a question. The input may end only where no question is begun. */
static void take(uint8_t *octets, size_t n)
{
	for (size_t i = 0; i < n; i++) {
		int c = getchar();
		if (c == EOF)
			fail("a question is cut");
		octets[i] = (uint8_t)c;
	}
}

/* A number of so many octets, the lowest first. */
static uint64_t number(unsigned n)
{
	uint8_t octets[8];
	uint64_t value = 0;
	take(octets, n);
	while (n > 0)
		value = value << 8 | octets[--n];
	return value;
}

static uint32_t word(unsigned n)
{
	return (uint32_t)number(n);
}

/* How many octets a run has. */
static size_t run_length(size_t most)
{
	size_t n = word(2);
	if (n > most)
		fail("a run of octets is too long");
	return n;
}

static size_t run(uint8_t *octets)
{
	size_t n = run_length(LONGEST);
	take(octets, n);
	return n;
}

/* Memory with room for so many things, each of this size. */
static size_t prepare(uint8_t *memory, size_t most, size_t size)
{
	size_t room = word(2);
	if (room * size > most)
		fail("more memory is asked for than there is");
	uint64_t fill = number(1);
	for (size_t i = 0; i < room * size; i++)
		memory[i] = (uint8_t)(fill + i);
	return room;
}

static size_t lend(size_t size)
{
	return prepare(lent.octets, sizeof lent.octets, size);
}

/* The FCS by bits, so that what is compared with is not what is tested. */
static void print_check(const uint8_t *octets, size_t n)
{
	uint32_t r = 0xffffffff;
	for (size_t i = 0; i < 8 * n; i++) {
		uint32_t out = (r ^ (uint32_t)octets[i / 8] >> i % 8) & 1;
		r = r >> 1 ^ (out ? 0xedb88320 : 0);
	}
	for (unsigned i = 0; i < 4; i++)
		printf("%02x", (unsigned)(~r >> 8 * i & 0xff));
}

static void print_written(const char *name, uint32_t refusal, const struct seatport_written *w, size_t room)
{
	if (refusal != 0)
		printf("%s refused %" PRIu32 " ", name, refusal);
	else
		printf("%s %" PRIu32 " %" PRIu32 " ", name, w->length, w->done);
	print_check(lent.octets, room);
}

/* A number that is over 32 bits fits no record; so does this one. */
static uint32_t clamped(uint64_t x)
{
	return x > UINT32_MAX ? UINT32_MAX : (uint32_t)x;
}

static struct seatport_written written;

static void express(void)
{
	size_t n = run_length(LONGEST), room = lend(1);
	take(given.octets, n);
	uint32_t refusal = seatport_express(given.octets, n, lent.octets, room, &written);
	print_written("express", refusal, &written, room);
	putchar('\n');
}

static void order(const char *name, uint32_t (*call)(uint8_t *, uint64_t, struct seatport_written *))
{
	size_t room = lend(1);
	uint32_t refusal = call(lent.octets, room, &written);
	print_written(name, refusal, &written, room);
	putchar('\n');
}

/* The sending record, its two lengths as wide as they were asked. */
struct wide_sender {
	struct seatport_sender words;
	uint64_t length, sent;
};

static void set_wishes(struct seatport_sender *s)
{
	s->active = word(1);
	s->hold = word(1);
	s->extra = word(1);
}

static void set_sender(struct wide_sender *s)
{
	set_wishes(&s->words);
	s->words.next = word(1);
	s->length = number(8);
	s->sent = number(8);
	s->words.fragment = word(1);
}

static void preemptable(struct wide_sender *s, const uint8_t *frame, size_t n)
{
	bool asked = number(1) != 0;
	uint64_t place = number(8);
	size_t room = lend(1);
	s->words.length = clamped(s->length);
	s->words.sent = clamped(s->sent);
	uint32_t refusal = seatport_preemptable(&s->words, frame, n, asked ? place : SEATPORT_NO_ASK, lent.octets, room, &written);
	if (refusal == 0) {
		s->length = s->words.length;
		s->sent = s->words.sent;
	}
	print_written("preemptable", refusal, &written, room);
	printf(" %" PRIu32 " %" PRIu32 " %" PRIu32 " %" PRIu32 " %" PRIu64 " %" PRIu64 " %" PRIu32 "\n", s->words.active,
	       s->words.hold, s->words.extra, s->words.next, s->length, s->sent, s->words.fragment);
}

static void send_questions(void)
{
	static uint8_t frame[LONGEST];
	struct wide_sender sender = { SEATPORT_SENDER_FRESH, 0, 0 };
	size_t n = 0;
	for (int question; (question = getchar()) != EOF;) {
		switch (question) {
		case 1:
			express();
			break;
		case 2:
			order("verify", seatport_verify);
			break;
		case 3:
			order("respond", seatport_respond);
			break;
		case 4:
			set_sender(&sender);
			break;
		case 5:
			n = run(frame);
			break;
		case 6:
			preemptable(&sender, frame, n);
			break;
		case 7:
			set_wishes(&sender.words);
			break;
		default:
			fail("no such question");
		}
	}
}

/* The receiving record, its length as wide as it was asked. */
struct wide_receiver {
	struct seatport_receiver words;
	uint64_t kept;
};

static void set_receiver(struct wide_receiver *r)
{
	r->words.assembling = word(1);
	r->words.frame = word(1);
	r->words.fragment = word(1);
	r->kept = number(8);
	r->words.crc = word(4);
	r->words.assembly_errors = word(4);
	r->words.delimiter_errors = word(4);
	r->words.assembled = word(4);
	r->words.fragments = word(4);
}

/* What a call left of it. A length that is too wide is refused, and stays as it was asked. */
static void keep(struct wide_receiver *r)
{
	if (r->words.kept != clamped(r->kept))
		r->kept = r->words.kept;
}

static void print_receiver(const struct wide_receiver *wide)
{
	const struct seatport_receiver *r = &wide->words;
	printf("%" PRIu32 " %" PRIu32 " %" PRIu32 " %" PRIu64 " %08" PRIx32, r->assembling, r->frame, r->fragment, wide->kept, r->crc);
	printf(" %" PRIu32 " %" PRIu32 " %" PRIu32 " %" PRIu32 " ", r->assembly_errors, r->delimiter_errors, r->assembled, r->fragments);
}

static void receive(struct wide_receiver *wide, size_t room)
{
	const uint8_t *mframe = given.octets;
	struct seatport_part part;
	uint32_t detail;
	size_t n = run(given.octets);
	wide->words.kept = clamped(wide->kept);
	uint32_t answer = seatport_receive(&wide->words, mframe, n, lent.octets, room, &detail);
	keep(wide);
	printf("%" PRIu32 " %" PRIu32 " ", answer, detail);
	print_receiver(wide);
	print_check(lent.octets, room);
	seatport_express_body(mframe, n, &part);
	printf(" %" PRIu32 " %" PRIu32 " ", part.start, part.length);
	print_check(mframe + part.start, part.length);
	putchar('\n');
}

static void receive_questions(void)
{
	struct wide_receiver receiver = { SEATPORT_RECEIVER_FRESH, 0 };
	size_t room = 0;
	for (int question; (question = getchar()) != EOF;) {
		switch (question) {
		case 1:
			set_receiver(&receiver);
			break;
		case 2:
			room = lend(1);
			break;
		case 3:
			receive(&receiver, room);
			break;
		default:
			fail("no such question");
		}
	}
}

/* A run of octets, each given as it is read: how many were answered with which number, and what they left. */
static void give_octets(struct seatport_stream *s, size_t size)
{
	unsigned waited = 0, area_short = 0, unsound = 0;
	size_t n = run_length(LONGEST);
	for (size_t i = 0; i < n; i++) {
		switch (seatport_octet(s, given.area, size, (uint8_t)word(1))) {
		case SEATPORT_GIVEN_WAITS:
			waited++;
			break;
		case SEATPORT_GIVEN_AREA_SHORT:
			area_short++;
			break;
		case SEATPORT_GIVEN_STREAM_BAD:
			unsound++;
			break;
		default:
			fail("an octet is answered with a number that the call does not have");
		}
	}
	printf("octets %u %u %u %" PRIu32 " %" PRIu32 " ", waited, area_short, unsound, s->count, s->more);
	print_check(given.area, size);
	putchar('\n');
}

static void end_mframe(struct seatport_stream *s, size_t size, struct wide_receiver *wide, size_t room)
{
	uint32_t detail;
	wide->words.kept = clamped(wide->kept);
	uint32_t answer = seatport_end(s, given.area, size, &wide->words, lent.octets, room, &detail);
	keep(wide);
	printf("end %" PRIu32 " %" PRIu32 " %" PRIu32 " %" PRIu32 " ", answer, detail, s->count, s->more);
	print_receiver(wide);
	print_check(given.area, size);
	putchar(' ');
	print_check(lent.octets, room);
	putchar('\n');
}

static void stream_questions(void)
{
	struct wide_receiver receiver = { SEATPORT_RECEIVER_FRESH, 0 };
	struct seatport_stream stream = SEATPORT_STREAM_EMPTY;
	size_t room = 0, size = 0;
	for (int question; (question = getchar()) != EOF;) {
		switch (question) {
		case 1:
			set_receiver(&receiver);
			break;
		case 2:
			room = lend(1);
			break;
		case 3:
			size = prepare(given.area, sizeof given.area, 1);
			break;
		case 4:
			stream.count = word(4);
			stream.more = word(1);
			break;
		case 5:
			give_octets(&stream, size);
			break;
		case 6:
			end_mframe(&stream, size, &receiver, room);
			break;
		default:
			fail("no such question");
		}
	}
}

static void step(struct seatport_link *l)
{
	uint32_t event = word(1), wait = word(4), ordered;
	uint32_t refusal = seatport_step(l, event, wait, &ordered);
	if (refusal != 0)
		printf("refused %" PRIu32, refusal);
	else
		printf("%" PRIu32, ordered);
	printf(" %" PRIu32 " %" PRIu32 " %" PRIu32 " %" PRIu32 " %" PRIu32 "\n", l->phase, l->attempt, l->left, l->owed, l->wait);
}

static void verify_questions(void)
{
	struct seatport_link link = SEATPORT_LINK_FRESH;
	for (int question; (question = getchar()) != EOF;) {
		switch (question) {
		case 1:
			link.phase = word(1);
			link.attempt = word(1);
			link.left = word(1);
			link.owed = word(1);
			link.wait = word(1);
			break;
		case 2:
			step(&link);
			break;
		default:
			fail("no such question");
		}
	}
}

/* The end of a line: all of the lent memory, which has room for so many things of this size. */
static void print_lent(size_t room, size_t size)
{
	putchar(' ');
	print_check(lent.octets, room * size);
	putchar('\n');
}

static void read_list(void)
{
	uint32_t count;
	size_t n = run_length(LONGEST), room = lend(sizeof(struct seatport_entry));
	take(given.octets, n);
	uint32_t answer = seatport_gates_read(given.octets, n, lent.entries, room, &count);
	printf("read %" PRIu32 " %" PRIu32, answer, count);
	print_lent(room, sizeof(struct seatport_entry));
}

static void take_entries(size_t n)
{
	if (n > ROWS)
		fail("there are too many entries");
	for (struct seatport_entry *entry = given.entries; entry != given.entries + n; entry++) {
		entry->operation = word(4);
		entry->gates = word(4);
		entry->interval = word(4);
	}
}

static void write_list(void)
{
	uint32_t octets;
	size_t n = word(2), room = lend(1);
	take_entries(n);
	uint32_t answer = seatport_gates_write(given.entries, n, lent.octets, room, &octets);
	printf("write %" PRIu32 " %" PRIu32, answer, octets);
	print_lent(room, 1);
}

static void list_events(void)
{
	uint32_t count;
	uint64_t cycle;
	size_t n = run_length(LONGEST), room = lend(sizeof(struct seatport_gate_event));
	take(given.octets, n);
	uint32_t answer = seatport_gates_events(given.octets, n, lent.events, room, &count, &cycle);
	printf("events %" PRIu32 " %" PRIu32 " %" PRIu64, answer, count, cycle);
	print_lent(room, sizeof(struct seatport_gate_event));
}

static void gates_questions(void)
{
	for (int question; (question = getchar()) != EOF;) {
		switch (question) {
		case 1:
			read_list();
			break;
		case 2:
			write_list();
			break;
		case 3:
			list_events();
			break;
		default:
			fail("no such question");
		}
	}
}

/* Both calls are lent a run of octets and memory for another. */
static void convert(const char *name, uint32_t (*call)(const uint8_t *, uint64_t, uint8_t *, uint64_t, uint64_t *))
{
	uint64_t value;
	size_t n = run_length(LONGEST_CAPTURE), room = lend(1);
	take(given.octets, n);
	uint32_t answer = call(given.octets, n, lent.octets, room, &value);
	printf("%s %" PRIu32 " %" PRIu64, name, answer, value);
	print_lent(room, 1);
}

static void captures_questions(void)
{
	for (int question; (question = getchar()) != EOF;) {
		switch (question) {
		case 1:
			convert("write", seatport_capture_write);
			break;
		case 2:
			convert("read", seatport_capture_read);
			break;
		default:
			fail("no such question");
		}
	}
}

int main(int argc, char **argv)
{
	if (argc == 2 && strcmp(argv[1], "send") == 0)
		send_questions();
	else if (argc == 2 && strcmp(argv[1], "receive") == 0)
		receive_questions();
	else if (argc == 2 && strcmp(argv[1], "stream") == 0)
		stream_questions();
	else if (argc == 2 && strcmp(argv[1], "verify") == 0)
		verify_questions();
	else if (argc == 2 && strcmp(argv[1], "gates") == 0)
		gates_questions();
	else if (argc == 2 && strcmp(argv[1], "captures") == 0)
		captures_questions();
	else
		fail("one word chooses the questions: send, receive, stream, verify, gates or captures");
	if (ferror(stdin))
		fail("the questions could not be read");
	if (fflush(stdout) != 0 || ferror(stdout))
		fail("the output could not be written");
	return 0;
}
