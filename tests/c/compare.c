/* Holds the port, through its C boundary, against plain.c on random and damaged inputs, and on captures with every octet
 * changed: what is returned, every word of the records and every octet of the lent memory, with octets behind it that nobody
 * lent. The inputs are the same on every machine: no two are drawn in one expression, where the compiler chooses the order.
 * Prints how often each number was returned, and fails if the two ever differ or a number was never reached. */
#include "plain.h"
#include "seatport.h"

#include <stdio.h>
#include <stdlib.h>
#include <string.h>

enum { SENDS = 20000, RECEIVES = 40000, STEPS = 20000, TRACES = 10000, LISTS = 10000, OCTETS = 10000, ENDS = 10000, RUNS = 10000 };
enum { CAPTURES = 10000, ROUND_TRIPS = 2000 };
enum { MEMORY = 2048, BEHIND = 64, NUMBERS = 79 };

static unsigned counts[NUMBERS];
static const char *call;
static unsigned turn;

static void fail(const char *what)
{
	fprintf(stderr, "compare: %s, turn %u: %s\n", call, turn, what);
	exit(1);
}

static void same(const void *a, const void *b, size_t n, const char *what)
{
	if (memcmp(a, b, n) != 0)
		fail(what);
}

static void answered(uint32_t port, int plain)
{
	if (port != (uint32_t)plain)
		fail("another number is returned");
	if (port < NUMBERS)
		counts[port]++;
}

/* How often each number was returned: every one of the list, and no other. */
static void print_numbers(const unsigned *times, const unsigned *numbers, size_t n)
{
	unsigned known = 0, all = 0;
	for (size_t i = 0; i < n; i++) {
		printf(" %u:%u", numbers[i], times[numbers[i]]);
		known += times[numbers[i]];
		if (times[numbers[i]] == 0)
			fail("a number was never returned");
	}
	putchar('\n');
	for (size_t i = 0; i < NUMBERS; i++)
		all += times[i];
	if (known != all)
		fail("a number that the call does not have");
}

static void reached(const char *name, const unsigned *numbers, size_t n)
{
	printf("%-12s", name);
	print_numbers(counts, numbers, n);
	memset(counts, 0, sizeof counts);
}

/* Numbers that never change (xorshift, 64 bits). */
static uint64_t state = 0x802003b200000001;

static uint32_t chance(uint32_t n)
{
	state ^= state << 13;
	state ^= state >> 7;
	state ^= state << 17;
	return (uint32_t)(state >> 32) % n;
}

static uint32_t word(void)
{
	uint32_t high = chance(0x10000);
	return high << 16 | chance(0x10000);
}

static uint32_t between(uint32_t least, uint32_t most)
{
	return least + chance(most - least + 1);
}

static bool one_in(uint32_t n)
{
	return chance(n) == 0;
}

static void fill(uint8_t *octets, size_t n)
{
	for (size_t i = 0; i < n; i++)
		octets[i] = (uint8_t)chance(256);
}

/* A number near one of the limits, or anywhere. */
static uint32_t near(uint32_t limit, uint32_t anywhere)
{
	return one_in(3) ? chance(anywhere) : limit + chance(3) - (limit == 0 ? 0 : 1);
}

/* A word that a field might hold wrongly. */
static uint32_t odd_word(void)
{
	static const uint32_t odd[] = { 0, 1, 2, 3, 4, 10, 11, 59, 60, 61, 255, 256, 257, 1457, 1458, 1459, 1518, 1519, 0x80000000, 0xffffffff };
	return one_in(4) ? word() : odd[chance(sizeof odd / sizeof odd[0])];
}

/* Puts such a word into a record of so many. */
static void spoil(void *record, uint32_t words)
{
	uint32_t place = chance(words), value = odd_word();
	((uint32_t *)record)[place] = value;
}

/* The memory that is lent to each of the two. */
static uint8_t port_memory[MEMORY + BEHIND], plain_memory[MEMORY + BEHIND];

static void lend(void)
{
	fill(plain_memory, sizeof plain_memory);
	memcpy(port_memory, plain_memory, sizeof port_memory);
}

static void same_memory(void)
{
	same(port_memory, plain_memory, sizeof port_memory, "other octets in lent memory, or behind it");
}

/* Sending */

static uint64_t some_ask(void)
{
	uint32_t high;
	switch (chance(6)) {
	case 0:
		return 0;
	case 1:
		return between(1, 200);
	case 2:
		return between(1380, 1530);
	case 3:
		high = word();
		return (uint64_t)high << 32 | word();
	default:
		return chance(1530);
	}
}

static uint64_t some_room(uint32_t least)
{
	return one_in(20) ? near(least, MEMORY) : one_in(2) ? least : between(least, MEMORY);
}

static uint32_t some_body(void)
{
	switch (chance(6)) {
	case 0:
		return between(58, 62);
	case 1:
		return between(1516, 1520);
	case 2:
		return between(60, 320);
	case 3: /* about the shortest that is cut */
		return between(116, 124);
	default:
		return between(60, 1518);
	}
}

static void no_record(uint32_t which)
{
	static uint8_t body[MEMORY];
	struct plain_written expected = { 0, 0 };
	struct seatport_written written = { 7, 7 };
	uint32_t n = some_body();
	uint64_t room = some_room(SEATPORT_SIZE_OUTPUT);
	fill(body, n);
	lend();
	if (which == 0) {
		call = "express";
		answered(seatport_express(body, n, port_memory, room, &written), plain_express(body, n, plain_memory, (size_t)room, &expected));
	} else if (which == 1) {
		call = "verify";
		answered(seatport_verify(port_memory, room, &written), plain_verify(plain_memory, (size_t)room, &expected));
	} else {
		call = "respond";
		answered(seatport_respond(port_memory, room, &written), plain_respond(plain_memory, (size_t)room, &expected));
	}
	same(&written, &expected, sizeof written, "something else is said to be written");
	same_memory();
}

/* Another body, other settings or a frame in progress now and then, and sometimes a record that is none. */
static void vary_sender(struct plain_sender *plain, uint8_t *body, uint32_t *n)
{
	if (plain->length == 0 || one_in(40)) {
		*n = some_body();
		fill(body, *n);
	}
	if (one_in(8)) {
		plain->active = chance(4) != 0;
		plain->hold = one_in(4);
		plain->extra = chance(4);
	}
	if (one_in(16)) {
		plain->length = between(118, 1519);
		plain->sent = between(59, plain->length);
		plain->fragment = chance(4);
		*n = plain->length;
		fill(body, *n);
	}
	if (one_in(12))
		spoil(plain, 7);
}

static void send_all(void)
{
	static const unsigned numbers[] = { 0, 30, 31, 32, 33, 34 };
	static uint8_t body[MEMORY];
	struct plain_sender plain = { 0, 0, 0, 0, 0, 0, 0 };
	uint32_t n = 60;
	for (turn = 0; turn < SENDS; turn++) {
		if (one_in(5)) {
			no_record(chance(3));
			continue;
		}
		call = "preemptable";
		struct plain_sender before = plain;
		vary_sender(&plain, body, &n);
		uint64_t ask = one_in(4) ? SEATPORT_NO_ASK : some_ask();
		uint64_t room = some_room(SEATPORT_SIZE_OUTPUT);
		struct seatport_sender port;
		struct plain_written expected = { 0, 0 };
		struct seatport_written written = { 7, 7 };
		memcpy(&port, &plain, sizeof port);
		lend();
		int refusal = plain_preemptable(&plain, body, n, ask != SEATPORT_NO_ASK, ask, plain_memory, (size_t)room, &expected);
		answered(seatport_preemptable(&port, body, n, ask, port_memory, room, &written), refusal);
		same(&port, &plain, sizeof port, "another sending record");
		same(&written, &expected, sizeof written, "something else is said to be written");
		same_memory();
		if (refusal != 0)
			plain = before;
	}
	reached("sending", numbers, sizeof numbers / sizeof numbers[0]);
}

/* Receiving */

enum { PREAMBLE = 0x55, PREAMBLE_MAX = 7 };

static const uint8_t continuations[4] = { 0x61, 0x52, 0x9e, 0x2a };

static uint8_t mframe[MEMORY];
static uint32_t length;

/* How many octets 55 lead the mFrame. */
static uint32_t leading(void)
{
	uint32_t n = 0;
	while (n < length && mframe[n] == PREAMBLE)
		n++;
	return n;
}

/* As many lead it as are wanted, in place of those that did. */
static void lead_by(uint32_t wanted)
{
	uint32_t rest = length - leading();
	memmove(mframe + wanted, mframe + length - rest, rest);
	memset(mframe, PREAMBLE, wanted);
	length = wanted + rest;
}

static uint32_t crc_over(uint32_t crc, const uint8_t *octets, size_t n)
{
	for (size_t i = 0; i < n; i++) {
		crc ^= octets[i];
		for (int bit = 0; bit < 8; bit++)
			crc = crc >> 1 ^ (crc & 1 ? 0xedb88320 : 0);
	}
	return crc;
}

/* A continuation that fits a record, or nearly so. */
static void fitting(const struct plain_receiver *r)
{
	static const uint8_t fragments[4] = { 0xe6, 0x4c, 0x7f, 0xb3 };
	uint32_t room = r->kept < 1458 ? 1518 - r->kept : 60;
	uint32_t n = one_in(3) ? between(room - (room > 60), room + 1) : one_in(4) ? between(60, 1518) : between(60, room);
	if (one_in(20))
		n = 1518;
	memset(mframe, PREAMBLE, 6);
	mframe[6] = continuations[(r->frame + one_in(20)) % 4];
	mframe[7] = fragments[(r->fragment + one_in(20)) % 4];
	fill(mframe + 8, n);
	uint32_t check = ~crc_over(r->crc, mframe + 8, n) ^ (one_in(2) ? 0xffff0000 : 0);
	for (unsigned i = 0; i < 4; i++)
		mframe[8 + n + i] = (uint8_t)(check >> 8 * i);
	length = n + 12;
}

/* The next mFrame of an exchange. */
static void exchanged(struct plain_sender *s, uint8_t *body, uint32_t *n)
{
	struct plain_written w = { 0, 0 };
	uint32_t which = chance(20);
	if (which < 3) {
		static uint8_t express[MEMORY];
		uint32_t m = one_in(2) ? 60 : between(60, 1518);
		fill(express, m);
		plain_express(express, m, mframe, sizeof mframe, &w);
	} else if (which == 3) {
		plain_verify(mframe, sizeof mframe, &w);
	} else if (which == 4) {
		plain_respond(mframe, sizeof mframe, &w);
	} else {
		if (s->length == 0) {
			*n = between(60, 1518);
			fill(body, *n);
		}
		s->extra = chance(4);
		bool asked = !one_in(3);
		plain_preemptable(s, body, *n, asked, chance(600), mframe, sizeof mframe, &w);
	}
	length = w.length;
}

/* How many 55s come before the delimiter where a link does not hand them on as they were sent: mostly as many as may be, or
 * fewer. */
static uint32_t some_preamble(void)
{
	switch (chance(8)) {
	case 0:
		return between(PREAMBLE_MAX + 1, PREAMBLE_MAX + 2);
	case 1:
	case 2:
		return PREAMBLE_MAX;
	default:
		return chance(PREAMBLE_MAX);
	}
}

/* So many octets behind a header of one octet or two that are not 55, often about a limit. */
static void change_length(uint32_t preamble)
{
	uint32_t header = preamble + between(1, 2);
	uint32_t limit = one_in(2) ? 64 : 1522;
	length = header + near(limit, MEMORY - 16);
}

/* Spoils an octet or more: anywhere, in the header, of the check octets, or all; or the length. */
static void damage(void)
{
	static const uint8_t eleven[] = { 0xd5, 0xe6, 0x4c, 0x7f, 0xb3, 0x61, 0x52, 0x9e, 0x2a, 0x07, 0x19 };
	uint32_t preamble = leading(), which = chance(8), place = chance(which == 0 ? length : preamble + 2);
	switch (which) {
	case 0:
	case 1:
		mframe[place] ^= (uint8_t)(1 << chance(8));
		break;
	case 2:
		mframe[preamble] = eleven[chance(11)];
		break;
	case 3:
		mframe[preamble + place % 2] = (uint8_t)chance(256);
		break;
	case 4:
		mframe[length - 1 - place % 4] ^= (uint8_t)between(1, 255);
		break;
	case 5:
		change_length(preamble);
		break;
	case 6:
		fill(mframe, length);
		break;
	default:
		mframe[place] = PREAMBLE;
		break;
	}
}

/* Cuts it among its 55s or about its delimiter and fragment code, or makes it longer than any may be. */
static void cut_or_extend(void)
{
	uint32_t preamble = leading();
	switch (chance(4)) {
	case 0:
		length = chance(preamble + 1);
		break;
	case 1:
		length = preamble + chance(4);
		break;
	default:
		length = between(SEATPORT_SIZE_MFRAME_MAX - 1, MEMORY);
		break;
	}
}

/* The answer handed on as an event: a V or an R is heard by it, and any other answer is refused and leaves the record as it
 * was, whatever the wait that is handed in. */
static void hand_on(uint32_t answer)
{
	static const uint32_t waits[] = { SEATPORT_WAIT_NONE, SEATPORT_WAIT_USUAL, SEATPORT_WAIT_MAX + 1, 0xffffffff };
	const struct seatport_link trying = { SEATPORT_PHASE_TRYING, 1, 40, 0, 40 };
	struct seatport_link expected = trying;
	uint32_t number = SEATPORT_STEPPED_TAKEN;
	if (answer == SEATPORT_ANSWER_VERIFY_HEARD) {
		expected.owed = 1;
	} else if (answer == SEATPORT_ANSWER_RESPOND_HEARD) {
		expected.phase = SEATPORT_PHASE_VERIFIED;
		expected.attempt = expected.left = 0;
	} else {
		number = SEATPORT_STEPPED_RECORD_BAD;
	}
	for (size_t i = 0; i < sizeof waits / sizeof waits[0]; i++) {
		struct seatport_link link = trying;
		uint32_t ordered = 7;
		if (seatport_step(&link, answer, waits[i], &ordered) != number || ordered != 0)
			fail("the answer handed on is taken as another event");
		same(&link, &expected, sizeof link, "another verification record, the answer handed on");
	}
}

/* What an mFrame that is too short ends before. */
enum shortage { ANY_OCTET, DELIMITER, FRAGMENT_CODE, DATA, SHORTAGES };

/* The headers that were received. Of those not refused, by how many 55s lead: those of a continuation, those of the others,
 * and how many had the longest mFrame. Then all answers to fewer octets than any mFrame has, and to more. */
static struct {
	unsigned too_short[SHORTAGES];
	unsigned continuation[PREAMBLE_MAX + 1], other[PREAMBLE_MAX + 1], longest;
	unsigned below[NUMBERS], beyond[NUMBERS];
} headers;

static bool is_continuation(uint8_t octet)
{
	return octet == continuations[0] || octet == continuations[1] || octet == continuations[2] || octet == continuations[3];
}

static enum shortage shortage(uint32_t preamble, bool continuation)
{
	if (length == 0)
		return ANY_OCTET;
	if (preamble == length)
		return DELIMITER;
	return continuation && preamble + 1 == length ? FRAGMENT_CODE : DATA;
}

static void note_header(uint32_t answer)
{
	uint32_t preamble = leading();
	bool continuation = preamble < length && is_continuation(mframe[preamble]);
	if (length < SEATPORT_SIZE_MFRAME_MIN)
		headers.below[answer]++;
	if (length > SEATPORT_SIZE_MFRAME_MAX)
		headers.beyond[answer]++;
	if (answer == SEATPORT_ANSWER_TOO_SHORT)
		headers.too_short[shortage(preamble, continuation)]++;
	if (answer >= SEATPORT_ANSWER_BUFFER_SHORT && answer < SEATPORT_ANSWER_EXPRESS_DAMAGED)
		return;
	if (preamble > PREAMBLE_MAX)
		fail("too many 55s are not refused");
	(continuation ? headers.continuation : headers.other)[preamble]++;
	headers.longest += length == SEATPORT_SIZE_MFRAME_MAX;
}

/* How often each of several things came about: never is too seldom. */
static void each(const char *what, const unsigned *times, size_t n)
{
	printf("%-12s %s:", "", what);
	for (size_t i = 0; i < n; i++) {
		printf(" %u", times[i]);
		if (times[i] == 0)
			fail("something never came about");
	}
	putchar('\n');
}

static void print_headers(void)
{
	static const unsigned below[] = { 10, 11, 12, 14, 15, 17 }, beyond[] = { 10, 11, 13, 14, 15, 17 };
	printf("%-12s under 65 octets:", "");
	print_numbers(headers.below, below, sizeof below / sizeof below[0]);
	printf("%-12s over 1,531 octets:", "");
	print_numbers(headers.beyond, beyond, sizeof beyond / sizeof beyond[0]);
	each("12 for no octet, no delimiter, no fragment code, too few octets", headers.too_short, SHORTAGES);
	each("not refused, of 1,531 octets", &headers.longest, 1);
	each("not refused, behind 0 to 7 octets 55, of C", headers.continuation, PREAMBLE_MAX + 1);
	each("and of E, S, V, R", headers.other, PREAMBLE_MAX + 1);
	memset(&headers, 0, sizeof headers);
}

/* The mFrame given to both. */
static void receive_one(struct plain_receiver *plain)
{
	struct seatport_receiver port;
	uint64_t room = some_room(SEATPORT_SIZE_ASSEMBLY);
	uint32_t plain_detail = 7, port_detail = 7;
	memcpy(&port, plain, sizeof port);
	uint32_t answer = seatport_receive(&port, mframe, length, port_memory, room, &port_detail);
	answered(answer, plain_receive(plain, mframe, length, plain_memory, (size_t)room, &plain_detail));
	same(&port, plain, sizeof port, "another receiving record");
	same(&port_detail, &plain_detail, sizeof port_detail, "another detail");
	same_memory();
	hand_on(answer);
	note_header(answer);
}

/* Where the mFrame's express body starts, of which both say the same; 0 where it has none. */
static size_t express_body(void)
{
	struct seatport_part part = { 7, 7 };
	size_t start, m = plain_express_body(mframe, length, &start);
	seatport_express_body(mframe, length, &part);
	if (part.start != start || part.length != m)
		fail("another express body");
	if (start > PREAMBLE_MAX + 1 || (start == 0) != (m == 0))
		fail("an express body where none can be");
	return start;
}

/* An mFrame that such a record may meet next. */
static void next_mframe(const struct plain_receiver *r, struct plain_sender *s, uint8_t *body, uint32_t *n)
{
	if (r->assembling && one_in(4))
		fitting(r);
	else
		exchanged(s, body, n);
	if (one_in(2))
		lead_by(some_preamble());
	if (one_in(3))
		damage();
	if (one_in(10))
		cut_or_extend();
}

static void receive_all(void)
{
	static const unsigned numbers[] = { 0, 1, 2, 3, 4, 10, 11, 12, 13, 14, 15, 17, 20, 21, 22, 23, 24, 25 };
	static uint8_t body[MEMORY];
	struct plain_sender sender = { 1, 0, 0, 0, 0, 0, 0 };
	struct plain_receiver plain = { 0, 0, 0, 0, 0, 0, 0, 0, 0 };
	unsigned bodies[PREAMBLE_MAX + 2] = { 0 };
	uint32_t n = 0;
	call = "receive";
	lend();
	for (turn = 0; turn < RECEIVES; turn++) {
		struct plain_receiver before = plain;
		bool broken = one_in(25);
		next_mframe(&plain, &sender, body, &n);
		if (one_in(200))
			plain.assembly_errors = plain.delimiter_errors = plain.assembled = plain.fragments = 0xffffffff;
		if (broken)
			spoil(&plain, 5);
		receive_one(&plain);
		bodies[express_body()]++;
		if (broken)
			plain = before;
	}
	reached("receiving", numbers, sizeof numbers / sizeof numbers[0]);
	print_headers();
	each("no express body, and one from place 1 to 8 on", bodies, PREAMBLE_MAX + 2);
}

/* Verification */

/* A wait, often about a limit, or a number that is none: a wait with a bit too many, say. */
static uint32_t some_wait(void)
{
	uint32_t good = between(SEATPORT_WAIT_MIN, SEATPORT_WAIT_MAX);
	switch (chance(8)) {
	case 0:
		return near(SEATPORT_WAIT_MIN, 256);
	case 1:
		return near(SEATPORT_WAIT_MAX, 256);
	case 2:
		return good | (uint32_t)1 << between(8, 31);
	case 3:
		return odd_word();
	default:
		return good;
	}
}

/* A record as some history leaves it, or nearly so; in trying often with the most or the fewest milliseconds left. */
static struct plain_link some_link(void)
{
	struct plain_link l = { 0, 0, 0, 0, 0 };
	l.phase = chance(4);
	l.owed = chance(2);
	l.wait = some_wait();
	if (l.phase == PLAIN_TRYING) {
		l.attempt = between(1, 3);
		l.left = near(one_in(2) ? l.wait : 1, SEATPORT_WAIT_MAX + 2);
	}
	return l;
}

/* An event told to both. */
static uint32_t step_one(struct plain_link *plain, uint32_t event, uint32_t wait, bool *ordered)
{
	struct seatport_link port;
	uint32_t port_ordered = 7;
	*ordered = false;
	memcpy(&port, plain, sizeof port);
	uint32_t number = seatport_step(&port, event, wait, &port_ordered);
	answered(number, plain_event(plain, event, wait, ordered));
	same(&port, plain, sizeof port, "another verification record");
	if (port_ordered != (*ordered ? 1 : 0))
		fail("V ordered by one alone");
	return number;
}

static void each_phase(const char *what, const unsigned *times)
{
	printf("%-12s %s: off %u, trying %u, verified %u, failed %u\n", "", what, times[0], times[1], times[2], times[3]);
	if (times[0] == 0 || times[1] == 0 || times[2] == 0 || times[3] == 0)
		fail("a phase was never reached");
}

/* Events, each told to what the one before left, or to another record. */
static void step_all(void)
{
	static const unsigned numbers[] = { 0, 40, 41 };
	struct plain_link plain = { 0, 0, 0, 0, 10 };
	unsigned after[4] = { 0, 0, 0, 0 }, wait_bad[4] = { 0, 0, 0, 0 }, orders = 0, least = 0, most = 0;
	bool ordered;
	call = "step";
	for (turn = 0; turn < STEPS; turn++) {
		struct plain_link before = plain;
		uint32_t event = one_in(30) ? odd_word() : one_in(3) ? between(PLAIN_V_HEARD, PLAIN_LINK_FAILED) : PLAIN_MILLISECOND;
		uint32_t wait = some_wait();
		if (one_in(6))
			plain = some_link();
		if (one_in(10))
			spoil(&plain, 5);
		uint32_t number = step_one(&plain, event, wait, &ordered);
		orders += ordered;
		if (ordered && event == PLAIN_ENABLE) {
			least += plain.wait == SEATPORT_WAIT_MIN;
			most += plain.wait == SEATPORT_WAIT_MAX;
		}
		if (number == SEATPORT_STEPPED_TAKEN)
			after[plain.phase]++;
		else if (number == SEATPORT_STEPPED_WAIT_BAD)
			wait_bad[plain.phase]++;
		if (number != SEATPORT_STEPPED_TAKEN)
			plain = before;
	}
	reached("verification", numbers, sizeof numbers / sizeof numbers[0]);
	each_phase("after an event", after);
	each_phase("wait refused in", wait_bad);
	printf("%-12s %u V ordered; begun with a wait of 1: %u, of 128: %u\n", "", orders, least, most);
	if (least == 0 || most == 0)
		fail("the least or the greatest wait was never kept");
}

/* A link that nobody answers, with every wait: three V are ordered a wait apart, and a wait after the third it has failed. */
static void fail_all(void)
{
	static const unsigned numbers[] = { 0 };
	call = "step until failed";
	for (turn = SEATPORT_WAIT_MIN; turn <= SEATPORT_WAIT_MAX; turn++) {
		struct plain_link plain = { 0, 0, 0, 0, 10 };
		bool ordered;
		step_one(&plain, PLAIN_ENABLE, turn, &ordered);
		for (uint32_t past = 0; past < 3 * turn; past++) {
			if (plain.phase != PLAIN_TRYING || ordered != (past % turn == 0))
				fail("a V too early or too late, or failed too early");
			step_one(&plain, PLAIN_MILLISECOND, SEATPORT_WAIT_NONE, &ordered);
		}
		if (plain.phase != PLAIN_FAILED || ordered)
			fail("not failed after three waits");
	}
	reached("unanswered", numbers, sizeof numbers / sizeof numbers[0]);
}

/* Trace */

/* A content, often about as long as one may be. */
static uint32_t some_content(void)
{
	return one_in(6) ? near(1600, 3000) : chance(200);
}

/* Makes a trace, for which there must be 4 * MEMORY octets; how many it has. */
static size_t some_trace(uint8_t *trace)
{
	size_t n = 0;
	while (n < 2 * MEMORY && !one_in(4)) {
		uint32_t m = some_content();
		fill(trace + n, 4 + m);
		trace[n] = (uint8_t)m;
		trace[n + 1] = (uint8_t)(m >> 8);
		trace[n + 2] = one_in(30) ? (uint8_t)chance(256) : 1;
		trace[n + 3] = one_in(30) ? (uint8_t)chance(256) : 0;
		n += 4 + m;
	}
	if (n > 0 && one_in(2))
		n -= chance(n < 6 ? (uint32_t)n : 6);
	return n;
}

static void trace_all(void)
{
	static const unsigned numbers[] = { 0, 1, 50, 51, 52, 53 };
	static uint8_t trace[4 * MEMORY];
	call = "trace";
	for (turn = 0; turn < TRACES; turn++) {
		size_t n = some_trace(trace), at = 0;
		for (;;) {
			struct seatport_content port = { 7, 7, 7 };
			struct plain_content plain = { at, 0, at };
			uint32_t number = seatport_trace(trace + at, n - at, &port);
			answered(number, plain_trace(trace, n, at, &plain));
			if (port.start != plain.start - at || port.length != plain.length || port.next != plain.next - at)
				fail("another content");
			if (number != SEATPORT_TRACED_RECORD)
				break;
			at = plain.next;
		}
	}
	reached("trace", numbers, sizeof numbers / sizeof numbers[0]);
}

/* The hall's schedule. An entry more than a list may have is 257, and rooms go to two more. */

enum { ENTRY = 7, ENTRIES = 258, ROWS = ENTRIES + 4 };

static uint8_t list[ENTRIES * ENTRY + ENTRY];

static uint32_t some_entries(void)
{
	return one_in(3) ? between(254, ENTRIES) : chance(12);
}

static uint32_t some_interval(void)
{
	return one_in(3) ? odd_word() : word();
}

/* Spoils an entry: its operation, or its length, which may also be just what is left of the list, or one more. */
static void damage_entry(uint8_t *entry, size_t left)
{
	static const uint8_t lengths[] = { 0, 1, 4, 5, 6, 7, 200, 255 };
	if (one_in(2))
		entry[0] = (uint8_t)(one_in(2) ? 3 : chance(256));
	else if (one_in(2))
		entry[1] = lengths[chance(sizeof lengths)];
	else
		entry[1] = (uint8_t)(left - 2 + chance(2));
}

/* Spoils an entry of the list, often the last, or takes octets from its end, or puts some behind it, of which the second may
 * be a length that just fits or just does not; how many octets it then has. */
static size_t damage_list(size_t n)
{
	uint32_t whole = (uint32_t)(n / ENTRY);
	if (whole > 0 && one_in(2)) {
		size_t at = ENTRY * (one_in(2) ? whole - 1 : chance(whole));
		damage_entry(list + at, n - at);
		return n;
	}
	if (n > ENTRY && one_in(2))
		return n - between(1, ENTRY - 1);
	uint32_t more = between(1, ENTRY - 1);
	if (n + more > sizeof list)
		return n;
	fill(list + n, more);
	if (more > 1 && one_in(2))
		list[n + 1] = (uint8_t)chance(more);
	return n + more;
}

/* Makes a list; how many octets it has. In some every operation is a hold or a release. */
static size_t some_list(void)
{
	uint32_t entries = some_entries(), least = one_in(3);
	size_t n = entries * ENTRY;
	for (uint8_t *entry = list; entry != list + n; entry += ENTRY) {
		uint32_t interval = some_interval();
		entry[0] = (uint8_t)between(least, 2);
		entry[1] = 5;
		entry[2] = (uint8_t)chance(256);
		for (unsigned i = 0; i < 4; i++)
			entry[3 + i] = (uint8_t)(interval >> (24 - 8 * i));
	}
	while (one_in(3))
		n = damage_list(n);
	return n;
}

/* How much was written in all by the calls that were not refused, and the most by one. */
static unsigned written_in_all, written_most;

static void written_by(uint32_t number, uint32_t port, uint32_t plain)
{
	if (port != plain)
		fail("another count");
	if (number != SEATPORT_GATES_GOOD)
		return;
	written_in_all += port;
	if (port > written_most)
		written_most = port;
}

static void all_written(const char *what, uint32_t most)
{
	printf("%-12s %u %s, at most %u\n", "", written_in_all, what, written_most);
	if (written_most != most)
		fail("the longest was never good");
	written_in_all = written_most = 0;
}

static void gates_read_all(void)
{
	static const unsigned numbers[] = { 0, 60, 61, 62, 63, 64 };
	static struct seatport_entry port[ROWS];
	static struct plain_entry plain[ROWS];
	call = "gates_read";
	for (turn = 0; turn < LISTS; turn++) {
		size_t n = some_list();
		uint32_t port_count = 7, plain_count = 7, needed;
		plain_gates_read(list, n, plain, 0, &needed);
		uint64_t room = near(needed, ENTRIES);
		fill((uint8_t *)plain, sizeof plain);
		memcpy(port, plain, sizeof port);
		uint32_t number = seatport_gates_read(list, n, port, room, &port_count);
		answered(number, plain_gates_read(list, n, plain, (size_t)room, &plain_count));
		written_by(number, port_count, plain_count);
		same(port, plain, sizeof port, "other entries in lent memory, or behind it");
	}
	reached("gates read", numbers, sizeof numbers / sizeof numbers[0]);
	all_written("entries", SEATPORT_LIST_ENTRIES_MAX);
}

static void gates_events_all(void)
{
	static const unsigned numbers[] = { 0, 60, 61, 62, 63, 64 };
	static struct seatport_gate_event port[ROWS];
	static struct plain_gate_event plain[ROWS];
	call = "gates_events";
	for (turn = 0; turn < LISTS; turn++) {
		size_t n = some_list();
		uint32_t port_count = 7, plain_count = 7, needed;
		uint64_t port_cycle = 7, plain_cycle = 7;
		plain_gates_events(list, n, plain, 0, &needed, &plain_cycle);
		uint64_t room = near(needed, ENTRIES);
		fill((uint8_t *)plain, sizeof plain);
		memcpy(port, plain, sizeof port);
		uint32_t number = seatport_gates_events(list, n, port, room, &port_count, &port_cycle);
		answered(number, plain_gates_events(list, n, plain, (size_t)room, &plain_count, &plain_cycle));
		written_by(number, port_count, plain_count);
		same(&port_cycle, &plain_cycle, sizeof port_cycle, "another cycle");
		same(port, plain, sizeof port, "other events in lent memory, or behind it");
	}
	reached("gates events", numbers, sizeof numbers / sizeof numbers[0]);
	all_written("events", SEATPORT_LIST_ENTRIES_MAX);
}

/* Makes entries, now and then with words among them that no entry has; how many. */
static uint32_t some_rows(struct plain_entry *entries)
{
	uint32_t n = some_entries();
	for (uint32_t i = 0; i < n; i++) {
		entries[i].operation = chance(3);
		entries[i].gates = chance(256);
		entries[i].interval = some_interval();
	}
	while (n > 0 && one_in(3))
		spoil(&entries[one_in(2) ? n - 1 : chance(n)], 2);
	return n;
}

static void gates_write_all(void)
{
	static const unsigned numbers[] = { 0, 61, 63, 64 };
	static struct seatport_entry port[ENTRIES];
	static struct plain_entry plain[ENTRIES];
	call = "gates_write";
	for (turn = 0; turn < LISTS; turn++) {
		uint32_t n = some_rows(plain), port_written = 7, plain_written = 7;
		uint64_t room = near(n * ENTRY, MEMORY);
		memcpy(port, plain, sizeof port);
		lend();
		uint32_t number = seatport_gates_write(port, n, port_memory, room, &port_written);
		answered(number, plain_gates_write(plain, n, plain_memory, (size_t)room, &plain_written));
		written_by(number, port_written, plain_written);
		same_memory();
	}
	reached("gates write", numbers, sizeof numbers / sizeof numbers[0]);
	all_written("octets", SEATPORT_LIST_OCTETS_MAX);
}

/* Receiving as octets come: single calls with any state, then whole runs of octets, each with its end. */

static uint8_t port_area[MEMORY + BEHIND], plain_area[MEMORY + BEHIND];

static void lend_area(void)
{
	fill(plain_area, sizeof plain_area);
	memcpy(port_area, plain_area, sizeof port_area);
}

static void same_area(void)
{
	same(port_area, plain_area, sizeof port_area, "other octets in the area, or behind it");
}

/* Any state, often about the limit, and now and then words that fit none. */
static struct plain_stream some_stream(void)
{
	struct plain_stream s;
	s.count = one_in(6) ? odd_word() : near(SEATPORT_SIZE_AREA, MEMORY);
	s.more = one_in(10) ? odd_word() : one_in(3);
	return s;
}

static void octet_all(void)
{
	static const unsigned numbers[] = { 0, 18, 19 };
	call = "octet";
	lend_area();
	for (turn = 0; turn < OCTETS; turn++) {
		struct plain_stream plain = some_stream();
		struct seatport_stream port;
		uint64_t size = some_room(SEATPORT_SIZE_AREA);
		uint8_t octet = (uint8_t)chance(256);
		memcpy(&port, &plain, sizeof port);
		answered(seatport_octet(&port, port_area, size, octet), plain_octet(&plain, plain_area, (size_t)size, octet));
		same(&port, &plain, sizeof port, "another stream");
		same_area();
	}
	reached("octets", numbers, sizeof numbers / sizeof numbers[0]);
}

/* An end told to both: what the port answers. */
static uint32_t end_one(struct plain_stream *stream, struct plain_receiver *record, uint64_t room, uint32_t *detail)
{
	struct seatport_stream port_stream;
	struct seatport_receiver port;
	uint64_t size = some_room(SEATPORT_SIZE_AREA);
	uint32_t plain_detail = 7;
	*detail = 7;
	memcpy(&port_stream, stream, sizeof port_stream);
	memcpy(&port, record, sizeof port);
	uint32_t answer = seatport_end(&port_stream, port_area, size, &port, port_memory, room, detail);
	answered(answer, plain_end(stream, plain_area, (size_t)size, record, plain_memory, (size_t)room, &plain_detail));
	same(&port_stream, stream, sizeof port_stream, "another stream");
	same(&port, record, sizeof port, "another receiving record");
	same(detail, &plain_detail, sizeof plain_detail, "another detail");
	same_area();
	same_memory();
	hand_on(answer);
	return answer;
}

/* Ends of any state, mostly of one that has an mFrame in its area. */
static void end_all(void)
{
	static const unsigned numbers[] = { 0, 1, 2, 3, 4, 10, 11, 12, 13, 14, 15, 17, 18, 19, 20, 21, 22, 23, 24, 25 };
	static uint8_t body[MEMORY];
	struct plain_sender sender = { 1, 0, 0, 0, 0, 0, 0 };
	struct plain_receiver plain = { 0, 0, 0, 0, 0, 0, 0, 0, 0 };
	uint32_t n = 0, detail;
	call = "end";
	lend();
	lend_area();
	for (turn = 0; turn < ENDS; turn++) {
		struct plain_receiver before = plain;
		bool broken = one_in(25), any = one_in(5);
		next_mframe(&plain, &sender, body, &n);
		memcpy(port_area, mframe, length);
		memcpy(plain_area, mframe, length);
		struct plain_stream stream = { length, 0 };
		if (length > SEATPORT_SIZE_AREA) {
			stream.count = SEATPORT_SIZE_AREA;
			stream.more = 1;
		}
		if (any)
			stream = some_stream();
		if (broken)
			spoil(&plain, 5);
		uint64_t room = some_room(SEATPORT_SIZE_ASSEMBLY);
		end_one(&stream, &plain, room, &detail);
		if (broken)
			plain = before;
	}
	reached("ends", numbers, sizeof numbers / sizeof numbers[0]);
}

/* The octets of the run, one after the other, for each of which both wait. */
static void give_run(struct plain_stream *plain)
{
	struct seatport_stream port;
	uint64_t size = between(SEATPORT_SIZE_AREA, MEMORY);
	memcpy(&port, plain, sizeof port);
	for (uint32_t i = 0; i < length; i++) {
		uint32_t number = seatport_octet(&port, port_area, size, mframe[i]);
		if (number != SEATPORT_GIVEN_WAITS || plain_octet(plain, plain_area, (size_t)size, mframe[i]) != 0)
			fail("an octet is refused");
		same(&port, plain, sizeof port, "another stream");
	}
	same_area();
}

/* The end of the run, which a call with too short an area puts off. The first receiver, given the run in one piece, says the
 * same and leaves the same in a buffer of its own. */
static void end_run(struct plain_stream *stream, struct plain_receiver *plain, uint8_t *first_memory)
{
	struct seatport_receiver first;
	uint64_t room = some_room(SEATPORT_SIZE_ASSEMBLY);
	uint32_t answer, detail, first_detail = 7;
	memcpy(&first, plain, sizeof first);
	do
		answer = end_one(stream, plain, room, &detail);
	while (answer == SEATPORT_ANSWER_AREA_SHORT);
	if (seatport_receive(&first, mframe, length, first_memory, room, &first_detail) != answer || first_detail != detail)
		fail("the first receiver answers otherwise");
	same(&first, plain, sizeof first, "another receiving record than the first receiver's");
	same(port_memory, first_memory, sizeof port_memory, "other octets in lent memory than the first receiver's");
	note_header(answer);
}

/* Runs of octets, each with its end. */
static void run_all(void)
{
	static const unsigned numbers[] = { 0, 1, 2, 3, 4, 10, 11, 12, 13, 14, 15, 17, 18, 20, 21, 22, 23, 24, 25 };
	static uint8_t body[MEMORY], first_memory[sizeof port_memory];
	struct plain_sender sender = { 1, 0, 0, 0, 0, 0, 0 };
	struct plain_receiver plain = { 0, 0, 0, 0, 0, 0, 0, 0, 0 };
	struct plain_stream stream = { 0, 0 };
	uint32_t n = 0, octets = 0;
	call = "octet and end";
	lend();
	lend_area();
	memcpy(first_memory, port_memory, sizeof first_memory);
	for (turn = 0; turn < RUNS; turn++) {
		struct plain_receiver before = plain;
		bool broken = one_in(25);
		next_mframe(&plain, &sender, body, &n);
		octets += length;
		give_run(&stream);
		if (broken)
			spoil(&plain, 5);
		end_run(&stream, &plain, first_memory);
		if (broken)
			plain = before;
	}
	reached("runs", numbers, sizeof numbers / sizeof numbers[0]);
	print_headers();
	printf("%-12s %u octets\n", "", (unsigned)octets);
}

/* Captures. What is written and what is read are each tried with every octet of a small one changed and with every cut of it,
 * with fields about their limits, by chance, and with more octets and more records than 16 bits can count; then both on one
 * trace. */

enum { FILE_HEADER = SEATPORT_CAPTURE_SIZE_HEADER, RECORD_HEADER = SEATPORT_CAPTURE_SIZE_RECORD_HEADER, TRACE_HEADER = 4 };
enum { CONTENT_MAX = SEATPORT_CAPTURE_SNAP_LENGTH, CONTENTS = 45, LONG_TRACE = CONTENTS * (TRACE_HEADER + CONTENT_MAX) };
enum { LONG_CAPTURE = FILE_HEADER + CONTENTS * (RECORD_HEADER + CONTENT_MAX), MANY_RECORDS = 65600 };
static const uint32_t magic = 0xa1b2c3d4;

/* The trace or the capture that is given to both, and the order in which its numbers are put down. */
static struct {
	uint8_t octets[FILE_HEADER + RECORD_HEADER * (MANY_RECORDS + 1)];
	size_t length;
	bool high_first;
} given;

/* Rooms go to one octet more than the longest needs. */
static uint8_t port_file[LONG_CAPTURE + 1 + BEHIND], plain_file[LONG_CAPTURE + 1 + BEHIND];

/* A number of so many octets, put behind what there is. */
static void append(unsigned n, uint32_t value)
{
	for (unsigned i = 0; i < n; i++)
		given.octets[given.length++] = (uint8_t)(value >> 8 * (given.high_first ? n - 1 - i : i));
}

static void append_octets(size_t n)
{
	fill(given.octets + given.length, n);
	given.length += n;
}

/* A record of a trace, or of a capture, with so many octets behind its header. */
static void append_traced(uint32_t length_said, uint32_t kind, size_t there)
{
	append(2, length_said);
	append(2, kind);
	append_octets(there);
}

static void append_stored(uint32_t stored, uint32_t original, size_t there)
{
	append_octets(8);
	append(4, stored);
	append(4, original);
	append_octets(there);
}

static void begin_trace(void)
{
	given.length = 0;
	given.high_first = false;
}

/* Zone, accuracy and snap length are any numbers. */
static void begin_capture_of(bool high_first, uint32_t begins, uint32_t major, uint32_t minor, uint32_t link_type)
{
	given.length = 0;
	given.high_first = high_first;
	append(4, begins);
	append(2, major);
	append(2, minor);
	append_octets(8);
	append(4, odd_word());
	append(4, link_type);
}

static void begin_capture(bool high_first)
{
	begin_capture_of(high_first, magic, 2, 4, SEATPORT_CAPTURE_LINK_TYPE);
}

/* One of the two calls, the port's and plain C's. */
struct conversion {
	const char *name;
	uint32_t (*port)(const uint8_t *, uint64_t, uint8_t *, uint64_t, uint64_t *);
	int (*plain)(const uint8_t *, size_t, uint8_t *, size_t, uint64_t *);
};

static const struct conversion writing = { "capture_write", seatport_capture_write, plain_capture_write };
static const struct conversion reading = { "capture_read", seatport_capture_read, plain_capture_read };

/* Which record was refused: the first, the second, the third, or a later one; and how many captures were read in each order. */
static unsigned refused_at[4], read_in[2];

static void note_conversion(const struct conversion *c, uint32_t number, uint64_t value)
{
	bool record = number != SEATPORT_CAPTURE_GOOD && number < SEATPORT_CAPTURE_OUTPUT_SHORT && value != 0;
	if (record)
		refused_at[value < 4 ? value - 1 : 3]++;
	if (c == &reading && number == SEATPORT_CAPTURE_GOOD)
		read_in[given.octets[0] == magic >> 24]++;
}

/* What is given, converted by both. Of the lent memory, only what is told as written may have changed. */
static uint32_t convert(const struct conversion *c, size_t room, uint64_t *value)
{
	uint64_t plain_value = 7;
	size_t lent = room + BEHIND;
	*value = 7;
	call = c->name;
	turn++;
	for (size_t i = 0; i < lent; i++)
		port_file[i] = (uint8_t)(turn + i);
	memcpy(plain_file, port_file, lent);
	uint32_t number = c->port(given.octets, given.length, port_file, room, value);
	answered(number, c->plain(given.octets, given.length, plain_file, room, &plain_value));
	if (*value != plain_value)
		fail("another value");
	same(port_file, plain_file, lent, "other octets in lent memory, or behind it");
	if (number == SEATPORT_CAPTURE_OUTPUT_SHORT ? *value <= room : number == SEATPORT_CAPTURE_GOOD && *value > room)
		fail("the room is told as too short, or as enough, and is not");
	for (size_t i = number == SEATPORT_CAPTURE_GOOD ? (size_t)*value : 0; i < lent; i++)
		if (port_file[i] != (uint8_t)(turn + i))
			fail("an octet is written that is not told as written");
	written_by(number, (uint32_t)*value, (uint32_t)plain_value);
	note_conversion(c, number, *value);
	return number;
}

/* With no room, which tells how much is needed, then with an octet too few, with just enough and with one more. What is refused
 * otherwise is refused with as much room as any answer may need, too: a record of four octets in a trace has 16 in a capture. */
static void convert_about(const struct conversion *c)
{
	uint64_t needed, value;
	uint32_t number = convert(c, 0, &needed);
	if (number != SEATPORT_CAPTURE_OUTPUT_SHORT) {
		size_t much = FILE_HEADER + 4 * given.length;
		if (convert(c, much < LONG_CAPTURE ? much : LONG_CAPTURE, &value) != number || value != needed)
			fail("with much room something else is said");
		return;
	}
	for (size_t room = (size_t)needed - 1; room <= needed + 1; room++) {
		number = convert(c, room, &value);
		if (number != (room < needed ? SEATPORT_CAPTURE_OUTPUT_SHORT : SEATPORT_CAPTURE_GOOD) || value != needed)
			fail("not as much room is needed as was told");
	}
}

/* Every octet of what is given, changed to every other. */
static void change_each(const struct conversion *c)
{
	for (size_t at = 0; at < given.length; at++) {
		uint8_t kept = given.octets[at];
		for (unsigned change = 1; change < 256; change++) {
			given.octets[at] = (uint8_t)(kept ^ change);
			convert_about(c);
		}
		given.octets[at] = kept;
	}
}

/* Every front of what is given, with every room up to one more than all of it needs. */
static void cut_each(const struct conversion *c)
{
	size_t whole = given.length;
	uint64_t needed, value;
	convert(c, 0, &needed);
	for (given.length = 0; given.length <= whole; given.length++)
		for (size_t room = 0; room <= needed + 1; room++)
			convert(c, room, &value);
	given.length = whole;
}

/* How many octets may stand behind a header that says so many: none, one, one too few, all, or one too many. */
static size_t some_there(uint32_t said, uint32_t which)
{
	size_t all = said > CONTENT_MAX ? CONTENT_MAX + 1 : said;
	switch (which) {
	case 0:
	case 1:
		return which;
	case 2:
		return all == 0 ? 0 : all - 1;
	default:
		return all + (which == 4);
	}
}

/* One of so many; what is left of the number chooses the next. */
static uint32_t choose(uint32_t *which, uint32_t n)
{
	uint32_t chosen = *which % n;
	*which /= n;
	return chosen;
}

enum { THERE = 5, LENGTHS = 10, KINDS = 7 };

/* Behind a good record one with each length, each kind and more or less of its content. */
static void traced_fields(void)
{
	static const uint32_t lengths[LENGTHS] = { 0, 1, 255, 256, 1599, 1600, 1601, 0x4006, 0x8000, 0xffff };
	static const uint32_t kinds[KINDS] = { 1, 0, 2, 0x100, 0x101, 0x8001, 0xffff };
	for (uint32_t i = 0; i < LENGTHS * KINDS * THERE; i++) {
		uint32_t which = i, said = lengths[choose(&which, LENGTHS)], kind = kinds[choose(&which, KINDS)];
		begin_trace();
		append_traced(3, 1, 3);
		append_traced(said, kind, some_there(said, which));
		convert_about(&writing);
	}
}

/* Contents of the greatest length, so many that neither the trace nor the capture has a length of 16 bits. */
static void long_trace(void)
{
	begin_trace();
	for (unsigned i = 0; i < CONTENTS; i++)
		append_traced(CONTENT_MAX, 1, CONTENT_MAX);
}

/* So many records without content that their number needs more than 16 bits: they are counted, and one more, which is cut, is
 * told by its place. */
static void many_traced(void)
{
	uint64_t value;
	begin_trace();
	for (unsigned i = 0; i < MANY_RECORDS; i++)
		append_traced(0, 1, 0);
	if (convert(&writing, 0, &value) != SEATPORT_CAPTURE_OUTPUT_SHORT || value != FILE_HEADER + RECORD_HEADER * MANY_RECORDS)
		fail("many records are not counted");
	append_traced(7, 1, 0);
	if (convert(&writing, 0, &value) != SEATPORT_CAPTURE_TRACE_CONTENT_CUT || value != MANY_RECORDS + 1)
		fail("the record behind many is not refused");
}

/* A trace without records, and a small one with three. */
static void small_traces(void)
{
	begin_trace();
	cut_each(&writing);
	append_traced(3, 1, 3);
	append_traced(0, 1, 0);
	append_traced(5, 1, 5);
	cut_each(&writing);
	change_each(&writing);
}

static void print_refused(void)
{
	each("refused at record 1, 2, 3, a later one", refused_at, 4);
	memset(refused_at, 0, sizeof refused_at);
}

static void capture_write_all(void)
{
	static const unsigned numbers[] = { 0, 50, 51, 52, 53, 78 };
	turn = 0;
	small_traces();
	traced_fields();
	long_trace();
	convert_about(&writing);
	many_traced();
	for (unsigned i = 0; i < CAPTURES; i++) {
		given.length = some_trace(given.octets);
		convert_about(&writing);
	}
	reached("pcap write", numbers, sizeof numbers / sizeof numbers[0]);
	all_written("octets", LONG_CAPTURE);
	print_refused();
}

enum { ORDERS = 2, STORED = 14, MAGICS = 7, VERSIONS = 9, LINK_TYPES = 11, TAILS = 6 };

/* Behind a good record one with each pair of lengths and more or less of its content. */
static void stored_fields(void)
{
	static const uint32_t lengths[STORED] = { 0, 1, 255, 256, 1599, 1600, 1601, 0x10000, 0x10640, 0x40060000,
						  0x640ffff, 0x80000000, 0x80000640, 0xffffffff };
	for (uint32_t i = 0; i < STORED * STORED * ORDERS * THERE; i++) {
		uint32_t which = i, stored = lengths[choose(&which, STORED)], original = lengths[choose(&which, STORED)];
		begin_capture(choose(&which, ORDERS));
		append_stored(3, 3, 3);
		append_stored(stored, original, some_there(stored, which));
		convert_about(&reading);
	}
}

/* What stands behind a file header: nothing, a good record, or one that is refused. */
static void append_tail(uint32_t which)
{
	switch (which) {
	case 0:
		break;
	case 1:
		append_stored(2, 2, 2);
		break;
	case 2:
		append_octets(RECORD_HEADER - 1);
		break;
	case 3:
		append_stored(CONTENT_MAX + 1, CONTENT_MAX + 1, 0);
		break;
	case 4:
		append_stored(2, 3, 2);
		break;
	default:
		append_stored(2, 2, 1);
		break;
	}
}

/* File headers with numbers of which one or more are none of a capture's: nanoseconds, pcapng, bits turned, octets the other way
 * round, more than 16 bits of a link type. Each is also cut by an octet. */
static void header_fields(void)
{
	static const uint32_t magics[MAGICS] = { 0xa1b2c3d4, 0xd4c3b2a1, 0xa1b23c4d, 0x4d3cb2a1, 0x0a0d0d0a, 0xa1b2c3d5, 0 };
	static const uint32_t versions[VERSIONS][2] = { { 2, 4 },         { 2, 3 },     { 2, 5 },     { 1, 4 }, { 3, 4 }, { 4, 2 },
							{ 0x200, 0x400 }, { 0x102, 4 }, { 2, 0x104 } };
	static const uint32_t link_types[LINK_TYPES] = { 274,     0,          1,          273,        275,       0x12010000,
							 0x10112, 0x02000112, 0x14000112, 0xf0000112, 0xffffffff };
	for (uint32_t i = 0; i < MAGICS * VERSIONS * LINK_TYPES * TAILS * ORDERS; i++) {
		uint32_t which = i, begins = magics[choose(&which, MAGICS)];
		const uint32_t *version = versions[choose(&which, VERSIONS)];
		uint32_t link_type = link_types[choose(&which, LINK_TYPES)], tail = choose(&which, TAILS);
		begin_capture_of(which, begins, version[0], version[1], link_type);
		append_tail(tail);
		convert_about(&reading);
		given.length = FILE_HEADER - 1;
		convert_about(&reading);
	}
}

/* A capture without records, and a small one with three. */
static void small_captures(bool high_first)
{
	begin_capture(high_first);
	cut_each(&reading);
	append_stored(3, 3, 3);
	append_stored(0, 0, 0);
	append_stored(5, 5, 5);
	cut_each(&reading);
	change_each(&reading);
}

static void long_capture(void)
{
	begin_capture(true);
	for (unsigned i = 0; i < CONTENTS; i++)
		append_stored(CONTENT_MAX, CONTENT_MAX, CONTENT_MAX);
}

static void many_stored(bool high_first)
{
	uint64_t value;
	begin_capture(high_first);
	for (unsigned i = 0; i < MANY_RECORDS; i++)
		append_stored(0, 0, 0);
	if (convert(&reading, 0, &value) != SEATPORT_CAPTURE_OUTPUT_SHORT || value != TRACE_HEADER * MANY_RECORDS)
		fail("many records are not counted");
	append_stored(7, 7, 0);
	if (convert(&reading, 0, &value) != SEATPORT_CAPTURE_CONTENT_CUT || value != MANY_RECORDS + 1)
		fail("the record behind many is not refused");
}

/* Makes a capture, now and then with lengths that are none, a bit turned, or an end too early. */
static void some_capture(void)
{
	begin_capture(one_in(2));
	while (given.length < 2 * MEMORY && !one_in(4)) {
		uint32_t there = some_content();
		uint32_t stored = one_in(40) ? odd_word() : there;
		uint32_t original = one_in(40) ? odd_word() : stored;
		append_stored(stored, original, there);
	}
	if (one_in(10)) {
		uint32_t at = chance((uint32_t)given.length);
		given.octets[at] ^= (uint8_t)(1 << chance(8));
	}
	if (one_in(2))
		given.length -= chance(FILE_HEADER);
}

static void capture_read_all(void)
{
	static const unsigned numbers[] = { 0, 70, 71, 72, 73, 74, 75, 76, 77, 78 };
	turn = 0;
	small_captures(false);
	small_captures(true);
	stored_fields();
	header_fields();
	long_capture();
	convert_about(&reading);
	many_stored(false);
	many_stored(true);
	for (unsigned i = 0; i < CAPTURES; i++) {
		some_capture();
		convert_about(&reading);
	}
	reached("pcap read", numbers, sizeof numbers / sizeof numbers[0]);
	all_written("octets", LONG_TRACE);
	print_refused();
	each("read with the low octets first, with the high ones first", read_in, ORDERS);
}

/* Turns numbers of so many octets the other way round, one behind the other. */
static void turn_round(size_t at, size_t size, unsigned numbers)
{
	for (uint8_t *number = given.octets + at; numbers > 0; numbers--, number += size)
		for (size_t i = 0; i < size / 2; i++) {
			uint8_t octet = number[i];
			number[i] = number[size - 1 - i];
			number[size - 1 - i] = octet;
		}
}

/* The capture that is given, low octets first, with the high ones first. */
static void turn_capture(void)
{
	turn_round(0, 4, 1);
	turn_round(4, 2, 2);
	turn_round(8, 4, 4);
	for (size_t at = FILE_HEADER; at < given.length;) {
		size_t content = (size_t)(given.octets[at + 8] | given.octets[at + 9] << 8);
		turn_round(at, 4, 4);
		at += RECORD_HEADER + content;
	}
}

static void read_back(const uint8_t *trace, size_t n)
{
	uint64_t value;
	if (convert(&reading, n, &value) != SEATPORT_CAPTURE_GOOD || value != n)
		fail("a capture is not read back");
	same(port_file, trace, n, "another trace is read back");
}

/* The trace that is given, which is good: written, and read back in both orders. */
static void round_trip(void)
{
	static uint8_t trace[LONG_TRACE];
	uint64_t needed, value;
	size_t n = given.length;
	memcpy(trace, given.octets, n);
	convert(&writing, 0, &needed);
	if (convert(&writing, (size_t)needed, &value) != SEATPORT_CAPTURE_GOOD)
		fail("a good trace is not written");
	memcpy(given.octets, port_file, (size_t)value);
	given.length = (size_t)value;
	read_back(trace, n);
	turn_capture();
	read_back(trace, n);
}

static void good_trace(void)
{
	begin_trace();
	while (given.length < 2 * MEMORY && !one_in(6)) {
		uint32_t n = one_in(8) ? between(CONTENT_MAX - 2, CONTENT_MAX) : chance(100);
		append_traced(n, 1, n);
	}
}

static void round_trip_all(void)
{
	static const unsigned numbers[] = { 0, 78 };
	turn = 0;
	long_trace();
	round_trip();
	for (unsigned i = 0; i < ROUND_TRIPS; i++) {
		good_trace();
		round_trip();
	}
	reached("pcap both", numbers, sizeof numbers / sizeof numbers[0]);
	all_written("octets", LONG_CAPTURE);
}

int main(void)
{
	send_all();
	receive_all();
	step_all();
	fail_all();
	trace_all();
	gates_read_all();
	gates_write_all();
	gates_events_all();
	octet_all();
	end_all();
	run_all();
	capture_write_all();
	capture_read_all();
	round_trip_all();
	if (fflush(stdout) != 0 || ferror(stdout)) {
		fputs("compare: the output could not be written.\n", stderr);
		return 1;
	}
	return 0;
}
