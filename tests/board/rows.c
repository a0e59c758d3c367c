#include "rows.h"

#include <string.h>

#include "plain.h"
#include "seatport.h"

enum { PRESS = 60, PHOTOGRAPH = 1518, CUT = 760, ENTRIES = SEATPORT_LIST_ENTRIES_MAX, LIST = SEATPORT_LIST_OCTETS_MAX };

static uint8_t press[PRESS], photograph[PHOTOGRAPH];

/* What the row calls with, and where the two leave what they made. */
static uint8_t mframe[SEATPORT_SIZE_MFRAME_MAX];
static uint32_t length;
static const uint8_t *body;
static uint32_t body_length;
static uint64_t ask;
static struct plain_sender sender_before;
static struct plain_receiver receiver_before;
static struct plain_stream stream_before;
static uint32_t calls;

static uint8_t port_memory[LIST], plain_memory[LIST];
static struct seatport_sender port_sender;
static struct plain_sender plain_sender;
static struct seatport_receiver port_receiver;
static struct plain_receiver plain_receiver;
static uint8_t port_area[SEATPORT_SIZE_AREA], plain_area[SEATPORT_SIZE_AREA];
static struct seatport_stream port_stream;
static struct plain_stream plain_stream;
static struct seatport_written port_written;
static struct plain_written plain_written;
static uint32_t port_detail, plain_detail, port_answer, plain_answer;

/* The octets that a row puts in the delimiter's place, a call for each, and what the two say of them. */
static uint8_t unknown[256];
static uint32_t unknown_count;
static uint32_t port_bits[256], plain_bits[256];

/* The same of the hall's schedule. */
static struct plain_entry entries[ENTRIES];
static uint8_t list[LIST];
static struct seatport_entry port_entries[ENTRIES];
static struct plain_entry plain_entries[ENTRIES];
static struct seatport_gate_event port_events[ENTRIES];
static struct plain_gate_event plain_events[ENTRIES];
static uint64_t port_cycle, plain_cycle;

/* And of captures: presses, and records of no octets, of which a file of one length has the most. */
enum { PRESSES = 16, EMPTY_RECORDS = 64, PRESS_MFRAME = 72, TRACE_HEADER = 4 };
enum { PRESSES_TRACED = PRESSES * (TRACE_HEADER + PRESS_MFRAME), EMPTY_TRACED = EMPTY_RECORDS * TRACE_HEADER };
enum { HEADER = SEATPORT_CAPTURE_SIZE_HEADER, RECORD_HEADER = SEATPORT_CAPTURE_SIZE_RECORD_HEADER };
enum { PRESSES_CAPTURED = HEADER + PRESSES * (RECORD_HEADER + PRESS_MFRAME), EMPTY_CAPTURED = HEADER + EMPTY_RECORDS * RECORD_HEADER };
static uint8_t file[PRESSES_CAPTURED];
static uint32_t file_length;
static uint64_t port_value, plain_value;

static void clear(void)
{
	for (uint32_t i = 0; i < PRESS; i++)
		press[i] = (uint8_t)(3 * i + 1);
	for (uint32_t i = 0; i < PHOTOGRAPH; i++)
		photograph[i] = (uint8_t)(i * i / 7 + i);
	memset(port_memory, 0xa5, sizeof port_memory);
	memset(plain_memory, 0xa5, sizeof plain_memory);
	memset(&sender_before, 0, sizeof sender_before);
	memset(&receiver_before, 0, sizeof receiver_before);
	memset(&stream_before, 0, sizeof stream_before);
	memset(port_area, 0xa5, sizeof port_area);
	memset(plain_area, 0xa5, sizeof plain_area);
	memset(&port_stream, 0, sizeof port_stream);
	memset(&plain_stream, 0, sizeof plain_stream);
	memset(&port_written, 0, sizeof port_written);
	memset(&plain_written, 0, sizeof plain_written);
	memset(&port_sender, 0, sizeof port_sender);
	memset(&plain_sender, 0, sizeof plain_sender);
	memset(&port_receiver, 0, sizeof port_receiver);
	memset(&plain_receiver, 0, sizeof plain_receiver);
	memset(port_bits, 0, sizeof port_bits);
	memset(plain_bits, 0, sizeof plain_bits);
	port_detail = plain_detail = 0;
	calls = 1;
	unknown_count = 0;
	sender_before.active = 1;
	body = photograph;
	body_length = PHOTOGRAPH;
	ask = SEATPORT_NO_ASK;
}

uint32_t row_calls(void)
{
	return calls;
}

int row_agrees(void)
{
	return port_answer == plain_answer && port_detail == plain_detail && memcmp(port_bits, plain_bits, sizeof port_bits) == 0 &&
	       memcmp(port_memory, plain_memory, sizeof port_memory) == 0 &&
	       memcmp(&port_sender, &plain_sender, sizeof port_sender) == 0 &&
	       memcmp(&port_receiver, &plain_receiver, sizeof port_receiver) == 0 &&
	       memcmp(port_area, plain_area, sizeof port_area) == 0 &&
	       memcmp(&port_stream, &plain_stream, sizeof port_stream) == 0 &&
	       memcmp(&port_written, &plain_written, sizeof port_written) == 0 && port_cycle == plain_cycle && port_value == plain_value &&
	       memcmp(port_entries, plain_entries, sizeof port_entries) == 0 &&
	       memcmp(port_events, plain_events, sizeof port_events) == 0;
}

/* Receiving */

static void no_receiving(void)
{
	memcpy(&port_receiver, &receiver_before, sizeof port_receiver);
}

static void port_receives(void)
{
	memcpy(&port_receiver, &receiver_before, sizeof port_receiver);
	port_answer = seatport_receive(&port_receiver, mframe, length, port_memory, sizeof port_memory, &port_detail);
}

static void plain_receives(void)
{
	memcpy(&plain_receiver, &receiver_before, sizeof plain_receiver);
	plain_answer = (uint32_t)plain_receive(&plain_receiver, mframe, length, plain_memory, sizeof plain_memory, &plain_detail);
}

static void express(const uint8_t *octets, uint32_t n)
{
	struct plain_written w;
	clear();
	plain_express(octets, n, mframe, sizeof mframe, &w);
	length = w.length;
}

static void express_short(void)
{
	express(press, PRESS);
}

static void express_long(void)
{
	express(photograph, PHOTOGRAPH);
}

/* None of its seven 55s is left. */
static void express_bare(void)
{
	express_short();
	length -= 7;
	memmove(mframe, mframe + 7, length);
}

/* A 55 more than it is sent with. */
static void lead_by_one_more(void)
{
	memmove(mframe + 1, mframe, length);
	length++;
}

static void preamble_of_eight(void)
{
	express_short();
	lead_by_one_more();
}

static void damaged_delimiter(void)
{
	express_short();
	mframe[7] ^= 1;
}

/* Every octet that differs from the nearest delimiter in so many bits, which plain C tells. */
static void delimiters_away(uint32_t bits)
{
	express_short();
	for (uint32_t octet = 0; octet < 256; octet++) {
		struct plain_receiver r = receiver_before;
		uint32_t detail;
		mframe[7] = (uint8_t)octet;
		if (plain_receive(&r, mframe, length, plain_memory, sizeof plain_memory, &detail) == SEATPORT_ANSWER_DELIMITER_BAD &&
		    detail == bits)
			unknown[unknown_count++] = (uint8_t)octet;
	}
	calls = unknown_count;
	memcpy(port_memory, plain_memory, sizeof port_memory);
}

static void delimiters_1_away(void)
{
	delimiters_away(1);
}

static void delimiters_2_away(void)
{
	delimiters_away(2);
}

static void delimiters_3_away(void)
{
	delimiters_away(3);
}

static void delimiters_4_away(void)
{
	delimiters_away(4);
}

/* Not drawn into its callers: so that each of them does the same besides the calls. */
__attribute__((noinline)) static void each_unknown(void (*receives)(void), uint32_t *bits, const uint32_t *detail)
{
	for (uint32_t i = 0; i < unknown_count; i++) {
		mframe[7] = unknown[i];
		receives();
		bits[i] = *detail;
	}
}

static void no_receiving_each(void)
{
	each_unknown(no_receiving, port_bits, &port_detail);
}

static void port_receives_each(void)
{
	each_unknown(port_receives, port_bits, &port_detail);
}

static void plain_receives_each(void)
{
	each_unknown(plain_receives, plain_bits, &plain_detail);
}

/* The next mFrame of the photograph: so many of its octets, or as few as may be where these are fewer; with SEATPORT_NO_ASK
 * all that is left. */
static void next_mframe(uint64_t octets)
{
	struct plain_written w;
	plain_preemptable(&sender_before, photograph, PHOTOGRAPH, octets != SEATPORT_NO_ASK, octets, mframe, sizeof mframe, &w);
	length = w.length;
}

static void start(uint64_t octets)
{
	clear();
	next_mframe(octets);
}

static void start_64(void)
{
	start(64);
}

static void start_256(void)
{
	start(256);
}

static void start_1518(void)
{
	start(SEATPORT_NO_ASK);
}

/* Behind the shortest start. */
static void continuation(uint64_t octets)
{
	start(0);
	plain_receive(&receiver_before, mframe, length, plain_memory, sizeof plain_memory, &plain_detail);
	memcpy(port_memory, plain_memory, sizeof port_memory);
	next_mframe(octets);
}

static void continuation_64(void)
{
	continuation(64);
}

static void continuation_256(void)
{
	continuation(256);
}

static void continuation_1458(void)
{
	continuation(SEATPORT_NO_ASK);
}

/* The longest header: seven 55s in place of six, and two octets. */
static void continuation_led(void)
{
	continuation_64();
	lead_by_one_more();
}

/* Receiving as octets come */

static void octets_waiting(void)
{
	express_long();
	calls = length;
}

static void octets_beyond(void)
{
	octets_waiting();
	stream_before.count = SEATPORT_SIZE_AREA;
}

/* Every octet of the mFrame: what the two do besides the calls, and the calls. */

static void no_octets(void)
{
	uint32_t answers = 0;
	memcpy(&port_stream, &stream_before, sizeof port_stream);
	for (const uint8_t *octet = mframe, *end = mframe + length; octet != end; octet++) {
		__asm__ volatile(""); /* in the call's place: the compiler unrolls no loop with a call */
		answers |= *octet;
	}
	port_answer = answers;
}

static void port_gives(void)
{
	uint32_t answers = 0;
	memcpy(&port_stream, &stream_before, sizeof port_stream);
	for (const uint8_t *octet = mframe, *end = mframe + length; octet != end; octet++)
		answers |= seatport_octet(&port_stream, port_area, sizeof port_area, *octet);
	port_answer = answers;
}

static void plain_gives(void)
{
	uint32_t answers = 0;
	memcpy(&plain_stream, &stream_before, sizeof plain_stream);
	for (const uint8_t *octet = mframe, *end = mframe + length; octet != end; octet++)
		answers |= (uint32_t)plain_octet(&plain_stream, plain_area, sizeof plain_area, *octet);
	plain_answer = answers;
}

/* Behind the octets of the mFrame. */
static void came(void)
{
	memcpy(port_area, mframe, length);
	memcpy(plain_area, mframe, length);
	stream_before.count = length;
}

static void end_short(void)
{
	express_short();
	came();
}

static void end_long(void)
{
	express_long();
	came();
}

static void no_ending(void)
{
	memcpy(&port_stream, &stream_before, sizeof port_stream);
	memcpy(&port_receiver, &receiver_before, sizeof port_receiver);
}

static void port_ends(void)
{
	memcpy(&port_stream, &stream_before, sizeof port_stream);
	memcpy(&port_receiver, &receiver_before, sizeof port_receiver);
	port_answer = seatport_end(&port_stream, port_area, sizeof port_area, &port_receiver, port_memory, sizeof port_memory, &port_detail);
}

static void plain_ends(void)
{
	memcpy(&plain_stream, &stream_before, sizeof plain_stream);
	memcpy(&plain_receiver, &receiver_before, sizeof plain_receiver);
	plain_answer = (uint32_t)plain_end(&plain_stream, plain_area, sizeof plain_area, &plain_receiver, plain_memory,
					   sizeof plain_memory, &plain_detail);
}

/* Sending */

static void nothing(void)
{
}

static void port_sends_express(void)
{
	port_answer = seatport_express(body, body_length, port_memory, sizeof port_memory, &port_written);
}

static void plain_sends_express(void)
{
	plain_answer = (uint32_t)plain_express(body, body_length, plain_memory, sizeof plain_memory, &plain_written);
}

static void no_sending(void)
{
	memcpy(&port_sender, &sender_before, sizeof port_sender);
}

static void port_sends(void)
{
	memcpy(&port_sender, &sender_before, sizeof port_sender);
	port_answer = seatport_preemptable(&port_sender, body, body_length, ask, port_memory, sizeof port_memory, &port_written);
}

static void plain_sends(void)
{
	memcpy(&plain_sender, &sender_before, sizeof plain_sender);
	plain_answer = (uint32_t)plain_preemptable(&plain_sender, body, body_length, ask != SEATPORT_NO_ASK, ask, plain_memory,
						   sizeof plain_memory, &plain_written);
}

static void press_sent(void)
{
	clear();
	body = press;
	body_length = PRESS;
}

static void press_asked(void)
{
	press_sent();
	ask = 0;
}

static void photograph_cut(void)
{
	clear();
	ask = CUT;
}

/* The next mFrame and all behind it, each asked to make way as soon as may be. */

static void port_sends_all(void)
{
	memcpy(&port_sender, &sender_before, sizeof port_sender);
	do
		port_answer = seatport_preemptable(&port_sender, body, body_length, ask, port_memory, sizeof port_memory, &port_written);
	while (port_answer == 0 && !port_written.done);
}

static void plain_sends_all(void)
{
	memcpy(&plain_sender, &sender_before, sizeof plain_sender);
	do
		plain_answer = (uint32_t)plain_preemptable(&plain_sender, body, body_length, true, ask, plain_memory,
							   sizeof plain_memory, &plain_written);
	while (plain_answer == 0 && !plain_written.done);
}

static void photograph_asked(void)
{
	clear();
	ask = 0;
}

static void photograph_rest(void)
{
	clear();
	sender_before.next = 1;
	sender_before.length = PHOTOGRAPH;
	sender_before.sent = CUT;
}

/* The hall's schedule */

/* As long a list as there is, each of its entries a hold or a release. */
static void longest_list(void)
{
	clear();
	for (uint32_t i = 0; i < ENTRIES; i++) {
		entries[i].operation = 1 + i % 2;
		entries[i].gates = i;
		entries[i].interval = UINT32_MAX - i * i;
	}
	plain_gates_write(entries, ENTRIES, list, sizeof list, &plain_detail);
}

static void port_reads_list(void)
{
	port_answer = seatport_gates_read(list, sizeof list, port_entries, ENTRIES, &port_detail);
}

static void plain_reads_list(void)
{
	plain_answer = (uint32_t)plain_gates_read(list, sizeof list, plain_entries, ENTRIES, &plain_detail);
}

static void port_writes_list(void)
{
	port_answer = seatport_gates_write((const struct seatport_entry *)entries, ENTRIES, port_memory, sizeof port_memory, &port_detail);
}

static void plain_writes_list(void)
{
	plain_answer = (uint32_t)plain_gates_write(entries, ENTRIES, plain_memory, sizeof plain_memory, &plain_detail);
}

static void port_lists_events(void)
{
	port_answer = seatport_gates_events(list, sizeof list, port_events, ENTRIES, &port_detail, &port_cycle);
}

static void plain_lists_events(void)
{
	plain_answer = (uint32_t)plain_gates_events(list, sizeof list, plain_events, ENTRIES, &plain_detail, &plain_cycle);
}

/* Captures */

/* A trace of so many records, each with as many octets. */
static void traced(uint32_t records, uint32_t octets)
{
	clear();
	for (file_length = 0; records > 0; records--) {
		file[file_length] = (uint8_t)octets;
		file[file_length + 1] = 0;
		file[file_length + 2] = 1;
		file[file_length + 3] = 0;
		memcpy(file + file_length + TRACE_HEADER, photograph, octets);
		file_length += TRACE_HEADER + octets;
	}
}

/* Its capture in its place. */
static void captured(uint32_t records, uint32_t octets)
{
	uint64_t n;
	traced(records, octets);
	plain_capture_write(file, file_length, plain_memory, sizeof plain_memory, &n);
	file_length = (uint32_t)n;
	memcpy(file, plain_memory, file_length);
	memset(plain_memory, 0xa5, sizeof plain_memory);
}

static void presses_traced(void)
{
	traced(PRESSES, PRESS_MFRAME);
}

static void presses_captured(void)
{
	captured(PRESSES, PRESS_MFRAME);
}

static void empty_traced(void)
{
	traced(EMPTY_RECORDS, 0);
}

static void empty_captured(void)
{
	captured(EMPTY_RECORDS, 0);
}

static void port_writes_capture(void)
{
	port_answer = seatport_capture_write(file, file_length, port_memory, sizeof port_memory, &port_value);
}

static void plain_writes_capture(void)
{
	plain_answer = (uint32_t)plain_capture_write(file, file_length, plain_memory, sizeof plain_memory, &plain_value);
}

static void port_reads_capture(void)
{
	port_answer = seatport_capture_read(file, file_length, port_memory, sizeof port_memory, &port_value);
}

static void plain_reads_capture(void)
{
	plain_answer = (uint32_t)plain_capture_read(file, file_length, plain_memory, sizeof plain_memory, &plain_value);
}

const struct row rows[] = {
	{ "express 72 received", PRESS, express_short, no_receiving, port_receives, plain_receives },
	{ "express 1,530 received", PHOTOGRAPH, express_long, no_receiving, port_receives, plain_receives },
	{ "express 65, without any 55", PRESS, express_bare, no_receiving, port_receives, plain_receives },
	{ "start of 64 received", 64, start_64, no_receiving, port_receives, plain_receives },
	{ "start of 256 received", 256, start_256, no_receiving, port_receives, plain_receives },
	{ "start of 1,518 received", PHOTOGRAPH, start_1518, no_receiving, port_receives, plain_receives },
	{ "continuation of 64 received", 64, continuation_64, no_receiving, port_receives, plain_receives },
	{ "continuation of 256 received", 256, continuation_256, no_receiving, port_receives, plain_receives },
	{ "continuation of 1,458 received", 1458, continuation_1458, no_receiving, port_receives, plain_receives },
	{ "continuation of 64, seven 55s", 64, continuation_led, no_receiving, port_receives, plain_receives },
	{ "eight 55s received", 0, preamble_of_eight, no_receiving, port_receives, plain_receives },
	{ "damaged delimiter received", 0, damaged_delimiter, no_receiving, port_receives, plain_receives },
	{ "delimiter 1 bit away", 0, delimiters_1_away, no_receiving_each, port_receives_each, plain_receives_each },
	{ "delimiter 2 bits away", 0, delimiters_2_away, no_receiving_each, port_receives_each, plain_receives_each },
	{ "delimiter 3 bits away", 0, delimiters_3_away, no_receiving_each, port_receives_each, plain_receives_each },
	{ "delimiter 4 bits away", 0, delimiters_4_away, no_receiving_each, port_receives_each, plain_receives_each },
	{ "octet, waiting", 1, octets_waiting, no_octets, port_gives, plain_gives },
	{ "octet beyond 1,531", 0, octets_beyond, no_octets, port_gives, plain_gives },
	{ "end after 72", PRESS, end_short, no_ending, port_ends, plain_ends },
	{ "end after 1,530", PHOTOGRAPH, end_long, no_ending, port_ends, plain_ends },
	{ "press sent express", PRESS, press_sent, nothing, port_sends_express, plain_sends_express },
	{ "press sent preemptable, asked", PRESS, press_asked, no_sending, port_sends, plain_sends },
	{ "photograph sent express", PHOTOGRAPH, clear, nothing, port_sends_express, plain_sends_express },
	{ "photograph sent whole", PHOTOGRAPH, clear, no_sending, port_sends, plain_sends },
	{ "photograph sent, cut at 760", CUT, photograph_cut, no_sending, port_sends, plain_sends },
	{ "photograph sent, the rest", PHOTOGRAPH, photograph_rest, no_sending, port_sends, plain_sends },
	{ "photograph cut most often", PHOTOGRAPH, photograph_asked, no_sending, port_sends_all, plain_sends_all },
	{ "list of 256 entries read", LIST, longest_list, nothing, port_reads_list, plain_reads_list },
	{ "list of 256 entries written", LIST, longest_list, nothing, port_writes_list, plain_writes_list },
	{ "list of 256 entries, its events", LIST, longest_list, nothing, port_lists_events, plain_lists_events },
	{ "trace of 16 presses written", PRESSES_TRACED, presses_traced, nothing, port_writes_capture, plain_writes_capture },
	{ "trace of 64 empty ones written", EMPTY_TRACED, empty_traced, nothing, port_writes_capture, plain_writes_capture },
	{ "capture of 16 presses read", PRESSES_CAPTURED, presses_captured, nothing, port_reads_capture, plain_reads_capture },
	{ "capture of 64 empty ones read", EMPTY_CAPTURED, empty_captured, nothing, port_reads_capture, plain_reads_capture },
};

const unsigned row_count = sizeof rows / sizeof rows[0];
