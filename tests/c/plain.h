/* The calls of document 01, as document 02 changes them in (ii), (iii), (v) and (vi), and those of its (i), (iv) and (vii), a
 * second time, in plain C. It shares no code with the port: tests/c/compare.c holds the port against it octet for octet, and
 * the benchmarks measure the port beside it. It is written as one would write it for a small board: a table for the check octets, memcpy,
 * records that the caller keeps, no allocation. */
#ifndef PLAIN_H
#define PLAIN_H

#include <stdbool.h>
#include <stddef.h>
#include <stdint.h>

/* The sending record. Length, sent and fragment are those of a frame in progress, all 0 where there is none. */
struct plain_sender {
	uint32_t active, hold, extra, next, length, sent, fragment;
};

/* What a sending call that is not refused wrote. */
struct plain_written {
	uint32_t length, done;
};

/* The receiving record, its four counters last. */
struct plain_receiver {
	uint32_t assembling, frame, fragment, kept, crc;
	uint32_t assembly_errors, delimiter_errors, assembled, fragments;
};

/* The octets in the area since the last end, and whether there were more than it keeps. */
struct plain_stream {
	uint32_t count, more;
};

enum plain_phase { PLAIN_OFF, PLAIN_TRYING, PLAIN_VERIFIED, PLAIN_FAILED };

/* The verification record. The wait is the one that is kept, 10 where it is fresh. */
struct plain_link {
	uint32_t phase, attempt, left, owed, wait;
};

/* What was heard has the number of the receiver's answer; the others have numbers that no answer has. */
enum plain_event {
	PLAIN_V_HEARD = 3,
	PLAIN_R_HEARD = 4,
	PLAIN_RESPONSE_SENT = 5,
	PLAIN_MILLISECOND = 6,
	PLAIN_ENABLE = 7,
	PLAIN_DISABLE = 8,
	PLAIN_LINK_FAILED = 9
};

/* Where the content of a record of a trace stands, and where the next record begins. */
struct plain_content {
	size_t start, length, next;
};

/* An entry of a gate control list. */
struct plain_entry {
	uint32_t operation, gates, interval;
};

/* An entry of operation 1 or 2, with the nanoseconds before it. */
struct plain_gate_event {
	uint64_t time, operation;
};

/* The answer of plain_trace where no octet is left. */
#define PLAIN_TRACE_END 1

/* Sending: 0, or the number of the refusal. */
int plain_express(const uint8_t *body, size_t length, uint8_t *out, size_t room, struct plain_written *written);
int plain_verify(uint8_t *out, size_t room, struct plain_written *written);
int plain_respond(uint8_t *out, size_t room, struct plain_written *written);
int plain_preemptable(struct plain_sender *sender, const uint8_t *body, size_t length, bool asked, uint64_t t,
		      uint8_t *out, size_t room, struct plain_written *written);

/* Receiving: the answer's number; the detail is the body length for 0 and 1, the octets kept for 2, the bits for 15, else 0. */
int plain_receive(struct plain_receiver *receiver, const uint8_t *mframe, size_t n, uint8_t *buffer, size_t room,
		  uint32_t *detail);

/* The length of the express body, and where it starts; both 0 where there is none. */
size_t plain_express_body(const uint8_t *mframe, size_t n, size_t *start);

/* Receiving as octets come: an octet is answered 0 while the mFrame is awaited, or 18 or 19; its end as by plain_receive, or
 * 18 or 19. */
int plain_octet(struct plain_stream *stream, uint8_t *area, size_t size, uint8_t octet);
int plain_end(struct plain_stream *stream, const uint8_t *area, size_t size, struct plain_receiver *receiver,
	      uint8_t *buffer, size_t room, uint32_t *detail);

/* Verification: 0 and whether a V is ordered, or 40, or 41. The wait is enable's; of other events it is not looked at. */
int plain_event(struct plain_link *link, uint32_t event, uint32_t wait, bool *ordered);

/* The record of a trace at a place: 0, PLAIN_TRACE_END, or the number of the refusal. */
int plain_trace(const uint8_t *trace, size_t n, size_t at, struct plain_content *content);

/* The hall's schedule: 0, or the number of the refusal. The count is of what was written; after 60 to 63 it is the entry's
 * place from 1 on, after 64 the room that is needed. */
int plain_gates_read(const uint8_t *list, size_t n, struct plain_entry *entries, size_t room, uint32_t *count);
int plain_gates_write(const struct plain_entry *entries, size_t n, uint8_t *list, size_t room, uint32_t *count);
int plain_gates_events(const uint8_t *list, size_t n, struct plain_gate_event *events, size_t room, uint32_t *count,
		       uint64_t *cycle);

/* Captures: 0, or the number of the refusal. The value is how many octets were written; after 50 to 53 and 74 to 77 the record's
 * place from 1 on, after 70 to 73 it is 0, after 78 the room that is needed. */
int plain_capture_write(const uint8_t *trace, size_t n, uint8_t *capture, size_t room, uint64_t *value);
int plain_capture_read(const uint8_t *capture, size_t n, uint8_t *trace, size_t room, uint64_t *value);

#endif
