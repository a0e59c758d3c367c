/* seatport.h: IEEE 802.3br frame preemption in software, for a port that has none in its hardware.
 *
 * Each function is one call of document 01, "The seat port and its rules", or of document 02: on the hall's schedule of
 * its (i), receiving as octets come of its (iv), captures for the usual viewer of its (vii). Where a frame is cut is told by
 * document 02, (ii), how long link verification waits by its (v), what may stand before a delimiter by its (vi). A function
 * works on memory that the caller lends for the length of the call and keeps nothing: no allocation, no statics, no working
 * memory but some stack. Several ports, or calls from several threads, need nothing but records, streams and lent memory of
 * their own.
 *
 * +----------------------------------------------------------------------------------------------------------------------+
 * | Fragments, V and R are understood only by ports built from this code. Their check octets, the mCRC, are those of     |
 * | document 01, and other makers' boxes use others (docs/DECISIONS.md, 1). Such a box drops our V and R and each frame  |
 * | that we cut; we answer theirs with 21, 25 and 22. The usual viewer (Wireshark) calls the first fragment of a frame   |
 * | corrupted and the mCRC of those between the first and the last, and of V and R, bad, and does not put the frame      |
 * | together. Express frames, and preemptable ones that nobody cuts, pass both ways. A link to such a box is never       |
 * | verified: a caller that sets active only once the link is verified sends it no fragment.                             |
 * +----------------------------------------------------------------------------------------------------------------------+
 *
 * Link with libseatport.a. `scripts/archive` makes it for x86-64, `make firmware` for a Cortex-M3 or another
 * processor. Compiled for the Cortex-M3 with -Os it calls __aeabi_memclr4 of the C library and nothing else (`make
 * firmware` prints the names for other options), and reads and writes words at any address, which must not trap
 * (docs/BOARD.md).
 *
 * Every function is proved, on the language's own machine, to do what is said here and never to touch other memory; what
 * the compiler makes of it for a processor is tested. That holds provided that
 *   - no pointer is null, also where a length is 0, and each points to as much memory as the call says;
 *   - pieces of memory lent to one call do not overlap, unless the call only reads both.
 *
 * Lengths are uint64_t on every machine. All fields of a record are uint32_t; a flag is 0 or 1. Values that fit no record
 * are refused by number and change neither record nor buffer; what the call hands back beside its number (*written,
 * *detail, *ordered) is then 0. For fresh records write
 *     struct seatport_sender sender = SEATPORT_SENDER_FRESH;
 *     struct seatport_receiver receiver = SEATPORT_RECEIVER_FRESH;
 *     struct seatport_link link = SEATPORT_LINK_FRESH;
 * and set the sender's active, hold and extra as you need them. A sender or a receiver that is all zero is fresh too. A
 * link that is all zero is not: its wait is 0, which is no wait, so that every event is refused with 40, the link is never
 * verified and no V is answered. So neither memset nor a static without an initializer makes a link.
 *
 * A stream (receiving as octets come) has such fields too, and is empty where it is all zero. The calls on the hall's
 * schedule and on captures have no record; what they hand back beside a refusal's number is said there. The fields of the
 * schedule's events, and what is handed back of a capture, are uint64_t.
 */
#ifndef SEATPORT_H
#define SEATPORT_H

#include <stdint.h>

/* The version. The first number goes up where what was written for the version before may have to change: a name, a number,
 * a field, a function or what it does. The second goes up where something was added. An archive does not say which header
 * it was made with: keep the two together.
 *   1.1  the hall's schedule
 *   2.0  the earliest cut lies four octets sooner than in 1, since the mCRC counts (extra, below). With extra 0, bodies of
 *        120 to 123 octets can now be cut, the shortest mFrame that does not end its frame has 72 octets (76 in 1), and the
 *        longest body can go in 25 mFrames (23 in 1). Receiving is as in 1: ports of both versions understand each other.
 *   2.1  receiving as octets come
 *   3.0  the verification wait can be set. What was written for 2 has to change: seatport_step takes the wait behind the
 *        event; SEATPORT_STEPPED_REFUSED is now SEATPORT_STEPPED_RECORD_BAD, and 41 is new; struct seatport_link has a fifth
 *        word, the wait, and begins as SEATPORT_LINK_FRESH. One that is all zero was fresh in 2 and is refused now;
 *        no compiler notices. With SEATPORT_WAIT_USUAL at each enable, verification does what it did in 2.
 *   4.0  shortened preambles are received. What was written for 3 has to change: an mFrame that is received has 65 to 1,531
 *        octets (72 to 1,530 in 3), so that memory whose size was written as a number has to grow. An area of 1,530 octets
 *        is refused with 18 at every call: a program compiled with the header of 3 and linked with an archive of 4 receives
 *        nothing as octets come. 16 is given no more (below). 14 is now said of too many 55s, in 3 it was said of too few. 12 and 13
 *        count from the header's end and come behind 14, 15 and 17, so that noise, however short or long, is mostly 15. An
 *        express body starts where seatport_express_body says, no longer always at place 8. Sending is as in 3, and what 3
 *        did not refuse is answered as in 3: where no 55 is lost, ports of both versions understand each other.
 *   4.1  captures for the usual viewer */
#define SEATPORT_VERSION_MAJOR 4
#define SEATPORT_VERSION_MINOR 1

/* Fresh records and an empty stream, in C and in C++. The link's last word is its wait. */
#define SEATPORT_SENDER_FRESH { 0, 0, 0, 0, 0, 0, 0 }
#define SEATPORT_RECEIVER_FRESH { 0, 0, 0, 0, 0, 0, 0, 0, 0 }
#define SEATPORT_LINK_FRESH { 0, 0, 0, 0, 10 }
#define SEATPORT_STREAM_EMPTY { 0, 0 }

#ifdef __cplusplus
extern "C" {
#endif

/* Sizes in octets. An mFrame counts from its first octet, a 55 where any is left of its preamble, to its last check octet; a
 * body is a frame without its check octets. */
enum seatport_size {
	SEATPORT_SIZE_BODY_MIN = 60,
	SEATPORT_SIZE_BODY_MAX = 1518,
	SEATPORT_SIZE_MFRAME_MIN = 65,   /* received: a delimiter and 64. The shortest that is sent has 72 */
	SEATPORT_SIZE_MFRAME_MAX = 1531, /* received: seven 55s, delimiter, fragment code and 1,522. The longest that is sent has
					  * 1,530 */
	SEATPORT_SIZE_OUTPUT = 1530,     /* the least output buffer of a sending call */
	SEATPORT_SIZE_ASSEMBLY = 1518,   /* the least assembly buffer of seatport_receive and seatport_end */
	SEATPORT_SIZE_AREA = 1531        /* the least area of seatport_octet and seatport_end */
};

/* ---- Sending -------------------------------------------------------------------------------------------------------- */

/* What a sending call returns. A refused call writes nothing to the output buffer and leaves the record as it was. */
enum seatport_sent {
	SEATPORT_SENT_WRITTEN = 0,
	SEATPORT_SENT_OUTPUT_SHORT = 30, /* output buffer under SEATPORT_SIZE_OUTPUT octets */
	SEATPORT_SENT_RECORD_BAD = 31,   /* sending record outside its ranges */
	SEATPORT_SENT_BODY_BAD = 32,     /* body not SEATPORT_SIZE_BODY_MIN to SEATPORT_SIZE_BODY_MAX octets */
	SEATPORT_SENT_BODY_OTHER = 33,   /* body length differs from the frame in progress */
	SEATPORT_SENT_HELD = 34          /* active and hold set, preemptable call */
};

/* The mFrame that a call wrote at the front of the output buffer: its length, and whether the frame is done with it. Both
 * are 0 after a refusal. */
struct seatport_written {
	uint32_t length;
	uint32_t done;
};

/* What the sending side keeps between calls. The caller sets the first three as the port is to behave; the others are the
 * port's. */
struct seatport_sender {
	uint32_t active;   /* preemption is on: link verified, or not asked for */
	uint32_t hold;     /* no preemptable mFrame may begin, of a frame in progress neither; only where active. Set it
			    * between calls: seatport_preemptable writes the record back */
	uint32_t extra;    /* 0 to 3: at least 64 * (1 + extra) - 4 data octets go before a cut, 64 * (1 + extra) with the mCRC,
			    * and at least 64 are left behind it, the FCS counted. So a body under 64 * (2 + extra) - 8 octets
			    * is never cut, with extra 0 one under 120. It is what the other end asks for (addFragSize in
			    * IEEE 802.3br) */
	uint32_t next;     /* 0 to 3: frame count of the next preemptable frame */
	uint32_t length;   /* of the frame in progress: its body's length, or 0 */
	uint32_t sent;     /* its octets sent */
	uint32_t fragment; /* its next fragment count */
};

/* An express body as one mFrame: header, body, FCS. Returns 0, 30 or 32. */
uint32_t seatport_express(const uint8_t *body, uint64_t length, uint8_t *output, uint64_t room,
			  struct seatport_written *written);

/* No express frame waits. (The greatest number: octets that will never be on the wire.) */
#define SEATPORT_NO_ASK ((uint64_t)-1)

/* The next mFrame of a preemptable frame. The body is handed in whole at each call until written->done. `ask` is the number
 * of this mFrame's data octets that are on the wire when an express frame waits or hold comes: the mFrame is then cut there
 * or at the first place behind it where a cut is lawful; SEATPORT_NO_ASK if there is no such wish. Where sender->active is
 * 0 a new frame goes whole as express, one in progress runs to its end as a continuation, and ask and hold are ignored.
 * Returns 0 or 30 to 34. */
uint32_t seatport_preemptable(struct seatport_sender *sender, const uint8_t *body, uint64_t length, uint64_t ask,
			      uint8_t *output, uint64_t room, struct seatport_written *written);

/* The mFrames of link verification, 72 octets each. Return 0 or 30. */
uint32_t seatport_verify(uint8_t *output, uint64_t room, struct seatport_written *written);
uint32_t seatport_respond(uint8_t *output, uint64_t room, struct seatport_written *written);

/* ---- Receiving ------------------------------------------------------------------------------------------------------ */

/* The header of an mFrame: from no to seven octets 55, then the delimiter, which is the first octet that is not 55, and behind
 * a continuation's delimiter the fragment code. A port sends it with eight octets; a PHY may swallow any of the 55s. Behind
 * the header come 64 to 1,522 octets, of which the last four are the check octets. */

/* What seatport_receive returns, and seatport_end, and the detail; the detail is 0 where no line says otherwise. Refusals are
 * tested for in this order: 18, 19, 10, 11, 14, 15, 17, 12, 13. The number 16 is given no more: it was said of a delimiter
 * out of place, and a delimiter may now stand behind any number of 55s up to seven. Nothing else gets that number, so that
 * old listings, and code written for it, never mean something new. */
enum seatport_answer {
	SEATPORT_ANSWER_EXPRESS = 0,            /* express delivered; detail: body length. seatport_express_body says where it is */
	SEATPORT_ANSWER_PREEMPTABLE = 1,        /* preemptable delivered; detail: body length. The body is at the buffer's front */
	SEATPORT_ANSWER_FRAGMENT = 2,           /* fragment kept; detail: octets kept so far */
	SEATPORT_ANSWER_VERIFY_HEARD = 3,       /* a V: hand the answer to seatport_step */
	SEATPORT_ANSWER_RESPOND_HEARD = 4,      /* an R: hand the answer to seatport_step */
	SEATPORT_ANSWER_BUFFER_SHORT = 10,      /* refused: buffer under SEATPORT_SIZE_ASSEMBLY octets */
	SEATPORT_ANSWER_RECORD_BAD = 11,        /* refused: receiving record outside its ranges */
	SEATPORT_ANSWER_TOO_SHORT = 12,         /* refused: it ends before its delimiter or its fragment code (with no octet at
						 * all, too), or has under 64 octets behind the header */
	SEATPORT_ANSWER_TOO_LONG = 13,          /* refused: over 1,522 octets behind the header */
	SEATPORT_ANSWER_PREAMBLE_BAD = 14,      /* refused: eight or more leading 55s, whatever follows */
	SEATPORT_ANSWER_DELIMITER_BAD = 15,     /* refused: the first octet that is not 55 is no delimiter; detail: the least
						 * number of bits by which it differs from any of the eleven */
	SEATPORT_ANSWER_FRAGMENT_CODE_BAD = 17, /* refused: unknown fragment code */
	SEATPORT_ANSWER_AREA_SHORT = 18,        /* refused, never by seatport_receive: area under SEATPORT_SIZE_AREA octets */
	SEATPORT_ANSWER_STREAM_BAD = 19,        /* refused, never by seatport_receive: stream outside its ranges */
	SEATPORT_ANSWER_EXPRESS_DAMAGED = 20,   /* dropped: express, FCS wrong */
	SEATPORT_ANSWER_ORDER_DAMAGED = 21,     /* dropped: V or R, mCRC wrong */
	SEATPORT_ANSWER_NO_ASSEMBLY = 22,       /* dropped: continuation, none in assembly */
	SEATPORT_ANSWER_COUNT_OTHER = 23,       /* dropped, assembly abandoned: frame or fragment count not the expected */
	SEATPORT_ANSWER_OVERFLOW = 24,          /* dropped, assembly abandoned: octets kept plus this data over 1,518 */
	SEATPORT_ANSWER_DAMAGED = 25            /* dropped, assembly abandoned: last four octets neither FCS nor mCRC */
};

/* What the receiving side keeps between calls, beside the assembly buffer. The counters go on from 4,294,967,295 to 0. */
struct seatport_receiver {
	uint32_t assembling;       /* a frame is in assembly; if not, the next four are 0 */
	uint32_t frame;            /* 0 to 3: its frame count */
	uint32_t fragment;         /* 0 to 3: the fragment count expected next */
	uint32_t kept;             /* its octets in the buffer, 60 to 1,518 */
	uint32_t crc;              /* running CRC, the register before the complement */
	uint32_t assembly_errors;  /* assemblies abandoned, and damaged starts */
	uint32_t delimiter_errors; /* answers 15, 17 and 22 */
	uint32_t assembled;        /* frames delivered that took two mFrames or more */
	uint32_t fragments;        /* continuations kept or completing */
};

/* One mFrame as it came, from its first octet, be it a 55 or the delimiter, to its last check octet. Memory that is to hold
 * any mFrame, for DMA, say, has SEATPORT_SIZE_MFRAME_MAX octets. Keep the buffer as it is left until the next call; once a
 * body is delivered from it, its octets are yours. Octets past those kept are never written. Returns a number of enum
 * seatport_answer. */
uint32_t seatport_receive(struct seatport_receiver *receiver, const uint8_t *mframe, uint64_t length, uint8_t *buffer,
			  uint64_t room, uint32_t *detail);

/* A part of an mFrame: it starts at this place and has this many octets. */
struct seatport_part {
	uint32_t start;
	uint32_t length;
};

/* Where the body of an express mFrame is: from the header's end, which is place 1 to 8, up to the check octets. Both are 0 if
 * seatport_receive would not answer 0 with a fresh record. */
void seatport_express_body(const uint8_t *mframe, uint64_t length, struct seatport_part *body);

/* ---- Receiving as octets come --------------------------------------------------------------------------------------- */

/* A second receiver, for a port that hands over one octet after the other: seatport_octet is given each octet, seatport_end
 * is told where the mFrame ends, and between them the octets lie in an area that both are lent. Where an mFrame lies in
 * memory anyway, written there by DMA, say, seatport_receive takes it as it is, and in a fraction of the time: an octet
 * here takes 24 instructions on a Cortex-M3, so that a core of 48 MHz which needs two cycles for each does not keep up with
 * a wire of 10 Mb/s that is never idle (docs/BOARD.md).
 *
 * Stream and area are the caller's, who keeps them between calls as they are left, the same area for one stream. Tell the
 * end of every run of octets, be it damaged, cut short or too long, and tell it between the right two octets: else the next
 * mFrame is taken for the rest of it. A run that is not to be received at all is dropped by setting the stream to
 * SEATPORT_STREAM_EMPTY.
 *
 * Calls on one stream must not interrupt one another; nor must ends, or seatport_receive, on one receiving record or one
 * assembly buffer. At 10 Mb/s the gap between two mFrames is 12 octets, 9.6 us, in which no end is done on the board that
 * has an mFrame's octets to sum. So firmware has two streams or more, each with an area, and uses them in turn: the
 * interrupt handler fills one while the main loop ends another. Receiving record and assembly buffer are one for all; only
 * the ends use them, in the order in which the mFrames came. An mFrame for which no stream is free is lost, as on the wire.
 * examples/interrupt.c shows it, with what the compiler has to be told. */

/* What came since the last end. A stream that is all zero is empty; so is one after its end. */
struct seatport_stream {
	uint32_t count; /* octets at the area's front, 0 to 1,531 */
	uint32_t more;  /* there were more, which are neither kept nor counted; only where count is 1,531 */
};

/* What seatport_octet returns. Of the mFrame it says nothing before the end. */
enum seatport_given {
	SEATPORT_GIVEN_WAITS = 0,
	/* refused, nothing changes: area under SEATPORT_SIZE_AREA octets (the size of a pointer, perhaps, or 1,530 of old) */
	SEATPORT_GIVEN_AREA_SHORT = SEATPORT_ANSWER_AREA_SHORT,
	/* refused, nothing changes: stream outside its ranges, and so at every call until it is set to SEATPORT_STREAM_EMPTY */
	SEATPORT_GIVEN_STREAM_BAD = SEATPORT_ANSWER_STREAM_BAD
};

/* The next octet. It is written to the area behind those that came since the last end, and counted. Where 1,531 are counted
 * already it is written nowhere; the stream only remembers that there were more. An octet that is refused is lost. One call
 * takes a constant time, whatever has come. Returns 0, 18 or 19. */
uint32_t seatport_octet(struct seatport_stream *stream, uint8_t *area, uint64_t size, uint8_t octet);

/* The end of an mFrame. 18 and 19 are tested before all others and change nothing but *detail, which is 0. Otherwise
 * answer, detail, record and assembly buffer are those of seatport_receive on all octets since the last end, however many
 * they were (none: 12; more than the area keeps: 13, unless the header is refused with 14, 15 or 17); the stream is then
 * empty, also after 10 and 11, and the area is as it was. So an express body that is delivered lies in the area: give the
 * stream no octet before you are done with it.
 *     count = stream.count;
 *     if (seatport_end(&stream, area, sizeof area, &receiver, buffer, sizeof buffer, &detail) == SEATPORT_ANSWER_EXPRESS)
 *             seatport_express_body(area, count, &body);
 * Returns a number of enum seatport_answer. */
uint32_t seatport_end(struct seatport_stream *stream, const uint8_t *area, uint64_t size, struct seatport_receiver *receiver,
		      uint8_t *buffer, uint64_t room, uint32_t *detail);

/* ---- Link verification ---------------------------------------------------------------------------------------------- */

enum seatport_phase {
	SEATPORT_PHASE_OFF = 0,
	SEATPORT_PHASE_TRYING = 1,
	SEATPORT_PHASE_VERIFIED = 2,
	SEATPORT_PHASE_FAILED = 3
};

/* The wait: how many milliseconds an attempt waits for an R. IEEE 802.3br allows 1 to 128. Each enable brings a wait; the
 * record keeps the one with which off became trying, and every attempt begins with it. 10 is the usual one. A long row with
 * repeaters needs more: let it be a millisecond longer than from the order of a V until its R is heard, with the mFrame that
 * each end may have on the wire just then (the first millisecond that is told may be nearly over), so that each of the three
 * V has its time. An R is taken as long as the link is trying, whichever V it answers. The two ends need not have the same
 * wait. examples/verification.c shows such a row. */
enum seatport_wait {
	SEATPORT_WAIT_NONE = 0,   /* for any event but enable; it is not looked at. With enable it is refused */
	SEATPORT_WAIT_MIN = 1,
	SEATPORT_WAIT_USUAL = 10, /* that of a fresh link, too */
	SEATPORT_WAIT_MAX = 128
};

/* What an event does. What was heard has the number of the answer of seatport_receive or seatport_end that tells it, so that
 * the answer can be handed on as it is:
 *     seatport_step(&link, answer, SEATPORT_WAIT_NONE, &ordered);
 * No other answer is an event: seatport_step then returns 40, leaves the record as it was and sets *ordered to 0. */
enum seatport_event {
	/* in any phase: a response is owed */
	SEATPORT_EVENT_VERIFY_HEARD = SEATPORT_ANSWER_VERIFY_HEARD,
	/* trying becomes verified; in any other phase nothing */
	SEATPORT_EVENT_RESPOND_HEARD = SEATPORT_ANSWER_RESPOND_HEARD,
	/* nothing is owed any more */
	SEATPORT_EVENT_RESPONSE_SENT = 5,
	/* tell every millisecond. In trying one less is left; at none, attempts 1 and 2 order a V and the next begins with
	 * the kept wait, attempt 3 becomes failed: trying lasts at most three times the wait. In any other phase nothing */
	SEATPORT_EVENT_MILLISECOND = 6,
	/* off becomes trying, this wait is kept, and a V is ordered; in any other phase nothing, and the wait kept before
	 * stays: to try again, or with another wait, disable first. A wait that is not SEATPORT_WAIT_MIN to
	 * SEATPORT_WAIT_MAX is refused with 41 in every phase */
	SEATPORT_EVENT_ENABLE = 7,
	/* off; the kept wait stays */
	SEATPORT_EVENT_DISABLE = 8,
	/* off, and nothing is owed; the kept wait stays */
	SEATPORT_EVENT_LINK_FAILED = 9
};

/* What seatport_step returns. A refused call leaves the record as it was and sets *ordered to 0. */
enum seatport_stepped {
	SEATPORT_STEPPED_TAKEN = 0,
	SEATPORT_STEPPED_RECORD_BAD = 40, /* record outside its ranges, as one that is all zero is, or no such event */
	SEATPORT_STEPPED_WAIT_BAD = 41    /* enable, and its wait is not 1 to 128; tested after 40, in every phase */
};

/* What link verification keeps between calls. It begins as SEATPORT_LINK_FRESH. Do not clear it with memset: one that is all
 * zero is refused with 40 at every event, since its wait is 0, and no event mends it. To begin anew, assign a fresh one:
 *     static const struct seatport_link fresh = SEATPORT_LINK_FRESH;
 *     link = fresh; */
struct seatport_link {
	uint32_t phase;   /* enum seatport_phase */
	uint32_t attempt; /* in trying 1 to 3, else 0 */
	uint32_t left;    /* in trying the milliseconds left of this attempt, 1 to wait, else 0 */
	uint32_t owed;    /* a response is owed: send an R, then tell SEATPORT_EVENT_RESPONSE_SENT */
	uint32_t wait;    /* the wait that is kept, 1 to 128 in every phase; in off the next enable brings its own */
};

/* One event, with the wait if it is enable; with any other event the wait may be any number. *ordered becomes 1 if a V is to
 * be sent now, else 0: look at it after each call, the next one sets it anew. Returns 0, 40 or 41. */
uint32_t seatport_step(struct seatport_link *link, uint32_t event, uint32_t wait, uint32_t *ordered);

/* ---- House trace ---------------------------------------------------------------------------------------------------- */

/* What seatport_trace returns. */
enum seatport_traced {
	SEATPORT_TRACED_RECORD = 0,
	SEATPORT_TRACED_END = 1,           /* no octet is left */
	SEATPORT_TRACED_HEADER_CUT = 50,   /* fewer than the four octets of a header */
	SEATPORT_TRACED_CONTENT_LONG = 51, /* length over 1,600 */
	SEATPORT_TRACED_KIND_UNKNOWN = 52, /* kind not 1 */
	SEATPORT_TRACED_CONTENT_CUT = 53   /* fewer octets than the length says */
};

/* A record of a trace: where its content starts and how long it is, and where the next record starts. All are 0 where there
 * is no record. */
struct seatport_content {
	uint32_t start;
	uint32_t length;
	uint32_t next;
};

/* The first record of a trace, or of what is left of one:
 *     for (; seatport_trace(at, left, &c) == SEATPORT_TRACED_RECORD; at += c.next, left -= c.next)
 *             listen(at + c.start, c.length);
 */
uint32_t seatport_trace(const uint8_t *trace, uint64_t length, struct seatport_content *content);

/* ---- The hall's schedule -------------------------------------------------------------------------------------------- */

/* The gate control list of the hall switch, octet for octet as the switch keeps it (ieee8021STAdminControlList): a row of
 * entries, seven octets each.
 *
 *     octet 0         the operation: 0 set the gates, 1 set the gates and hold, 2 set the gates and release
 *     octet 1         the length of what follows: 5
 *     octet 2         the gates, the highest bit for traffic class 7; 1 is open
 *     octets 3 to 6   the interval from this entry to the next, in nanoseconds, high octet first
 *
 * A list of no octets is good, too: it has no entries. */
enum seatport_operation {
	SEATPORT_OPERATION_SET = 0,
	SEATPORT_OPERATION_HOLD = 1,
	SEATPORT_OPERATION_RELEASE = 2
};

/* The most that is written: an output with room for as much is always enough. A list to be read is lent whole, or at
 * least its first 2,049 octets, behind which nothing changes an answer: cut to 1,792, a list of too many entries would
 * look good. */
enum seatport_list {
	SEATPORT_LIST_ENTRIES_MAX = 256, /* and events */
	SEATPORT_LIST_OCTETS_MAX = 1792,
	SEATPORT_LIST_OCTETS_ENOUGH = 2049 /* to be read */
};

/* What a call on a list returns, and behind it what *count (in seatport_gates_write: *written) then is. One entry after
 * the other is looked at, each for 60, 61, 62 and 63 in this order; the first that fails is told by its place in the
 * list, from 1 on. Only where all are good is the output's room looked at. A call that does not return 0 writes nothing
 * to its output; one that does leaves what lies behind its own as it was. Take *count for a count only where 0 was
 * returned. */
enum seatport_gates {
	SEATPORT_GATES_GOOD = 0,           /* how many entries, octets or events were written */
	SEATPORT_GATES_CUT = 60,           /* which entry: the list ends inside its header, or before the length that it says */
	SEATPORT_GATES_OPERATION_BAD = 61, /* which entry: operation over 2; of entries to be written also: gates over 255 */
	SEATPORT_GATES_LENGTH_BAD = 62,    /* which entry: length not 5 */
	SEATPORT_GATES_TOO_MANY = 63,      /* 257: an entry that is good, but one too many */
	SEATPORT_GATES_OUTPUT_SHORT = 64   /* how many entries, octets or events there must be room for */
};

/* An entry. */
struct seatport_entry {
	uint32_t operation; /* enum seatport_operation */
	uint32_t gates;     /* 0 to 255 */
	uint32_t interval;  /* nanoseconds */
};

/* The entries of a list, written to the front of `entries`. `room` is how many entries, not octets, there is memory
 * for, of an array sizeof entries / sizeof entries[0]. *count is what enum seatport_gates says. Returns 0 or 60 to 64. */
uint32_t seatport_gates_read(const uint8_t *list, uint64_t length, struct seatport_entry *entries, uint64_t room,
			     uint32_t *count);

/* The list of `count` entries, seven octets each, written to the front of `list`; `room` is in octets. *written is what
 * enum seatport_gates says. Returns 0, 61, 63 or 64. A list written so is read as the same entries, and entries that
 * were read are written as the same list. */
uint32_t seatport_gates_write(const struct seatport_entry *entries, uint64_t count, uint8_t *list, uint64_t room,
			      uint32_t *written);

/* A hold or a release. */
struct seatport_gate_event {
	uint64_t time;      /* nanoseconds from the cycle's start: the sum of all intervals before the entry */
	uint64_t operation; /* SEATPORT_OPERATION_HOLD or SEATPORT_OPERATION_RELEASE */
};

/* The holds and releases of a list, in its order, written to the front of `events`; `room` is how many events, not
 * octets, there is memory for. *count is what enum seatport_gates says; *cycle is the sum of all intervals of the list,
 * in nanoseconds, where 0 is returned, and 0 where another number is. Returns 0 or 60 to 64. With a room of 0 it tells
 * how many events there are (by 64), or that there are none (by 0).
 *
 * Each event asks for a value of the sending record's flag hold, which is 0 before the first:
 *     for (i = 0; i < count; i++) {
 *             wait_until(start + events[i].time - advance);
 *             wanted = events[i].operation == SEATPORT_OPERATION_HOLD;
 *     }
 * and the same again from start + cycle on; with a cycle of 0 there is nothing to repeat. `wanted` is a variable of the
 * firmware's, copied to sender.hold before each call of seatport_preemptable: the call writes the record back, so that
 * a hold which a timer set there meanwhile would be lost. An mFrame that is on its way when a hold comes is cut by
 * `ask`.
 *
 * Two things are the firmware's own, since no list has them. In the standard a hold has taken effect at the time of its
 * event, so that it is asked for earlier, a hold at time 0 in the cycle before: advance is what the port may need until
 * no preemptable mFrame is on the wire (holdAdvance; for a release, releaseAdvance). And a switch is given its cycle's
 * length beside the list (ieee8021STAdminCycleTimeNumerator and ..Denominator): where that is not *cycle, it is the one
 * to go by. */
uint32_t seatport_gates_events(const uint8_t *list, uint64_t length, struct seatport_gate_event *events, uint64_t room,
			       uint32_t *count, uint64_t *cycle);

/* ---- Captures ------------------------------------------------------------------------------------------------------- */

/* A capture is a house trace as a pcap file, version 2.4, which the usual viewer (Wireshark) opens. Its header has 24 octets:
 *
 *     octets 0 to 3     the magic number A1B2C3D4
 *     octets 4 to 7     the version, 2 and 4, in two octets each
 *     octets 8 to 15    time zone and accuracy of the times
 *     octets 16 to 19   the snap length: the most that is stored of a record
 *     octets 20 to 23   the link type: 274, Ethernet mPackets, from the preamble on
 *
 * Behind it stand the records, one for each record of the trace, with a header of 16 octets:
 *
 *     octets 0 to 7     the time, seconds and microseconds
 *     octets 8 to 11    the stored length
 *     octets 12 to 15   the original length: not the same where the record was not stored whole
 *
 * and behind it the content, as many octets as are stored. A capture without records is good, too, as a trace of no octets
 * is, and so is a record without content.
 *
 * It is written little-endian, with a snap length of 1,600 and 0 for zone, accuracy and all times, which no trace has. It is
 * read in both byte orders, told by the magic number; zone, accuracy, snap length and times are not looked at. So a trace that
 * is written and read back has the same octets, and a capture that is read and written back need not have them.
 *
 * What the viewer says of fragments is told in the box at the top of this header: their mCRC is document 01's, and the viewer
 * looks for another. A capture changes no octet of an mFrame. One for eyes, which has other check octets, so that the viewer
 * puts frames together, is made of a trace by the program mmpcap alone (docs/VIEWER.md). */
enum seatport_capture_layout {
	SEATPORT_CAPTURE_SIZE_HEADER = 24,
	SEATPORT_CAPTURE_SIZE_RECORD_HEADER = 16, /* of a trace it is 4: with each record, a capture grows by 12 octets */
	SEATPORT_CAPTURE_SNAP_LENGTH = 1600,      /* and the most octets that a content has */
	SEATPORT_CAPTURE_LINK_TYPE = 274
};

/* What a call on a capture returns, and behind it what *value then is. A trace to be written has its records looked at one
 * after the other, each for 50 to 53 in this order; a capture to be read its header for 70 to 73, then each record for 74 to
 * 77, in this order, too. The first record that fails is told by its place, from 1 on. Only where all are good is the output's
 * room looked at. A call that does not return 0 writes nothing to its output; one that does leaves what lies behind its own as
 * it was. Take *value for a length only where 0 or 78 was returned. */
enum seatport_capture {
	/* how many octets were written */
	SEATPORT_CAPTURE_GOOD = 0,

	/* which record: fewer than the four octets of its header are left */
	SEATPORT_CAPTURE_TRACE_HEADER_CUT = SEATPORT_TRACED_HEADER_CUT,
	/* which record: its length is over 1,600 */
	SEATPORT_CAPTURE_TRACE_CONTENT_LONG = SEATPORT_TRACED_CONTENT_LONG,
	/* which record: its kind is not 1 */
	SEATPORT_CAPTURE_TRACE_KIND_UNKNOWN = SEATPORT_TRACED_KIND_UNKNOWN,
	/* which record: fewer octets are left than its length says */
	SEATPORT_CAPTURE_TRACE_CONTENT_CUT = SEATPORT_TRACED_CONTENT_CUT,

	SEATPORT_CAPTURE_HEADER_CUT = 70,        /* 0: under 24 octets, whatever they are */
	SEATPORT_CAPTURE_MAGIC_UNKNOWN = 71,     /* 0: A1B2C3D4 in neither byte order; so are a pcap file with times in
						  * nanoseconds and a pcapng file */
	SEATPORT_CAPTURE_VERSION_UNKNOWN = 72,   /* 0: the version is not 2.4 */
	SEATPORT_CAPTURE_LINK_TYPE_OTHER = 73,   /* 0: the link type, all 32 bits of it, is not 274 */
	SEATPORT_CAPTURE_RECORD_HEADER_CUT = 74, /* which record: fewer than the 16 octets of its header are left */
	SEATPORT_CAPTURE_CONTENT_LONG = 75,      /* which record: its stored length is over 1,600, whatever the snap length */
	SEATPORT_CAPTURE_LENGTHS_DIFFER = 76,    /* which record: stored and original length differ */
	SEATPORT_CAPTURE_CONTENT_CUT = 77,       /* which record: fewer octets are left than its stored length says */

	/* how many octets there must be room for */
	SEATPORT_CAPTURE_OUTPUT_SHORT = 78
};

/* The capture of a trace, written to the front of `capture`: 24 octets more than the trace, and 12 more for each record. *value
 * is what enum seatport_capture says. Returns 0, 50 to 53 or 78. With a room of 0 it tells of a good trace how many octets
 * there must be room for: by 78, always, since there are never fewer than 24. For a trace of some 2^62 octets or more they may
 * be more than 64 bits can say; *value is then UINT64_MAX, and no room is enough. */
uint32_t seatport_capture_write(const uint8_t *trace, uint64_t length, uint8_t *capture, uint64_t room, uint64_t *value);

/* The trace of a capture, written to the front of `trace`: 24 octets fewer than the capture, and 12 fewer for each record, so
 * that a room of `length` octets is always enough. *value is what enum seatport_capture says. Returns 0 or 70 to 78. With a
 * room of 0 it tells of a good capture how many octets there must be room for: by 78, or, without records, where none are
 * needed, by 0. */
uint32_t seatport_capture_read(const uint8_t *capture, uint64_t length, uint8_t *trace, uint64_t room, uint64_t *value);

/* The structs are words and nothing else; those of an event have 64 bits. */
typedef char seatport_written_is_2_words[sizeof(struct seatport_written) == 2 * 4 ? 1 : -1];
typedef char seatport_sender_is_7_words[sizeof(struct seatport_sender) == 7 * 4 ? 1 : -1];
typedef char seatport_receiver_is_9_words[sizeof(struct seatport_receiver) == 9 * 4 ? 1 : -1];
typedef char seatport_part_is_2_words[sizeof(struct seatport_part) == 2 * 4 ? 1 : -1];
typedef char seatport_stream_is_2_words[sizeof(struct seatport_stream) == 2 * 4 ? 1 : -1];
typedef char seatport_link_is_5_words[sizeof(struct seatport_link) == 5 * 4 ? 1 : -1];
typedef char seatport_content_is_3_words[sizeof(struct seatport_content) == 3 * 4 ? 1 : -1];
typedef char seatport_entry_is_3_words[sizeof(struct seatport_entry) == 3 * 4 ? 1 : -1];
typedef char seatport_gate_event_is_2_long_words[sizeof(struct seatport_gate_event) == 2 * 8 ? 1 : -1];

#ifdef __cplusplus
}
#endif

#endif
