/* The header alone, as C99 and as C++98: it compiles without a warning, its functions link under their names, its version is
 * a number for the preprocessor, and records, entries and a trace written as it says are taken by each call. What was written
 * for an older version is refused as it says: a link that is all zero at every event, which leave it so, and an area of 1,530
 * octets. */
#include "seatport.h"

#if 100 * SEATPORT_VERSION_MAJOR + SEATPORT_VERSION_MINOR < 401
#error "captures came with version 4.1"
#endif

static int zero_link_refused(void)
{
	static struct seatport_link link;
	for (uint32_t event = SEATPORT_EVENT_VERIFY_HEARD; event <= SEATPORT_EVENT_LINK_FAILED; event++) {
		uint32_t ordered = 7;
		if (seatport_step(&link, event, SEATPORT_WAIT_USUAL, &ordered) != SEATPORT_STEPPED_RECORD_BAD || ordered != 0)
			return 0;
		if (link.phase != 0 || link.attempt != 0 || link.left != 0 || link.owed != 0 || link.wait != 0)
			return 0;
	}
	return 1;
}

/* An area of the size that was enough before version 4. */
static int old_area_refused(void)
{
	static uint8_t area[1530], buffer[SEATPORT_SIZE_ASSEMBLY];
	struct seatport_stream stream = SEATPORT_STREAM_EMPTY;
	struct seatport_receiver receiver = SEATPORT_RECEIVER_FRESH;
	uint32_t detail = 7;
	if (seatport_octet(&stream, area, sizeof area, 0x55) != SEATPORT_GIVEN_AREA_SHORT)
		return 0;
	if (seatport_end(&stream, area, sizeof area, &receiver, buffer, sizeof buffer, &detail) != SEATPORT_ANSWER_AREA_SHORT)
		return 0;
	return detail == 0 && stream.count == 0 && area[0] == 0;
}

/* An express mFrame of eight octets of header, whose 55s are lost one by one: its body starts a place sooner each time. */
static int shortened_taken(const uint8_t *mframe, uint32_t length)
{
	static uint8_t buffer[SEATPORT_SIZE_ASSEMBLY];
	struct seatport_receiver receiver = SEATPORT_RECEIVER_FRESH;
	for (uint32_t lost = 0; lost < 8; lost++) {
		struct seatport_part body;
		uint32_t detail;
		if (seatport_receive(&receiver, mframe + lost, length - lost, buffer, sizeof buffer, &detail) != SEATPORT_ANSWER_EXPRESS)
			return 0;
		seatport_express_body(mframe + lost, length - lost, &body);
		if (body.start != 8 - lost || body.length != detail)
			return 0;
	}
	return 1;
}

/* A trace of one record without content: how much room its capture needs is asked with none, and it is read back. */
static int capture_taken(void)
{
	static const uint8_t trace[4] = { 0, 0, 1, 0 };
	static uint8_t capture[SEATPORT_CAPTURE_SIZE_HEADER + SEATPORT_CAPTURE_SIZE_RECORD_HEADER], back[sizeof trace];
	uint64_t value = 7;
	if (seatport_capture_write(trace, sizeof trace, capture, 0, &value) != SEATPORT_CAPTURE_OUTPUT_SHORT || value != sizeof capture)
		return 0;
	if (seatport_capture_write(trace, sizeof trace, capture, sizeof capture, &value) != SEATPORT_CAPTURE_GOOD)
		return 0;
	if (capture[16] + 256 * capture[17] != SEATPORT_CAPTURE_SNAP_LENGTH)
		return 0;
	if (capture[20] + 256 * capture[21] != SEATPORT_CAPTURE_LINK_TYPE)
		return 0;
	if (seatport_capture_read(capture, sizeof capture, back, sizeof back, &value) != SEATPORT_CAPTURE_GOOD || value != sizeof back)
		return 0;
	return back[2] == trace[2];
}

int main(void)
{
	struct seatport_sender sender = SEATPORT_SENDER_FRESH;
	struct seatport_receiver receiver = SEATPORT_RECEIVER_FRESH;
	struct seatport_link link = SEATPORT_LINK_FRESH;
	struct seatport_stream stream = SEATPORT_STREAM_EMPTY;
	struct seatport_written written;
	uint8_t body[SEATPORT_SIZE_BODY_MIN] = { 0 }, output[SEATPORT_SIZE_OUTPUT];
	uint8_t buffer[SEATPORT_SIZE_ASSEMBLY], area[SEATPORT_SIZE_AREA];
	struct seatport_entry entry = { SEATPORT_OPERATION_HOLD, 255, 1000 };
	struct seatport_gate_event event;
	uint8_t list[7];
	uint32_t detail, ordered, count;
	uint64_t cycle;
	if (seatport_preemptable(&sender, body, sizeof body, SEATPORT_NO_ASK, output, sizeof output, &written) != SEATPORT_SENT_WRITTEN)
		return 1;
	if (seatport_receive(&receiver, output, written.length, buffer, sizeof buffer, &detail) != SEATPORT_ANSWER_EXPRESS)
		return 2;
	if (link.wait != SEATPORT_WAIT_USUAL)
		return 3;
	if (seatport_step(&link, SEATPORT_EVENT_ENABLE, SEATPORT_WAIT_MAX, &ordered) != SEATPORT_STEPPED_TAKEN)
		return 3;
	if (seatport_gates_write(&entry, 1, list, sizeof list, &count) != SEATPORT_GATES_GOOD || count != sizeof list)
		return 4;
	if (seatport_gates_read(list, sizeof list, &entry, 1, &count) != SEATPORT_GATES_GOOD || count != 1)
		return 5;
	if (seatport_gates_events(list, sizeof list, &event, 1, &count, &cycle) != SEATPORT_GATES_GOOD || cycle != entry.interval)
		return 6;
	for (uint32_t i = 0; i < written.length; i++)
		if (seatport_octet(&stream, area, sizeof area, output[i]) != SEATPORT_GIVEN_WAITS)
			return 7;
	if (seatport_end(&stream, area, sizeof area, &receiver, buffer, sizeof buffer, &detail) != SEATPORT_ANSWER_EXPRESS)
		return 8;
	if (link.wait != SEATPORT_WAIT_MAX || !zero_link_refused())
		return 9;
	if (!old_area_refused())
		return 10;
	if (!shortened_taken(output, written.length))
		return 11;
	if (!capture_taken())
		return 12;
	return 0;
}
