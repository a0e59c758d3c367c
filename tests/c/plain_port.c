/* The calls of seatport.h made of plain.c's, so that what is written for the port can be run with plain C in its place. */
#include "plain.h"
#include "seatport.h"

#include <string.h>

/* A refused call hands back zeros. */
static uint32_t sent(int number, const struct plain_written *made, struct seatport_written *written)
{
	written->length = number == 0 ? made->length : 0;
	written->done = number == 0 ? made->done : 0;
	return (uint32_t)number;
}

uint32_t seatport_express(const uint8_t *body, uint64_t length, uint8_t *output, uint64_t room, struct seatport_written *written)
{
	struct plain_written made;
	int number = plain_express(body, (size_t)length, output, (size_t)room, &made);
	return sent(number, &made, written);
}

uint32_t seatport_verify(uint8_t *output, uint64_t room, struct seatport_written *written)
{
	struct plain_written made;
	int number = plain_verify(output, (size_t)room, &made);
	return sent(number, &made, written);
}

uint32_t seatport_respond(uint8_t *output, uint64_t room, struct seatport_written *written)
{
	struct plain_written made;
	int number = plain_respond(output, (size_t)room, &made);
	return sent(number, &made, written);
}

uint32_t seatport_preemptable(struct seatport_sender *sender, const uint8_t *body, uint64_t length, uint64_t ask,
			      uint8_t *output, uint64_t room, struct seatport_written *written)
{
	struct plain_sender record;
	struct plain_written made;
	memcpy(&record, sender, sizeof record);
	int number = plain_preemptable(&record, body, (size_t)length, ask != SEATPORT_NO_ASK, ask, output, (size_t)room, &made);
	memcpy(sender, &record, sizeof record);
	return sent(number, &made, written);
}

uint32_t seatport_receive(struct seatport_receiver *receiver, const uint8_t *mframe, uint64_t length, uint8_t *buffer,
			  uint64_t room, uint32_t *detail)
{
	struct plain_receiver record;
	memcpy(&record, receiver, sizeof record);
	int number = plain_receive(&record, mframe, (size_t)length, buffer, (size_t)room, detail);
	memcpy(receiver, &record, sizeof record);
	return (uint32_t)number;
}

void seatport_express_body(const uint8_t *mframe, uint64_t length, struct seatport_part *body)
{
	size_t start;
	body->length = (uint32_t)plain_express_body(mframe, (size_t)length, &start);
	body->start = (uint32_t)start;
}

uint32_t seatport_octet(struct seatport_stream *stream, uint8_t *area, uint64_t size, uint8_t octet)
{
	struct plain_stream record;
	memcpy(&record, stream, sizeof record);
	int number = plain_octet(&record, area, (size_t)size, octet);
	memcpy(stream, &record, sizeof record);
	return (uint32_t)number;
}

uint32_t seatport_end(struct seatport_stream *stream, const uint8_t *area, uint64_t size, struct seatport_receiver *receiver,
		      uint8_t *buffer, uint64_t room, uint32_t *detail)
{
	struct plain_stream record;
	struct plain_receiver receiving;
	memcpy(&record, stream, sizeof record);
	memcpy(&receiving, receiver, sizeof receiving);
	int number = plain_end(&record, area, (size_t)size, &receiving, buffer, (size_t)room, detail);
	memcpy(stream, &record, sizeof record);
	memcpy(receiver, &receiving, sizeof receiving);
	return (uint32_t)number;
}

uint32_t seatport_step(struct seatport_link *link, uint32_t event, uint32_t wait, uint32_t *ordered)
{
	struct plain_link record;
	bool order = false;
	memcpy(&record, link, sizeof record);
	int number = plain_event(&record, event, wait, &order);
	memcpy(link, &record, sizeof record);
	*ordered = order;
	return (uint32_t)number;
}

uint32_t seatport_trace(const uint8_t *trace, uint64_t length, struct seatport_content *content)
{
	struct plain_content found = { 0, 0, 0 };
	int number = plain_trace(trace, (size_t)length, 0, &found);
	content->start = (uint32_t)found.start;
	content->length = (uint32_t)found.length;
	content->next = (uint32_t)found.next;
	return (uint32_t)number;
}

/* An entry and an event have the same fields in both; only their names differ. */
uint32_t seatport_gates_read(const uint8_t *list, uint64_t length, struct seatport_entry *entries, uint64_t room, uint32_t *count)
{
	return (uint32_t)plain_gates_read(list, (size_t)length, (struct plain_entry *)entries, (size_t)room, count);
}

uint32_t seatport_gates_write(const struct seatport_entry *entries, uint64_t count, uint8_t *list, uint64_t room, uint32_t *written)
{
	return (uint32_t)plain_gates_write((const struct plain_entry *)entries, (size_t)count, list, (size_t)room, written);
}

uint32_t seatport_gates_events(const uint8_t *list, uint64_t length, struct seatport_gate_event *events, uint64_t room,
			       uint32_t *count, uint64_t *cycle)
{
	return (uint32_t)plain_gates_events(list, (size_t)length, (struct plain_gate_event *)events, (size_t)room, count, cycle);
}

uint32_t seatport_capture_write(const uint8_t *trace, uint64_t length, uint8_t *capture, uint64_t room, uint64_t *value)
{
	return (uint32_t)plain_capture_write(trace, (size_t)length, capture, (size_t)room, value);
}

uint32_t seatport_capture_read(const uint8_t *capture, uint64_t length, uint8_t *trace, uint64_t room, uint64_t *value)
{
	return (uint32_t)plain_capture_read(capture, (size_t)length, trace, (size_t)room, value);
}
