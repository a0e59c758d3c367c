/* Two ports in memory, on a long row with repeaters: a V takes 13 ms to the far end, its R 13 ms back, and the first V is
 * lost. With the usual wait of 10 ms the near end's link fails, with one of 40 ms it is verified. For x86-64, from the
 * folder of the project, once `scripts/archive` has made the archive:
 *
 *     cc -Iinclude examples/verification.c target/staticlib/libseatport.a -o verification
 *
 * On a board the wire takes what is put on the row here, a timer tells the milliseconds, and sender.active is set while the
 * link's phase is SEATPORT_PHASE_VERIFIED.
 */
#include "seatport.h"

#include <stdio.h>
#include <stdlib.h>

enum { WAY = 13, LONG_ROW_WAIT = 40 };

/* One end of the row. */
struct end {
	struct seatport_receiver receiver;
	struct seatport_link link;
	uint8_t assembly[SEATPORT_SIZE_ASSEMBLY];
};
static struct end near_end, far_end;

/* What an end begins with. As a static its link is all zero before that: every event would be refused with 40. */
static const struct seatport_receiver fresh_receiver = SEATPORT_RECEIVER_FRESH;
static const struct seatport_link fresh_link = SEATPORT_LINK_FRESH;

/* The mFrames on their way, one place for each millisecond of it; a length of 0 where there is none. */
struct mframe {
	uint32_t length;
	uint8_t octets[SEATPORT_SIZE_OUTPUT];
};
static struct mframe there[WAY], back[WAY];

static void fail(const char *why)
{
	fprintf(stderr, "verification: %s.\n", why);
	exit(1);
}

/* Tells an end what happened; whether a V is to be sent now. */
static int tell(struct end *end, uint32_t event, uint32_t wait)
{
	uint32_t ordered, number = seatport_step(&end->link, event, wait, &ordered);
	if (number == SEATPORT_STEPPED_WAIT_BAD)
		fail("the wait is refused, as it is not 1 to 128 ms");
	if (number != SEATPORT_STEPPED_TAKEN)
		fail("the link is refused, as it is outside its ranges (all zero, perhaps), or there is no such event");
	return ordered != 0;
}

/* Puts what one of the sending calls writes, a V or an R, on its way. */
static void put(struct mframe *way, uint32_t (*write)(uint8_t *, uint64_t, struct seatport_written *))
{
	struct seatport_written written;
	if (write(way->octets, sizeof way->octets, &written) != SEATPORT_SENT_WRITTEN)
		fail("the output buffer is refused, as it is too short");
	way->length = written.length;
}

/* What arrives at an end, if anything does: a V or an R, whose answer is handed on as the event. */
static void hear(struct end *end, struct mframe *way)
{
	uint32_t detail, answer;
	if (way->length == 0)
		return;
	answer = seatport_receive(&end->receiver, way->octets, way->length, end->assembly, sizeof end->assembly, &detail);
	if (answer != SEATPORT_ANSWER_VERIFY_HEARD && answer != SEATPORT_ANSWER_RESPOND_HEARD)
		fail("the row brings something else than a V or an R");
	tell(end, answer, SEATPORT_WAIT_NONE);
	way->length = 0;
}

/* The row as it is before anything was sent: what is still on its way is gone. */
static void clear(void)
{
	for (uint32_t i = 0; i < WAY; i++)
		there[i].length = back[i].length = 0;
}

/* The V that the near end was ordered to send; the row loses the first. */
static void near_verifies(uint32_t now)
{
	struct mframe *way = &there[now % WAY];
	put(way, seatport_verify);
	if (now == 0)
		way->length = 0;
	printf("  %2u ms: V of attempt %u%s\n", (unsigned)now, (unsigned)near_end.link.attempt, way->length == 0 ? ", lost" : "");
}

/* The far end owes an R once it has heard a V. */
static void far_responds(uint32_t now)
{
	if (!far_end.link.owed)
		return;
	put(&back[now % WAY], seatport_respond);
	tell(&far_end, SEATPORT_EVENT_RESPONSE_SENT, SEATPORT_WAIT_NONE);
	printf("  %2u ms: the far end has heard a V and sends R\n", (unsigned)now);
}

/* Enables the near end with this wait, and lets time pass until it tries no more. Whether it is verified then. A link that
 * has failed must be disabled first: it neither tries again by an enable alone nor keeps another wait. */
static int verified_with(uint32_t wait)
{
	uint32_t now = 0;
	clear();
	printf("the near end waits %u ms\n", (unsigned)wait);
	tell(&near_end, SEATPORT_EVENT_DISABLE, SEATPORT_WAIT_NONE);
	int ordered = tell(&near_end, SEATPORT_EVENT_ENABLE, wait);
	while (near_end.link.phase == SEATPORT_PHASE_TRYING) {
		if (ordered)
			near_verifies(now);
		now++;
		hear(&near_end, &back[now % WAY]);
		hear(&far_end, &there[now % WAY]);
		far_responds(now);
		ordered = tell(&near_end, SEATPORT_EVENT_MILLISECOND, SEATPORT_WAIT_NONE);
	}
	int verified = near_end.link.phase == SEATPORT_PHASE_VERIFIED;
	printf("  %2u ms: %s\n", (unsigned)now, verified ? "the near end has heard an R: verified" : "failed");
	return verified;
}

int main(void)
{
	near_end.receiver = far_end.receiver = fresh_receiver;
	near_end.link = far_end.link = fresh_link;
	printf("a row of %d ms each way\n", WAY);
	int usual = verified_with(SEATPORT_WAIT_USUAL), longer = verified_with(LONG_ROW_WAIT);
	puts(!usual && longer ? "on this row the longer wait is needed, and is enough" : "something else came of it");
	if (fflush(stdout) != 0 || ferror(stdout))
		fail("the output could not be written");
	return !usual && longer ? 0 : 1;
}
