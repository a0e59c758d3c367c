/* The holds and releases of a gate control list: of the one in memory below, which keeps the wire free of photographs for
 * the first 2 ms of every 10 ms. For x86-64, from the folder of the project, once `scripts/archive` has made the
 * archive:
 *
 *     cc -Iinclude examples/schedule.c target/staticlib/libseatport.a -o schedule
 */
#include "seatport.h"

#include <inttypes.h>
#include <stdio.h>

/* Hold for 2 ms, with gate 7 alone open; release for 7.5 ms, with all open; then gate 7 closed for 0.5 ms. */
static const uint8_t list[] = {
	1, 5, 0x80, 0x00, 0x1e, 0x84, 0x80,
	2, 5, 0xff, 0x00, 0x72, 0x70, 0xe0,
	0, 5, 0x7f, 0x00, 0x07, 0xa1, 0x20,
};

int main(void)
{
	static struct seatport_gate_event events[SEATPORT_LIST_ENTRIES_MAX];
	struct seatport_sender sender = SEATPORT_SENDER_FRESH;
	uint32_t count;
	uint64_t cycle;
	uint32_t number = seatport_gates_events(list, sizeof list, events, SEATPORT_LIST_ENTRIES_MAX, &count, &cycle);
	if (number != SEATPORT_GATES_GOOD) {
		fprintf(stderr, "schedule: entry %" PRIu32 " is refused with %" PRIu32 ".\n", count, number);
		return 1;
	}
	for (uint32_t i = 0; i < count; i++) {
		/* Firmware waits here until that time of the cycle, and sets hold only between two calls that are lent the
		 * record. */
		sender.hold = events[i].operation == SEATPORT_OPERATION_HOLD;
		printf("at %" PRIu64 " ns hold becomes %" PRIu32 "\n", events[i].time, sender.hold);
	}
	printf("and again after %" PRIu64 " ns\n", cycle);
	if (fflush(stdout) != 0 || ferror(stdout)) {
		fputs("schedule: the output could not be written.\n", stderr);
		return 1;
	}
	return 0;
}
