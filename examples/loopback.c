/* Two ports in memory, joined by a wire: the button is pressed while a photograph is on its way. The press breaks into the
 * photograph, both arrive whole, and each mFrame is printed as it comes. For x86-64, from the folder of the project, once
 * `scripts/archive` has made the archive:
 *
 *     cc -Iinclude examples/loopback.c target/staticlib/libseatport.a -o loopback
 */
#include "seatport.h"

#include <stdio.h>
#include <string.h>

enum { PHOTOGRAPH = 1518, PRESS = 60, PRESSED_AT = 500 };

/* The port that hears. */
static struct seatport_receiver receiver;
static uint8_t assembly[SEATPORT_SIZE_ASSEMBLY];

static const uint8_t *wanted_photograph, *wanted_press;

/* What the wire brings to it. */
static int hear(const uint8_t *mframe, uint32_t length)
{
	uint32_t detail;
	uint32_t answer = seatport_receive(&receiver, mframe, length, assembly, sizeof assembly, &detail);
	struct seatport_part body;
	printf("  %4u octets arrive: ", (unsigned)length);
	switch (answer) {
	case SEATPORT_ANSWER_EXPRESS:
		seatport_express_body(mframe, length, &body);
		printf("express, a body of %u octets\n", (unsigned)body.length);
		return body.length == PRESS && memcmp(mframe + body.start, wanted_press, PRESS) == 0;
	case SEATPORT_ANSWER_PREEMPTABLE:
		printf("preemptable, a body of %u octets is complete\n", (unsigned)detail);
		return detail == PHOTOGRAPH && memcmp(assembly, wanted_photograph, PHOTOGRAPH) == 0;
	case SEATPORT_ANSWER_FRAGMENT:
		printf("a fragment, %u octets kept\n", (unsigned)detail);
		return 1;
	default:
		printf("answer %u\n", (unsigned)answer);
		return 0;
	}
}

int main(void)
{
	/* The port that sends, with preemption on. */
	struct seatport_sender sender = SEATPORT_SENDER_FRESH;
	struct seatport_written written = { 0, 0 };
	uint8_t photograph[PHOTOGRAPH], press[PRESS], output[SEATPORT_SIZE_OUTPUT];
	uint64_t ask = PRESSED_AT;
	int good = 1;

	sender.active = 1;
	for (unsigned i = 0; i < PHOTOGRAPH; i++)
		photograph[i] = (uint8_t)(i * 7 + i / 256);
	memset(press, 0, sizeof press);
	memcpy(press, "lot 4711: mine", 14);
	wanted_photograph = photograph;
	wanted_press = press;

	printf("a photograph of %d octets; the button is pressed at octet %d\n", PHOTOGRAPH, PRESSED_AT);
	while (good && !written.done) {
		if (seatport_preemptable(&sender, photograph, PHOTOGRAPH, ask, output, sizeof output, &written) != SEATPORT_SENT_WRITTEN)
			return 1;
		good = hear(output, written.length);
		if (ask != SEATPORT_NO_ASK) {
			struct seatport_written first;
			if (seatport_express(press, PRESS, output, sizeof output, &first) != SEATPORT_SENT_WRITTEN)
				return 1;
			good = good && hear(output, first.length);
			ask = SEATPORT_NO_ASK;
		}
	}
	printf("counters: %u assembly errors, %u delimiter errors, %u assembled, %u fragments\n", (unsigned)receiver.assembly_errors,
	       (unsigned)receiver.delimiter_errors, (unsigned)receiver.assembled, (unsigned)receiver.fragments);
	puts(good ? "both arrived as they were sent" : "something else arrived");
	if (fflush(stdout) != 0 || ferror(stdout)) {
		fputs("loopback: the output could not be written.\n", stderr);
		return 1;
	}
	return good ? 0 : 1;
}
