/* Receiving in an interrupt handler, octet by octet: a press breaks into a photograph, the PHY swallows some of its preamble,
 * noise comes between, and the main loop finds both bodies as they were sent. For x86-64, from the folder of the project, once
 * `scripts/archive` has made the archive:
 *
 *     cc -Iinclude examples/interrupt.c target/staticlib/libseatport.a -o interrupt
 *
 * Here the port is played, and the handler is called between two turns of the main loop, never inside one. On a board
 * fifo_take reads the port's register, receive_interrupt is what its interrupt calls, main_loop is called again and again,
 * and the functions wire and main go.
 */
#include "seatport.h"

#include <stdio.h>
#include <string.h>

enum { PHOTOGRAPH = 1518, PRESS = 60, PRESSED_AT = 500, SWALLOWED = 5, NOISE = 2000, FIFO = 16, MAIN_LOOP_AT = 32 };

/* The port's FIFO: octets as they came, the last one of each mFrame marked. So the end is told between the right two octets,
 * however late the handler comes. */
enum { LAST = 0x100, NONE = 0x200 };
static uint32_t fifo[FIFO], fifo_first, fifo_level;

static uint32_t fifo_take(void)
{
	if (fifo_level == 0)
		return NONE;
	fifo_level--;
	return fifo[fifo_first++ % FIFO];
}

/* Two runs of octets in turn: the handler fills one and hands it over at its end; the main loop ends it and gives it back. No
 * run is ever used by both, so that only what says whose it is must be volatile. */
static struct {
	struct seatport_stream stream;
	uint8_t area[SEATPORT_SIZE_AREA];
} runs[2];
static volatile uint32_t filling, handed_over, missed, refused;

/* The compiler moves nothing of a run past this, to the other side of its handing over. One core and one interrupt need no
 * more; where DMA or a second core reads the runs, the processor's own barrier is needed too. */
#define BARRIER() __asm__ volatile("" ::: "memory")

/* The end of the run that is filled. If the main loop has not finished with the other one, there is no third: this one is
 * missed, as if the wire had lost it, be it a photograph's fragment or a press. A board whose main loop can be so late has
 * more than two runs, and a queue of those handed over. */
static void hand_over(void)
{
	static const struct seatport_stream empty = SEATPORT_STREAM_EMPTY;
	if (handed_over) {
		runs[filling].stream = empty;
		missed++;
		return;
	}
	filling = !filling;
	BARRIER();
	handed_over = 1;
}

/* The interrupt handler: there are octets in the FIFO. Streams and areas are as the calls want them, so that each octet is
 * answered SEATPORT_GIVEN_WAITS; it is counted if one is not, since a bad stream refuses every call from then on. */
static void receive_interrupt(void)
{
	for (uint32_t came = fifo_take(); came != NONE; came = fifo_take()) {
		uint32_t mine = filling;
		if (seatport_octet(&runs[mine].stream, runs[mine].area, sizeof runs[mine].area, (uint8_t)came) != SEATPORT_GIVEN_WAITS)
			refused++;
		if (came & LAST)
			hand_over();
	}
}

/* What the main loop alone uses. */
static struct seatport_receiver receiver = SEATPORT_RECEIVER_FRESH;
static struct seatport_link link_state = SEATPORT_LINK_FRESH;
static uint8_t assembly[SEATPORT_SIZE_ASSEMBLY];
static uint8_t photograph[PHOTOGRAPH], press[PRESS];
static int photograph_came, press_came;

static void use(const uint8_t *area, uint32_t count, uint32_t answer, uint32_t detail)
{
	struct seatport_part body;
	uint32_t ordered;
	switch (answer) {
	case SEATPORT_ANSWER_EXPRESS:
		seatport_express_body(area, count, &body);
		printf("express, a body of %u octets in the area\n", (unsigned)body.length);
		press_came = body.length == PRESS && memcmp(area + body.start, press, PRESS) == 0;
		break;
	case SEATPORT_ANSWER_PREEMPTABLE:
		printf("preemptable, a body of %u octets in the assembly buffer\n", (unsigned)detail);
		photograph_came = detail == PHOTOGRAPH && memcmp(assembly, photograph, PHOTOGRAPH) == 0;
		break;
	case SEATPORT_ANSWER_FRAGMENT:
		printf("a fragment, %u octets kept\n", (unsigned)detail);
		break;
	case SEATPORT_ANSWER_VERIFY_HEARD:
	case SEATPORT_ANSWER_RESPOND_HEARD:
		if (seatport_step(&link_state, answer, SEATPORT_WAIT_NONE, &ordered) != SEATPORT_STEPPED_TAKEN)
			puts("link verification, refused: is the link all zero?");
		else
			printf("link verification, a response is %s\n", link_state.owed ? "owed" : "not owed");
		break;
	default:
		printf("answer %u\n", (unsigned)answer);
		break;
	}
}

/* A turn of the main loop. What was delivered is used before the run is given back: then the handler writes over it. */
static void main_loop(void)
{
	if (!handed_over)
		return;
	BARRIER();
	uint32_t mine = !filling, detail;
	struct seatport_stream came = runs[mine].stream; /* the end empties it */
	uint32_t answer = seatport_end(&runs[mine].stream, runs[mine].area, sizeof runs[mine].area, &receiver, assembly,
				       sizeof assembly, &detail);
	printf("  %4u octets%s: ", (unsigned)came.count, came.more ? " and more" : "");
	use(runs[mine].area, came.count, answer, detail);
	BARRIER();
	handed_over = 0;
}

/* A run of octets on the wire. The main loop gets a turn between two interrupts, but not at once: it has other work. */
static void wire(const uint8_t *octets, uint32_t n)
{
	for (uint32_t i = 0; i < n; i++) {
		fifo[(fifo_first + fifo_level++) % FIFO] = octets[i] | (i + 1 == n ? LAST : 0);
		if (fifo_level == FIFO / 2 || i + 1 == n)
			receive_interrupt();
		if (i == MAIN_LOOP_AT)
			main_loop();
	}
}

int main(void)
{
	struct seatport_sender sender = SEATPORT_SENDER_FRESH;
	struct seatport_written written;
	static uint8_t output[SEATPORT_SIZE_OUTPUT], noise[NOISE];

	sender.active = 1;
	for (unsigned i = 0; i < PHOTOGRAPH; i++)
		photograph[i] = (uint8_t)(i * 7 + i / 256);
	for (unsigned i = 0; i < NOISE; i++)
		noise[i] = (uint8_t)(i * i / 3);
	memcpy(press, "lot 4711: mine", 14);

	printf("a photograph of %d octets; the button is pressed at octet %d\n", PHOTOGRAPH, PRESSED_AT);
	if (seatport_preemptable(&sender, photograph, PHOTOGRAPH, PRESSED_AT, output, sizeof output, &written) != SEATPORT_SENT_WRITTEN)
		return 1;
	wire(output, written.length);
	if (seatport_express(press, PRESS, output, sizeof output, &written) != SEATPORT_SENT_WRITTEN)
		return 1;
	wire(output + SWALLOWED, written.length - SWALLOWED); /* two of its seven 55s are left */
	wire(output, 40);                                     /* cut short */
	wire(noise, 20);                                      /* at its end the main loop has had no turn yet: missed */
	wire(noise, NOISE);                                   /* too long, but refused for its first octet already */
	if (seatport_verify(output, sizeof output, &written) != SEATPORT_SENT_WRITTEN)
		return 1;
	wire(output, written.length);
	if (seatport_preemptable(&sender, photograph, PHOTOGRAPH, SEATPORT_NO_ASK, output, sizeof output, &written) != SEATPORT_SENT_WRITTEN)
		return 1;
	wire(output, written.length);
	main_loop();

	printf("runs missed: %u, octets refused: %u\n", (unsigned)missed, (unsigned)refused);
	puts(photograph_came && press_came ? "both arrived as they were sent" : "something else arrived");
	if (fflush(stdout) != 0 || ferror(stdout)) {
		fputs("interrupt: the output could not be written.\n", stderr);
		return 1;
	}
	return photograph_came && press_came ? 0 : 1;
}
