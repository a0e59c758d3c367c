/* Runs every row on the board and prints `NAME|OCTETS|PORT|PLAIN`, the last two in instructions. */
#include "rows.h"

#include <stdio.h>

enum { RUNS = 200, NANOSECONDS = 40 };

/* Timer 0 of the board counts down at 25 MHz, a tick each 40 ns; QEMU counts an instruction as one nanosecond. */
#define TIMER_CONTROL (*(volatile uint32_t *)0x40000000)
#define TIMER_VALUE (*(volatile uint32_t *)0x40000004)
#define TIMER_RELOAD (*(volatile uint32_t *)0x40000008)

static void start_timer(void)
{
	TIMER_RELOAD = UINT32_MAX;
	TIMER_VALUE = UINT32_MAX;
	TIMER_CONTROL = 1;
}

static uint32_t ticks_of(void (*f)(void))
{
	uint32_t from = TIMER_VALUE;
	for (uint32_t i = 0; i < RUNS; i++)
		f();
	return from - TIMER_VALUE;
}

static uint32_t instructions(void (*f)(void), uint32_t besides)
{
	uint32_t calls = RUNS * row_calls();
	return ((ticks_of(f) - besides) * NANOSECONDS + calls / 2) / calls;
}

int main(void)
{
	start_timer();
	for (unsigned i = 0; i < row_count; i++) {
		rows[i].prepare();
		uint32_t besides = ticks_of(rows[i].nothing);
		uint32_t port = instructions(rows[i].port, besides);
		uint32_t plain = instructions(rows[i].plain, besides);
		printf("%s|%u|%u|%u%s\n", rows[i].name, (unsigned)rows[i].octets, (unsigned)port, (unsigned)plain,
		       row_agrees() ? "" : "|differ");
	}
	return 0;
}
