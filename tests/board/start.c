/* From reset to main on a Cortex-M in QEMU, and back. */
#include "start.h"

#include <stdint.h>
#include <stdio.h>
#include <stdlib.h>

enum { GET_COMMAND_LINE = 0x15, EXIT = 0x20, APPLICATION_EXIT = 0x20026, LINE = 256, WORDS = 8 };

extern uint32_t stack_top, data_from, data_start, data_end, bss_start, bss_end;

int main(int argc, char **argv);

int semihost(int operation, const void *argument)
{
	register int r0 __asm__("r0") = operation;
	register const void *r1 __asm__("r1") = argument;
	__asm__ volatile("bkpt 0xab" : "+r"(r0) : "r"(r1) : "memory");
	return r0;
}

void exit(int status)
{
	const uint32_t reason[2] = { APPLICATION_EXIT, (uint32_t)status };
	fflush(stdout);
	for (;;)
		semihost(EXIT, reason);
}

/* Ends the word at its space; what follows. */
static char *behind(char *word)
{
	while (*word != 0 && *word != ' ')
		word++;
	if (*word != 0)
		*word++ = 0;
	return word;
}

/* The words of a line, parted by single spaces. One that begins with < names the standard input, as a shell has it. */
static int words(char *line, char **argv)
{
	int argc = 0;
	for (char *word = line; *word != 0 && argc < WORDS; word = line) {
		line = behind(word);
		if (*word == '<')
			freopen(word + 1, "rb", stdin);
		else
			argv[argc++] = word;
	}
	return argc;
}

void reset(void);

void reset(void)
{
	static char line[LINE], *argv[WORDS];
	struct {
		char *line;
		uint32_t room;
	} asked = { line, sizeof line };
	const uint32_t *from = &data_from;
	for (uint32_t *to = &data_start; to < &data_end; to++)
		*to = *from++;
	for (uint32_t *to = &bss_start; to < &bss_end; to++)
		*to = 0;
	semihost(GET_COMMAND_LINE, &asked);
	exit(main(words(line, argv), argv));
}

static void fault(void)
{
	fputs("fault\n", stderr);
	exit(1);
}

__attribute__((section(".vectors"), used)) static const void *const vectors[16] = {
	&stack_top, (const void *)reset, (const void *)fault, (const void *)fault, (const void *)fault, (const void *)fault,
	(const void *)fault, 0, 0, 0, 0, (const void *)fault, (const void *)fault, 0, (const void *)fault, (const void *)fault,
};
