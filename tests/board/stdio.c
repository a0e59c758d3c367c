/* Standard input and output for the programs of the board, by semihosting: what the tests use of them and no more. */
#include <stdio.h>

#include <stdarg.h>
#include <stdbool.h>
#include <stdint.h>
#include <string.h>

#include "start.h"

enum { OPEN = 0x01, WRITE_TEXT = 0x04, READ = 0x06, READ_OCTETS = 1 };

/* What is read ahead, or kept until there is enough to write. Standard error goes where standard output goes. */
struct board_file {
	uint32_t handle;
	bool open, failed;
	size_t at, end;
	uint8_t octets[512 + 1];
};

static FILE input, output;
FILE *const stdin = &input, *const stdout = &output, *const stderr = &output;

FILE *freopen(const char *name, const char *mode, FILE *file)
{
	const struct {
		const char *name;
		uint32_t mode, length;
	} asked = { name, READ_OCTETS, (uint32_t)strlen(name) };
	(void)mode;
	int handle = semihost(OPEN, &asked);
	file->open = handle != -1;
	file->failed = !file->open;
	file->handle = (uint32_t)handle;
	return file->open ? file : NULL;
}

/* Reads ahead; false where nothing is left. */
static bool read_on(FILE *file)
{
	const struct {
		uint32_t handle;
		uint8_t *octets;
		uint32_t length;
	} asked = { file->handle, file->octets, sizeof file->octets };
	if (!file->open)
		return false;
	file->at = 0;
	file->end = sizeof file->octets - (size_t)semihost(READ, &asked);
	return file->end != 0;
}

int getchar(void)
{
	if (input.at == input.end && !read_on(&input))
		return EOF;
	return input.octets[input.at++];
}

int ferror(FILE *file)
{
	return file->failed;
}

int fflush(FILE *file)
{
	file->octets[file->end] = 0;
	semihost(WRITE_TEXT, file->octets);
	file->end = 0;
	return 0;
}

int putchar(int c)
{
	if (output.end == sizeof output.octets - 1)
		fflush(&output);
	return output.octets[output.end++] = (uint8_t)c;
}

int fputs(const char *text, FILE *file)
{
	(void)file;
	while (*text != 0)
		putchar(*text++);
	return 0;
}

/* Twice a number and what is carried in, by its decimal digits, the last one first. How many digits it then has. */
static unsigned doubled(uint8_t *digits, unsigned n, bool carry)
{
	for (unsigned i = 0; i < n; i++) {
		unsigned twice = 2u * digits[i] + carry;
		carry = twice > 9;
		digits[i] = (uint8_t)(carry ? twice - 10 : twice);
	}
	if (carry)
		digits[n++] = 1;
	return n;
}

/* Bit by bit, so that no processor needs a division. */
static unsigned decimal(uint64_t x, uint8_t *digits)
{
	unsigned n = 1;
	digits[0] = 0;
	for (unsigned bit = 0; bit < 64; bit++, x <<= 1)
		n = doubled(digits, n, x >> 63);
	return n;
}

static unsigned hexadecimal(uint64_t x, uint8_t *digits)
{
	unsigned n = 0;
	do
		digits[n++] = x & 15;
	while ((x >>= 4) != 0);
	return n;
}

static void put_often(char c, size_t from, size_t to)
{
	for (; from < to; from++)
		putchar(c);
}

static void put_number(uint64_t x, bool by_tens, unsigned width)
{
	uint8_t digits[20];
	unsigned n = by_tens ? decimal(x, digits) : hexadecimal(x, digits);
	put_often('0', n, width);
	while (n > 0)
		putchar("0123456789abcdef"[digits[--n]]);
}

static void put_text(const char *text, unsigned width)
{
	fputs(text, stdout);
	put_often(' ', strlen(text), width);
}

/* Text fills its width with spaces behind it, a number with zeros before it. */
static unsigned width_at(const char **at)
{
	unsigned width = 0;
	for (; **at == '-' || (**at >= '0' && **at <= '9'); ++*at)
		width = **at == '-' ? 0 : 10 * width + (unsigned)(**at - '0');
	return width;
}

static void put_all(const char *at, va_list values)
{
	for (; *at != 0; at++) {
		if (*at != '%') {
			putchar(*at);
			continue;
		}
		at++;
		unsigned width = width_at(&at);
		bool wide = at[0] == 'l' && at[1] == 'l';
		if (wide)
			at += 2;
		if (*at == 's')
			put_text(va_arg(values, const char *), width);
		else
			put_number(wide ? va_arg(values, unsigned long long) : va_arg(values, unsigned), *at == 'u', width);
	}
}

int printf(const char *format, ...)
{
	va_list values;
	va_start(values, format);
	put_all(format, values);
	va_end(values);
	return 0;
}

int fprintf(FILE *file, const char *format, ...)
{
	va_list values;
	(void)file;
	va_start(values, format);
	put_all(format, values);
	va_end(values);
	return 0;
}
