/* What a C library and the compiler's own have, as far as port, plain C and tests use it. */
#include <stdint.h>
#include <string.h>

/* Words need no alignment here; sixteen a turn, then four, then one, as the usual library has it. */
struct word {
	uint32_t value;
} __attribute__((packed));

void *memcpy(void *restrict to, const void *restrict from, size_t n)
{
	struct word *t = to;
	const struct word *f = from;
	for (; n >= 64; n -= 64, t += 16, f += 16) {
		t[0] = f[0];
		t[1] = f[1];
		t[2] = f[2];
		t[3] = f[3];
		t[4] = f[4];
		t[5] = f[5];
		t[6] = f[6];
		t[7] = f[7];
		t[8] = f[8];
		t[9] = f[9];
		t[10] = f[10];
		t[11] = f[11];
		t[12] = f[12];
		t[13] = f[13];
		t[14] = f[14];
		t[15] = f[15];
	}
	for (; n >= 16; n -= 16, t += 4, f += 4) {
		t[0] = f[0];
		t[1] = f[1];
		t[2] = f[2];
		t[3] = f[3];
	}
	for (; n >= 4; n -= 4)
		*t++ = *f++;
	uint8_t *o = (uint8_t *)t;
	const uint8_t *p = (const uint8_t *)f;
	for (; n > 0; n--)
		*o++ = *p++;
	return to;
}

void *memset(void *to, int value, size_t n)
{
	struct word *t = to;
	uint32_t four = (uint32_t)(value & 0xff) * 0x01010101;
	for (; n >= 16; n -= 16, t += 4) {
		t[0].value = four;
		t[1].value = four;
		t[2].value = four;
		t[3].value = four;
	}
	for (; n >= 4; n -= 4)
		(t++)->value = four;
	uint8_t *o = (uint8_t *)t;
	for (; n > 0; n--)
		*o++ = (uint8_t)value;
	return to;
}

void *memmove(void *to, const void *from, size_t n)
{
	uint8_t *t = to;
	const uint8_t *f = from;
	if (t < f)
		for (size_t i = 0; i < n; i++)
			t[i] = f[i];
	else
		while (n-- > 0)
			t[n] = f[n];
	return to;
}

int memcmp(const void *a, const void *b, size_t n)
{
	const uint8_t *p = a, *q = b;
	for (; n > 0; n--, p++, q++)
		if (*p != *q)
			return *p - *q;
	return 0;
}

size_t strlen(const char *text)
{
	size_t n = 0;
	while (text[n] != 0)
		n++;
	return n;
}

int strcmp(const char *a, const char *b)
{
	for (; *a != 0 && *a == *b; a++)
		b++;
	return (uint8_t)*a - (uint8_t)*b;
}

/* The names under which the compiler calls them. */
void __aeabi_memcpy(void *to, const void *from, size_t n)
{
	memcpy(to, from, n);
}

void __aeabi_memcpy4(void *to, const void *from, size_t n)
{
	memcpy(to, from, n);
}

void __aeabi_memcpy8(void *to, const void *from, size_t n)
{
	memcpy(to, from, n);
}

void __aeabi_memmove(void *to, const void *from, size_t n)
{
	memmove(to, from, n);
}

void __aeabi_memset(void *to, size_t n, int value)
{
	memset(to, value, n);
}

void __aeabi_memclr(void *to, size_t n)
{
	memset(to, 0, n);
}

void __aeabi_memclr4(void *to, size_t n)
{
	memset(to, 0, n);
}

void __aeabi_memclr8(void *to, size_t n)
{
	memset(to, 0, n);
}

/* Numbers of 64 bits multiplied, which a Cortex-M0 cannot by itself. */
uint64_t __aeabi_lmul(uint64_t a, uint64_t b)
{
	uint64_t sum = 0;
	for (; b != 0; b >>= 1, a <<= 1)
		if ((b & 1) != 0)
			sum += a;
	return sum;
}
