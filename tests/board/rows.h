/* The calls that the board and the benchmark measure: each row is one call of the port and the same call of plain.c; of a
 * photograph cut most often, all calls that send it; of an unknown delimiter, the mean over all octets that are as far away;
 * of an octet given by itself, the mean over those of the longest mFrame that is sent. */
#ifndef ROWS_H
#define ROWS_H

#include <stdint.h>

struct row {
	const char *name;
	uint32_t octets;       /* data octets that the call sums and copies, or the octets of the photograph, the list or the file */
	void (*prepare)(void); /* makes the row's mFrame and records, its list or its file */
	void (*nothing)(void); /* what port and plain do besides the call */
	void (*port)(void);
	void (*plain)(void);
};

extern const struct row rows[];
extern const unsigned row_count;

/* Among how many calls the instructions of the row that was prepared last are shared out. */
uint32_t row_calls(void);

/* Whether port and plain gave the same answer, record and octets when the row was last run. */
int row_agrees(void);

#endif
