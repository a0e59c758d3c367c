/* Runs every row of tests/board/rows.c once for the counter of valgrind's callgrind, which writes a file for each. */
#include "rows.h"

#include <stdio.h>
#include <valgrind/callgrind.h>

static void counted(const struct row *row, void (*f)(void), const char *what)
{
	char name[128];
	snprintf(name, sizeof name, "%s|%u|%u|%s", row->name, (unsigned)row->octets, (unsigned)row_calls(), what);
	f(); /* what the loader does at the first call */
	CALLGRIND_ZERO_STATS;
	f();
	CALLGRIND_DUMP_STATS_AT(name);
}

int main(void)
{
	for (unsigned i = 0; i < row_count; i++) {
		rows[i].prepare();
		counted(&rows[i], rows[i].nothing, "nothing");
		counted(&rows[i], rows[i].port, "port");
		counted(&rows[i], rows[i].plain, "plain");
		if (!row_agrees()) {
			fprintf(stderr, "%s: port and plain C differ\n", rows[i].name);
			return 1;
		}
	}
	return 0;
}
