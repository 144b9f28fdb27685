/* What the programs share whose calls callgrind counts: a dump for each, named TABLE|ROW|COLUMN, with the instructions since the last
 * CALLGRIND_ZERO_STATS. What a call answers is looked at: a row is of the case that it names. */
#ifndef COUNTED_H
#define COUNTED_H

#include <stdio.h>
#include <stdlib.h>

#include <valgrind/callgrind.h>

#define CHECK(x) ((x) ? (void)0 : (fprintf(stderr, "%s:%d: not so: %s\n", __FILE__, __LINE__, #x), exit(1)))

static void counted(const char *table, const char *row, const char *column) {
    char name[200];
    snprintf(name, sizeof name, "%s|%s|%s", table, row, column);
    CALLGRIND_DUMP_STATS_AT(name);
}

#endif
