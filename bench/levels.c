/* Calls on a dimmer rack of universe 3, counted. */
#include <string.h>

#include "citp.h"
#include "counted.h"

enum { CHANNELS = 512, MOST = 65535 };

static uint8_t levels[CHANNELS], body[2 + 4 * MOST];

/* How many there are of what, as the row's name. */
static const char *many(char text[40], size_t n, const char *what) {
    n == MOST ? snprintf(text, 40, "65,535 %s", what) : snprintf(text, 40, "%zu %s", n, what);
    return text;
}

/* ---- channel blocks */

static void counted_block(const char *column, uint8_t blind, uint8_t universe, uint16_t first, size_t n, size_t cut, uint8_t number) {
    static uint8_t run[CHANNELS];
    char row[40];
    memset(run, 9, n);
    citp_put p = citp_chbk_write(body, sizeof body, 0, blind, universe, first, run, n);
    CHECK(p.number == 0);
    memset(levels, 1, CHANNELS);
    CALLGRIND_ZERO_STATS;
    uint8_t answer = citp_dimmer_chbk(3, levels, body, p.at - cut);
    counted("block", many(row, n, n == 1 ? "level" : "levels"), column);
    uint8_t due = number == 0 && blind == 0 && universe == 3 && n > 0 ? 9 : 1;
    CHECK(answer == number && levels[0] == due && (n == 0 || levels[n - 1] == due) && (n == CHANNELS || levels[n] == 1));
}

static void blocks(size_t n) {
    counted_block("taken", 0, 3, 0, n, 0, 0);
    counted_block("blind", 1, 3, 0, n, 0, 0);
    counted_block("another universe", 0, 4, 0, n, 0, 0);
    counted_block("refused: cut", 0, 3, 0, n, 1, 7);
    if (n > 0) {
        counted_block("refused: past 511", 0, 3, 512, n, 0, 20);
    }
}

/* ---- channel lists */

static void counted_list(const char *column, uint8_t universe, size_t n, uint16_t first, uint16_t last, uint8_t number) {
    static citp_channel_level records[MOST];
    char row[40];
    for (size_t k = 0; k < n; k++) {
        records[k] = (citp_channel_level){universe, (uint16_t)(first + k % CHANNELS), 9};
    }
    records[n - 1].channel = last;
    citp_put p = citp_chls_write(body, sizeof body, 0, records, n);
    CHECK(p.number == 0);
    memset(levels, 1, CHANNELS);
    CALLGRIND_ZERO_STATS;
    uint8_t answer = citp_dimmer_chls(3, levels, body, p.at);
    counted("list", many(row, n, n == 1 ? "record" : "records"), column);
    CHECK(answer == number && levels[0] == (number == 0 && universe == 3 ? 9 : 1));
}

static void lists(size_t n) {
    uint16_t last = (uint16_t)((n - 1) % CHANNELS);
    counted_list("taken", 3, n, 0, last, 0);
    counted_list("another universe", 4, n, 0, last, 0);
    counted_list("another universe, past 511", 4, n, CHANNELS, CHANNELS, 0);
    counted_list("refused: the last past 511", 3, n, 0, CHANNELS, 20);
}

int main(void) {
    static const size_t some[] = {0, 1, 12, 64, 511, CHANNELS}, records[] = {1, 2, 8, 64, CHANNELS, MOST};
    for (size_t i = 0; i < sizeof some / sizeof *some; i++) {
        blocks(some[i]);
    }
    for (size_t i = 0; i < sizeof records / sizeof *records; i++) {
        lists(records[i]);
    }
    return 0;
}
