/* Calls on a full patch book, counted. */
#include "citp.h"
#include "counted.h"

enum { FIXTURES = 256, MOST = 65535 };

typedef struct {
    size_t count;
    uint64_t entries[FIXTURES];
} book;

typedef struct {
    uint16_t identifier;
    uint8_t universe;
    uint16_t channel;
    uint16_t channel_count;
} fixture;

/* How the fixtures of a full book lie, in their order: `all` in universe 3 up to channel 510, the first with one channel, the others with
 * two; `each` in a universe of its own, with four. */
typedef enum { all, each } layout;

static const char *const columns[] = {"all in one universe", "one in each"};

static uint8_t body[2 + 2 * MOST];

static size_t ptch(fixture f) {
    citp_put p = citp_ptch_write(body, sizeof body, 0, f.identifier, f.universe, 0, f.channel, f.channel_count, (const uint8_t *)"ETC", 3,
                                 (const uint8_t *)"Source Four", 11);
    CHECK(p.number == 0);
    return p.at;
}

static size_t uptc(const uint16_t *identifiers, size_t n) {
    citp_put p = citp_uptc_write(body, sizeof body, 0, identifiers, n);
    CHECK(p.number == 0);
    return p.at;
}

static fixture place(layout l, unsigned i) {
    uint16_t identifier = (uint16_t)(1000 + i);
    return l == each ? (fixture){identifier, (uint8_t)i, 10, 4}
           : i == 0  ? (fixture){identifier, 3, 0, 1}
                     : (fixture){identifier, 3, (uint16_t)(2 * i - 1), 2};
}

static void patch(book *b, fixture f) {
    size_t len = ptch(f);
    citp_booked r = citp_book_patch(b->count, b->entries, FIXTURES, body, len);
    CHECK(r.number == 0);
    b->count = r.count;
}

static void unpatch(book *b, uint16_t identifier) {
    size_t len = uptc(&identifier, 1);
    b->count = citp_book_unpatch(b->count, b->entries, FIXTURES, body, len).count;
}

static book full(layout l) {
    book b = {0, {0}};
    for (unsigned i = 0; i < FIXTURES; i++) {
        patch(&b, place(l, i));
    }
    CHECK(citp_book_entries(b.count, b.entries, FIXTURES) == FIXTURES);
    return b;
}

/* ---- patches */

static void counted_patch(book *b, layout l, const char *row, fixture f, size_t cut, uint8_t number) {
    size_t len = ptch(f) - cut;
    CALLGRIND_ZERO_STATS;
    citp_booked r = citp_book_patch(b->count, b->entries, FIXTURES, body, len);
    counted("patch", row, columns[l]);
    CHECK(r.number == number);
    b->count = r.count;
}

static void refused_patches(layout l) {
    book b = full(l);
    uint8_t universe = l == all ? 3 : 255;
    counted_patch(&b, l, "refused: its body cut", (fixture){9, universe, 500, 4}, 2, 8);
    counted_patch(&b, l, "refused with 16", (fixture){9, universe, 500, 13}, 0, 16);
    counted_patch(&b, l, "refused with 17 at the last entry", (fixture){9, universe, l == all ? 510 : 13, 1}, 0, 17);
    counted_patch(&b, l, "refused with 18", (fixture){9, universe, 511, 1}, 0, 18);
}

static void taken_patches(layout l) {
    book b = full(l);
    fixture first = place(l, 0), last = place(l, FIXTURES - 1), behind = {first.identifier, last.universe, 511, 1};
    counted_patch(&b, l, "replaces the first in its place", first, 0, 0);
    counted_patch(&b, l, "replaces the last in its place", last, 0, 0);
    counted_patch(&b, l, "moves the first to the end", behind, 0, 0);
    counted_patch(&b, l, "moves it back", first, 0, 0);
    unpatch(&b, first.identifier);
    counted_patch(&b, l, "a new fixture, first of 256", first, 0, 0);
    unpatch(&b, last.identifier);
    counted_patch(&b, l, "a new fixture, last of 256", last, 0, 0);
}

/* ---- questions */

static void counted_questions(const book *b, const char *column, uint16_t universe, uint16_t taken, uint16_t first_free) {
    CALLGRIND_ZERO_STATS;
    CHECK(citp_book_taken(b->count, b->entries, FIXTURES, universe) == taken);
    counted("question", "taken count", column);
    CALLGRIND_ZERO_STATS;
    CHECK(citp_book_first_free(b->count, b->entries, FIXTURES, universe) == first_free);
    counted("question", "first free channel", column);
}

static void questions(void) {
    book b = full(all);
    patch(&b, (fixture){place(all, FIXTURES - 1).identifier, 3, 509, 3});
    counted_questions(&b, "of a universe with all 256, no channel free", 3, 512, 512);
    book c = full(each);
    counted_questions(&c, "with one", 128, 4, 0);
    counted_questions(&b, "with none", 4, 0, 0);
}

/* ---- unpatches */

/* The k-th of the identifiers that a book does not hold whose own are so far apart, 1 or 257; behind the last of them the first again. */
static uint16_t other(unsigned apart, size_t k) {
    k %= MOST + 1 - FIXTURES;
    return (uint16_t)(apart == 1 ? FIXTURES + k : k / FIXTURES * apart + 1 + k % FIXTURES);
}

/* On a full book, whose identifiers are so far apart from 0 on, a list of n of its own, behind the last the first again, or of others. */
static void counted_unpatch(const char *row, size_t n, unsigned apart, int held) {
    static uint16_t listed[MOST];
    book b = {0, {0}};
    for (unsigned i = 0; i < FIXTURES; i++) {
        fixture f = place(each, i);
        f.identifier = (uint16_t)(apart * i);
        patch(&b, f);
    }
    for (size_t k = 0; k < n; k++) {
        listed[k] = held ? (uint16_t)(apart * (k % FIXTURES)) : other(apart, k);
    }
    size_t len = uptc(listed, n);
    char column[80];
    snprintf(column, sizeof column, "%s%s", held ? "all held" : "none held", apart == 1 ? "" : ", spread");
    CALLGRIND_ZERO_STATS;
    citp_booked r = citp_book_unpatch(b.count, b.entries, FIXTURES, body, len);
    counted("unpatch", row, column);
    size_t dropped = n == 0 ? FIXTURES : !held ? 0 : n < FIXTURES ? n : FIXTURES;
    CHECK(r.number == 0 && r.count == FIXTURES - dropped);
}

static void unpatches(const char *row, size_t n) {
    counted_unpatch(row, n, 1, 0);
    counted_unpatch(row, n, 1, 1);
    counted_unpatch(row, n, 257, 0);
    counted_unpatch(row, n, 257, 1);
}

int main(void) {
    for (layout l = all; l <= each; l++) {
        refused_patches(l);
        taken_patches(l);
    }
    questions();
    unpatches("no identifier", 0);
    unpatches("one identifier", 1);
    unpatches("two identifiers", 2);
    unpatches("eight identifiers", 8);
    unpatches("nine identifiers", 9);
    unpatches("64 identifiers", 64);
    unpatches("65,535 identifiers", MOST);
    return 0;
}
