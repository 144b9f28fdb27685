/* book FILE: walks a stored stream, keeps its patch in a book and prints what it ends with: a line for each fixture, and for each universe
 * that has any how many channels are taken and the first free one; ahead of them a line for each patch message that is refused. The status
 * is 2 where FILE cannot be read, 3 where the lines cannot be written. */
#include <stdio.h>
#include <stdlib.h>

#include "citp.h"
#include "common.h"

enum { ROOM = 256 };

static uint64_t entries[ROOM];

/* Feeds a message to the book; the count after it. */
static size_t feed(size_t count, const uint8_t *stream, citp_step s) {
    const uint8_t *body = stream + s.body_start;
    citp_booked r = {0, count};
    if (s.kind == CITP_PTCH) {
        r = citp_book_patch(count, entries, ROOM, body, s.body_len);
    } else if (s.kind == CITP_UPTC) {
        r = citp_book_unpatch(count, entries, ROOM, body, s.body_len);
    }
    if (r.number != 0) {
        printf("%zu refused %u\n", s.offset, (unsigned)r.number);
    }
    return r.count;
}

/* The book's count after all messages of a stream. */
static size_t feed_all(const uint8_t *stream, size_t len) {
    size_t count = 0;
    citp_step s = citp_walk_step(stream, len, 0);
    while (s.report != CITP_END) {
        if (s.report == CITP_MESSAGE) {
            count = feed(count, stream, s);
        }
        s = citp_walk_step(stream, len, s.next);
    }
    return count;
}

static void print_fixtures(size_t count) {
    size_t held = citp_book_entries(count, entries, ROOM);
    for (size_t k = 0; k < held; k++) {
        citp_entry e = citp_book_entry(count, entries, ROOM, k);
        printf("fixture %u: universe %u, channel %u, channel count %u\n", (unsigned)e.fixture_identifier, (unsigned)e.universe,
               (unsigned)e.channel, (unsigned)e.channel_count);
    }
}

static void print_universes(size_t count) {
    for (uint16_t universe = 0; universe < 256; universe++) {
        unsigned taken = citp_book_taken(count, entries, ROOM, universe);
        unsigned first_free = citp_book_first_free(count, entries, ROOM, universe);
        if (taken != 0) {
            printf("universe %u: %u channels taken, ", (unsigned)universe, taken);
            first_free < 512 ? printf("the first free is %u\n", first_free) : printf("none is free\n");
        }
    }
}

int main(int argc, char **argv) {
    if (argc != 2) {
        fprintf(stderr, "usage: book FILE\n");
        return 2;
    }
    size_t len;
    uint8_t *stream = read_file(argv[1], &len);
    size_t count = feed_all(stream, len);
    print_fixtures(count);
    print_universes(count);
    free(stream);
    return written("book");
}
