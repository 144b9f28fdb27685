/* walk FILE: walks a stored stream and prints a line a packet: its offset, its size and what it is. The status is 2 where
 * FILE cannot be read, 3 where the lines cannot be written. */
#include <stdio.h>
#include <stdlib.h>

#include "citp.h"
#include "common.h"

static const char *const kinds[] = {CITP_KIND_NAMES};

static void print_packet(citp_step s) {
    printf("%zu %u ", s.offset, (unsigned)s.size);
    switch (s.report) {
    case CITP_MESSAGE:
        printf("%s", kinds[s.kind]);
        if (s.added != 0) {
            printf(", %zu bytes added", s.added);
        }
        break;
    case CITP_UNKNOWN_LAYER:
        printf("unknown layer %08X", (unsigned)s.layer);
        break;
    case CITP_UNKNOWN_KIND:
        printf("unknown kind %08X in layer %08X", (unsigned)s.content_type, (unsigned)s.layer);
        break;
    case CITP_FRAGMENT:
        printf("fragment %u of %u", (unsigned)s.part, (unsigned)s.part_count);
        break;
    default:
        printf("refused %u", (unsigned)s.number);
    }
    printf("\n");
}

int main(int argc, char **argv) {
    if (argc != 2) {
        fprintf(stderr, "usage: walk FILE\n");
        return 2;
    }
    size_t len;
    uint8_t *stream = read_file(argv[1], &len);
    citp_step s = citp_walk_step(stream, len, 0);
    while (s.report != CITP_END) {
        print_packet(s);
        s = citp_walk_step(stream, len, s.next);
    }
    printf("%zu end %u\n", s.offset, (unsigned)s.number);
    free(stream);
    return written("walk");
}
