/* levels FILE: walks a stored stream and keeps the levels of universe 0 as its channel blocks and channel lists set them: at the end a line
 * for each channel whose level is not 0; ahead of them a line for each message that is refused. The status is 2 where FILE cannot be read,
 * 3 where the lines cannot be written. */
#include <stdio.h>
#include <stdlib.h>

#include "citp.h"
#include "common.h"

enum { UNIVERSE = 0, CHANNELS = 512 };

static uint8_t levels[CHANNELS];

/* Gives a message to the rack. */
static void feed(const uint8_t *stream, citp_step s) {
    const uint8_t *body = stream + s.body_start;
    uint8_t number = 0;
    if (s.kind == CITP_CHBK) {
        number = citp_dimmer_chbk(UNIVERSE, levels, body, s.body_len);
    } else if (s.kind == CITP_CHLS) {
        number = citp_dimmer_chls(UNIVERSE, levels, body, s.body_len);
    }
    if (number != 0) {
        printf("%zu refused %u\n", s.offset, (unsigned)number);
    }
}

int main(int argc, char **argv) {
    if (argc != 2) {
        fprintf(stderr, "usage: levels FILE\n");
        return 2;
    }
    size_t len;
    uint8_t *stream = read_file(argv[1], &len);
    citp_step s = citp_walk_step(stream, len, 0);
    while (s.report != CITP_END) {
        if (s.report == CITP_MESSAGE) {
            feed(stream, s);
        }
        s = citp_walk_step(stream, len, s.next);
    }
    for (unsigned channel = 0; channel < CHANNELS; channel++) {
        if (levels[channel] != 0) {
            printf("channel %u: %u\n", channel, (unsigned)levels[channel]);
        }
    }
    free(stream);
    return written("levels");
}
