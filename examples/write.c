/* write: writes one packet to standard output, the name of a universe. The status is 1 where a call is refused, 3 where the packet cannot
 * be written. */
#include <stdio.h>

#include "citp.h"

int main(void) {
    const uint8_t name[] = {'A'};
    uint8_t out[64];
    citp_written r = citp_writer_open(citp_writer_new(), out, sizeof out, CITP_UNAM, 0, 0);
    r = citp_writer_unam(r.writer, out, sizeof out, 3, name, sizeof name);
    r = citp_writer_close(r.writer, out, sizeof out);
    /* after a refused call something is still due, so the close is refused too */
    if (r.number != 0) {
        fprintf(stderr, "write: refused with %u\n", (unsigned)r.number);
        return 1;
    }
    if (fwrite(out, 1, r.writer.at, stdout) != r.writer.at || fflush(stdout) != 0) {
        fprintf(stderr, "write: standard output cannot be written\n");
        return 3;
    }
    return 0;
}
