/* Walks a stored stream and writes each message again, through the packet writer and out of the fields read: every packet must be as it
 * was, byte for byte.
 * packets.citp holds packets of every kind that the Rust wrote (differential/sample makes it). */
#include <stdio.h>
#include <stdlib.h>
#include <string.h>

#include "citp.h"

enum { ROOM = 65536 };

static uint8_t stream[ROOM], out[ROOM];
/* the body of the message at hand, and the writer's state */
static const uint8_t *body;
static size_t len;
static citp_writer w;

/* A refused call leaves the state as it was, so that the close is refused too. */
static void given(citp_written r) { w = r.writer; }

/* ---- a string or a block as it is written: a pointer and a length */

#define BYTES(start, count) body + (start), (count)

static size_t length(citp_copied copied) { return copied.number == 0 ? copied.len : 0; }

/* A Ucs2 string, copied into room of its own. */
#define UNITS(room, start) (room), length(citp_copy_ucs2(body, len, (start), (room), ROOM))

static uint16_t units[3][ROOM];
static uint16_t numbers[ROOM];
static uint32_t identifiers[ROOM];

#define NUMBERS(at, left) numbers, length(citp_u16_list_copy(body, len, (at), (left), numbers, ROOM))

/* ---- bodies */

static void give_fixture(citp_fixture_next f) {
    given(citp_writer_fixture_head(w, out, ROOM, f.fixture_identifier, UNITS(units[0], f.manufacturer_name_start),
                                   UNITS(units[1], f.fixture_name_start), UNITS(units[2], f.mode_name_start), f.channel_count,
                                   f.is_dimmer, f.identifiers_left));
    citp_identifier_next i = citp_identifiers_next(body, len, f.identifiers_at, f.identifiers_left);
    while (i.given) {
        given(citp_writer_identifier(w, out, ROOM, i.identifier_type, BYTES(i.data_start, i.data_len)));
        i = citp_identifiers_next(body, len, i.at, i.left);
    }
    given(citp_writer_fixture_data(w, out, ROOM, f.data, UNITS(units[0], f.unit_start), UNITS(units[1], f.circuit_start),
                                   UNITS(units[2], f.note_start)));
}

static void give_fixture_list(citp_fixture_list x) {
    given(citp_writer_fixture_list_head(w, out, ROOM, x.message_type, x.fixtures_left));
    citp_fixture_next f = citp_fixtures_next(body, len, x.fixtures_at, x.fixtures_left);
    while (f.given) {
        give_fixture(f);
        f = citp_fixtures_next(body, len, f.at, f.left);
    }
}

static void give_chls(citp_list_body x) {
    static citp_channel_level levels[ROOM];
    size_t count = 0;
    citp_channel_level_next n = citp_channel_levels_next(body, len, x.at, x.left);
    while (n.given) {
        levels[count++] = n.value;
        n = citp_channel_levels_next(body, len, n.at, n.left);
    }
    given(citp_writer_chls(w, out, ROOM, levels, count));
}

static void give_caex(uint8_t kind) {
    if (kind == CITP_ENTER_SHOW) {
        given(citp_writer_enter_show(w, out, ROOM, UNITS(units[0], citp_enter_show_read(body, len).start)));
    } else if (kind == CITP_FIXTURE_LIST) {
        give_fixture_list(citp_fixture_list_read(body, len));
    } else if (kind == CITP_FIXTURE_REMOVE) {
        citp_list_body x = citp_fixture_remove_read(body, len);
        size_t count = length(citp_u32_list_copy(body, len, x.at, x.left, identifiers, ROOM));
        given(citp_writer_fixture_remove(w, out, ROOM, identifiers, count));
    } else {
        citp_laser_feed_control x = citp_laser_feed_control_read(body, len);
        given(citp_writer_laser_feed_control(w, out, ROOM, x.feed_index, x.frame_rate));
    }
}

static void give_sdmx(uint8_t kind) {
    if (kind == CITP_CAPA) {
        citp_list_body x = citp_capa_read(body, len);
        given(citp_writer_capa(w, out, ROOM, NUMBERS(x.at, x.left)));
    } else if (kind == CITP_UNAM) {
        citp_universe_string x = citp_unam_read(body, len);
        given(citp_writer_unam(w, out, ROOM, x.universe_index, BYTES(x.string_start, x.string_len)));
    } else if (kind == CITP_CHBK) {
        citp_chbk x = citp_chbk_read(body, len);
        given(citp_writer_chbk(w, out, ROOM, x.blind, x.universe_index, x.first_channel,
                               BYTES(x.channel_levels_start, x.channel_levels_len)));
    } else if (kind == CITP_CHLS) {
        give_chls(citp_chls_read(body, len));
    } else {
        citp_universe_string x = citp_sxus_read(body, len);
        given(citp_writer_sxus(w, out, ROOM, x.universe_index, BYTES(x.string_start, x.string_len)));
    }
}

static void give_fptc_or_fsel(uint8_t kind) {
    if (kind == CITP_PTCH) {
        citp_ptch x = citp_ptch_read(body, len);
        given(citp_writer_ptch(w, out, ROOM, x.fixture_identifier, x.universe, x.reserved, x.channel, x.channel_count,
                               BYTES(x.fixture_make_start, x.fixture_make_len), BYTES(x.fixture_name_start, x.fixture_name_len)));
    } else if (kind == CITP_UPTC) {
        citp_list_body x = citp_uptc_read(body, len);
        given(citp_writer_uptc(w, out, ROOM, NUMBERS(x.at, x.left)));
    } else if (kind == CITP_SPTC) {
        citp_list_body x = citp_sptc_read(body, len);
        given(citp_writer_sptc(w, out, ROOM, NUMBERS(x.at, x.left)));
    } else if (kind == CITP_SELE) {
        citp_sele x = citp_sele_read(body, len);
        given(citp_writer_sele(w, out, ROOM, x.complete, x.reserved, NUMBERS(x.fixture_identifiers_at, x.fixture_identifiers_left)));
    } else {
        citp_list_body x = citp_dese_read(body, len);
        given(citp_writer_dese(w, out, ROOM, NUMBERS(x.at, x.left)));
    }
}

static void give_finf_or_pinf(uint8_t kind) {
    if (kind == CITP_SFRA) {
        citp_list_body x = citp_sfra_read(body, len);
        given(citp_writer_sfra(w, out, ROOM, NUMBERS(x.at, x.left)));
    } else if (kind == CITP_FRAM) {
        citp_fram x = citp_fram_read(body, len);
        given(citp_writer_fram(w, out, ROOM, x.fixture_identifier, x.frame_filter_count, x.frame_gobo_count,
                               BYTES(x.frame_names_start, x.frame_names_len)));
    } else if (kind == CITP_PNAM) {
        citp_string_body x = citp_pnam_read(body, len);
        given(citp_writer_pnam(w, out, ROOM, BYTES(x.start, x.len)));
    } else {
        citp_ploc x = citp_ploc_read(body, len);
        given(citp_writer_ploc(w, out, ROOM, x.listening_tcp_port, BYTES(x.kind_start, x.kind_len), BYTES(x.name_start, x.name_len),
                               BYTES(x.state_start, x.state_len)));
    }
}

static void give_feed_list(citp_laser_feed_list x) {
    given(citp_writer_laser_feed_list_head(w, out, ROOM, x.source_key, x.feed_names_left));
    citp_feed_name_next n = citp_feed_names_next(body, len, x.feed_names_at, x.feed_names_left);
    while (n.given) {
        given(citp_writer_feed_name(w, out, ROOM, UNITS(units[0], n.start)));
        n = citp_feed_names_next(body, len, n.at, n.left);
    }
}

static void give_feed_frame(citp_laser_feed_frame x) {
    given(citp_writer_laser_feed_frame_head(w, out, ROOM, x.source_key, x.feed_index, x.frame_sequence, x.points_left));
    citp_laser_point_next n = citp_laser_points_next(body, len, x.points_at, x.points_left);
    while (n.given) {
        given(citp_writer_laser_point(w, out, ROOM, n.value.x_low_byte, n.value.y_low_byte, n.value.xy_high_nibbles, n.value.color));
        n = citp_laser_points_next(body, len, n.at, n.left);
    }
}

/* ---- a packet */

static int is_same(citp_step s) {
    if (s.report != CITP_MESSAGE) {
        return 0;
    }
    body = stream + s.body_start;
    len = s.body_len;
    memset(out, 0xA5, sizeof out);
    w = citp_writer_new();
    given(citp_writer_open(w, out, ROOM, s.kind, s.request_index, s.content_hint));
    if (s.kind <= CITP_LASER_FEED_CONTROL) {
        give_caex(s.kind);
    } else if (s.kind <= CITP_SXUS) {
        give_sdmx(s.kind);
    } else if (s.kind <= CITP_DESE) {
        give_fptc_or_fsel(s.kind);
    } else if (s.kind <= CITP_PLOC) {
        give_finf_or_pinf(s.kind);
    } else if (s.kind == CITP_LASER_FEED_LIST) {
        give_feed_list(citp_laser_feed_list_read(body, len));
    } else {
        give_feed_frame(citp_laser_feed_frame_read(body, len));
    }
    citp_written closed = citp_writer_close(w, out, ROOM);
    given(closed);
    return closed.number == 0 && w.at == s.size && memcmp(out, stream + s.offset, s.size) == 0;
}

int main(int argc, char **argv) {
    FILE *file = argc == 2 ? fopen(argv[1], "rb") : NULL;
    if (file == NULL) {
        fprintf(stderr, "usage: rewrite FILE\n");
        return 2;
    }
    size_t end = fread(stream, 1, sizeof stream, file);
    fclose(file);
    unsigned messages[CITP_LASER_FEED_FRAME + 1] = {0}, packets = 0, same = 0, kinds = 0;
    citp_step s = citp_walk_step(stream, end, 0);
    while (s.report != CITP_END) {
        packets++;
        if (is_same(s)) {
            same++;
            kinds += messages[s.kind]++ == 0;
        } else {
            fprintf(stderr, "the packet at %zu is not the same\n", s.offset);
        }
        s = citp_walk_step(stream, end, s.next);
    }
    printf("%u packets of %u kinds, %u the same when written again, end %u\n", packets, kinds, same, (unsigned)s.number);
    return same == packets && s.number == 0 ? 0 : 1;
}
