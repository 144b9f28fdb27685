/* Writes a message of every kind, walks the stream of them and reads each back: every struct of citp.h, held against the archive. */
#include <stdio.h>
#include <stdlib.h>
#include <string.h>

#include "citp.h"

#define CHECK(x) ((x) ? (void)0 : (fprintf(stderr, "%s:%d: not so: %s\n", __FILE__, __LINE__, #x), exit(1)))
#define TEXT(s) (const uint8_t *)(s), strlen(s)
#define UNITS(a) (a), sizeof(a) / sizeof *(a)

static uint8_t stream[4096];
static size_t end;
static citp_writer w;

static uint8_t *out(void) { return stream + end; }

static size_t room(void) { return sizeof stream - end; }

static void taken(citp_written r) {
    CHECK(r.number == 0);
    w = r.writer;
}

static void open(uint8_t kind) { taken(citp_writer_open(w, out(), room(), kind, 7, 0xA1B2C3D4)); }

static void close(void) {
    taken(citp_writer_close(w, out(), room()));
    end += w.at;
}

static const uint16_t units[] = {'A', 0x0100};
static const uint16_t numbers[] = {0x0102, 0xFFFF, 3};
static const uint32_t wide[] = {0x01020304, 0xFFFFFFFF};
static const citp_channel_level levels[] = {{1, 0x0203, 4}, {5, 0x0607, 8}};
static const citp_fixture_data fixture = {1, 2, 0x0304, 0x0506, 0x3F800000, 0x7FA00001, 0xFF800001, 0x80000000, 1, 2};

static void write_caex(void) {
    open(CITP_ENTER_SHOW), taken(citp_writer_enter_show(w, out(), room(), UNITS(units))), close();
    open(CITP_FIXTURE_LIST);
    CHECK(citp_writer_fixture_list_head(w, out(), room(), 3, 1).number == 9);
    taken(citp_writer_fixture_list_head(w, out(), room(), 2, 1));
    taken(citp_writer_fixture_head(w, out(), room(), 0x01020304, UNITS(units), units, 1, NULL, 0, 0x0506, 7, 1));
    CHECK(citp_writer_identifier(w, out(), room(), 6, TEXT("")).number == 10);
    taken(citp_writer_identifier(w, out(), room(), 5, TEXT("xyz")));
    taken(citp_writer_fixture_data(w, out(), room(), fixture, NULL, 0, units, 1, UNITS(units)));
    close();
    open(CITP_FIXTURE_REMOVE), taken(citp_writer_fixture_remove(w, out(), room(), UNITS(wide))), close();
    open(CITP_LASER_FEED_CONTROL), taken(citp_writer_laser_feed_control(w, out(), room(), 1, 2)), close();
}

static void write_sdmx(void) {
    open(CITP_CAPA), taken(citp_writer_capa(w, out(), room(), UNITS(numbers))), close();
    open(CITP_UNAM), taken(citp_writer_unam(w, out(), room(), 3, TEXT("ab"))), close();
    open(CITP_CHBK), taken(citp_writer_chbk(w, out(), room(), 1, 2, 0x0304, TEXT("xyz"))), close();
    open(CITP_CHLS), taken(citp_writer_chls(w, out(), room(), UNITS(levels))), close();
    open(CITP_SXUS), taken(citp_writer_sxus(w, out(), room(), 4, TEXT("c"))), close();
}

static void write_others(void) {
    open(CITP_PTCH), taken(citp_writer_ptch(w, out(), room(), 0x0102, 3, 4, 0x0506, 0x0708, TEXT("m"), TEXT("nn"))), close();
    open(CITP_UPTC), taken(citp_writer_uptc(w, out(), room(), UNITS(numbers))), close();
    open(CITP_SPTC), taken(citp_writer_sptc(w, out(), room(), NULL, 0)), close();
    open(CITP_SELE), taken(citp_writer_sele(w, out(), room(), 1, 2, UNITS(numbers))), close();
    open(CITP_DESE), taken(citp_writer_dese(w, out(), room(), UNITS(numbers))), close();
    open(CITP_SFRA), taken(citp_writer_sfra(w, out(), room(), UNITS(numbers))), close();
    open(CITP_FRAM), taken(citp_writer_fram(w, out(), room(), 0x0102, 3, 4, TEXT("f\ng"))), close();
    open(CITP_PNAM), taken(citp_writer_pnam(w, out(), room(), TEXT("p"))), close();
    open(CITP_PLOC), taken(citp_writer_ploc(w, out(), room(), 0x0102, TEXT("k"), TEXT("nn"), TEXT("sss"))), close();
}

static void write_feeds(void) {
    open(CITP_LASER_FEED_LIST);
    CHECK(citp_writer_laser_feed_list_head(w, out(), room(), 1, 256).number == 12);
    taken(citp_writer_laser_feed_list_head(w, out(), room(), 0x01020304, 2));
    taken(citp_writer_feed_name(w, out(), room(), UNITS(units)));
    taken(citp_writer_feed_name(w, out(), room(), NULL, 0));
    close();
    open(CITP_LASER_FEED_FRAME);
    taken(citp_writer_laser_feed_frame_head(w, out(), room(), 0x01020304, 5, 0x06070809, 2));
    taken(citp_writer_laser_point(w, out(), room(), 1, 2, 3, 0x0405));
    taken(citp_writer_laser_point(w, out(), room(), 6, 7, 8, 0x090A));
    close();
}

/* ---- reading; a message's body, and how many bytes it takes */

static const uint8_t *body;
static size_t len;

static void is_list(citp_list_body r, size_t taken_bytes, uint16_t left) {
    CHECK(r.number == 0 && r.taken == taken_bytes && r.left == left && r.at == 2);
}

static void is_numbers(citp_list_body r) {
    is_list(r, 8, 3);
    citp_u16_next n = citp_u16_list_next(body, len, r.at, r.left);
    CHECK(n.number == 0 && n.given == 1 && n.value == 0x0102 && n.at == 4 && n.left == 2);
    uint16_t all[3];
    CHECK(citp_u16_list_copy(body, len, r.at, r.left, all, 2).number == 13);
    CHECK(citp_u16_list_copy(body, 7, r.at, r.left, all, 3).number == 7);
    citp_copied c = citp_u16_list_copy(body, len, r.at, r.left, all, 3);
    CHECK(c.number == 0 && c.len == 3 && memcmp(all, numbers, sizeof numbers) == 0);
}

static void read_fixture(citp_fixture_list r) {
    CHECK(r.number == 0 && r.taken == len && r.message_type == 2 && r.fixtures_at == 3 && r.fixtures_left == 1);
    citp_fixture_next f = citp_fixtures_next(body, len, r.fixtures_at, r.fixtures_left);
    CHECK(f.number == 0 && f.given == 1 && f.at == len && f.left == 0 && f.fixture_identifier == 0x01020304);
    CHECK(f.manufacturer_name_start == 7 && f.manufacturer_name_len == 2 && f.fixture_name_start == 13 && f.fixture_name_len == 1);
    CHECK(f.mode_name_start == 17 && f.mode_name_len == 0 && f.channel_count == 0x0506 && f.is_dimmer == 7);
    CHECK(f.identifiers_at == 23 && f.identifiers_left == 1 && memcmp(&f.data, &fixture, sizeof fixture) == 0);
    CHECK(f.unit_start == 33 && f.unit_len == 0 && f.circuit_start == 37 && f.circuit_len == 1 && f.note_start == 41 && f.note_len == 2);
    citp_identifier_next i = citp_identifiers_next(body, len, f.identifiers_at, f.identifiers_left);
    CHECK(i.number == 0 && i.given == 1 && i.identifier_type == 5 && i.data_start == 26 && i.data_len == 3 && i.at == 29 && i.left == 0);
    CHECK(citp_identifiers_next(body, len, i.at, i.left).given == 0);
}

static void read_caex(uint8_t kind) {
    if (kind == CITP_ENTER_SHOW) {
        citp_string_body r = citp_enter_show_read(body, len);
        uint16_t name[3] = {1, 1, 1};
        citp_copied c = citp_copy_ucs2(body, len, r.start, name, 3);
        CHECK(r.number == 0 && r.taken == 6 && r.start == 0 && r.len == 2);
        CHECK(c.number == 0 && c.len == 2 && memcmp(name, units, sizeof units) == 0 && name[2] == 1);
    } else if (kind == CITP_FIXTURE_LIST) {
        read_fixture(citp_fixture_list_read(body, len));
    } else if (kind == CITP_FIXTURE_REMOVE) {
        is_list(citp_fixture_remove_read(body, len), 10, 2);
        citp_u32_next n = citp_u32_list_next(body, len, 2, 2);
        CHECK(n.number == 0 && n.given == 1 && n.value == 0x01020304 && n.at == 6 && n.left == 1);
        uint32_t all[2];
        CHECK(citp_u32_list_copy(body, len, 2, 2, all, 2).len == 2 && memcmp(all, wide, sizeof wide) == 0);
    } else {
        citp_laser_feed_control r = citp_laser_feed_control_read(body, len);
        CHECK(r.number == 0 && r.taken == 2 && r.feed_index == 1 && r.frame_rate == 2);
    }
}

static void read_sdmx(uint8_t kind) {
    if (kind == CITP_CAPA) {
        is_numbers(citp_capa_read(body, len));
    } else if (kind == CITP_CHLS) {
        is_list(citp_chls_read(body, len), 10, 2);
        citp_channel_level_next n = citp_channel_levels_next(body, len, 2, 2);
        CHECK(n.number == 0 && n.given == 1 && n.at == 6 && n.left == 1);
        CHECK(n.value.universe_index == 1 && n.value.channel == 0x0203 && n.value.channel_level == 4);
    } else if (kind == CITP_CHBK) {
        citp_chbk r = citp_chbk_read(body, len);
        CHECK(r.number == 0 && r.taken == 9 && r.blind == 1 && r.universe_index == 2 && r.first_channel == 0x0304);
        CHECK(r.channel_levels_start == 6 && r.channel_levels_len == 3);
    } else {
        citp_universe_string r = kind == CITP_UNAM ? citp_unam_read(body, len) : citp_sxus_read(body, len);
        uint8_t name[2];
        CHECK(r.number == 0 && r.taken == len && r.universe_index == (kind == CITP_UNAM ? 3 : 4) && r.string_start == 1);
        CHECK(citp_copy_cstring(body, len, r.string_start, name, 2).len == r.string_len && name[0] == body[1]);
        CHECK(citp_unam_read(body, 1).number == 8 && citp_unam_read(NULL, 0).number == 7);
    }
}

static void read_others(uint8_t kind) {
    if (kind == CITP_PTCH) {
        citp_ptch r = citp_ptch_read(body, len);
        CHECK(r.number == 0 && r.taken == 13 && r.fixture_identifier == 0x0102 && r.universe == 3 && r.reserved == 4);
        CHECK(r.channel == 0x0506 && r.channel_count == 0x0708 && r.fixture_make_start == 8 && r.fixture_make_len == 1);
        CHECK(r.fixture_name_start == 10 && r.fixture_name_len == 2);
    } else if (kind == CITP_SELE) {
        citp_sele r = citp_sele_read(body, len);
        CHECK(r.number == 0 && r.taken == 10 && r.complete == 1 && r.reserved == 2);
        CHECK(r.fixture_identifiers_at == 4 && r.fixture_identifiers_left == 3);
    } else if (kind == CITP_FRAM) {
        citp_fram r = citp_fram_read(body, len);
        CHECK(r.number == 0 && r.taken == 8 && r.fixture_identifier == 0x0102 && r.frame_filter_count == 3);
        CHECK(r.frame_gobo_count == 4 && r.frame_names_start == 4 && r.frame_names_len == 3);
    } else if (kind == CITP_PNAM) {
        citp_string_body r = citp_pnam_read(body, len);
        CHECK(r.number == 0 && r.taken == 2 && r.start == 0 && r.len == 1);
    } else if (kind == CITP_PLOC) {
        citp_ploc r = citp_ploc_read(body, len);
        CHECK(r.number == 0 && r.taken == 11 && r.listening_tcp_port == 0x0102 && r.kind_start == 2 && r.kind_len == 1);
        CHECK(r.name_start == 4 && r.name_len == 2 && r.state_start == 7 && r.state_len == 3);
    } else if (kind == CITP_SPTC) {
        is_list(citp_sptc_read(body, len), 2, 0);
    } else {
        is_numbers(kind == CITP_UPTC   ? citp_uptc_read(body, len)
                   : kind == CITP_DESE ? citp_dese_read(body, len)
                                       : citp_sfra_read(body, len));
    }
}

static void read_feed_list(citp_laser_feed_list r) {
    CHECK(r.number == 0 && r.taken == 13 && r.source_key == 0x01020304 && r.feed_names_at == 5 && r.feed_names_left == 2);
    citp_feed_name_next n = citp_feed_names_next(body, len, r.feed_names_at, r.feed_names_left);
    CHECK(n.number == 0 && n.given == 1 && n.start == 5 && n.len == 2 && n.at == 11 && n.left == 1);
    uint16_t name[2];
    CHECK(citp_copy_ucs2(body, len, n.start, name, 2).len == 2 && memcmp(name, units, sizeof units) == 0);
    n = citp_feed_names_next(body, len, n.at, n.left);
    CHECK(n.number == 0 && n.given == 1 && n.start == 11 && n.len == 0 && n.at == 13 && n.left == 0);
    CHECK(citp_feed_names_next(body, len, n.at, n.left).given == 0 && citp_feed_names_next(body, len, n.at, 1).number == 8);
    CHECK(citp_laser_feed_list_read(body, len - 1).number == 8 && citp_laser_feed_list_read(body, 4).number == 7);
}

static void is_point(citp_laser_point p, uint8_t x, uint8_t y, uint8_t high, uint16_t color) {
    CHECK(p.x_low_byte == x && p.y_low_byte == y && p.xy_high_nibbles == high && p.color == color);
}

static void read_feed_frame(citp_laser_feed_frame r) {
    CHECK(r.number == 0 && r.taken == 21 && r.source_key == 0x01020304 && r.feed_index == 5 && r.frame_sequence == 0x06070809);
    CHECK(r.points_at == 11 && r.points_left == 2);
    citp_laser_point_next n = citp_laser_points_next(body, len, r.points_at, r.points_left);
    CHECK(n.number == 0 && n.given == 1 && n.at == 16 && n.left == 1);
    is_point(n.value, 1, 2, 3, 0x0405);
    n = citp_laser_points_next(body, len, n.at, n.left);
    CHECK(n.number == 0 && n.given == 1 && n.at == 21 && n.left == 0);
    is_point(n.value, 6, 7, 8, 0x090A);
    CHECK(citp_laser_points_next(body, len, n.at, n.left).given == 0 && citp_laser_points_next(body, len, n.at, 1).number == 7);
    CHECK(citp_laser_feed_frame_read(body, len - 1).number == 7);
}

static void read_feeds(uint8_t kind) {
    if (kind == CITP_LASER_FEED_LIST) {
        read_feed_list(citp_laser_feed_list_read(body, len));
    } else {
        read_feed_frame(citp_laser_feed_frame_read(body, len));
    }
}

static void read_packet(citp_step s, uint8_t kind) {
    CHECK(s.report == CITP_MESSAGE && s.number == 0 && s.kind == kind && s.request_index == 7 && s.added == 0);
    CHECK(s.next == s.offset + s.size && s.body_start + s.body_len == s.next);
    CHECK(s.content_hint == (CITP_PTCH <= kind && kind <= CITP_SPTC ? 0xA1B2C3D4 : 0));
    citp_header h = citp_header_read(stream + s.offset, s.size);
    CHECK(h.number == 0 && h.taken == 20 && h.cookie == 0x50544943 && h.version_major == 1 && h.version_minor == 0);
    CHECK(h.request_index == 7 && h.message_size == s.size && h.message_part_count == 1 && h.message_part == 0);
    uint8_t again[20];
    citp_put p = citp_header_write(again, 20, 0, h.cookie, h.version_major, h.version_minor, h.request_index, h.message_size,
                                   h.message_part_count, h.message_part, h.content_type);
    CHECK(p.number == 0 && p.at == 20 && memcmp(again, stream + s.offset, 20) == 0);
    body = stream + s.body_start;
    len = s.body_len;
    kind <= CITP_LASER_FEED_CONTROL ? read_caex(kind)
    : kind <= CITP_SXUS             ? read_sdmx(kind)
    : kind <= CITP_PLOC             ? read_others(kind)
                                    : read_feeds(kind);
}

/* The largest counts stand in the state. */
static void counts(void) {
    open(CITP_FIXTURE_LIST);
    CHECK(citp_writer_fixture_list_head(w, out(), room(), 0, 65536).number == 12);
    taken(citp_writer_fixture_list_head(w, out(), room(), 0, 65535));
    CHECK(w.turn == CITP_TURN_ITEMS && w.kind == CITP_FIXTURE_LIST && w.items == 65535 && w.identifiers == 0 && w.at == 27);
    CHECK(citp_writer_fixture_head(w, out(), room(), 1, NULL, 0, NULL, 0, NULL, 0, 2, 3, 256).number == 12);
    taken(citp_writer_fixture_head(w, out(), room(), 1, NULL, 0, NULL, 0, NULL, 0, 2, 3, 255));
    CHECK(w.turn == CITP_TURN_PARTS && w.items == 65534 && w.identifiers == 255 && w.at == 41);
}

/* ---- the patch book, of two numbers */

static uint64_t entries[] = {0, 0x0102030405060708};

static citp_booked patched(size_t count, uint16_t identifier, uint16_t channel, uint16_t channel_count) {
    uint8_t ptch[32];
    citp_put p = citp_ptch_write(ptch, sizeof ptch, 0, identifier, 3, 0, channel, channel_count, TEXT("m"), TEXT("n"));
    CHECK(p.number == 0 && citp_book_patch(count, entries, 2, ptch, 7).number == 7);
    return citp_book_patch(count, entries, 2, ptch, p.at);
}

static citp_booked unpatched(size_t count, uint16_t identifier) {
    uint8_t uptc[4];
    CHECK(citp_uptc_write(uptc, sizeof uptc, 0, &identifier, 1).number == 0 && citp_book_unpatch(count, entries, 2, uptc, 3).number == 7);
    return citp_book_unpatch(count, entries, 2, uptc, sizeof uptc);
}

static void is_booked(citp_booked r, uint8_t number, size_t count) { CHECK(r.number == number && r.count == count); }

static void book(void) {
    is_booked(patched(0, 0x0102, 0x0104, 5), 0, 1);
    citp_entry e = citp_book_entry(1, entries, 2, 0);
    CHECK(e.given == 1 && e.fixture_identifier == 0x0102 && e.universe == 3 && e.channel == 0x0104 && e.channel_count == 5);
    CHECK(citp_book_entry(1, entries, 2, 1).given == 0 && entries[1] == 0x0102030405060708);
    is_booked(patched(1, 9, 511, 2), 16, 1);
    is_booked(patched(1, 9, 0x0108, 1), 17, 1);
    is_booked(patched(1, 9, 0, 2), 0, 2);
    CHECK(citp_book_entry(2, entries, 2, 0).channel == 0 && citp_book_entry(2, entries, 2, 1).channel == 0x0104);
    is_booked(patched(2, 10, 2, 1), 18, 2);
    CHECK(citp_book_entries(2, entries, 2) == 2 && citp_book_entries(99, entries, 2) == 2 && citp_book_entries(1, NULL, 0) == 0);
    CHECK(citp_book_taken(2, entries, 2, 3) == 7 && citp_book_first_free(2, entries, 2, 3) == 2);
    CHECK(citp_book_taken(2, entries, 2, 4) == 0 && citp_book_first_free(2, entries, 2, 4) == 0);
    is_booked(unpatched(2, 8), 0, 2);
    is_booked(unpatched(2, 0x0102), 0, 1);
    is_booked(patched(1, 9, 0, 512), 0, 1);
    CHECK(citp_book_taken(1, entries, 2, 3) == 512 && citp_book_first_free(1, entries, 2, 3) == 512);
    /* an empty list: cut in its count; whole; with bytes added, on a count above the words lent */
    static const uint8_t clearing[] = {0, 0, 9, 0};
    const uint64_t words[] = {entries[0], entries[1]};
    is_booked(citp_book_unpatch(1, entries, 2, clearing, 1), 7, 1);
    is_booked(citp_book_unpatch(1, entries, 2, clearing, 2), 0, 0);
    is_booked(citp_book_unpatch(99, entries, 2, clearing, sizeof clearing), 0, 0);
    CHECK(memcmp(words, entries, sizeof words) == 0);
    /* the words still hold a fixture's 512 channels, and none is taken */
    is_booked(patched(0, 10, 0, 512), 0, 1);
}

/* ---- a dimmer rack of universe 3, whose levels are 1 at first; behind them a byte that no call writes */

static uint8_t lent[513];

static void is_set(uint8_t number, uint8_t due, size_t channel, uint8_t level) {
    CHECK(number == due && lent[channel] == level && lent[512] == 1);
}

static void rack(void) {
    static const uint8_t block[] = {0, 3, 0xFE, 1, 2, 0, 7, 8}, past[] = {0, 3, 0xFF, 1, 2, 0, 9, 9}, blind[] = {1, 3, 0xFE, 1, 2, 0, 9, 9};
    static const uint8_t none[] = {0, 3, 0xFF, 0xFF, 0, 0}, list[] = {3, 0, 3, 5, 0, 10, 4, 0, 2, 9, 3, 5, 0, 11};
    static const uint8_t wrong[] = {2, 0, 3, 5, 0, 12, 3, 0, 2, 9};
    memset(lent, 1, sizeof lent);
    is_set(citp_dimmer_chbk(3, lent, block, sizeof block), 0, 510, 7);
    is_set(citp_dimmer_chbk(3, lent, blind, sizeof blind), 0, 511, 8);
    is_set(citp_dimmer_chbk(4, lent, past, 7), 7, 511, 8);
    is_set(citp_dimmer_chbk(4, lent, past, sizeof past), 0, 511, 8);
    is_set(citp_dimmer_chbk(3, lent, past, sizeof past), 20, 511, 8);
    is_set(citp_dimmer_chbk(3, lent, none, sizeof none), 0, 511, 8);
    is_set(citp_dimmer_chbk(3, lent, NULL, 0), 7, 511, 8);
    is_set(citp_dimmer_chls(3, lent, list, sizeof list), 0, 5, 11);
    is_set(citp_dimmer_chls(3, lent, wrong, sizeof wrong), 20, 5, 11);
    is_set(citp_dimmer_chls(3, lent, list, sizeof list - 1), 7, 5, 11);
    is_set(citp_dimmer_chls(4, lent, wrong, sizeof wrong), 0, 5, 11);
    is_set(citp_dimmer_chls(4, lent, list, sizeof list), 20, 5, 11);
}

/* ---- strings past their limit, where no packet's walk comes first: a book's message, lists that are stepped through */

static void limits(void) {
    uint8_t ptch[8 + 257 + 1] = {9}, names[2 * 257] = {0};
    uint64_t held[] = {entries[0], entries[1]};
    memset(ptch + 8, 'x', 256);
    memset(names, 'x', 2 * 256);
    is_booked(citp_book_patch(1, entries, 2, ptch, sizeof ptch), 19, 1);
    CHECK(memcmp(held, entries, sizeof held) == 0);
    CHECK(citp_feed_names_next(names, sizeof names, 0, 1).number == 19 && citp_feed_names_next(names, sizeof names, 2, 1).len == 255);
    uint8_t lamp[4 + sizeof names] = {1};
    memcpy(lamp + 4, names, sizeof names);
    CHECK(citp_fixtures_next(lamp, sizeof lamp, 0, 1).number == 19);
}

/* ---- each string of each call written, with as many bytes or units as its limit and with one more: `call` is made by `at` and `n` */

static uint16_t name[256];
static uint8_t bytes[65536], packet[66000];

#define PACKET packet, sizeof packet
#define WITHIN(state, limit, call) \
    do { \
        citp_writer at = (state); \
        size_t n = (limit); \
        CHECK((call).number == 0); \
        n += 1; \
        CHECK((call).number == 19); \
    } while (0)

static citp_writer opened(uint8_t kind) { return citp_writer_open(citp_writer_new(), PACKET, kind, 0, 0).writer; }

static void written_units(void) {
    citp_writer list = citp_writer_fixture_list_head(opened(CITP_FIXTURE_LIST), PACKET, 0, 1).writer;
    citp_writer data = citp_writer_fixture_head(list, PACKET, 1, name, 0, name, 0, name, 0, 2, 3, 0).writer;
    citp_writer feeds = citp_writer_laser_feed_list_head(opened(CITP_LASER_FEED_LIST), PACKET, 1, 1).writer;
    WITHIN(opened(CITP_ENTER_SHOW), 255, citp_writer_enter_show(at, PACKET, name, n));
    WITHIN(list, 255, citp_writer_fixture_head(at, PACKET, 1, name, n, name, 0, name, 0, 2, 3, 0));
    WITHIN(list, 255, citp_writer_fixture_head(at, PACKET, 1, name, 0, name, n, name, 0, 2, 3, 0));
    WITHIN(list, 255, citp_writer_fixture_head(at, PACKET, 1, name, 0, name, 0, name, n, 2, 3, 0));
    WITHIN(data, 255, citp_writer_fixture_data(at, PACKET, fixture, name, n, name, 0, name, 0));
    WITHIN(data, 255, citp_writer_fixture_data(at, PACKET, fixture, name, 0, name, n, name, 0));
    WITHIN(data, 255, citp_writer_fixture_data(at, PACKET, fixture, name, 0, name, 0, name, n));
    WITHIN(feeds, 255, citp_writer_feed_name(at, PACKET, name, n));
}

static void written_bytes(void) {
    WITHIN(opened(CITP_UNAM), 255, citp_writer_unam(at, PACKET, 1, bytes, n));
    WITHIN(opened(CITP_SXUS), 255, citp_writer_sxus(at, PACKET, 1, bytes, n));
    WITHIN(opened(CITP_PTCH), 255, citp_writer_ptch(at, PACKET, 1, 2, 3, 4, 5, bytes, n, bytes, 0));
    WITHIN(opened(CITP_PTCH), 255, citp_writer_ptch(at, PACKET, 1, 2, 3, 4, 5, bytes, 0, bytes, n));
    WITHIN(opened(CITP_FRAM), 65535, citp_writer_fram(at, PACKET, 1, 2, 3, bytes, n));
    WITHIN(opened(CITP_PNAM), 255, citp_writer_pnam(at, PACKET, bytes, n));
    WITHIN(opened(CITP_PLOC), 255, citp_writer_ploc(at, PACKET, 1, bytes, n, bytes, 0, bytes, 0));
    WITHIN(opened(CITP_PLOC), 255, citp_writer_ploc(at, PACKET, 1, bytes, 0, bytes, n, bytes, 0));
    WITHIN(opened(CITP_PLOC), 255, citp_writer_ploc(at, PACKET, 1, bytes, 0, bytes, 0, bytes, n));
}

static void limits_written(void) {
    memset(bytes, 'x', sizeof bytes);
    memset(name, 'x', sizeof name);
    written_units(), written_bytes();
}

int main(void) {
    w = citp_writer_new();
    write_caex(), write_sdmx(), write_others(), write_feeds();
    citp_step s = citp_walk_step(stream, end, 0);
    for (uint8_t kind = 0; kind <= CITP_LASER_FEED_FRAME; kind++) {
        read_packet(s, kind);
        s = citp_walk_step(stream, end, s.next);
    }
    CHECK(s.report == CITP_END && s.number == 0 && s.offset == end && s.next == end);
    citp_writer none = {9, 99, 0x0102, 3, 0x04050607};
    citp_written r = citp_writer_close(none, stream, sizeof stream);
    CHECK(r.number == 14 && r.writer.turn == 9 && r.writer.kind == 99);
    CHECK(r.writer.items == 0x0102 && r.writer.identifiers == 3 && r.writer.at == 0x04050607);
    counts();
    book();
    rack();
    limits(), limits_written();
    printf("20 kinds written, walked and read back; a patch book kept, a rack's levels set\n");
    return 0;
}
