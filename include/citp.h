/* CITP packets: reading, walking a stream, writing; the patch book; a dimmer rack. For the archive libcitp.a (x86-64
 * Linux).
 *
 * Every function ends, checks its own input and keeps no state. What each answers is proved equal to a definition, for
 * every input that C can pass.
 *
 * A slice is a pointer and a length in elements (bytes, 16- or 32-bit numbers, 64-bit words). Its elements stand in
 * memory that nothing else writes during the call, aligned as C asks; `out`, `entries` and `levels` share no byte with
 * another slice. With length 0 the pointer is not used and may be null. `levels` is always 512 bytes and never null.
 *
 * `number` is 0, or the refusal. A refused answer's other fields are 0; its place, writer state or count, where it has
 * one, is the one that was given; of a refused packet the walk still tells offset, size, request_index and next:
 *    1 to 5   the walk ends: 1 to 19 bytes left; no "CITP"; version_major not 1; message_size below 20 or above
 *             16,777,216; message_size above the bytes left
 *    6        known layer, packet shorter than its headers
 *    7        body ends where a number or a byte of a block is due
 *    8        body ends before a string's zero byte or zero unit
 *    9        FixtureListMessageType above 2; a call that writes one tests it first
 *    10       IdentifierType above 5; a call that writes one tests it first
 *    11       a string to be written holds a zero byte or unit
 *    12       a list or block is too long for its count field
 *    13       the lent output is shorter than the place after the call, or than the string
 *    14       call out of turn, a body of another kind than opened, a state or kind that there is none of
 *    15       the packet would pass 16,777,216 bytes
 *    16       a channel count to be patched is outside 1 to 512, or the span passes channel 511
 *    17       a channel to be patched is held by another fixture
 *    18       a fixture to be patched is new, and as many are held as there is room for
 *    19       a string, read or to be written, is longer than 255 bytes or units, frame_names than 65,535 bytes
 *    20       a channel past 511 is named for the dimmer rack's universe
 * A refused call leaves `out`, `entries` and `levels` as they were.
 *
 * A string or a block is a range of the body that it was read from: `start` and `len`, counted in bytes, of a Ucs2
 * string `len` in 16-bit units. A list is a cursor: `at`, where its next item stands in the body, and `left`, the items
 * from there on. A float is its 32-bit pattern.
 */
#ifndef CITP_H
#define CITP_H

#include <stddef.h>
#include <stdint.h>

#ifdef __cplusplus
extern "C" {
#endif

/* ---- kinds of message */

#define CITP_ENTER_SHOW 0
#define CITP_FIXTURE_LIST 1
#define CITP_FIXTURE_REMOVE 2
#define CITP_LASER_FEED_CONTROL 3
#define CITP_CAPA 4
#define CITP_UNAM 5
#define CITP_CHBK 6
#define CITP_CHLS 7
#define CITP_SXUS 8
#define CITP_PTCH 9
#define CITP_UPTC 10
#define CITP_SPTC 11
#define CITP_SELE 12
#define CITP_DESE 13
#define CITP_SFRA 14
#define CITP_FRAM 15
#define CITP_PNAM 16
#define CITP_PLOC 17
#define CITP_LASER_FEED_LIST 18
#define CITP_LASER_FEED_FRAME 19

/* The kinds' names, by number: `const char *const names[] = {CITP_KIND_NAMES};` is an array of them. */
#define CITP_KIND_NAMES                                                                                               \
    "EnterShow", "FixtureList", "FixtureRemove", "LaserFeedControl", "Capa", "UNam", "ChBk", "ChLs", "Sxus", "Ptch",  \
        "UPtc", "SPtc", "Sele", "DeSe", "SFra", "Fram", "PNam", "PLoc", "LaserFeedList", "LaserFeedFrame"

/* ---- the walk; its report says what a packet holds */

#define CITP_END 0           /* no packet: the walk ended */
#define CITP_MESSAGE 1       /* kind, body_start, body_len, added; in FPTC content_hint */
#define CITP_UNKNOWN_LAYER 2 /* layer */
#define CITP_UNKNOWN_KIND 3  /* layer, content_type */
#define CITP_FRAGMENT 4      /* part, part_count */
#define CITP_REFUSED 5       /* number, 6 to 10 or 19 */

typedef struct {
    uint8_t report; /* CITP_END to CITP_REFUSED */
    uint8_t number; /* of the end, 0 at the stream's end, else 1 to 5; of a refused packet, 6 to 10 or 19; else 0 */
    uint8_t kind;   /* of a message: CITP_ENTER_SHOW to CITP_LASER_FEED_FRAME */
    uint16_t request_index;
    uint16_t part;
    uint16_t part_count;
    uint32_t size;         /* of the packet */
    uint32_t layer;        /* cookie of an unknown packet's layer */
    uint32_t content_type; /* of an unknown kind */
    uint32_t content_hint;
    size_t offset; /* of the packet, or of the end */
    size_t next;   /* where the next packet starts; at the end the offset again */
    size_t body_start; /* of a message: its body in the stream, added bytes included, as its `citp_.._read` takes it */
    size_t body_len;
    size_t added; /* bytes behind those that the body takes */
} citp_step;

/* The packet at an offset of the stream; an offset past the end is an empty rest. Fields that the report does not name
 * are 0. */
citp_step citp_walk_step(const uint8_t *stream, size_t stream_len, size_t at);

/* ---- the base header */

typedef struct {
    uint8_t number;
    uint8_t version_major;
    uint8_t version_minor;
    uint16_t request_index;
    uint16_t message_part_count;
    uint16_t message_part;
    uint32_t cookie;
    uint32_t message_size;
    uint32_t content_type;
    size_t taken;
} citp_header;

citp_header citp_header_read(const uint8_t *body, size_t body_len); /* of a packet, from its first byte */

/* The place behind what was written; of a refused call the place that was given. */
typedef struct {
    uint8_t number;
    size_t at;
} citp_put;

citp_put citp_header_write(uint8_t *out, size_t out_len, size_t at, uint32_t cookie, uint8_t version_major,
                           uint8_t version_minor, uint16_t request_index, uint32_t message_size,
                           uint16_t message_part_count, uint16_t message_part, uint32_t content_type);

/* ---- bodies read; `taken` is the number of bytes taken */

/* A body that is one string. */
typedef struct {
    uint8_t number;
    size_t taken;
    size_t start;
    size_t len;
} citp_string_body;

/* A body that is one list. */
typedef struct {
    uint8_t number;
    uint16_t left;
    size_t taken;
    size_t at;
} citp_list_body;

typedef struct {
    uint8_t number;
    uint8_t message_type; /* 0 existing patch list, 1 new fixture, 2 exchange fixture */
    uint16_t fixtures_left;
    size_t taken;
    size_t fixtures_at;
} citp_fixture_list;

typedef struct {
    uint8_t number;
    uint8_t feed_index;
    uint8_t frame_rate;
    size_t taken;
} citp_laser_feed_control;

/* UNam: the string is the universe's name; Sxus: it is the connection string. */
typedef struct {
    uint8_t number;
    uint8_t universe_index;
    size_t taken;
    size_t string_start;
    size_t string_len;
} citp_universe_string;

typedef struct {
    uint8_t number;
    uint8_t blind;
    uint8_t universe_index;
    uint16_t first_channel;
    size_t taken;
    size_t channel_levels_start;
    size_t channel_levels_len;
} citp_chbk;

typedef struct {
    uint8_t number;
    uint8_t universe;
    uint8_t reserved;
    uint16_t fixture_identifier;
    uint16_t channel;
    uint16_t channel_count;
    size_t taken;
    size_t fixture_make_start;
    size_t fixture_make_len;
    size_t fixture_name_start;
    size_t fixture_name_len;
} citp_ptch;

typedef struct {
    uint8_t number;
    uint8_t complete;
    uint8_t reserved;
    uint16_t fixture_identifiers_left;
    size_t taken;
    size_t fixture_identifiers_at;
} citp_sele;

typedef struct {
    uint8_t number;
    uint8_t frame_filter_count;
    uint8_t frame_gobo_count;
    uint16_t fixture_identifier;
    size_t taken;
    size_t frame_names_start;
    size_t frame_names_len;
} citp_fram;

typedef struct {
    uint8_t number;
    uint16_t listening_tcp_port;
    size_t taken;
    size_t kind_start;
    size_t kind_len;
    size_t name_start;
    size_t name_len;
    size_t state_start;
    size_t state_len;
} citp_ploc;

typedef struct {
    uint8_t number;
    uint8_t feed_names_left;
    uint32_t source_key;
    size_t taken;
    size_t feed_names_at;
} citp_laser_feed_list;

typedef struct {
    uint8_t number;
    uint8_t feed_index;
    uint16_t points_left;
    uint32_t source_key;
    uint32_t frame_sequence;
    size_t taken;
    size_t points_at;
} citp_laser_feed_frame;

citp_string_body citp_enter_show_read(const uint8_t *body, size_t body_len); /* a Ucs2 string: name */
citp_fixture_list citp_fixture_list_read(const uint8_t *body, size_t body_len);
citp_list_body citp_fixture_remove_read(const uint8_t *body, size_t body_len); /* a list of u32: fixture_identifiers */
citp_laser_feed_control citp_laser_feed_control_read(const uint8_t *body, size_t body_len);
citp_list_body citp_capa_read(const uint8_t *body, size_t body_len); /* a list of u16: capabilities */
citp_universe_string citp_unam_read(const uint8_t *body, size_t body_len);
citp_chbk citp_chbk_read(const uint8_t *body, size_t body_len);
citp_list_body citp_chls_read(const uint8_t *body, size_t body_len); /* a list of channel levels */
citp_universe_string citp_sxus_read(const uint8_t *body, size_t body_len);
citp_ptch citp_ptch_read(const uint8_t *body, size_t body_len);
citp_list_body citp_uptc_read(const uint8_t *body, size_t body_len); /* a list of u16: fixture_identifiers */
citp_list_body citp_sptc_read(const uint8_t *body, size_t body_len); /* a list of u16: fixture_identifiers */
citp_sele citp_sele_read(const uint8_t *body, size_t body_len);
citp_list_body citp_dese_read(const uint8_t *body, size_t body_len); /* a list of u16: fixture_identifiers */
citp_list_body citp_sfra_read(const uint8_t *body, size_t body_len); /* a list of u16: fixture_identifiers */
citp_fram citp_fram_read(const uint8_t *body, size_t body_len);
citp_string_body citp_pnam_read(const uint8_t *body, size_t body_len); /* a CString: name */
citp_ploc citp_ploc_read(const uint8_t *body, size_t body_len);
citp_laser_feed_list citp_laser_feed_list_read(const uint8_t *body, size_t body_len);
citp_laser_feed_frame citp_laser_feed_frame_read(const uint8_t *body, size_t body_len);

/* ---- lists stepped through: `given` is 1 with an item and the cursor behind it; else the list is done, or refused.
 * A list that was read meets no refusal, a made-up cursor may. */

typedef struct {
    uint8_t number;
    uint8_t given;
    uint16_t left;
    uint16_t value;
    size_t at;
} citp_u16_next;

typedef struct {
    uint8_t number;
    uint8_t given;
    uint16_t left;
    uint32_t value;
    size_t at;
} citp_u32_next;

typedef struct {
    uint8_t universe_index;
    uint16_t channel;
    uint8_t channel_level;
} citp_channel_level;

typedef struct {
    uint8_t number;
    uint8_t given;
    uint16_t left;
    citp_channel_level value;
    size_t at;
} citp_channel_level_next;

/* The numbers of a fixture's data. */
typedef struct {
    uint8_t patched;
    uint8_t universe;
    uint16_t universe_channel;
    uint16_t channel;
    uint32_t position_x;
    uint32_t position_y;
    uint32_t position_z;
    uint32_t angle_x;
    uint32_t angle_y;
    uint32_t angle_z;
} citp_fixture_data;

/* The strings are Ucs2. */
typedef struct {
    uint8_t number;
    uint8_t given;
    uint8_t is_dimmer;
    uint8_t identifiers_left;
    uint16_t left;
    uint16_t channel_count;
    uint32_t fixture_identifier;
    citp_fixture_data data;
    size_t at;
    size_t manufacturer_name_start;
    size_t manufacturer_name_len;
    size_t fixture_name_start;
    size_t fixture_name_len;
    size_t mode_name_start;
    size_t mode_name_len;
    size_t identifiers_at;
    size_t unit_start;
    size_t unit_len;
    size_t circuit_start;
    size_t circuit_len;
    size_t note_start;
    size_t note_len;
} citp_fixture_next;

typedef struct {
    uint8_t number;
    uint8_t given;
    uint8_t left;
    uint8_t identifier_type; /* 0 to 5 */
    size_t at;
    size_t data_start;
    size_t data_len;
} citp_identifier_next;

/* The name is a Ucs2 string: `start` and `len`. */
typedef struct {
    uint8_t number;
    uint8_t given;
    uint8_t left;
    size_t at;
    size_t start;
    size_t len;
} citp_feed_name_next;

/* xy_high_nibbles has that of x in its low nibble, that of y in its high one; color is R5 G6 B5. */
typedef struct {
    uint8_t x_low_byte;
    uint8_t y_low_byte;
    uint8_t xy_high_nibbles;
    uint16_t color;
} citp_laser_point;

typedef struct {
    uint8_t number;
    uint8_t given;
    uint16_t left;
    citp_laser_point value;
    size_t at;
} citp_laser_point_next;

citp_u16_next citp_u16_list_next(const uint8_t *body, size_t body_len, size_t at, uint16_t left);
citp_u32_next citp_u32_list_next(const uint8_t *body, size_t body_len, size_t at, uint16_t left);
citp_channel_level_next citp_channel_levels_next(const uint8_t *body, size_t body_len, size_t at, uint16_t left);
citp_fixture_next citp_fixtures_next(const uint8_t *body, size_t body_len, size_t at, uint16_t left);
citp_identifier_next citp_identifiers_next(const uint8_t *body, size_t body_len, size_t at, uint8_t left);
citp_feed_name_next citp_feed_names_next(const uint8_t *body, size_t body_len, size_t at, uint8_t left);
citp_laser_point_next citp_laser_points_next(const uint8_t *body, size_t body_len, size_t at, uint16_t left);

/* ---- strings and lists of numbers copied out of a body: a string from its start up to the zero, which is not copied,
 * a list whole */

typedef struct {
    uint8_t number; /* 0; a string, of any length, 8 or 13, a list 7 or 13 */
    size_t len;     /* bytes, units or items copied */
} citp_copied;

citp_copied citp_copy_cstring(const uint8_t *body, size_t body_len, size_t start, uint8_t *out, size_t out_len);
citp_copied citp_copy_ucs2(const uint8_t *body, size_t body_len, size_t start, uint16_t *out, size_t out_len);
citp_copied citp_u16_list_copy(const uint8_t *body, size_t body_len, size_t at, uint16_t left, uint16_t *out, size_t out_len);
citp_copied citp_u32_list_copy(const uint8_t *body, size_t body_len, size_t at, uint16_t left, uint32_t *out, size_t out_len);

/* ---- sizes of bodies and of parts, at most the largest that the type has; of a channel list by the count of its
 * records */

size_t citp_enter_show_size(const uint16_t *name, size_t name_len);
size_t citp_fixture_remove_size(const uint32_t *fixture_identifiers, size_t fixture_identifiers_len);
size_t citp_laser_feed_control_size(void);
size_t citp_capa_size(const uint16_t *capabilities, size_t capabilities_len);
size_t citp_unam_size(const uint8_t *universe_name, size_t universe_name_len);
size_t citp_chbk_size(const uint8_t *channel_levels, size_t channel_levels_len);
size_t citp_chls_size(size_t count);
size_t citp_sxus_size(const uint8_t *connection_string, size_t connection_string_len);
size_t citp_ptch_size(const uint8_t *fixture_make, size_t fixture_make_len, const uint8_t *fixture_name,
                      size_t fixture_name_len);
size_t citp_uptc_size(const uint16_t *fixture_identifiers, size_t fixture_identifiers_len);
size_t citp_sptc_size(const uint16_t *fixture_identifiers, size_t fixture_identifiers_len);
size_t citp_sele_size(const uint16_t *fixture_identifiers, size_t fixture_identifiers_len);
size_t citp_dese_size(const uint16_t *fixture_identifiers, size_t fixture_identifiers_len);
size_t citp_sfra_size(const uint16_t *fixture_identifiers, size_t fixture_identifiers_len);
size_t citp_fram_size(const uint8_t *frame_names, size_t frame_names_len);
size_t citp_pnam_size(const uint8_t *name, size_t name_len);
size_t citp_ploc_size(const uint8_t *kind, size_t kind_len, const uint8_t *name, size_t name_len, const uint8_t *state,
                      size_t state_len);
size_t citp_identifier_size(const uint8_t *data, size_t data_len);
size_t citp_fixture_data_size(const uint16_t *unit, size_t unit_len, const uint16_t *circuit, size_t circuit_len,
                              const uint16_t *note, size_t note_len);
size_t citp_laser_point_size(void);

/* ---- bodies written alone, at a place of `out`; lists of CAEX as their head and item by item */

citp_put citp_enter_show_write(uint8_t *out, size_t out_len, size_t at, const uint16_t *name, size_t name_len);
citp_put citp_fixture_remove_write(uint8_t *out, size_t out_len, size_t at, const uint32_t *fixture_identifiers,
                                   size_t fixture_identifiers_len);
citp_put citp_laser_feed_control_write(uint8_t *out, size_t out_len, size_t at, uint8_t feed_index, uint8_t frame_rate);
citp_put citp_capa_write(uint8_t *out, size_t out_len, size_t at, const uint16_t *capabilities,
                         size_t capabilities_len);
citp_put citp_unam_write(uint8_t *out, size_t out_len, size_t at, uint8_t universe_index, const uint8_t *universe_name,
                         size_t universe_name_len);
citp_put citp_chbk_write(uint8_t *out, size_t out_len, size_t at, uint8_t blind, uint8_t universe_index,
                         uint16_t first_channel, const uint8_t *channel_levels, size_t channel_levels_len);
citp_put citp_chls_write(uint8_t *out, size_t out_len, size_t at, const citp_channel_level *channel_levels,
                         size_t channel_levels_len);
citp_put citp_sxus_write(uint8_t *out, size_t out_len, size_t at, uint8_t universe_index,
                         const uint8_t *connection_string, size_t connection_string_len);
citp_put citp_ptch_write(uint8_t *out, size_t out_len, size_t at, uint16_t fixture_identifier, uint8_t universe,
                         uint8_t reserved, uint16_t channel, uint16_t channel_count, const uint8_t *fixture_make,
                         size_t fixture_make_len, const uint8_t *fixture_name, size_t fixture_name_len);
citp_put citp_uptc_write(uint8_t *out, size_t out_len, size_t at, const uint16_t *fixture_identifiers,
                         size_t fixture_identifiers_len);
citp_put citp_sptc_write(uint8_t *out, size_t out_len, size_t at, const uint16_t *fixture_identifiers,
                         size_t fixture_identifiers_len);
citp_put citp_sele_write(uint8_t *out, size_t out_len, size_t at, uint8_t complete, uint8_t reserved,
                         const uint16_t *fixture_identifiers, size_t fixture_identifiers_len);
citp_put citp_dese_write(uint8_t *out, size_t out_len, size_t at, const uint16_t *fixture_identifiers,
                         size_t fixture_identifiers_len);
citp_put citp_sfra_write(uint8_t *out, size_t out_len, size_t at, const uint16_t *fixture_identifiers,
                         size_t fixture_identifiers_len);
citp_put citp_fram_write(uint8_t *out, size_t out_len, size_t at, uint16_t fixture_identifier,
                         uint8_t frame_filter_count, uint8_t frame_gobo_count, const uint8_t *frame_names,
                         size_t frame_names_len);
citp_put citp_pnam_write(uint8_t *out, size_t out_len, size_t at, const uint8_t *name, size_t name_len);
citp_put citp_ploc_write(uint8_t *out, size_t out_len, size_t at, uint16_t listening_tcp_port, const uint8_t *kind,
                         size_t kind_len, const uint8_t *name, size_t name_len, const uint8_t *state, size_t state_len);

citp_put citp_fixture_list_write_head(uint8_t *out, size_t out_len, size_t at, uint8_t message_type,
                                      size_t fixture_count);
citp_put citp_fixture_write_head(uint8_t *out, size_t out_len, size_t at, uint32_t fixture_identifier,
                                 const uint16_t *manufacturer_name, size_t manufacturer_name_len,
                                 const uint16_t *fixture_name, size_t fixture_name_len, const uint16_t *mode_name,
                                 size_t mode_name_len, uint16_t channel_count, uint8_t is_dimmer,
                                 size_t identifier_count);
citp_put citp_identifier_write(uint8_t *out, size_t out_len, size_t at, uint8_t identifier_type, const uint8_t *data,
                               size_t data_len);
citp_put citp_fixture_data_write(uint8_t *out, size_t out_len, size_t at, citp_fixture_data data, const uint16_t *unit,
                                 size_t unit_len, const uint16_t *circuit, size_t circuit_len, const uint16_t *note,
                                 size_t note_len);
citp_put citp_laser_feed_list_write_head(uint8_t *out, size_t out_len, size_t at, uint32_t source_key,
                                         size_t feed_count);
citp_put citp_laser_feed_list_write_name(uint8_t *out, size_t out_len, size_t at, const uint16_t *feed_name,
                                         size_t feed_name_len);
citp_put citp_laser_feed_frame_write_head(uint8_t *out, size_t out_len, size_t at, uint32_t source_key,
                                          uint8_t feed_index, uint32_t frame_sequence, size_t point_count);
citp_put citp_laser_point_write(uint8_t *out, size_t out_len, size_t at, uint8_t x_low_byte, uint8_t y_low_byte,
                                uint8_t xy_high_nibbles, uint16_t color);

/* ---- the packet writer: open, then a flat body in one call or a list's head and its items one by one, then close.
 * A packet starts at the first byte of `out`; all its calls get the same `out`, and each the state that the call before
 * answered. After close `at` is the packet's size. */

#define CITP_TURN_IDLE 0  /* fresh or closed: open is due */
#define CITP_TURN_BODY 1  /* the body or the list's head of `kind` is due */
#define CITP_TURN_ITEMS 2 /* `items` items of `kind` are due; with none left, close is */
#define CITP_TURN_PARTS 3 /* in a fixture: `identifiers` identifiers are due, then its data; `items` fixtures follow */

/* Any values may be given: a turn above 3, and in turns 1 and 2 a kind above 19, is a state in which every call is
 * refused with 14. A refused call answers every field as it was given. */
typedef struct {
    uint8_t turn;
    uint8_t kind;
    uint16_t items;
    uint8_t identifiers;
    uint32_t at; /* bytes of the packet that stand */
} citp_writer;

typedef struct {
    citp_writer writer; /* the state for the next call */
    uint8_t number;
} citp_written;

citp_writer citp_writer_new(void);

/* A kind above 19 is refused with 14. The content hint is written in FPTC alone. */
citp_written citp_writer_open(citp_writer w, uint8_t *out, size_t out_len, uint8_t kind, uint16_t request_index,
                              uint32_t content_hint);
citp_written citp_writer_close(citp_writer w, uint8_t *out, size_t out_len);

citp_written citp_writer_enter_show(citp_writer w, uint8_t *out, size_t out_len, const uint16_t *name, size_t name_len);
citp_written citp_writer_fixture_remove(citp_writer w, uint8_t *out, size_t out_len,
                                        const uint32_t *fixture_identifiers, size_t fixture_identifiers_len);
citp_written citp_writer_laser_feed_control(citp_writer w, uint8_t *out, size_t out_len, uint8_t feed_index,
                                            uint8_t frame_rate);
citp_written citp_writer_capa(citp_writer w, uint8_t *out, size_t out_len, const uint16_t *capabilities,
                              size_t capabilities_len);
citp_written citp_writer_unam(citp_writer w, uint8_t *out, size_t out_len, uint8_t universe_index,
                              const uint8_t *universe_name, size_t universe_name_len);
citp_written citp_writer_chbk(citp_writer w, uint8_t *out, size_t out_len, uint8_t blind, uint8_t universe_index,
                              uint16_t first_channel, const uint8_t *channel_levels, size_t channel_levels_len);
citp_written citp_writer_chls(citp_writer w, uint8_t *out, size_t out_len, const citp_channel_level *channel_levels,
                              size_t channel_levels_len);
citp_written citp_writer_sxus(citp_writer w, uint8_t *out, size_t out_len, uint8_t universe_index,
                              const uint8_t *connection_string, size_t connection_string_len);
citp_written citp_writer_ptch(citp_writer w, uint8_t *out, size_t out_len, uint16_t fixture_identifier,
                              uint8_t universe, uint8_t reserved, uint16_t channel, uint16_t channel_count,
                              const uint8_t *fixture_make, size_t fixture_make_len, const uint8_t *fixture_name,
                              size_t fixture_name_len);
citp_written citp_writer_uptc(citp_writer w, uint8_t *out, size_t out_len, const uint16_t *fixture_identifiers,
                              size_t fixture_identifiers_len);
citp_written citp_writer_sptc(citp_writer w, uint8_t *out, size_t out_len, const uint16_t *fixture_identifiers,
                              size_t fixture_identifiers_len);
citp_written citp_writer_sele(citp_writer w, uint8_t *out, size_t out_len, uint8_t complete, uint8_t reserved,
                              const uint16_t *fixture_identifiers, size_t fixture_identifiers_len);
citp_written citp_writer_dese(citp_writer w, uint8_t *out, size_t out_len, const uint16_t *fixture_identifiers,
                              size_t fixture_identifiers_len);
citp_written citp_writer_sfra(citp_writer w, uint8_t *out, size_t out_len, const uint16_t *fixture_identifiers,
                              size_t fixture_identifiers_len);
citp_written citp_writer_fram(citp_writer w, uint8_t *out, size_t out_len, uint16_t fixture_identifier,
                              uint8_t frame_filter_count, uint8_t frame_gobo_count, const uint8_t *frame_names,
                              size_t frame_names_len);
citp_written citp_writer_pnam(citp_writer w, uint8_t *out, size_t out_len, const uint8_t *name, size_t name_len);
citp_written citp_writer_ploc(citp_writer w, uint8_t *out, size_t out_len, uint16_t listening_tcp_port,
                              const uint8_t *kind, size_t kind_len, const uint8_t *name, size_t name_len,
                              const uint8_t *state, size_t state_len);

/* A fixture list: its head, then for each fixture head, identifiers, data. */
citp_written citp_writer_fixture_list_head(citp_writer w, uint8_t *out, size_t out_len, uint8_t message_type,
                                           size_t fixture_count);
citp_written citp_writer_fixture_head(citp_writer w, uint8_t *out, size_t out_len, uint32_t fixture_identifier,
                                      const uint16_t *manufacturer_name, size_t manufacturer_name_len,
                                      const uint16_t *fixture_name, size_t fixture_name_len, const uint16_t *mode_name,
                                      size_t mode_name_len, uint16_t channel_count, uint8_t is_dimmer,
                                      size_t identifier_count);
citp_written citp_writer_identifier(citp_writer w, uint8_t *out, size_t out_len, uint8_t identifier_type,
                                    const uint8_t *data, size_t data_len);
citp_written citp_writer_fixture_data(citp_writer w, uint8_t *out, size_t out_len, citp_fixture_data data,
                                      const uint16_t *unit, size_t unit_len, const uint16_t *circuit,
                                      size_t circuit_len, const uint16_t *note, size_t note_len);

/* A laser feed list: its head, then the names. */
citp_written citp_writer_laser_feed_list_head(citp_writer w, uint8_t *out, size_t out_len, uint32_t source_key,
                                              size_t feed_count);
citp_written citp_writer_feed_name(citp_writer w, uint8_t *out, size_t out_len, const uint16_t *feed_name,
                                   size_t feed_name_len);

/* A laser feed frame: its head, then the points. */
citp_written citp_writer_laser_feed_frame_head(citp_writer w, uint8_t *out, size_t out_len, uint32_t source_key,
                                               uint8_t feed_index, uint32_t frame_sequence, size_t point_count);
citp_written citp_writer_laser_point(citp_writer w, uint8_t *out, size_t out_len, uint8_t x_low_byte,
                                     uint8_t y_low_byte, uint8_t xy_high_nibbles, uint16_t color);

/* ---- the patch book: at most 256 fixtures, each with its channels in a universe, fed by the bodies of Ptch and UPtc.
 * It is a count, 0 at first, and `entries`, words that the caller lends, an entry in each; every call gets both as the
 * call before left them. What the words hold at first does not matter. 256 words or more are due for 256 fixtures,
 * fewer have room for as many as they are. Any values may be given; as many entries are held as the count says, at most
 * 256 and at most as there are words. Entries that messages made are listed by universe, then by channel, both rising,
 * each once. */

typedef struct {
    uint8_t number; /* 0; a body that does not read: 7, of a Ptch also 8 or 19; else of a patch 16, then 17, then 18 */
    size_t count;   /* for the next call */
} citp_booked;

typedef struct {
    uint8_t given; /* 1; 0 past the last entry, and then so are the other fields */
    uint16_t fixture_identifier;
    uint16_t universe;
    uint16_t channel; /* the first, from 0 */
    uint16_t channel_count;
} citp_entry;

/* The body of a Ptch: an entry for its fixture, in place of the one that it has. */
citp_booked citp_book_patch(size_t count, uint64_t *entries, size_t entries_len, const uint8_t *body, size_t body_len);
/* The body of a UPtc: the entries of the listed identifiers are dropped, and where none is listed, all. */
citp_booked citp_book_unpatch(size_t count, uint64_t *entries, size_t entries_len, const uint8_t *body,
                              size_t body_len);
size_t citp_book_entries(size_t count, const uint64_t *entries, size_t entries_len); /* how many it holds */
citp_entry citp_book_entry(size_t count, const uint64_t *entries, size_t entries_len, size_t k); /* the k-th, from 0 */
/* How many of a universe's 512 channels are taken. */
uint16_t citp_book_taken(size_t count, const uint64_t *entries, size_t entries_len, uint16_t universe);
/* A universe's first free channel, 0 to 511; 512 where none is free. */
uint16_t citp_book_first_free(size_t count, const uint64_t *entries, size_t entries_len, uint16_t universe);

/* ---- a dimmer rack of one universe: the levels of its 512 channels, fed by the bodies of ChBk and ChLs. It is the
 * universe's number, as in the packets, and `levels`, 512 bytes that the caller lends, all 0 at first; every call gets
 * them as the call before left them. Any values may be given. A message or a record for another universe changes
 * nothing, nor does a ChBk whose blind is not 0. Each answers 0; or 7 where the body does not read; or 20 where it names
 * a channel past 511 for the rack's universe, and then none of its levels is set. A ChBk without levels names no
 * channel. */

/* The body of a ChBk: levels of consecutive channels. */
uint8_t citp_dimmer_chbk(uint8_t universe_index, uint8_t levels[512], const uint8_t *body, size_t body_len);
/* The body of a ChLs: levels of single channels, in list order, later ones winning. */
uint8_t citp_dimmer_chls(uint8_t universe_index, uint8_t levels[512], const uint8_t *body, size_t body_len);

#ifdef __cplusplus
}
#endif

#endif
