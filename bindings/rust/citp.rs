//! Made by bindings/declarations out of include/citp.h.
//!
//! CITP packets for Rust: the functions of include/citp.h with slices, over the archive libcitp.a (x86-64 Linux).
//! What each answers, the numbers of refusals, and what ranges and cursors mean is said there. Every function ends,
//! checks its own input and keeps no state, so all of them are safe.

/// A function over slices from the one of the archive, to which a slice is a pointer and a length.
macro_rules! function {
    ($doc:tt $name:ident ($($args:tt)*) -> $answer:ty) => {
        function!(@ $doc $name [] [] [] ($($args)*) $answer);
    };
    (@ $doc:tt $name:ident [$($safe:tt)*] [$($raw:tt)*] [$($pass:tt)*] ($arg:ident: &mut [$t:ty] $(, $($rest:tt)*)?) $answer:ty) => {
        function!(@ $doc $name [$($safe)* $arg: &mut [$t],] [$($raw)* $arg: *mut $t, _: usize,]
            [$($pass)* $arg.as_mut_ptr(), $arg.len(),] ($($($rest)*)?) $answer);
    };
    (@ $doc:tt $name:ident [$($safe:tt)*] [$($raw:tt)*] [$($pass:tt)*] ($arg:ident: &[$t:ty] $(, $($rest:tt)*)?) $answer:ty) => {
        function!(@ $doc $name [$($safe)* $arg: &[$t],] [$($raw)* $arg: *const $t, _: usize,]
            [$($pass)* $arg.as_ptr(), $arg.len(),] ($($($rest)*)?) $answer);
    };
    (@ $doc:tt $name:ident [$($safe:tt)*] [$($raw:tt)*] [$($pass:tt)*] ($arg:ident: $t:ty $(, $($rest:tt)*)?) $answer:ty) => {
        function!(@ $doc $name [$($safe)* $arg: $t,] [$($raw)* $arg: $t,] [$($pass)* $arg,] ($($($rest)*)?) $answer);
    };
    (@ [$($doc:tt)*] $name:ident [$($safe:tt)*] [$($raw:tt)*] [$($pass:tt)*] () $answer:ty) => {
        $($doc)*
        #[allow(clippy::too_many_arguments)]
        pub fn $name($($safe)*) -> $answer {
            #[link(name = "citp", kind = "static")]
            extern "C" {
                #[link_name = concat!("citp_", stringify!($name))]
                fn call($($raw)*) -> $answer;
            }
            unsafe { call($($pass)*) }
        }
    };
}

macro_rules! functions {
    ($($(#[$doc:meta])* $name:ident $args:tt -> $answer:ty;)*) => {
        $(function!([$(#[$doc])*] $name $args -> $answer);)*
    };
}

// ---- kinds of message

pub const ENTER_SHOW: u8 = 0;
pub const FIXTURE_LIST: u8 = 1;
pub const FIXTURE_REMOVE: u8 = 2;
pub const LASER_FEED_CONTROL: u8 = 3;
pub const CAPA: u8 = 4;
pub const UNAM: u8 = 5;
pub const CHBK: u8 = 6;
pub const CHLS: u8 = 7;
pub const SXUS: u8 = 8;
pub const PTCH: u8 = 9;
pub const UPTC: u8 = 10;
pub const SPTC: u8 = 11;
pub const SELE: u8 = 12;
pub const DESE: u8 = 13;
pub const SFRA: u8 = 14;
pub const FRAM: u8 = 15;
pub const PNAM: u8 = 16;
pub const PLOC: u8 = 17;
pub const LASER_FEED_LIST: u8 = 18;
pub const LASER_FEED_FRAME: u8 = 19;

/// The names of the kinds, by number.
pub const KIND_NAMES: [&str; 20] = [
    "EnterShow",
    "FixtureList",
    "FixtureRemove",
    "LaserFeedControl",
    "Capa",
    "UNam",
    "ChBk",
    "ChLs",
    "Sxus",
    "Ptch",
    "UPtc",
    "SPtc",
    "Sele",
    "DeSe",
    "SFra",
    "Fram",
    "PNam",
    "PLoc",
    "LaserFeedList",
    "LaserFeedFrame",
];

// ---- the walk; its report says what a packet holds

/// no packet: the walk ended
pub const END: u8 = 0;
/// kind, body_start, body_len, added; in FPTC content_hint
pub const MESSAGE: u8 = 1;
/// layer
pub const UNKNOWN_LAYER: u8 = 2;
/// layer, content_type
pub const UNKNOWN_KIND: u8 = 3;
/// part, part_count
pub const FRAGMENT: u8 = 4;
/// number, 6 to 10 or 19
pub const REFUSED: u8 = 5;

#[repr(C)]
#[derive(Clone, Copy, Debug, Default, PartialEq, Eq)]
pub struct Step {
    /// END to REFUSED
    pub report: u8,
    /// of the end, 0 at the stream's end, else 1 to 5; of a refused packet, 6 to 10 or 19; else 0
    pub number: u8,
    /// of a message: ENTER_SHOW to LASER_FEED_FRAME
    pub kind: u8,
    pub request_index: u16,
    pub part: u16,
    pub part_count: u16,
    /// of the packet
    pub size: u32,
    /// cookie of an unknown packet's layer
    pub layer: u32,
    /// of an unknown kind
    pub content_type: u32,
    pub content_hint: u32,
    /// of the packet, or of the end
    pub offset: usize,
    /// where the next packet starts; at the end the offset again
    pub next: usize,
    /// of a message: its body in the stream, added bytes included, as its `.._read` takes it
    pub body_start: usize,
    pub body_len: usize,
    /// bytes behind those that the body takes
    pub added: usize,
}

functions! {
    /// The packet at an offset of the stream; an offset past the end is an empty rest. Fields that the report does not
    /// name are 0.
    walk_step(stream: &[u8], at: usize) -> Step;
}

// ---- the base header

#[repr(C)]
#[derive(Clone, Copy, Debug, Default, PartialEq, Eq)]
pub struct Header {
    pub number: u8,
    pub version_major: u8,
    pub version_minor: u8,
    pub request_index: u16,
    pub message_part_count: u16,
    pub message_part: u16,
    pub cookie: u32,
    pub message_size: u32,
    pub content_type: u32,
    pub taken: usize,
}

functions! {
    /// of a packet, from its first byte
    header_read(body: &[u8]) -> Header;
}

/// The place behind what was written; of a refused call the place that was given.
#[repr(C)]
#[derive(Clone, Copy, Debug, Default, PartialEq, Eq)]
pub struct Put {
    pub number: u8,
    pub at: usize,
}

functions! {
    header_write(
        out: &mut [u8], at: usize, cookie: u32, version_major: u8, version_minor: u8, request_index: u16,
        message_size: u32, message_part_count: u16, message_part: u16, content_type: u32
    ) -> Put;
}

// ---- bodies read; `taken` is the number of bytes taken

/// A body that is one string.
#[repr(C)]
#[derive(Clone, Copy, Debug, Default, PartialEq, Eq)]
pub struct StringBody {
    pub number: u8,
    pub taken: usize,
    pub start: usize,
    pub len: usize,
}

/// A body that is one list.
#[repr(C)]
#[derive(Clone, Copy, Debug, Default, PartialEq, Eq)]
pub struct ListBody {
    pub number: u8,
    pub left: u16,
    pub taken: usize,
    pub at: usize,
}

#[repr(C)]
#[derive(Clone, Copy, Debug, Default, PartialEq, Eq)]
pub struct FixtureList {
    pub number: u8,
    /// 0 existing patch list, 1 new fixture, 2 exchange fixture
    pub message_type: u8,
    pub fixtures_left: u16,
    pub taken: usize,
    pub fixtures_at: usize,
}

#[repr(C)]
#[derive(Clone, Copy, Debug, Default, PartialEq, Eq)]
pub struct LaserFeedControl {
    pub number: u8,
    pub feed_index: u8,
    pub frame_rate: u8,
    pub taken: usize,
}

/// UNam: the string is the universe's name; Sxus: it is the connection string.
#[repr(C)]
#[derive(Clone, Copy, Debug, Default, PartialEq, Eq)]
pub struct UniverseString {
    pub number: u8,
    pub universe_index: u8,
    pub taken: usize,
    pub string_start: usize,
    pub string_len: usize,
}

#[repr(C)]
#[derive(Clone, Copy, Debug, Default, PartialEq, Eq)]
pub struct Chbk {
    pub number: u8,
    pub blind: u8,
    pub universe_index: u8,
    pub first_channel: u16,
    pub taken: usize,
    pub channel_levels_start: usize,
    pub channel_levels_len: usize,
}

#[repr(C)]
#[derive(Clone, Copy, Debug, Default, PartialEq, Eq)]
pub struct Ptch {
    pub number: u8,
    pub universe: u8,
    pub reserved: u8,
    pub fixture_identifier: u16,
    pub channel: u16,
    pub channel_count: u16,
    pub taken: usize,
    pub fixture_make_start: usize,
    pub fixture_make_len: usize,
    pub fixture_name_start: usize,
    pub fixture_name_len: usize,
}

#[repr(C)]
#[derive(Clone, Copy, Debug, Default, PartialEq, Eq)]
pub struct Sele {
    pub number: u8,
    pub complete: u8,
    pub reserved: u8,
    pub fixture_identifiers_left: u16,
    pub taken: usize,
    pub fixture_identifiers_at: usize,
}

#[repr(C)]
#[derive(Clone, Copy, Debug, Default, PartialEq, Eq)]
pub struct Fram {
    pub number: u8,
    pub frame_filter_count: u8,
    pub frame_gobo_count: u8,
    pub fixture_identifier: u16,
    pub taken: usize,
    pub frame_names_start: usize,
    pub frame_names_len: usize,
}

#[repr(C)]
#[derive(Clone, Copy, Debug, Default, PartialEq, Eq)]
pub struct Ploc {
    pub number: u8,
    pub listening_tcp_port: u16,
    pub taken: usize,
    pub kind_start: usize,
    pub kind_len: usize,
    pub name_start: usize,
    pub name_len: usize,
    pub state_start: usize,
    pub state_len: usize,
}

#[repr(C)]
#[derive(Clone, Copy, Debug, Default, PartialEq, Eq)]
pub struct LaserFeedList {
    pub number: u8,
    pub feed_names_left: u8,
    pub source_key: u32,
    pub taken: usize,
    pub feed_names_at: usize,
}

#[repr(C)]
#[derive(Clone, Copy, Debug, Default, PartialEq, Eq)]
pub struct LaserFeedFrame {
    pub number: u8,
    pub feed_index: u8,
    pub points_left: u16,
    pub source_key: u32,
    pub frame_sequence: u32,
    pub taken: usize,
    pub points_at: usize,
}

functions! {
    /// a Ucs2 string: name
    enter_show_read(body: &[u8]) -> StringBody;
    fixture_list_read(body: &[u8]) -> FixtureList;
    /// a list of u32: fixture_identifiers
    fixture_remove_read(body: &[u8]) -> ListBody;
    laser_feed_control_read(body: &[u8]) -> LaserFeedControl;
    /// a list of u16: capabilities
    capa_read(body: &[u8]) -> ListBody;
    unam_read(body: &[u8]) -> UniverseString;
    chbk_read(body: &[u8]) -> Chbk;
    /// a list of channel levels
    chls_read(body: &[u8]) -> ListBody;
    sxus_read(body: &[u8]) -> UniverseString;
    ptch_read(body: &[u8]) -> Ptch;
    /// a list of u16: fixture_identifiers
    uptc_read(body: &[u8]) -> ListBody;
    /// a list of u16: fixture_identifiers
    sptc_read(body: &[u8]) -> ListBody;
    sele_read(body: &[u8]) -> Sele;
    /// a list of u16: fixture_identifiers
    dese_read(body: &[u8]) -> ListBody;
    /// a list of u16: fixture_identifiers
    sfra_read(body: &[u8]) -> ListBody;
    fram_read(body: &[u8]) -> Fram;
    /// a CString: name
    pnam_read(body: &[u8]) -> StringBody;
    ploc_read(body: &[u8]) -> Ploc;
    laser_feed_list_read(body: &[u8]) -> LaserFeedList;
    laser_feed_frame_read(body: &[u8]) -> LaserFeedFrame;
}

// ---- lists stepped through: `given` is 1 with an item and the cursor behind it; else the list is done, or refused. A
// list that was read meets no refusal, a made-up cursor may.

#[repr(C)]
#[derive(Clone, Copy, Debug, Default, PartialEq, Eq)]
pub struct U16Next {
    pub number: u8,
    pub given: u8,
    pub left: u16,
    pub value: u16,
    pub at: usize,
}

#[repr(C)]
#[derive(Clone, Copy, Debug, Default, PartialEq, Eq)]
pub struct U32Next {
    pub number: u8,
    pub given: u8,
    pub left: u16,
    pub value: u32,
    pub at: usize,
}

#[repr(C)]
#[derive(Clone, Copy, Debug, Default, PartialEq, Eq)]
pub struct ChannelLevel {
    pub universe_index: u8,
    pub channel: u16,
    pub channel_level: u8,
}

#[repr(C)]
#[derive(Clone, Copy, Debug, Default, PartialEq, Eq)]
pub struct ChannelLevelNext {
    pub number: u8,
    pub given: u8,
    pub left: u16,
    pub value: ChannelLevel,
    pub at: usize,
}

/// The numbers of a fixture's data.
#[repr(C)]
#[derive(Clone, Copy, Debug, Default, PartialEq, Eq)]
pub struct FixtureData {
    pub patched: u8,
    pub universe: u8,
    pub universe_channel: u16,
    pub channel: u16,
    pub position_x: u32,
    pub position_y: u32,
    pub position_z: u32,
    pub angle_x: u32,
    pub angle_y: u32,
    pub angle_z: u32,
}

/// The strings are Ucs2.
#[repr(C)]
#[derive(Clone, Copy, Debug, Default, PartialEq, Eq)]
pub struct FixtureNext {
    pub number: u8,
    pub given: u8,
    pub is_dimmer: u8,
    pub identifiers_left: u8,
    pub left: u16,
    pub channel_count: u16,
    pub fixture_identifier: u32,
    pub data: FixtureData,
    pub at: usize,
    pub manufacturer_name_start: usize,
    pub manufacturer_name_len: usize,
    pub fixture_name_start: usize,
    pub fixture_name_len: usize,
    pub mode_name_start: usize,
    pub mode_name_len: usize,
    pub identifiers_at: usize,
    pub unit_start: usize,
    pub unit_len: usize,
    pub circuit_start: usize,
    pub circuit_len: usize,
    pub note_start: usize,
    pub note_len: usize,
}

#[repr(C)]
#[derive(Clone, Copy, Debug, Default, PartialEq, Eq)]
pub struct IdentifierNext {
    pub number: u8,
    pub given: u8,
    pub left: u8,
    /// 0 to 5
    pub identifier_type: u8,
    pub at: usize,
    pub data_start: usize,
    pub data_len: usize,
}

/// The name is a Ucs2 string: `start` and `len`.
#[repr(C)]
#[derive(Clone, Copy, Debug, Default, PartialEq, Eq)]
pub struct FeedNameNext {
    pub number: u8,
    pub given: u8,
    pub left: u8,
    pub at: usize,
    pub start: usize,
    pub len: usize,
}

/// xy_high_nibbles has that of x in its low nibble, that of y in its high one; color is R5 G6 B5.
#[repr(C)]
#[derive(Clone, Copy, Debug, Default, PartialEq, Eq)]
pub struct LaserPoint {
    pub x_low_byte: u8,
    pub y_low_byte: u8,
    pub xy_high_nibbles: u8,
    pub color: u16,
}

#[repr(C)]
#[derive(Clone, Copy, Debug, Default, PartialEq, Eq)]
pub struct LaserPointNext {
    pub number: u8,
    pub given: u8,
    pub left: u16,
    pub value: LaserPoint,
    pub at: usize,
}

functions! {
    u16_list_next(body: &[u8], at: usize, left: u16) -> U16Next;
    u32_list_next(body: &[u8], at: usize, left: u16) -> U32Next;
    channel_levels_next(body: &[u8], at: usize, left: u16) -> ChannelLevelNext;
    fixtures_next(body: &[u8], at: usize, left: u16) -> FixtureNext;
    identifiers_next(body: &[u8], at: usize, left: u8) -> IdentifierNext;
    feed_names_next(body: &[u8], at: usize, left: u8) -> FeedNameNext;
    laser_points_next(body: &[u8], at: usize, left: u16) -> LaserPointNext;
}

// ---- strings and lists of numbers copied out of a body: a string from its start up to the zero, which is not copied,
// a list whole

#[repr(C)]
#[derive(Clone, Copy, Debug, Default, PartialEq, Eq)]
pub struct Copied {
    /// 0; a string, of any length, 8 or 13, a list 7 or 13
    pub number: u8,
    /// bytes, units or items copied
    pub len: usize,
}

functions! {
    copy_cstring(body: &[u8], start: usize, out: &mut [u8]) -> Copied;
    copy_ucs2(body: &[u8], start: usize, out: &mut [u16]) -> Copied;
    u16_list_copy(body: &[u8], at: usize, left: u16, out: &mut [u16]) -> Copied;
    u32_list_copy(body: &[u8], at: usize, left: u16, out: &mut [u32]) -> Copied;
}

// ---- sizes of bodies and of parts, at most the largest that the type has; of a channel list by the count of its
// records

functions! {
    enter_show_size(name: &[u16]) -> usize;
    fixture_remove_size(fixture_identifiers: &[u32]) -> usize;
    laser_feed_control_size() -> usize;
    capa_size(capabilities: &[u16]) -> usize;
    unam_size(universe_name: &[u8]) -> usize;
    chbk_size(channel_levels: &[u8]) -> usize;
    chls_size(count: usize) -> usize;
    sxus_size(connection_string: &[u8]) -> usize;
    ptch_size(fixture_make: &[u8], fixture_name: &[u8]) -> usize;
    uptc_size(fixture_identifiers: &[u16]) -> usize;
    sptc_size(fixture_identifiers: &[u16]) -> usize;
    sele_size(fixture_identifiers: &[u16]) -> usize;
    dese_size(fixture_identifiers: &[u16]) -> usize;
    sfra_size(fixture_identifiers: &[u16]) -> usize;
    fram_size(frame_names: &[u8]) -> usize;
    pnam_size(name: &[u8]) -> usize;
    ploc_size(kind: &[u8], name: &[u8], state: &[u8]) -> usize;
    identifier_size(data: &[u8]) -> usize;
    fixture_data_size(unit: &[u16], circuit: &[u16], note: &[u16]) -> usize;
    laser_point_size() -> usize;
}

// ---- bodies written alone, at a place of `out`; lists of CAEX as their head and item by item

functions! {
    enter_show_write(out: &mut [u8], at: usize, name: &[u16]) -> Put;
    fixture_remove_write(out: &mut [u8], at: usize, fixture_identifiers: &[u32]) -> Put;
    laser_feed_control_write(out: &mut [u8], at: usize, feed_index: u8, frame_rate: u8) -> Put;
    capa_write(out: &mut [u8], at: usize, capabilities: &[u16]) -> Put;
    unam_write(out: &mut [u8], at: usize, universe_index: u8, universe_name: &[u8]) -> Put;
    chbk_write(
        out: &mut [u8], at: usize, blind: u8, universe_index: u8, first_channel: u16, channel_levels: &[u8]
    ) -> Put;
    chls_write(out: &mut [u8], at: usize, channel_levels: &[ChannelLevel]) -> Put;
    sxus_write(out: &mut [u8], at: usize, universe_index: u8, connection_string: &[u8]) -> Put;
    ptch_write(
        out: &mut [u8], at: usize, fixture_identifier: u16, universe: u8, reserved: u8, channel: u16,
        channel_count: u16, fixture_make: &[u8], fixture_name: &[u8]
    ) -> Put;
    uptc_write(out: &mut [u8], at: usize, fixture_identifiers: &[u16]) -> Put;
    sptc_write(out: &mut [u8], at: usize, fixture_identifiers: &[u16]) -> Put;
    sele_write(out: &mut [u8], at: usize, complete: u8, reserved: u8, fixture_identifiers: &[u16]) -> Put;
    dese_write(out: &mut [u8], at: usize, fixture_identifiers: &[u16]) -> Put;
    sfra_write(out: &mut [u8], at: usize, fixture_identifiers: &[u16]) -> Put;
    fram_write(
        out: &mut [u8], at: usize, fixture_identifier: u16, frame_filter_count: u8, frame_gobo_count: u8,
        frame_names: &[u8]
    ) -> Put;
    pnam_write(out: &mut [u8], at: usize, name: &[u8]) -> Put;
    ploc_write(out: &mut [u8], at: usize, listening_tcp_port: u16, kind: &[u8], name: &[u8], state: &[u8]) -> Put;
}

functions! {
    fixture_list_write_head(out: &mut [u8], at: usize, message_type: u8, fixture_count: usize) -> Put;
    fixture_write_head(
        out: &mut [u8], at: usize, fixture_identifier: u32, manufacturer_name: &[u16], fixture_name: &[u16],
        mode_name: &[u16], channel_count: u16, is_dimmer: u8, identifier_count: usize
    ) -> Put;
    identifier_write(out: &mut [u8], at: usize, identifier_type: u8, data: &[u8]) -> Put;
    fixture_data_write(
        out: &mut [u8], at: usize, data: FixtureData, unit: &[u16], circuit: &[u16], note: &[u16]
    ) -> Put;
    laser_feed_list_write_head(out: &mut [u8], at: usize, source_key: u32, feed_count: usize) -> Put;
    laser_feed_list_write_name(out: &mut [u8], at: usize, feed_name: &[u16]) -> Put;
    laser_feed_frame_write_head(
        out: &mut [u8], at: usize, source_key: u32, feed_index: u8, frame_sequence: u32, point_count: usize
    ) -> Put;
    laser_point_write(
        out: &mut [u8], at: usize, x_low_byte: u8, y_low_byte: u8, xy_high_nibbles: u8, color: u16
    ) -> Put;
}

// ---- the packet writer: open, then a flat body in one call or a list's head and its items one by one, then close. A
// packet starts at the first byte of `out`; all its calls get the same `out`, and each the state that the call before
// answered. After close `at` is the packet's size.

/// fresh or closed: open is due
pub const TURN_IDLE: u8 = 0;
/// the body or the list's head of `kind` is due
pub const TURN_BODY: u8 = 1;
/// `items` items of `kind` are due; with none left, close is
pub const TURN_ITEMS: u8 = 2;
/// in a fixture: `identifiers` identifiers are due, then its data; `items` fixtures follow
pub const TURN_PARTS: u8 = 3;

/// Any values may be given: a turn above 3, and in turns 1 and 2 a kind above 19, is a state in which every call is
/// refused with 14. A refused call answers every field as it was given.
#[repr(C)]
#[derive(Clone, Copy, Debug, Default, PartialEq, Eq)]
pub struct Writer {
    pub turn: u8,
    pub kind: u8,
    pub items: u16,
    pub identifiers: u8,
    /// bytes of the packet that stand
    pub at: u32,
}

#[repr(C)]
#[derive(Clone, Copy, Debug, Default, PartialEq, Eq)]
pub struct Written {
    /// the state for the next call
    pub writer: Writer,
    pub number: u8,
}

functions! {
    writer_new() -> Writer;
}

functions! {
    /// A kind above 19 is refused with 14. The content hint is written in FPTC alone.
    writer_open(w: Writer, out: &mut [u8], kind: u8, request_index: u16, content_hint: u32) -> Written;
    writer_close(w: Writer, out: &mut [u8]) -> Written;
}

functions! {
    writer_enter_show(w: Writer, out: &mut [u8], name: &[u16]) -> Written;
    writer_fixture_remove(w: Writer, out: &mut [u8], fixture_identifiers: &[u32]) -> Written;
    writer_laser_feed_control(w: Writer, out: &mut [u8], feed_index: u8, frame_rate: u8) -> Written;
    writer_capa(w: Writer, out: &mut [u8], capabilities: &[u16]) -> Written;
    writer_unam(w: Writer, out: &mut [u8], universe_index: u8, universe_name: &[u8]) -> Written;
    writer_chbk(
        w: Writer, out: &mut [u8], blind: u8, universe_index: u8, first_channel: u16, channel_levels: &[u8]
    ) -> Written;
    writer_chls(w: Writer, out: &mut [u8], channel_levels: &[ChannelLevel]) -> Written;
    writer_sxus(w: Writer, out: &mut [u8], universe_index: u8, connection_string: &[u8]) -> Written;
    writer_ptch(
        w: Writer, out: &mut [u8], fixture_identifier: u16, universe: u8, reserved: u8, channel: u16,
        channel_count: u16, fixture_make: &[u8], fixture_name: &[u8]
    ) -> Written;
    writer_uptc(w: Writer, out: &mut [u8], fixture_identifiers: &[u16]) -> Written;
    writer_sptc(w: Writer, out: &mut [u8], fixture_identifiers: &[u16]) -> Written;
    writer_sele(w: Writer, out: &mut [u8], complete: u8, reserved: u8, fixture_identifiers: &[u16]) -> Written;
    writer_dese(w: Writer, out: &mut [u8], fixture_identifiers: &[u16]) -> Written;
    writer_sfra(w: Writer, out: &mut [u8], fixture_identifiers: &[u16]) -> Written;
    writer_fram(
        w: Writer, out: &mut [u8], fixture_identifier: u16, frame_filter_count: u8, frame_gobo_count: u8,
        frame_names: &[u8]
    ) -> Written;
    writer_pnam(w: Writer, out: &mut [u8], name: &[u8]) -> Written;
    writer_ploc(w: Writer, out: &mut [u8], listening_tcp_port: u16, kind: &[u8], name: &[u8], state: &[u8]) -> Written;
}

functions! {
    /// A fixture list: its head, then for each fixture head, identifiers, data.
    writer_fixture_list_head(w: Writer, out: &mut [u8], message_type: u8, fixture_count: usize) -> Written;
    writer_fixture_head(
        w: Writer, out: &mut [u8], fixture_identifier: u32, manufacturer_name: &[u16], fixture_name: &[u16],
        mode_name: &[u16], channel_count: u16, is_dimmer: u8, identifier_count: usize
    ) -> Written;
    writer_identifier(w: Writer, out: &mut [u8], identifier_type: u8, data: &[u8]) -> Written;
    writer_fixture_data(
        w: Writer, out: &mut [u8], data: FixtureData, unit: &[u16], circuit: &[u16], note: &[u16]
    ) -> Written;
}

functions! {
    /// A laser feed list: its head, then the names.
    writer_laser_feed_list_head(w: Writer, out: &mut [u8], source_key: u32, feed_count: usize) -> Written;
    writer_feed_name(w: Writer, out: &mut [u8], feed_name: &[u16]) -> Written;
}

functions! {
    /// A laser feed frame: its head, then the points.
    writer_laser_feed_frame_head(
        w: Writer, out: &mut [u8], source_key: u32, feed_index: u8, frame_sequence: u32, point_count: usize
    ) -> Written;
    writer_laser_point(
        w: Writer, out: &mut [u8], x_low_byte: u8, y_low_byte: u8, xy_high_nibbles: u8, color: u16
    ) -> Written;
}

// ---- the patch book: at most 256 fixtures, each with its channels in a universe, fed by the bodies of Ptch and UPtc.
// It is a count, 0 at first, and `entries`, words that the caller lends, an entry in each; every call gets both as the
// call before left them. What the words hold at first does not matter. 256 words or more are due for 256 fixtures,
// fewer have room for as many as they are. Any values may be given; as many entries are held as the count says, at most
// 256 and at most as there are words. Entries that messages made are listed by universe, then by channel, both rising,
// each once.

#[repr(C)]
#[derive(Clone, Copy, Debug, Default, PartialEq, Eq)]
pub struct Booked {
    /// 0; a body that does not read: 7, of a Ptch also 8 or 19; else of a patch 16, then 17, then 18
    pub number: u8,
    /// for the next call
    pub count: usize,
}

#[repr(C)]
#[derive(Clone, Copy, Debug, Default, PartialEq, Eq)]
pub struct Entry {
    /// 1; 0 past the last entry, and then so are the other fields
    pub given: u8,
    pub fixture_identifier: u16,
    pub universe: u16,
    /// the first, from 0
    pub channel: u16,
    pub channel_count: u16,
}

functions! {
    /// The body of a Ptch: an entry for its fixture, in place of the one that it has.
    book_patch(count: usize, entries: &mut [u64], body: &[u8]) -> Booked;
    /// The body of a UPtc: the entries of the listed identifiers are dropped, and where none is listed, all.
    book_unpatch(count: usize, entries: &mut [u64], body: &[u8]) -> Booked;
    /// how many it holds
    book_entries(count: usize, entries: &[u64]) -> usize;
    /// the k-th, from 0
    book_entry(count: usize, entries: &[u64], k: usize) -> Entry;
    /// How many of a universe's 512 channels are taken.
    book_taken(count: usize, entries: &[u64], universe: u16) -> u16;
    /// A universe's first free channel, 0 to 511; 512 where none is free.
    book_first_free(count: usize, entries: &[u64], universe: u16) -> u16;
}

// ---- a dimmer rack of one universe: the levels of its 512 channels, fed by the bodies of ChBk and ChLs. It is the
// universe's number, as in the packets, and `levels`, 512 bytes that the caller lends, all 0 at first; every call gets
// them as the call before left them. Any values may be given. A message or a record for another universe changes
// nothing, nor does a ChBk whose blind is not 0. Each answers 0; or 7 where the body does not read; or 20 where it
// names a channel past 511 for the rack's universe, and then none of its levels is set. A ChBk without levels names no
// channel.

functions! {
    /// The body of a ChBk: levels of consecutive channels.
    dimmer_chbk(universe_index: u8, levels: &mut [u8; 512], body: &[u8]) -> u8;
    /// The body of a ChLs: levels of single channels, in list order, later ones winning.
    dimmer_chls(universe_index: u8, levels: &mut [u8; 512], body: &[u8]) -> u8;
}
