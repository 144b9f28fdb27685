//! Our writers. The same calls are there twice: a body written alone at a place of the output, and the packet
//! writer's calls on its state.
use crate::library::{self, ChannelLevel, FixtureData};

/// A body written alone.
pub struct Alone<'a> {
    pub out: &'a mut [u8],
    pub at: usize,
}

/// A packet written from the output's first byte.
pub struct Packet<'a> {
    pub out: &'a mut [u8],
    pub state: library::Writer,
}

/// Stands for the number of a refused call that did not answer the place or state that it was given.
pub const MOVED: u8 = 99;

/// Where the next call writes.
pub trait At {
    fn at(&self) -> usize;

    /// To a place, or to the last that a state has.
    fn set_at(&mut self, at: usize);
}

impl At for Alone<'_> {
    fn at(&self) -> usize {
        self.at
    }

    fn set_at(&mut self, at: usize) {
        self.at = at;
    }
}

impl At for Packet<'_> {
    fn at(&self) -> usize {
        self.state.at as usize
    }

    fn set_at(&mut self, at: usize) {
        self.state.at = u32::try_from(at).unwrap_or(u32::MAX);
    }
}

impl Alone<'_> {
    fn settle(&mut self, answer: library::Put) -> u8 {
        match answer.number {
            0 => self.at = answer.at,
            _ if answer.at != self.at => return MOVED,
            _ => {}
        }
        answer.number
    }
}

impl Packet<'_> {
    fn settle(&mut self, answer: library::Written) -> u8 {
        match answer.number {
            0 => self.state = answer.writer,
            _ if answer.writer != self.state => return MOVED,
            _ => {}
        }
        answer.number
    }

    pub fn new(out: &mut [u8]) -> Packet<'_> {
        Packet { out, state: library::writer_new() }
    }

    pub fn open(&mut self, kind: u8, request_index: u16, content_hint: u32) -> u8 {
        let answer = library::writer_open(self.state, self.out, kind, request_index, content_hint);
        self.settle(answer)
    }

    pub fn close(&mut self) -> u8 {
        let answer = library::writer_close(self.state, self.out);
        self.settle(answer)
    }
}

pub type Call = fn(&mut dyn Pen) -> u8;

macro_rules! calls {
    ($($(#[$doc:meta])* $all:ident {
        $($name:ident, $alone:ident, $packet:ident, ($($parameter:ident: $t:ty),*);)*
    })*) => {
        /// Each call answers its number, 0 where it was taken.
        pub trait Pen: At {
            $($(fn $name(&mut self, $($parameter: $t),*) -> u8;)*)*
        }

        impl Pen for Alone<'_> {
            $($(fn $name(&mut self, $($parameter: $t),*) -> u8 {
                let answer = library::$alone(self.out, self.at, $($parameter),*);
                self.settle(answer)
            })*)*
        }

        impl Pen for Packet<'_> {
            $($(fn $name(&mut self, $($parameter: $t),*) -> u8 {
                let answer = library::$packet(self.state, self.out, $($parameter),*);
                self.settle(answer)
            })*)*
        }

        $(
            $(#[$doc])*
            pub const $all: &[Call] = &[$(|pen| pen.$name($(<$t>::default()),*)),*];
        )*
    };
}
calls! {
    /// For each kind, in order, the call of its body or head, with the least that it takes.
    BODIES {
        enter_show, enter_show_write, writer_enter_show, (name: &[u16]);
        fixture_list_head, fixture_list_write_head, writer_fixture_list_head, (message_type: u8, fixture_count: usize);
        fixture_remove, fixture_remove_write, writer_fixture_remove, (fixture_identifiers: &[u32]);
        laser_feed_control, laser_feed_control_write, writer_laser_feed_control, (feed_index: u8, frame_rate: u8);
        capa, capa_write, writer_capa, (capabilities: &[u16]);
        unam, unam_write, writer_unam, (universe_index: u8, universe_name: &[u8]);
        chbk, chbk_write, writer_chbk, (blind: u8, universe_index: u8, first_channel: u16, channel_levels: &[u8]);
        chls, chls_write, writer_chls, (channel_levels: &[ChannelLevel]);
        sxus, sxus_write, writer_sxus, (universe_index: u8, connection_string: &[u8]);
        ptch, ptch_write, writer_ptch, (
            fixture_identifier: u16, universe: u8, reserved: u8, channel: u16,
            channel_count: u16, fixture_make: &[u8], fixture_name: &[u8]
        );
        uptc, uptc_write, writer_uptc, (fixture_identifiers: &[u16]);
        sptc, sptc_write, writer_sptc, (fixture_identifiers: &[u16]);
        sele, sele_write, writer_sele, (complete: u8, reserved: u8, fixture_identifiers: &[u16]);
        dese, dese_write, writer_dese, (fixture_identifiers: &[u16]);
        sfra, sfra_write, writer_sfra, (fixture_identifiers: &[u16]);
        fram, fram_write, writer_fram,
            (fixture_identifier: u16, frame_filter_count: u8, frame_gobo_count: u8, frame_names: &[u8]);
        pnam, pnam_write, writer_pnam, (name: &[u8]);
        ploc, ploc_write, writer_ploc, (listening_tcp_port: u16, kind: &[u8], name: &[u8], state: &[u8]);
        laser_feed_list_head, laser_feed_list_write_head, writer_laser_feed_list_head, (source_key: u32, feed_count: usize);
        laser_feed_frame_head, laser_feed_frame_write_head, writer_laser_feed_frame_head,
            (source_key: u32, feed_index: u8, frame_sequence: u32, point_count: usize);
    }
    /// Items of lists, with the least that they take.
    ITEMS {
        fixture_head, fixture_write_head, writer_fixture_head, (
            fixture_identifier: u32, manufacturer_name: &[u16], fixture_name: &[u16], mode_name: &[u16],
            channel_count: u16, is_dimmer: u8, identifier_count: usize
        );
        identifier, identifier_write, writer_identifier, (identifier_type: u8, data: &[u8]);
        fixture_data, fixture_data_write, writer_fixture_data,
            (data: FixtureData, unit: &[u16], circuit: &[u16], note: &[u16]);
        feed_name, laser_feed_list_write_name, writer_feed_name, (feed_name: &[u16]);
        laser_point, laser_point_write, writer_laser_point,
            (x_low_byte: u8, y_low_byte: u8, xy_high_nibbles: u8, color: u16);
    }
}
