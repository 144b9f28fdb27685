//! The table of kinds. `kinds!(rows)` hands it, in the order of their numbers, to a macro `rows`, which makes of it what
//! its file needs.
//!
//! A row: the Rust's type, its constant and its reader in the library, the parts of a body (bodies.rs) and, in braces,
//! - its numbers;
//! - its strings and lists, each with what shows it (ours.rs) by two fields of our answer, and with the Rust's field
//!   that counts it, where there is one;
//! - what writes a body, given the numbers, the strings and the lists, and what sizes it, given the strings and the
//!   lists: a call of the library, or a function of given.rs where that takes them in another form.

macro_rules! kinds {
    ($rows:ident) => {
        $rows! {
            caex::EnterShow, ENTER_SHOW, enter_show_read, [Ucs2] {
                (), (name: Ucs2(start, len)), Pen::enter_show, library::enter_show_size
            }
            caex::FixtureList<'static>, FIXTURE_LIST, fixture_list_read, [Code(3), Fixtures] {
                (message_type), (fixtures: fixtures(fixtures_at, fixtures_left) counted by fixture_count),
                give_fixture_list, fixture_list_size
            }
            caex::FixtureRemove<'static>, FIXTURE_REMOVE, fixture_remove_read, [List(4)] {
                (), (fixture_identifiers: u32_list(at, left) counted by fixture_count),
                Pen::fixture_remove, library::fixture_remove_size
            }
            caex::LaserFeedControl, LASER_FEED_CONTROL, laser_feed_control_read, [Bytes(2)] {
                (feed_index, frame_rate), (), Pen::laser_feed_control, library::laser_feed_control_size
            }
            sdmx::Capa<'static>, CAPA, capa_read, [List(2)] {
                (), (capabilities: u16_list(at, left)), Pen::capa, library::capa_size
            }
            sdmx::UNam, UNAM, unam_read, [Bytes(1), CString] {
                (universe_index), (universe_name: CString(string_start, string_len)), Pen::unam, library::unam_size
            }
            sdmx::ChBk<'static>, CHBK, chbk_read, [Bytes(4), List(1)] {
                (blind, universe_index, first_channel),
                (channel_levels: Block(channel_levels_start, channel_levels_len)),
                Pen::chbk, library::chbk_size
            }
            sdmx::ChLs<'static>, CHLS, chls_read, [List(4)] {
                (), (channel_levels: channel_levels(at, left)), give_chls, chls_size
            }
            sdmx::Sxus, SXUS, sxus_read, [Bytes(1), CString] {
                (universe_index), (connection_string: CString(string_start, string_len)), Pen::sxus, library::sxus_size
            }
            fptc::Ptch, PTCH, ptch_read, [Bytes(8), CString, CString] {
                (fixture_identifier, universe, reserved, channel, channel_count),
                (fixture_make: CString(fixture_make_start, fixture_make_len),
                fixture_name: CString(fixture_name_start, fixture_name_len)),
                Pen::ptch, library::ptch_size
            }
            fptc::UPtc<'static>, UPTC, uptc_read, [List(2)] {
                (), (fixture_identifiers: u16_list(at, left)), Pen::uptc, library::uptc_size
            }
            fptc::SPtc<'static>, SPTC, sptc_read, [List(2)] {
                (), (fixture_identifiers: u16_list(at, left)), Pen::sptc, library::sptc_size
            }
            fsel::Sele<'static>, SELE, sele_read, [Bytes(2), List(2)] {
                (complete, reserved),
                (fixture_identifiers: u16_list(fixture_identifiers_at, fixture_identifiers_left)),
                Pen::sele, library::sele_size
            }
            fsel::DeSe<'static>, DESE, dese_read, [List(2)] {
                (), (fixture_identifiers: u16_list(at, left)), Pen::dese, library::dese_size
            }
            finf::SFra<'static>, SFRA, sfra_read, [List(2)] {
                (), (fixture_identifiers: u16_list(at, left)), Pen::sfra, library::sfra_size
            }
            finf::Fram, FRAM, fram_read, [Bytes(4), CString] {
                (fixture_identifier, frame_filter_count, frame_gobo_count),
                (frame_names: CString(frame_names_start, frame_names_len)),
                Pen::fram, library::fram_size
            }
            pinf::PNam, PNAM, pnam_read, [CString] {
                (), (name: CString(start, len)), Pen::pnam, library::pnam_size
            }
            pinf::PLoc, PLOC, ploc_read, [Bytes(2), CString, CString, CString] {
                (listening_tcp_port),
                (kind: CString(kind_start, kind_len), name: CString(name_start, name_len),
                state: CString(state_start, state_len)),
                Pen::ploc, library::ploc_size
            }
            caex::LaserFeedList<'static>, LASER_FEED_LIST, laser_feed_list_read, [Bytes(4), Names] {
                (source_key), (feed_names: feed_names(feed_names_at, feed_names_left) counted by feed_count),
                give_feed_list, no_size
            }
            caex::LaserFeedFrame<'static>, LASER_FEED_FRAME, laser_feed_frame_read, [Bytes(9), List(5)] {
                (source_key, feed_index, frame_sequence),
                (points: laser_points(points_at, points_left) counted by point_count),
                give_frame, frame_size
            }
        }
    };
}

pub(crate) use kinds;
