//! A channel block whose levels lie in memory that may not be read: a step that read one would end the process.
use crate::bodies::Part;
use crate::inputs::{body, stream, Size, SMALL};
use crate::library;
use citp::protocol::sdmx::ChBk;

extern "C" {
    fn mmap(at: *mut u8, len: usize, protection: i32, flags: i32, file: i32, offset: i64) -> *mut u8;
    fn mprotect(at: *mut u8, len: usize, protection: i32) -> i32;
}

const PAGE: usize = 4096;
const READ_WRITE: i32 = 3;
const PRIVATE_ANONYMOUS: i32 = 0x22;

pub fn walk() {
    let levels = 512;
    let packet = stream::<ChBk>(&body(&[Part::Bytes(4), Part::List(1)], Size { block: levels, ..SMALL }), 1);
    let front = packet.len() - levels;
    unsafe {
        let pages = mmap(std::ptr::null_mut(), 2 * PAGE, READ_WRITE, PRIVATE_ANONYMOUS, -1, 0);
        let at = pages.add(PAGE - front);
        at.copy_from_nonoverlapping(packet.as_ptr(), front);
        assert_eq!(mprotect(pages.add(PAGE), PAGE, 0), 0);
        let packet = std::slice::from_raw_parts(at, packet.len());
        let step = library::walk_step(packet, 0);
        assert_eq!((step.report, step.kind, step.next), (library::MESSAGE, library::CHBK, packet.len()));
        let body = library::chbk_read(&packet[step.body_start..][..step.body_len]);
        assert_eq!((body.number, body.channel_levels_len), (0, levels));
    }
}
