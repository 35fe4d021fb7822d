//! The server under test, over its C interface (firmware/kinubarsil.h), and the frame judge
//! (firmware/smp_gate.h).

use crate::words::ShelfWords;

extern "C" {
    fn smp_start(
        shelf: *mut ShelfWords,
        number: u32,
        groups: *const u32,
        table: *const u32,
        identifier: *const u8,
    ) -> u32;
    fn smp_serve(
        shelf: *mut ShelfWords,
        source: u32,
        frame: *const u8,
        size: usize,
        out: *mut u8,
        room: usize,
    ) -> u32;
    fn smp_event(shelf: *mut ShelfWords, phy: u32, source: u32, amount: u32) -> u32;
    fn smp_link_change(shelf: *mut ShelfWords, phy: u32) -> u32;
    fn smp_notice(shelf: *mut ShelfWords, ses: bool) -> u32;
    fn smp_reach(shelf: *const ShelfWords, source: u32) -> u32;
    fn smp_judge_frame(frame: *const u8, size: usize) -> u32;
}

// SAFETY of all calls below: references are not null, aligned and set in full; what is lent for
// writing overlaps with nothing; nobody else is at it during the call. No more is asked of C.

pub fn start(
    shelf: &mut ShelfWords,
    number: u32,
    groups: &[u32; 24],
    table: &[u32; 32],
    identifier: &[u8; 8],
) -> u32 {
    unsafe { smp_start(shelf, number, groups.as_ptr(), table.as_ptr(), identifier.as_ptr()) }
}

pub fn serve(shelf: &mut ShelfWords, source: u32, frame: &[u8], out: &mut [u8]) -> u32 {
    unsafe { smp_serve(shelf, source, frame.as_ptr(), frame.len(), out.as_mut_ptr(), out.len()) }
}

pub fn event(shelf: &mut ShelfWords, phy: u32, source: u32, amount: u32) -> u32 {
    unsafe { smp_event(shelf, phy, source, amount) }
}

pub fn link_change(shelf: &mut ShelfWords, phy: u32) -> u32 {
    unsafe { smp_link_change(shelf, phy) }
}

pub fn notice(shelf: &mut ShelfWords, ses: bool) -> u32 {
    unsafe { smp_notice(shelf, ses) }
}

pub fn reach(shelf: &ShelfWords, source: u32) -> u32 {
    unsafe { smp_reach(shelf, source) }
}

pub fn judge(frame: &[u8]) -> u32 {
    unsafe { smp_judge_frame(frame.as_ptr(), frame.len()) }
}
