//! The twin behind the C interface of the server (firmware/kinubarsil.h) and of the frame judge
//! (firmware/smp_gate.h). It stands in for their archives where the driver's own power to notice is tried: built with a planted fault, it
//! has to be told from the right twin. Built as `libhost.a`, and never shipped.

use std::slice;

mod told;
#[allow(dead_code)]
#[path = "twin.rs"]
mod twin;
mod words;

use twin::judge::judge;
use twin::Shelf;
use words::ShelfWords;

/// # Safety
/// As firmware/kinubarsil.h asks of C; so for all functions here.
#[no_mangle]
pub unsafe extern "C" fn smp_start(
    shelf: *mut ShelfWords,
    number: u32,
    groups: *const [u32; 24],
    table: *const [u32; 32],
    identifier: *const [u8; 8],
) -> u32 {
    match Shelf::start(number, &*groups, &*table, &*identifier) {
        Ok(fresh) => {
            *shelf = ShelfWords::ZERO;
            (*shelf).lay(&fresh);
            0
        }
        Err(h) => told::refused(h),
    }
}

/// # Safety
/// As above.
#[no_mangle]
pub unsafe extern "C" fn smp_serve(
    shelf: *mut ShelfWords,
    source: u32,
    frame: *const u8,
    size: usize,
    out: *mut u8,
    room: usize,
) -> u32 {
    let frame = slice::from_raw_parts(frame, size);
    let out = slice::from_raw_parts_mut(out, room);
    change(&mut *shelf, |twin| told::length(twin.serve(source, frame, out)))
}

/// # Safety
/// As above.
#[no_mangle]
pub unsafe extern "C" fn smp_event(
    shelf: *mut ShelfWords,
    phy: u32,
    source: u32,
    amount: u32,
) -> u32 {
    change(&mut *shelf, |twin| told::counted(twin.event(phy, source, amount)))
}

/// # Safety
/// As above.
#[no_mangle]
pub unsafe extern "C" fn smp_link_change(shelf: *mut ShelfWords, phy: u32) -> u32 {
    change(&mut *shelf, |twin| told::done(twin.link_change(phy)))
}

/// # Safety
/// As above.
#[no_mangle]
pub unsafe extern "C" fn smp_notice(shelf: *mut ShelfWords, ses: bool) -> u32 {
    change(&mut *shelf, |twin| {
        twin.notice(ses);
        0
    })
}

/// # Safety
/// As above.
#[no_mangle]
pub unsafe extern "C" fn smp_reach(shelf: *const ShelfWords, source: u32) -> u32 {
    told::reach((*shelf).read().reach(source))
}

/// # Safety
/// As firmware/smp_gate.h asks of C.
#[no_mangle]
pub unsafe extern "C" fn smp_judge_frame(frame: *const u8, size: usize) -> u32 {
    judge(slice::from_raw_parts(frame, size)).told()
}

/// Reads the words, lets the twin change the shelf, and lays it back.
fn change(words: &mut ShelfWords, call: impl FnOnce(&mut Shelf) -> u32) -> u32 {
    let mut twin = words.read();
    let told = call(&mut twin);
    words.lay(&twin);
    told
}
