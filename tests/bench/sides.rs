//! The three sides behind one table of functions: the server, the twin, and empty functions.

use crate::told;
use crate::twin::Shelf;
use crate::words::ShelfWords;
use crate::Memory;
use std::slice;

#[derive(Clone, Copy)]
pub struct Side {
    pub start: unsafe extern "C" fn(Memory, u32, *const u32, *const u32, *const u8) -> u32,
    pub serve: unsafe extern "C" fn(Memory, u32, *const u8, usize, *mut u8, usize) -> u32,
    pub event: unsafe extern "C" fn(Memory, u32, u32, u32) -> u32,
    pub link_change: unsafe extern "C" fn(Memory, u32) -> u32,
    pub notice: unsafe extern "C" fn(Memory, bool) -> u32,
    pub reach: unsafe extern "C" fn(Memory, u32) -> u32,
}

extern "C" {
    fn smp_start(
        shelf: Memory,
        number: u32,
        groups: *const u32,
        table: *const u32,
        identifier: *const u8,
    ) -> u32;
    fn smp_serve(
        shelf: Memory,
        source: u32,
        frame: *const u8,
        size: usize,
        out: *mut u8,
        room: usize,
    ) -> u32;
    fn smp_event(shelf: Memory, phy: u32, source: u32, amount: u32) -> u32;
    fn smp_link_change(shelf: Memory, phy: u32) -> u32;
    fn smp_notice(shelf: Memory, ses: bool) -> u32;
    fn smp_reach(shelf: Memory, source: u32) -> u32;
}

const HOST: Side = Side {
    start: smp_start,
    serve: smp_serve,
    event: smp_event,
    link_change: smp_link_change,
    notice: smp_notice,
    reach: smp_reach,
};

const TWIN: Side = Side {
    start: twin_start,
    serve: twin_serve,
    event: twin_event,
    link_change: twin_link_change,
    notice: twin_notice,
    reach: twin_reach,
};

const NONE: Side = Side {
    start: none_start,
    serve: none_serve,
    event: none_event,
    link_change: none_number,
    notice: none_notice,
    reach: none_number,
};

impl Side {
    pub fn named(name: &str) -> Option<Side> {
        match name {
            "host" => Some(HOST),
            "twin" => Some(TWIN),
            "none" => Some(NONE),
            _ => None,
        }
    }

    /// Memory for a shelf of any side, set to 0; it is kept to the end of the program.
    pub fn memory(&self) -> Memory {
        const _: () = assert!(size_of::<Shelf>() <= size_of::<ShelfWords>());
        const _: () = assert!(align_of::<Shelf>() <= align_of::<ShelfWords>());
        Box::into_raw(Box::new(ShelfWords::ZERO)).cast()
    }
}

// The twin with the arguments of the C interface. SAFETY: `shelf` was set by `twin_start` (or is
// all 0, which is a Shelf too), and the rest is as firmware/kinubarsil.h asks.

unsafe extern "C" fn twin_start(
    shelf: Memory,
    number: u32,
    groups: *const u32,
    table: *const u32,
    identifier: *const u8,
) -> u32 {
    match Shelf::start(number, &*groups.cast(), &*table.cast(), &*identifier.cast()) {
        Ok(fresh) => {
            shelf.cast::<Shelf>().write(fresh);
            0
        }
        Err(h) => told::refused(h),
    }
}

unsafe extern "C" fn twin_serve(
    shelf: Memory,
    source: u32,
    frame: *const u8,
    size: usize,
    out: *mut u8,
    room: usize,
) -> u32 {
    let frame = slice::from_raw_parts(frame, size);
    let out = slice::from_raw_parts_mut(out, room);
    told::length((*shelf.cast::<Shelf>()).serve(source, frame, out))
}

unsafe extern "C" fn twin_event(shelf: Memory, phy: u32, source: u32, amount: u32) -> u32 {
    told::counted((*shelf.cast::<Shelf>()).event(phy, source, amount))
}

unsafe extern "C" fn twin_link_change(shelf: Memory, phy: u32) -> u32 {
    told::done((*shelf.cast::<Shelf>()).link_change(phy))
}

unsafe extern "C" fn twin_notice(shelf: Memory, ses: bool) -> u32 {
    (*shelf.cast::<Shelf>()).notice(ses);
    0
}

unsafe extern "C" fn twin_reach(shelf: Memory, source: u32) -> u32 {
    told::reach((*shelf.cast::<Shelf>()).reach(source))
}

// Empty functions: what they cost is what the loop and the call cost.

unsafe extern "C" fn none_start(
    _: Memory,
    _: u32,
    _: *const u32,
    _: *const u32,
    _: *const u8,
) -> u32 {
    0
}

unsafe extern "C" fn none_serve(
    _: Memory,
    _: u32,
    _: *const u8,
    _: usize,
    _: *mut u8,
    _: usize,
) -> u32 {
    0
}

unsafe extern "C" fn none_event(_: Memory, _: u32, _: u32, _: u32) -> u32 {
    0
}

unsafe extern "C" fn none_notice(_: Memory, _: bool) -> u32 {
    0
}

unsafe extern "C" fn none_number(_: Memory, _: u32) -> u32 {
    0
}
