//! The benchmark: the server, over its C interface, and the twin on the same request streams.
//!
//! `bench host|twin|none STREAM PHYS N`   runs N calls of the stream; prints the nanoseconds taken.
//!                                        `none` calls empty functions: the loop's own cost.
//! `bench stack host|twin|none STREAM PHYS`  prints the bytes of stack that the stream used.
//! `bench check`                          all streams on both sides: the same answers, as meant.
//! `bench state`                          prints the bytes of state of both sides.
//!
//! All three sides are called through the same pointers to functions of the C interface, which the
//! compiler cannot see through; so each pays one call, and none is inlined into the loop.

use std::ffi::c_void;
use std::hint::black_box;
use std::process::ExitCode;
use std::time::Instant;

#[path = "../twin/told.rs"]
mod told;
#[allow(dead_code)]
#[path = "../twin/twin.rs"]
mod twin;
#[allow(dead_code)]
#[path = "../twin/words.rs"]
mod words;

mod painted;
mod sides;
mod streams;

use sides::Side;
use streams::Call;

type Memory = *mut c_void;

const ROOM: usize = 1028;
const IDENTIFIER: [u8; 8] = [1, 2, 3, 4, 5, 6, 7, 8];
static GROUPS: [u32; 24] = streams::groups();
static TABLE: [u32; 32] = streams::table();

/// One call on a side.
///
/// SAFETY: `shelf` is the side's own memory, from `Side::memory`.
unsafe fn call(side: &Side, shelf: Memory, call: &Call, out: &mut [u8; ROOM]) -> u32 {
    match *call {
        Call::Start { phys } => start(side, shelf, phys),
        Call::Serve { source, ref frame, room } => {
            (side.serve)(shelf, source, frame.as_ptr(), frame.len(), out.as_mut_ptr(), room)
        }
        Call::Event { phy, source, amount } => (side.event)(shelf, phy, source, amount),
        Call::LinkChange { phy } => (side.link_change)(shelf, phy),
        Call::Notice { ses } => (side.notice)(shelf, ses),
        Call::Reach { source } => (side.reach)(shelf, source),
    }
}

/// A start on a side, whose memory this is.
unsafe fn start(side: &Side, shelf: Memory, phys: u32) -> u32 {
    (side.start)(shelf, phys, GROUPS.as_ptr(), TABLE.as_ptr(), IDENTIFIER.as_ptr())
}

/// A freshly started and prepared shelf of a side.
fn prepared(side: &Side, phys: u32, out: &mut [u8; ROOM]) -> Memory {
    let shelf = side.memory();
    // SAFETY: the side's own memory.
    unsafe {
        start(side, shelf, phys);
        for preparation in streams::preparation(phys) {
            call(side, shelf, &preparation, out);
        }
    }
    shelf
}

/// The measured loop.
#[inline(never)]
fn run(side: &Side, shelf: Memory, stream: &[Call], n: u64, out: &mut [u8; ROOM]) -> u32 {
    let mut sum = 0u32;
    for next in stream.iter().cycle().take(n as usize) {
        // SAFETY: the side's own memory.
        sum = sum.wrapping_add(unsafe { call(side, shelf, next, out) });
    }
    sum
}

fn measure(side: &str, stream: &str, phys: u32, n: u64) -> Option<u128> {
    let side = black_box(Side::named(side)?);
    let stream = streams::stream(stream, phys)?;
    let mut out = [0; ROOM];
    let shelf = prepared(&side, phys, &mut out);
    black_box(run(&side, shelf, &stream, n.min(240), &mut out));
    let begin = Instant::now();
    black_box(run(&side, shelf, &stream, n, &mut out));
    Some(begin.elapsed().as_nanos())
}

/// The stack that a whole stream takes below the loop.
fn stack(side: &str, stream: &str, phys: u32) -> Option<usize> {
    let side = black_box(Side::named(side)?);
    let stream = streams::stream(stream, phys)?;
    let mut out = [0; ROOM];
    let shelf = prepared(&side, phys, &mut out);
    Some(painted::used(&mut || {
        black_box(run(&side, shelf, &stream, stream.len() as u64, &mut out));
    }))
}

/// Runs all streams on both sides, twice over, and compares; and looks that each draws the answers,
/// and stores as many peak events, as its name promises.
fn check() -> Result<usize, String> {
    let mut calls = 0;
    for (name, phys) in streams::NAMES.iter().flat_map(|name| [1, 8, 24].map(|n| (*name, n))) {
        let stream = streams::stream(name, phys).ok_or("no such stream")?;
        let sides = ["host", "twin"].map(|name| Side::named(name).expect("a side"));
        let mut outs = [[0; ROOM]; 2];
        let shelves = [0, 1].map(|i| prepared(&sides[i], phys, &mut outs[i]));
        let last = [0, 1].map(|i| last_stored(&sides[i], shelves[i]));
        for next in stream.iter().cycle().take(2 * stream.len()) {
            // SAFETY: each side's own memory.
            let told = [0, 1].map(|i| unsafe { call(&sides[i], shelves[i], next, &mut outs[i]) });
            if told[0] != told[1] || outs[0] != outs[1] {
                return Err(format!("stream {name}, {phys} phys: the sides differ"));
            }
            if !as_meant(name, next, told[0], &outs[0]) {
                return Err(format!("stream {name}, {phys} phys: answer {:08X}h", told[0]));
            }
            calls += 1;
        }
        let more = [0, 1].map(|i| last_stored(&sides[i], shelves[i]).wrapping_sub(last[i]));
        if more[0] != more[1] || streams::stores(name).is_some_and(|each| more[0] != 2 * each) {
            return Err(format!("stream {name}, {phys} phys: stores {} and {}", more[0], more[1]));
        }
    }
    Ok(calls)
}

/// The last index stored, from a 21h that lists nothing.
fn last_stored(side: &Side, shelf: Memory) -> u16 {
    let mut out = [0; ROOM];
    // SAFETY: the side's own memory.
    unsafe { call(side, shelf, &streams::request(1, streams::list(0)), &mut out) };
    u16::from_be_bytes([out[8], out[9]])
}

fn as_meant(name: &str, call: &Call, told: u32, out: &[u8]) -> bool {
    if let Some(h) = name.strip_prefix('h') {
        return told == told::refused(h.parse().unwrap_or(0));
    }
    let result = name.strip_prefix("result").unwrap_or("00");
    match call {
        _ if name == "mixed" => true,
        _ if name == "21" => told == 12 + 32 * 12,
        _ if name == "21newest" => told == 12 + 12,
        Call::Serve { .. } => told >> 31 == 0 && Ok(out[2]) == u8::from_str_radix(result, 16),
        _ => told >> 31 == 0,
    }
}

fn answer(words: &[&str]) -> Option<String> {
    Some(match *words {
        ["check"] => match check() {
            Ok(calls) => format!("{calls} calls, the same answers"),
            Err(error) => {
                eprintln!("bench: {error}");
                return None;
            }
        },
        ["state"] => format!(
            "{} {}",
            std::mem::size_of::<words::ShelfWords>(),
            std::mem::size_of::<twin::Shelf>()
        ),
        ["names"] => streams::NAMES.join(" "),
        ["stack", side, stream, phys] => stack(side, stream, phys.parse().ok()?)?.to_string(),
        [side, stream, phys, n] => {
            measure(side, stream, phys.parse().ok()?, n.parse().ok()?)?.to_string()
        }
        _ => return None,
    })
}

fn main() -> ExitCode {
    let words: Vec<String> = std::env::args().skip(1).collect();
    let words: Vec<&str> = words.iter().map(String::as_str).collect();
    match answer(&words) {
        Some(line) => {
            println!("{line}");
            ExitCode::SUCCESS
        }
        None => {
            eprintln!("bench: not done: bench {}", words.join(" "));
            ExitCode::FAILURE
        }
    }
}
