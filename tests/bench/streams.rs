//! The request streams of the benchmark. Each is made before the measured loop, and leaves the
//! shelf such that it can be run any number of times with the same kinds of answers.
//!
//! The shelf: phys in groups 8 and 9 by turns; row 8 has bits 1 and 8, row 9 bits 1 and 9, the
//! other rows from 2 up bit 1 alone. Source 1 reaches all phys, 8 and 9 half of them each. All phys
//! have a Change, an Expander 1h and an Expander 2h count; monitors watch 01h, 2Dh, 20h and 2Eh.
//! The store of peak events is full.

pub enum Call {
    Start { phys: u32 },
    Serve { source: u32, frame: Vec<u8>, room: usize },
    Event { phy: u32, source: u32, amount: u32 },
    LinkChange { phy: u32 },
    Notice { ses: bool },
    Reach { source: u32 },
}

/// Every stream.
#[rustfmt::skip]
pub const NAMES: [&str; 36] = [
    "start", "00", "01", "06", "11", "14", "21", "21newest", "91", "93", "93set", "93none", "event",
    "counting", "errors", "cut", "crossing", "below", "link_change", "notice", "reach", "mixed",
    "h4", "h5", "h6", "h10", "result01", "result03", "result21", "result04", "result10", "result16",
    "result20", "result13", "result02", "result17",
];

pub const fn groups() -> [u32; 24] {
    let mut groups = [8; 24];
    let mut p = 1;
    while p < 24 {
        groups[p] = 9;
        p += 2;
    }
    groups
}

pub const fn table() -> [u32; 32] {
    let mut table = [0x2; 32];
    table[1] = u32::MAX;
    table[8] = 0x102;
    table[9] = 0x202;
    table
}

pub fn request(source: u32, frame: Vec<u8>) -> Call {
    Call::Serve { source, frame, room: 1028 }
}

pub fn short(function: u8, kind: u8) -> Vec<u8> {
    vec![0x40, function, kind, 0]
}

/// A 12-byte request about a phy.
pub fn about(function: u8, phy: u32) -> Vec<u8> {
    vec![0x40, function, 0, 2, 0, 0, 0, 0, 0, phy as u8, 0, 0]
}

pub fn control(phy: u32, operation: u8) -> Vec<u8> {
    let mut frame = vec![0; 40];
    (frame[0], frame[1], frame[3], frame[9]) = (0x40, 0x91, 9, phy as u8);
    frame[10] = operation;
    frame
}

/// A 21h request with this start.
pub fn list(start: u32) -> Vec<u8> {
    vec![0x40, 0x21, 0, 1, 0, 0, (start >> 8) as u8, start as u8]
}

pub fn configure(phy: u32, clear: u8, descriptors: &[(u8, u32)]) -> Vec<u8> {
    let d = descriptors.len() as u8;
    let mut frame = vec![0x40, 0x93, 0, 2 + 2 * d, 0, 0, clear, 0, 0, phy as u8, 0, d];
    for &(source, threshold) in descriptors {
        frame.extend([0, 0, 0, source]);
        frame.extend(threshold.to_be_bytes());
    }
    frame
}

/// The last index stored after the preparation: each phy stores three, and the clears of phy 0 that
/// fill the store two each.
fn last_stored(phys: u32) -> u32 {
    3 * phys + 2 * 16
}

/// What is done to a fresh shelf before the stream.
pub fn preparation(phys: u32) -> Vec<Call> {
    let mut calls = vec![Call::Notice { ses: false }, Call::Notice { ses: true }];
    for phy in 0..phys {
        let watch = [(0x01, 0), (0x2D, 10), (0x20, 0), (0x2E, 1000)];
        calls.push(request(1, configure(phy, 0, &watch)));
        calls.push(Call::Event { phy, source: 0x2D, amount: 20 });
        calls.push(request(1, configure(phy, 1, &[])));
        calls.push(Call::LinkChange { phy });
    }
    calls.extend((0..16).map(|_| request(1, configure(0, 1, &[]))));
    calls
}

/// The stream of this name: call i of 240.
pub fn stream(name: &str, phys: u32) -> Option<Vec<Call>> {
    if name == "mixed" {
        return Some(mixed(phys));
    }
    (0..240).map(|i| call(name, i, phys)).collect()
}

fn call(name: &str, i: u32, phys: u32) -> Option<Call> {
    let phy = i % phys;
    let turn = (i / phys) as usize;
    Some(match name {
        "00" => request(1, short(0x00, 0)),
        "01" => request(1, short(0x01, 0)),
        // All types that list something; two of three from a source that reaches all phys.
        "06" => request([1, 1, 8][i as usize % 3], short(0x06, [0, 3, 4][i as usize / 3 % 3])),
        "11" => request(1, about(0x11, phy)),
        "14" => request(1, about(0x14, phy)),
        // The whole store, 32 descriptors: the starts stand below the oldest index and above the
        // newest by turns, so the rule for a start that is not stored is used.
        "21" => request(1, list([1, 0xFFFF][i as usize % 2])),
        // The newest alone, one descriptor.
        "21newest" => request(1, list(last_stored(phys))),
        "91" => request(1, control(phy, [5, 1, 3][turn % 3])),
        // With a clear: each stores two peak monitors.
        "93" => request(1, configure(phy, 1, &[(0x01, 5), ([0x2D, 0x2E][turn % 2], 10)])),
        // The same without a clear: stores nothing.
        "93set" => request(1, configure(phy, 0, &[(0x01, 5), ([0x2D, 0x2E][turn % 2], 10)])),
        // A clear that finds no peak: stores nothing.
        "93none" => request(1, configure(phy, 1, &[(0x00, 0); 4])),
        // 2Dh crosses once on each phy, in the first 240 calls; from then on nothing is stored.
        "event" => Call::Event { phy, source: [0x01, 0x2D, 0x20, 0x45][turn % 4], amount: i },
        // Counting sources alone.
        "counting" => Call::Event { phy, source: [0x01, 0x20, 0x45][turn % 3], amount: i },
        // Sources with an error count alone: none is cut, or, from the second turn of a source on, each.
        "errors" => Call::Event { phy, source: 1 + turn as u32 % 4, amount: 1 },
        "cut" => Call::Event { phy, source: 1 + turn as u32 % 4, amount: u32::MAX },
        "crossing" => pair(i, phys, 20),
        "below" => pair(i, phys, 9),
        "start" => Call::Start { phys },
        "link_change" => Call::LinkChange { phy },
        "notice" => Call::Notice { ses: i % 2 == 1 },
        "reach" => Call::Reach { source: [1, 8, 9, 0][i as usize % 4] },
        _ => return refused(name, i).or_else(|| failed(name, phy, phys)),
    })
}

/// Pairs of a 93h that puts monitor 0 on another peak source, with threshold 10, so that its value
/// is 0 again, and a report on that source. With 20 the report reaches the threshold: it originates
/// Expander 1h and stores one entry. With 9 it does neither, and all else is the same: so twice the
/// difference of the two streams is what one crossing costs with its store.
///
/// Four phys at most, so that each has an even number of turns and finds the other source in place
/// when the stream begins anew.
fn pair(i: u32, phys: u32, amount: u32) -> Call {
    let (pair, phys) = (i / 2, phys.min(4));
    let phy = pair % phys;
    let source = [0x2B, 0x2C][(pair / phys) as usize % 2];
    if i % 2 == 0 {
        request(1, configure(phy, 0, &[(source, 10)]))
    } else {
        Call::Event { phy, source: u32::from(source), amount }
    }
}

/// How many entries one turn of a stream stores, where its name promises it.
pub fn stores(name: &str) -> Option<u16> {
    match name {
        "crossing" => Some(120),
        "93" => Some(480),
        "93set" | "93none" | "counting" | "errors" | "cut" | "below" | "21" | "21newest"
        | "result21" => Some(0),
        _ => None,
    }
}

/// House refusals of a request.
fn refused(name: &str, i: u32) -> Option<Call> {
    Some(match name {
        "h4" => request(32 + i, about(0x14, 0)),
        "h5" => Call::Serve { source: 1, frame: about(0x14, 0), room: 1027 },
        "h6" => request(1, vec![0x40, 0x14, 0]),
        "h10" => request(1, vec![0x41, 0x14, 0, 2]),
        _ => return None,
    })
}

/// Failed function results. A source that does not reach a phy: 0, whatever the phy.
fn failed(name: &str, phy: u32, phys: u32) -> Option<Call> {
    let mut wrong_count = control(phy, 1);
    wrong_count[4..6].copy_from_slice(&[0xFF, 0xFF]);
    Some(match name {
        "result01" => request(1, short(0x02, 0)),
        "result03" => request(1, about(0x00, phy)),
        "result21" => request(8, list(1)),
        "result04" => request(1, wrong_count),
        "result10" => request(1, about(0x11, phys)),
        "result16" => request(0, about(0x14, phy)),
        "result20" => request(0, configure(phy, 1, &[(0x01, 5), (0x2D, 10)])),
        "result13" => request(1, control(phy, 2)),
        "result02" => request(1, configure(phy, 0, &[(0x01, 5); 5])),
        "result17" => request(1, configure(phy, 0, &[(0x01, 5), (0x2D, 10), (0x07, 0)])),
        _ => return None,
    })
}

/// The mixed stream, in parts of 240: what a shelf sees from an initiator that polls it and from
/// its own phys. 160 accepted requests (00h 16, 01h 4, 06h 36, 11h 40, 14h 40, 91h 12, 93h 12), 20
/// failed ones, 10 refused ones and 50 reports and queries (events 36, link changes 8, notices 2,
/// reach 4).
#[rustfmt::skip]
const SHARES: [(&str, u32); 24] = [
    ("00", 16), ("01", 4), ("06", 36), ("11", 40), ("14", 40), ("91", 12), ("93", 12),
    ("result01", 2), ("result03", 3), ("result04", 3), ("result10", 3), ("result16", 3),
    ("result20", 2), ("result13", 1), ("result02", 1), ("result17", 2),
    ("h4", 4), ("h5", 2), ("h6", 2), ("h10", 2),
    ("event", 36), ("link_change", 8), ("notice", 2), ("reach", 4),
];

/// The shares above, laid out in a fixed order without long runs: place k takes the k * 77th call
/// (77 and 240 have no common divisor).
fn mixed(phys: u32) -> Vec<Call> {
    let names: Vec<(&str, u32)> =
        SHARES.iter().flat_map(|&(name, share)| (0..share).map(move |i| (name, i))).collect();
    let places = (0..names.len()).map(|k| names[k * 77 % names.len()]);
    places.filter_map(|(name, i)| call(name, i * 5, phys)).collect()
}
