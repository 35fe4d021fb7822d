//! The operations of an episode, chosen at random with the twin's present state in view, so that
//! writes are often accepted and every answer occurs.

use crate::random::Random;
use crate::states::{self, Start};
use crate::twin::{self, Monitor, Shelf};

/// What the lent buffer holds before a request.
#[derive(Clone, Copy, PartialEq)]
pub enum Fill {
    /// This byte throughout.
    Byte(u8),
    /// The bytes of the pool from here on.
    Pool(u16),
}

#[derive(Clone, PartialEq)]
pub enum Operation {
    Start(Box<Start>),
    Serve { source: u32, frame: Vec<u8>, room: usize, fill: Fill },
    Event { phy: u32, source: u32, amount: u32 },
    LinkChange { phy: u32 },
    Notice { ses: bool },
    Reach { source: u32 },
}

const HUGE: [u32; 6] = [255, 256, 264, 0x100_0001, 0x8000_0000, u32::MAX];
const UNSUPPORTED: [u8; 10] = [0x07, 0x08, 0x1F, 0x2F, 0x30, 0x3F, 0x46, 0x80, 0xAD, 0xFF];
const FUNCTIONS: [u8; 8] = [0x00, 0x01, 0x06, 0x11, 0x14, 0x21, 0x91, 0x93];

pub fn operation(random: &mut Random, shelf: &Shelf) -> Operation {
    match random.below(200) {
        0 => Operation::Start(Box::new(states::start(random))),
        1..=39 => event(random, shelf),
        40..=54 => Operation::LinkChange { phy: phy(random, shelf) },
        55..=64 => Operation::Notice { ses: random.chance(50) },
        65..=74 => Operation::Reach { source: group(random, shelf) },
        _ => serve(random, shelf),
    }
}

fn existing(shelf: &Shelf) -> u32 {
    u32::from(shelf.number).clamp(1, 24)
}

/// A phy, most often one that exists.
fn phy(random: &mut Random, shelf: &Shelf) -> u32 {
    match random.below(40) {
        0 => u32::from(shelf.number),
        1 => 23 + random.below(3),
        2 => random.below(256),
        3 => random.pick(&HUGE),
        _ => random.below(existing(shelf)),
    }
}

/// A source group, most often one that reaches some phys.
fn group(random: &mut Random, shelf: &Shelf) -> u32 {
    match random.below(20) {
        0..=9 => 1,
        10..=13 => u32::from(shelf.phys[random.below(existing(shelf)) as usize].group),
        14..=18 => random.below(41),
        _ if random.chance(60) => random.below(32),
        _ => random.pick(&HUGE),
    }
}

fn event(random: &mut Random, shelf: &Shelf) -> Operation {
    let phy = phy(random, shelf);
    let monitors = &shelf.phys[phy.min(23) as usize].monitors;
    let monitor = random.pick(monitors);
    let source = match random.below(20) {
        0..=9 => u32::from(monitor.source),
        10..=16 => u32::from(states::event_source(random)),
        17 => u32::from(random.pick(&UNSUPPORTED)),
        18 => 0x100 * random.below(3) + u32::from(states::event_source(random)),
        _ => random.number(),
    };
    let amount = match random.below(8) {
        // To FFFFFFFFh, just short of it or just past it, for a source with an error count.
        _ if (0x01..=0x04).contains(&source) && random.chance(50) => {
            let error = shelf.phys[phy.min(23) as usize].errors[source as usize - 1];
            (u32::MAX - error).wrapping_add(random.below(3)).wrapping_sub(1)
        }
        // To all thresholds of the monitors on the source.
        0 | 1 => to_all_thresholds(monitors, source),
        2 => monitor.threshold.wrapping_add(random.below(3)).wrapping_sub(1),
        3 => monitor.value.wrapping_add(random.below(3)).wrapping_sub(1),
        4 => 0u32.wrapping_sub(monitor.value).wrapping_add(random.below(3)).wrapping_sub(1),
        5 => random.below(0x100),
        _ => random.number(),
    };
    Operation::Event { phy, source, amount }
}

/// The highest threshold of the monitors on a source, as far as a report of that source goes.
fn to_all_thresholds(monitors: &[Monitor; 4], source: u32) -> u32 {
    let watching = monitors.iter().filter(|monitor| u32::from(monitor.source) == source);
    let highest = watching.map(|monitor| monitor.threshold).max().unwrap_or(0);
    match source {
        0x2B => highest.min(0xFF),
        0x2C => highest.min(0xFFFF),
        _ => highest,
    }
}

fn serve(random: &mut Random, shelf: &Shelf) -> Operation {
    let room = match random.below(40) {
        0 => 1027,
        1 => random.below(1101) as usize,
        2 => random.pick(&[0, 1, 4, 36, 400, 1026]),
        3..=8 => 1028 + random.below(73) as usize,
        _ => twin::ROOM,
    };
    let mut frame = frame(random, shelf);
    if random.chance(20) {
        damage(random, &mut frame);
    }
    Operation::Serve {
        source: group(random, shelf),
        frame,
        room,
        fill: Fill::Pool(random.word() as u16),
    }
}

/// Each function once, those that do more oftener.
#[rustfmt::skip]
const ASKED: [u8; 14] = [
    0x00, 0x01, 0x06, 0x06, 0x11, 0x14, 0x21, 0x21, 0x91, 0x91, 0x93, 0x93, 0x93, 0x93,
];

/// A frame of one of the eight functions, well formed, the bytes not named at random or 0.
fn frame(random: &mut Random, shelf: &Shelf) -> Vec<u8> {
    let function = random.pick(&ASKED);
    let d = match random.below(60) {
        0 => random.below(131),
        1 => random.pick(&[4, 5, 125, 126, 127, 128]),
        2 | 3 => 5 + random.below(2),
        _ => random.below(5),
    } as usize;
    let (size, length) = match function {
        0x00 | 0x01 | 0x06 => (4, 0),
        0x11 => (12, random.pick(&[0, 2])),
        0x14 => (12, 2),
        0x21 => list_size(random),
        0x91 => (40, random.pick(&[0, 9])),
        _ => (12 + 8 * d, 2 + 2 * d),
    };
    let mut frame = vec![0; size];
    if random.chance(50) {
        random.fill(&mut frame);
    }
    (frame[0], frame[1], frame[3]) = (0x40, function, length as u8);
    if function == 0x06 {
        frame[2] = match random.below(20) {
            0 => random.pick(&[0x0F, 0x10, 0x13, 0x14, 0xFF]),
            1 => random.below(256) as u8,
            2 => random.below(16) as u8,
            _ => random.pick(&[0x00, 0x03, 0x04]),
        };
    }
    if size >= 12 {
        frame[9] = phy(random, shelf) as u8;
    }
    match function {
        0x21 if size >= 8 => frame[6..8].copy_from_slice(&list_start(random, shelf).to_be_bytes()),
        0x91 => control(random, shelf, &mut frame),
        0x93 => configure(random, shelf, &mut frame, d),
        _ => {}
    }
    frame
}

/// "The request has 8 bytes, length 01h"; now and then a length that another function has.
fn list_size(random: &mut Random) -> (usize, usize) {
    match random.below(20) {
        0 => random.pick(&[(8, 0), (8, 2), (4, 0), (12, 2), (12, 1), (4, 1)]),
        _ => (8, 1),
    }
}

/// The start of a 21h: 0000h, stored, just beside the stored indexes, at either end, or any.
fn list_start(random: &mut Random, shelf: &Shelf) -> u16 {
    let (last, kept) = (shelf.store.last, shelf.store.kept() as u16);
    let oldest = shelf.store.indexes().into_iter().find(|&index| index != 0).unwrap_or(last);
    match random.below(10) {
        0 => 0x0000,
        1 => oldest.wrapping_sub(1),
        2 => last.wrapping_add(1),
        3 => random.pick(&[0x0001, 0x0002, 0xFFFE, 0xFFFF]),
        4 => random.pick(&[oldest, last]),
        5 => random.word() as u16,
        _ => last.wrapping_sub(random.below(u32::from(kept) + 3) as u16),
    }
}

/// "bytes 4 and 5 are neither 0000h nor the present count"
fn expected_count(random: &mut Random, shelf: &Shelf, frame: &mut [u8]) {
    let count = match random.below(20) {
        0..=8 => 0,
        9..=17 => shelf.changes,
        18 => shelf.changes.wrapping_add(random.pick(&[1, 0x100, 0xFFFF])),
        _ => random.count() as u16,
    };
    frame[4..6].copy_from_slice(&count.to_be_bytes());
}

fn control(random: &mut Random, shelf: &Shelf, frame: &mut [u8]) {
    expected_count(random, shelf, frame);
    frame[10] = match random.below(20) {
        0 => random.below(256) as u8,
        1 => random.pick(&[0x02, 0x04, 0x06, 0x81]),
        _ => random.pick(&[0x00, 0x01, 0x03, 0x05]),
    };
}

fn configure(random: &mut Random, shelf: &Shelf, frame: &mut [u8], d: usize) {
    expected_count(random, shelf, frame);
    frame[6] = random.word() as u8;
    frame[11] = d as u8;
    let monitors = &shelf.phys[usize::from(frame[9]).min(23)].monitors;
    // Now and then all on one peak source, with low thresholds, so that a report takes several to
    // theirs.
    let peak = random.chance(15).then(|| states::peak_source(random));
    for (i, descriptor) in frame[12..].chunks_exact_mut(8).enumerate() {
        let monitor = monitors[i % 4];
        descriptor[3] = match random.below(40) {
            0..=11 => monitor.source,
            12..=14 => 0x00,
            15 => random.pick(&UNSUPPORTED),
            16 => random.below(256) as u8,
            _ => states::event_source(random),
        };
        if let Some(peak) = peak {
            descriptor[3] = peak;
        }
        let threshold = match random.below(4) {
            _ if peak.is_some() => monitor.value.min(200) + random.below(30),
            0 => monitor.value.wrapping_add(random.below(3)),
            1 => random.below(0x20),
            _ => random.number(),
        };
        descriptor[4..8].copy_from_slice(&threshold.to_be_bytes());
    }
}

/// Spoils a frame: a byte changed, cut, made longer, another first byte, or another frame
/// altogether.
fn damage(random: &mut Random, frame: &mut Vec<u8>) {
    let size = frame.len() as u32;
    match random.below(25) {
        0..=6 => {
            let near = random.chance(70);
            let place = random.below(if near { size.min(12) } else { size }) as usize;
            let flip = 1 << random.below(8);
            frame[place] =
                if random.chance(50) { frame[place] ^ flip } else { random.word() as u8 };
        }
        7..=9 => frame.truncate(random.below(size) as usize),
        10..=12 => frame.resize(frame.len() + 1 + random.below(12) as usize, 0),
        13 => frame.truncate(random.below(5) as usize),
        14 => frame.clear(),
        15 => frame[1] = random.word() as u8,
        16 => frame[3] = frame[3].wrapping_add(random.pick(&[1, 2, 0x80, 0xFE, 0xFF])),
        17 => {
            frame.resize(random.below(64) as usize, 0);
            random.fill(frame);
        }
        // #103: no request by its first byte alone; of an unknown function too, and cut too
        18..=20 => frame[0] = first_byte(random),
        21 => (frame[0], frame[1]) = (first_byte(random), random.word() as u8),
        22 => {
            frame[0] = first_byte(random);
            frame.truncate(random.below(5) as usize);
        }
        23 => {
            let long = random.chance(20);
            frame.resize(random.below(if long { 1200 } else { 100 }) as usize + 4, 0x55);
        }
        _ => {
            frame.resize(1020 + random.below(20) as usize, 0);
            random.fill(&mut frame[4..]);
            frame[0] = 0x40;
            frame[1] = random.pick(&FUNCTIONS);
        }
    }
}

/// A first byte, most often that of a response, or one that differs from 40h in a single bit.
fn first_byte(random: &mut Random) -> u8 {
    match random.below(4) {
        0 | 1 => 0x41,
        2 => 0x40 ^ 1 << random.below(8),
        _ => random.word() as u8,
    }
}
