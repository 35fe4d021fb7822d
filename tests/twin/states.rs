//! Random starts, lawful and not, and random contents of the words: also such as no start makes.

use crate::random::Random;
use crate::twin::is_supported;
use crate::words::{EntryWords, MonitorWords, PhyWords, ShelfWords};

/// What a start takes.
#[derive(Clone, PartialEq)]
pub struct Start {
    pub number: u32,
    pub groups: [u32; 24],
    pub table: [u32; 32],
    pub identifier: [u8; 8],
}

/// A legal table: symmetric, row 1 all ones, row 0 bit 1 alone; the rest sparse, dense or full.
pub fn legal_table(random: &mut Random) -> [u32; 32] {
    let mut table = [0; 32];
    let kind = random.below(4);
    for g in 2..32 {
        let row = match kind {
            0 => random.word() & random.word() & random.word(),
            1 => random.word(),
            2 => 1 << g,
            _ => u32::MAX,
        };
        for h in g..32 {
            let bit = row >> h & 1;
            table[g] |= bit << h;
            table[h] |= bit << g;
        }
        table[g] |= 1 << 1;
    }
    table[0] = 1 << 1;
    table[1] = u32::MAX;
    table
}

/// Turns one bit of a legal table over, and now and then its mirror with it.
fn spoil(random: &mut Random, table: &mut [u32; 32]) {
    let row = if random.chance(40) { random.below(2) } else { random.below(32) };
    let bit = random.below(32);
    table[row as usize] ^= 1 << bit;
    if random.chance(40) && row != bit {
        table[bit as usize] ^= 1 << row;
    }
}

/// A group: few of them, so that phys share them.
fn group(random: &mut Random) -> u32 {
    if random.chance(75) {
        random.below(6)
    } else {
        random.below(32)
    }
}

/// A start, three of five times lawful; else one thing or more is not.
pub fn start(random: &mut Random) -> Start {
    let mut start = Start {
        number: 1 + random.below(24),
        groups: [0; 24],
        table: legal_table(random),
        identifier: random.next().to_le_bytes(),
    };
    for (p, place) in start.groups.iter_mut().enumerate() {
        let past = p >= start.number as usize;
        *place = if past && random.chance(50) { random.number() } else { group(random) };
    }
    if random.chance(40) {
        for _ in 0..1 + random.below(3) {
            match random.below(4) {
                0 => start.number = random.pick(&[0, 25, 26, 256, 257, 280, u32::MAX]),
                1 => {
                    let p = random.below(24) as usize;
                    start.groups[p] = random.pick(&[32, 33, 63, 255, 256, 264, u32::MAX]);
                }
                _ => spoil(random, &mut start.table),
            }
        }
    }
    start
}

/// A peak source.
pub fn peak_source(random: &mut Random) -> u8 {
    0x2B + random.below(4) as u8
}

/// An event source: supported, most often; a peak, often.
pub fn event_source(random: &mut Random) -> u8 {
    loop {
        let source = match random.below(8) {
            0..=3 => u32::from(peak_source(random)),
            4 | 5 => 1 + random.below(6),
            6 => 0x20 + random.below(11),
            _ => 0x40 + random.below(6),
        } as u8;
        if is_supported(source) {
            return source;
        }
    }
}

fn phy(random: &mut Random, words: &mut PhyWords, lawful: bool) {
    words.group = group(random);
    if !lawful && random.chance(40) {
        words.group = random.pick(&[31, 32, 33, 40, 64, 255, 256, 257, 264, u32::MAX]);
    }
    words.enabled = random.below(2);
    words.errors = [0; 4].map(|_: u32| random.number());
    for monitor in &mut words.monitors {
        monitor.source = match random.below(10) {
            0 | 1 => 0,
            2 if !lawful => random.below(256),
            _ => u32::from(event_source(random)),
        };
        monitor.value = random.number();
        monitor.threshold = match random.below(4) {
            0 => monitor.value.wrapping_add(random.below(4)).wrapping_sub(1),
            1 => random.below(20),
            _ => random.number(),
        };
    }
    if random.chance(20) {
        one_peak(random, words);
    }
    words.change0 = random.count();
    words.expander1 = random.count();
    words.expander2 = random.count();
}

/// Puts all four monitors on one peak source, low values below low thresholds, so that one report
/// can take several to theirs.
fn one_peak(random: &mut Random, words: &mut PhyWords) {
    let source = u32::from(peak_source(random));
    for monitor in &mut words.monitors {
        let value = random.below(20);
        *monitor = MonitorWords { source, value, threshold: value + random.below(20) };
    }
}

/// The store: empty, begun, or full and gone round; the last index often near its ends. On one that
/// no start made, count and last index are anything.
fn store(random: &mut Random, words: &mut ShelfWords, lawful: bool) {
    words.count = match random.below(8) {
        0 => 0,
        1 | 2 => random.below(32),
        3 => random.pick(&[31, 32, 33, 62, 63]),
        _ => 32 + random.below(32),
    };
    words.last = match words.count {
        begun @ 0..=31 => begun,
        _ => full_index(random),
    };
    if !lawful && random.chance(60) {
        words.count = random.pick(&[0, 0, 0, 31, 32, 33, 63, 64, 95, 0x8000_0000, u32::MAX]);
        words.last = random.count();
    }
    if !lawful && random.chance(20) {
        words.count = random.word();
    }
    let written = words.count.min(32) as usize;
    for place in &mut words.entries[..if lawful { written } else { 32 }] {
        *place = entry(random, lawful);
    }
}

/// A last index of a store that is full: gone round a short while ago, about to, or neither.
fn full_index(random: &mut Random) -> u32 {
    match random.below(4) {
        0 => 0xFFFF - random.below(4),
        1 => 1 + random.below(36),
        2 => 32 + random.below(64),
        _ => 1 + random.below(0xFFFF),
    }
}

fn entry(random: &mut Random, lawful: bool) -> EntryWords {
    let any = !lawful && random.chance(30);
    EntryWords {
        phy: random.below(if any { 256 } else { 24 }),
        monitor: MonitorWords {
            source: if any { random.below(256) } else { u32::from(peak_source(random)) },
            value: random.number(),
            threshold: random.number(),
        },
    }
}

/// Random bits above the numbers that are narrower than their words.
fn junk(random: &mut Random, words: &mut ShelfWords) {
    for word in [&mut words.changes, &mut words.expander3, &mut words.ses0] {
        *word |= random.word() << 16;
    }
    for word in &mut words.identifier {
        *word |= random.word() << 8;
    }
    for phy in &mut words.phys {
        phy.enabled |= random.word() << 1;
        for word in [&mut phy.change0, &mut phy.expander1, &mut phy.expander2] {
            *word |= random.word() << 16;
        }
        for monitor in &mut phy.monitors {
            monitor.source |= random.word() << 8;
        }
    }
    words.last |= random.word() << 16;
    for entry in &mut words.entries {
        entry.phy |= random.word() << 8;
        entry.monitor.source |= random.word() << 8;
    }
}

/// Contents of the words at the beginning of an episode.
pub fn words(random: &mut Random) -> ShelfWords {
    let mut words = ShelfWords::ZERO;
    if random.chance(4) {
        words.words_mut().fill_with(|| random.word());
        return words;
    }
    let lawful = random.chance(60);
    words.number = 1 + random.below(24);
    words.table = legal_table(random);
    if !lawful {
        words.number = match random.below(4) {
            0 => random.below(41),
            1 => random.pick(&[0, 25, 255, 256, 257, 0x8000_0001, u32::MAX]),
            2 => random.word(),
            _ => words.number,
        };
        if random.chance(50) {
            // In a legal table no row but row 1 is all ones; here others are, now and then.
            words.table.fill_with(|| if random.chance(15) { u32::MAX } else { random.word() });
        }
    }
    (words.changes, words.expander3, words.ses0) = (random.count(), random.count(), random.count());
    words.identifier.fill_with(|| random.below(256));
    for p in &mut words.phys {
        phy(random, p, lawful);
    }
    store(random, &mut words, lawful);
    if random.chance(60) {
        junk(random, &mut words);
    }
    words
}
