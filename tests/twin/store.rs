//! Document 02's #101: the store of peak events, and which of them a 21h returns.

use super::Monitor;

/// "The server keeps the last 32 stored descriptors."
const MOST_ENTRIES: usize = 32;

/// What is stored: a monitor as it stood at that moment, and the phy it belongs to.
#[derive(Clone, Copy, Debug, PartialEq, Eq)]
pub struct Entry {
    pub phy: u8,
    pub monitor: Monitor,
}

/// The entries stand in a ring: one is written in the place of the oldest. `last` is the last index
/// stored, 0000h if none. `count` counts the stores; from 64 on it would tell no more than from 32
/// on, so after 63 comes 32.
///
/// On a store that no start made, whatever the two numbers: `count % 32` is the place that is
/// written next, and as many entries are kept as `count` says, 32 at most, and none where `last` is
/// 0000h.
#[derive(Clone, Copy, Debug, PartialEq, Eq)]
pub struct Store {
    pub last: u16,
    pub count: u32,
    pub entries: [Entry; MOST_ENTRIES],
}

/// "Indexes run from 0001h and go from FFFFh to 0001h."
fn index_after(index: u16) -> u16 {
    match index {
        0xFFFF if cfg!(fault = "index_to_zero") => 0x0000,
        0xFFFF => 0x0001,
        _ => index + 1,
    }
}

/// The same backwards: FFFFh comes before 0001h.
fn index_before(index: u16) -> u16 {
    match index {
        0x0000 | 0x0001 => 0xFFFF,
        _ => index - 1,
    }
}

impl Store {
    /// "every other number is 0"
    pub const EMPTY: Store = Store {
        last: 0x0000,
        count: 0,
        entries: [Entry { phy: 0, monitor: Monitor::FRESH }; MOST_ENTRIES],
    };

    /// The place that is written next. Where 32 are kept, the oldest stands there.
    fn place(&self) -> usize {
        self.count as usize % MOST_ENTRIES
    }

    /// How many entries are kept.
    pub fn kept(&self) -> usize {
        let most = if cfg!(fault = "keeps_31") { 31 } else { MOST_ENTRIES };
        if self.last == 0x0000 {
            0
        } else {
            most.min(self.count as usize)
        }
    }

    /// Stores one entry.
    pub(super) fn keep(&mut self, phy: u8, monitor: Monitor) {
        let place = self.place();
        if self.count < 32 || !cfg!(fault = "newest_forgotten") {
            self.entries[place] = Entry { phy, monitor };
        }
        self.last = index_after(self.last);
        self.count = match self.count {
            0..=31 => self.count + 1,
            _ if cfg!(fault = "place_stays") => 32,
            _ => 32 + (place as u32 + 1) % 32,
        };
    }

    /// The indexes of the 32 places, around the ring from the one that is written next, so oldest
    /// first: the newest has `last`, and so back. A place that keeps nothing has 0000h, which is
    /// the index of no entry.
    pub fn indexes(&self) -> [u16; MOST_ENTRIES] {
        let mut indexes = [0x0000; MOST_ENTRIES];
        let mut index = self.last;
        for place in indexes.iter_mut().rev().take(self.kept()) {
            *place = index;
            index = index_before(index);
        }
        indexes
    }

    /// What a 21h with this start returns: the first index, and the entries. "The list runs in
    /// stored order to the newest."
    pub(super) fn list(&self, start: u16) -> (u16, impl Iterator<Item = &Entry>) {
        let indexes = self.indexes();
        let first = first_returned(&indexes, start);
        let older = indexes.iter().take_while(|&&index| index != first || first == 0x0000).count();
        let place = self.place();
        let entry = move |k| &self.entries[(place + k) % MOST_ENTRIES];
        (first, (older..MOST_ENTRIES).map(entry))
    }
}

/// "A start of 0000h, or an empty store, returns index 0000h and none. A start that is not stored
/// returns from the lowest stored index above it, or, where there is none, from the lowest stored
/// index."
fn first_returned(indexes: &[u16; MOST_ENTRIES], start: u16) -> u16 {
    if start == 0x0000 {
        return 0x0000;
    }
    if indexes.contains(&start) {
        return if cfg!(fault = "start_left_out") { index_after(start) } else { start };
    }
    if cfg!(fault = "nothing_from_unstored") {
        return 0x0000;
    }
    let stored = || indexes.iter().copied().filter(|&index| index != 0x0000);
    stored().filter(|&index| index > start).min().or(stored().min()).unwrap_or(0x0000)
}
