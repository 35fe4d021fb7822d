//! The shelf as it stands in C's memory (firmware/kinubarsil.h): 678 words of 32 bits. How they are
//! read into the twin's shelf, and how the twin's shelf is laid over them, spare bits kept.

use crate::twin::{Entry, Monitor, Phy, Shelf, Store};
use std::mem::{offset_of, size_of};

#[repr(C)]
#[derive(Clone, Copy)]
pub struct MonitorWords {
    pub source: u32,
    pub value: u32,
    pub threshold: u32,
}

#[repr(C)]
#[derive(Clone, Copy)]
pub struct PhyWords {
    pub group: u32,
    pub enabled: u32,
    pub errors: [u32; 4],
    pub monitors: [MonitorWords; 4],
    pub change0: u32,
    pub expander1: u32,
    pub expander2: u32,
}

#[repr(C)]
#[derive(Clone, Copy)]
pub struct EntryWords {
    pub phy: u32,
    pub monitor: MonitorWords,
}

#[repr(C)]
#[derive(Clone, Copy)]
pub struct ShelfWords {
    pub number: u32,
    pub changes: u32,
    pub expander3: u32,
    pub ses0: u32,
    pub identifier: [u32; 8],
    pub table: [u32; 32],
    pub phys: [PhyWords; 24],
    pub last: u32,
    pub count: u32,
    pub entries: [EntryWords; 32],
}

pub const WORDS: usize = 678;
pub const PHY_WORDS: usize = 21;
pub const FIRST_PHY: usize = 44;
pub const STORE: usize = 548;
pub const ENTRY_WORDS: usize = 4;
pub const FIRST_ENTRY: usize = 550;

const _: () = assert!(size_of::<MonitorWords>() == 4 * 3);
const _: () = assert!(size_of::<PhyWords>() == 4 * PHY_WORDS);
const _: () = assert!(size_of::<EntryWords>() == 4 * ENTRY_WORDS);
const _: () = assert!(size_of::<ShelfWords>() == 4 * WORDS);
const _: () = assert!(offset_of!(PhyWords, monitors) == 4 * 6);
const _: () = assert!(offset_of!(PhyWords, change0) == 4 * 18);
const _: () = assert!(offset_of!(EntryWords, monitor) == 4 * 1);
const _: () = assert!(offset_of!(ShelfWords, table) == 4 * 12);
const _: () = assert!(offset_of!(ShelfWords, phys) == 4 * FIRST_PHY);
const _: () = assert!(offset_of!(ShelfWords, last) == 4 * STORE);
const _: () = assert!(offset_of!(ShelfWords, count) == 4 * (STORE + 1));
const _: () = assert!(offset_of!(ShelfWords, entries) == 4 * FIRST_ENTRY);

/// A number above 255 stands for one that is too large as well: the twin keeps a byte of the phy
/// number and of a group, and neither means anything above 24 and 31.
fn byte_or_above(word: u32) -> u8 {
    word.min(255) as u8
}

/// Lays a number over the low bits of a word; the bits above stay.
fn lay(word: &mut u32, bits: u32, number: u32) {
    let above = if cfg!(fault = "spare_bits") { 0 } else { *word & !bits };
    *word = above | number;
}

/// Lays a phy number or group over a word; one that is too large stays as it is.
fn lay_byte_or_above(word: &mut u32, number: u8) {
    if byte_or_above(*word) != number {
        *word = u32::from(number);
    }
}

impl MonitorWords {
    fn read(&self) -> Monitor {
        Monitor { source: self.source as u8, value: self.value, threshold: self.threshold }
    }

    fn lay(&mut self, monitor: &Monitor) {
        lay(&mut self.source, 0xFF, u32::from(monitor.source));
        self.value = monitor.value;
        self.threshold = monitor.threshold;
    }
}

impl PhyWords {
    fn read(&self) -> Phy {
        Phy {
            group: byte_or_above(self.group),
            enabled: self.enabled & 1 == 1,
            errors: self.errors,
            monitors: [0, 1, 2, 3].map(|i| self.monitors[i].read()),
            change0: self.change0 as u16,
            expander1: self.expander1 as u16,
            expander2: self.expander2 as u16,
        }
    }

    fn lay(&mut self, phy: &Phy) {
        lay_byte_or_above(&mut self.group, phy.group);
        lay(&mut self.enabled, 1, u32::from(phy.enabled));
        self.errors = phy.errors;
        for (words, monitor) in self.monitors.iter_mut().zip(&phy.monitors) {
            words.lay(monitor);
        }
        lay(&mut self.change0, 0xFFFF, u32::from(phy.change0));
        lay(&mut self.expander1, 0xFFFF, u32::from(phy.expander1));
        lay(&mut self.expander2, 0xFFFF, u32::from(phy.expander2));
    }
}

impl EntryWords {
    fn read(&self) -> Entry {
        Entry { phy: self.phy as u8, monitor: self.monitor.read() }
    }

    fn lay(&mut self, entry: &Entry) {
        lay(&mut self.phy, 0xFF, u32::from(entry.phy));
        self.monitor.lay(&entry.monitor);
    }
}

impl ShelfWords {
    pub const ZERO: ShelfWords = ShelfWords {
        number: 0,
        changes: 0,
        expander3: 0,
        ses0: 0,
        identifier: [0; 8],
        table: [0; 32],
        phys: [PhyWords {
            group: 0,
            enabled: 0,
            errors: [0; 4],
            monitors: [MonitorWords { source: 0, value: 0, threshold: 0 }; 4],
            change0: 0,
            expander1: 0,
            expander2: 0,
        }; 24],
        last: 0,
        count: 0,
        entries: [EntryWords {
            phy: 0,
            monitor: MonitorWords { source: 0, value: 0, threshold: 0 },
        }; 32],
    };

    /// The shelf that the words stand for.
    pub fn read(&self) -> Shelf {
        Shelf {
            number: byte_or_above(self.number),
            changes: self.changes as u16,
            expander3: self.expander3 as u16,
            ses0: self.ses0 as u16,
            identifier: self.identifier.map(|word| word as u8),
            table: self.table,
            phys: std::array::from_fn(|p| self.phys[p].read()),
            store: Store {
                last: self.last as u16,
                count: self.count,
                entries: std::array::from_fn(|i| self.entries[i].read()),
            },
        }
    }

    /// Lays the shelf over the words. "The bits above are never read, and no call changes them,
    /// except a start, which sets them to 0": for a start it is laid over zeros.
    pub fn lay(&mut self, shelf: &Shelf) {
        lay_byte_or_above(&mut self.number, shelf.number);
        lay(&mut self.changes, 0xFFFF, u32::from(shelf.changes));
        lay(&mut self.expander3, 0xFFFF, u32::from(shelf.expander3));
        lay(&mut self.ses0, 0xFFFF, u32::from(shelf.ses0));
        for (word, byte) in self.identifier.iter_mut().zip(shelf.identifier) {
            lay(word, 0xFF, u32::from(byte));
        }
        self.table = shelf.table;
        for (words, phy) in self.phys.iter_mut().zip(&shelf.phys) {
            words.lay(phy);
        }
        lay(&mut self.last, 0xFFFF, u32::from(shelf.store.last));
        self.count = shelf.store.count;
        for (words, entry) in self.entries.iter_mut().zip(&shelf.store.entries) {
            words.lay(entry);
        }
    }

    #[allow(dead_code)]
    pub fn words(&self) -> &[u32; WORDS] {
        // SAFETY: repr(C), words alone, and the sizes are equal.
        unsafe { &*std::ptr::from_ref(self).cast() }
    }

    #[allow(dead_code)]
    pub fn words_mut(&mut self) -> &mut [u32; WORDS] {
        // SAFETY: as above; every content of the words is a content of the struct.
        unsafe { &mut *std::ptr::from_mut(self).cast() }
    }
}
