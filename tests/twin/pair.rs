//! The two sides run together: one operation on both, and everything compared after it.

use crate::host;
use crate::operations::{Fill, Operation};
use crate::random::Random;
use crate::told;
use crate::twin::judge::judge;
use crate::twin::Shelf;
use crate::words::ShelfWords;

/// The longest buffer that is lent, and bytes past it that nobody may touch.
pub const MOST_ROOM: usize = 1100;
const LENT: usize = MOST_ROOM + 52;

const GUARD: [u32; 16] = [0x5AFE_C0DE; 16];

/// The shelf in memory, between words that nobody may touch.
#[repr(C)]
struct Memory {
    before: [u32; 16],
    shelf: ShelfWords,
    after: [u32; 16],
}

/// Where the first difference is, and what both sides have there.
#[derive(Clone, Copy)]
pub enum Place {
    Answer,
    /// What is told of the request's frame alone.
    Judge {
        host: u32,
        twin: u32,
    },
    Buffer {
        at: usize,
        host: u8,
        twin: u8,
    },
    Word {
        at: usize,
        host: u32,
        twin: u32,
    },
    OutsideShelf,
}

#[derive(Clone, Copy)]
pub struct Difference {
    pub host: u32,
    pub twin: u32,
    pub place: Place,
}

pub struct Pair {
    pub twin: Shelf,
    memory: Memory,
    /// The words that the server has to leave: the twin's shelf laid over the words as they were.
    expected: ShelfWords,
    host_out: [u8; LENT],
    pub twin_out: [u8; LENT],
    pool: Vec<u8>,
}

impl Pair {
    pub fn new() -> Pair {
        let mut pool = vec![0; 0x1_0000 + LENT];
        Random::new(0).fill(&mut pool);
        Pair {
            twin: ShelfWords::ZERO.read(),
            memory: Memory { before: GUARD, shelf: ShelfWords::ZERO, after: GUARD },
            expected: ShelfWords::ZERO,
            host_out: [0; LENT],
            twin_out: [0; LENT],
            pool,
        }
    }

    /// Loads a state into both sides.
    pub fn load(&mut self, words: &ShelfWords) {
        self.memory = Memory { before: GUARD, shelf: *words, after: GUARD };
        self.expected = *words;
        self.twin = words.read();
        self.fill(Fill::Byte(0));
    }

    /// The shelf as the server left it.
    pub fn words(&self) -> &ShelfWords {
        &self.memory.shelf
    }

    /// Runs one operation on both sides. Gives the answer, or the first difference.
    pub fn step(&mut self, operation: &Operation) -> Result<u32, Difference> {
        let shelf = &mut self.memory.shelf;
        let (host, twin) = match operation {
            Operation::Start(start) => {
                let (number, id) = (start.number, &start.identifier);
                let host = host::start(shelf, number, &start.groups, &start.table, id);
                (host, self.start_twin(Shelf::start(number, &start.groups, &start.table, id)))
            }
            Operation::Serve { source, frame, room, fill } => {
                self.fill(*fill);
                let shelf = &mut self.memory.shelf;
                let host = host::serve(shelf, *source, frame, &mut self.host_out[..*room]);
                let twin = self.twin.serve(*source, frame, &mut self.twin_out[..*room]);
                (host, told::length(twin))
            }
            &Operation::Event { phy, source, amount } => {
                let host = host::event(shelf, phy, source, amount);
                (host, told::counted(self.twin.event(phy, source, amount)))
            }
            &Operation::LinkChange { phy } => {
                (host::link_change(shelf, phy), told::done(self.twin.link_change(phy)))
            }
            &Operation::Notice { ses } => {
                self.twin.notice(ses);
                (host::notice(shelf, ses), 0)
            }
            &Operation::Reach { source } => {
                (host::reach(shelf, source), told::reach(self.twin.reach(source)))
            }
        };
        self.expected.lay(&self.twin);
        if let Operation::Serve { frame, .. } = operation {
            let told = (host::judge(frame), judge(frame).told());
            if told.0 != told.1 {
                let place = Place::Judge { host: told.0, twin: told.1 };
                return Err(Difference { host, twin, place });
            }
        }
        self.compare(host, twin)
    }

    /// "A refused start gives no device": all stays. After an accepted one, spare bits are 0.
    fn start_twin(&mut self, answer: Result<Shelf, u32>) -> u32 {
        match answer {
            Ok(fresh) => {
                self.twin = fresh;
                self.expected = ShelfWords::ZERO;
                0
            }
            Err(h) => told::refused(h),
        }
    }

    fn fill(&mut self, fill: Fill) {
        match fill {
            Fill::Byte(byte) => self.host_out.fill(byte),
            Fill::Pool(at) => self.host_out.copy_from_slice(&self.pool[usize::from(at)..][..LENT]),
        }
        self.twin_out = self.host_out;
    }

    fn compare(&self, host: u32, twin: u32) -> Result<u32, Difference> {
        let differ = |place| Err(Difference { host, twin, place });
        if host != twin {
            return differ(Place::Answer);
        }
        if self.host_out != self.twin_out {
            let at = (0..LENT).find(|&i| self.host_out[i] != self.twin_out[i]).unwrap_or(0);
            return differ(Place::Buffer { at, host: self.host_out[at], twin: self.twin_out[at] });
        }
        let (is, to_be) = (self.memory.shelf.words(), self.expected.words());
        if is != to_be {
            let at = (0..is.len()).find(|&i| is[i] != to_be[i]).unwrap_or(0);
            return differ(Place::Word { at, host: is[at], twin: to_be[at] });
        }
        if self.memory.before != GUARD || self.memory.after != GUARD {
            return differ(Place::OutsideShelf);
        }
        Ok(host)
    }
}
