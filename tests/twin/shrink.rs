//! The shortest failing sequence: operations are left out as long as the two sides still differ,
//! then what remains is made simpler.

use crate::operations::{Fill, Operation};
use crate::pair::{Difference, Pair};
use crate::states::Start;
use crate::words::{ShelfWords, ENTRY_WORDS, FIRST_ENTRY, FIRST_PHY, PHY_WORDS, STORE, WORDS};

#[derive(Clone)]
pub struct Episode {
    pub state: ShelfWords,
    pub operations: Vec<Operation>,
}

pub struct Shrinker<'a> {
    pair: &'a mut Pair,
    /// Operations that may still be run for it.
    budget: u64,
}

impl Shrinker<'_> {
    pub fn new(pair: &mut Pair) -> Shrinker<'_> {
        Shrinker { pair, budget: 3_000_000 }
    }

    /// Runs an episode: the place of the first operation after which the sides differ.
    pub fn run(&mut self, episode: &Episode) -> Option<(usize, Difference)> {
        self.pair.load(&episode.state);
        for (i, operation) in episode.operations.iter().enumerate() {
            self.budget = self.budget.saturating_sub(1);
            if let Err(difference) = self.pair.step(operation) {
                return Some((i, difference));
            }
        }
        None
    }

    /// Takes the candidate in place of the episode, cut after the difference, if it still differs.
    fn take(&mut self, episode: &mut Episode, mut candidate: Episode) -> bool {
        if self.budget == 0 {
            return false;
        }
        let Some((last, _)) = self.run(&candidate) else {
            return false;
        };
        candidate.operations.truncate(last + 1);
        *episode = candidate;
        true
    }

    pub fn shrink(&mut self, episode: &mut Episode) {
        self.last_alone(episode);
        self.leave_out(episode);
        self.move_to_phy_0(episode);
        loop {
            let changed = self.simplify_operations(episode) | self.simplify_state(episode);
            if !self.leave_out(episode) && !changed {
                break;
            }
        }
    }

    /// The last operation alone, on the words that the ones before it left: a start of a 21h, say,
    /// fits only what they stored, so that none of them can be left out.
    fn last_alone(&mut self, episode: &mut Episode) {
        let Some((last, operations)) = episode.operations.split_last() else {
            return;
        };
        let before = Episode { state: episode.state, operations: operations.to_vec() };
        if self.run(&before).is_none() {
            let candidate = Episode { state: *self.pair.words(), operations: vec![last.clone()] };
            self.take(episode, candidate);
        }
    }

    /// Leaves out ever smaller runs of operations, until no single one can be left out.
    fn leave_out(&mut self, episode: &mut Episode) -> bool {
        let mut changed = false;
        let mut run = episode.operations.len().div_ceil(2);
        while run >= 1 {
            let mut removed = false;
            let mut at = 0;
            while at < episode.operations.len() {
                let mut candidate = episode.clone();
                let end = (at + run).min(candidate.operations.len());
                candidate.operations.drain(at..end);
                if self.take(episode, candidate) {
                    removed = true;
                } else {
                    at += run;
                }
            }
            changed |= removed;
            if run == 1 && !removed {
                break;
            }
            run = (run / 2).max(1);
        }
        changed
    }

    /// Exchanges phys 0 and p throughout, where p is the phy that the last operation is about.
    fn move_to_phy_0(&mut self, episode: &mut Episode) {
        if let Some(p @ 1..24) = episode.operations.last().and_then(about) {
            let mut candidate = episode.clone();
            candidate.state.phys.swap(0, p as usize);
            candidate.operations.iter_mut().for_each(|operation| exchange(operation, p));
            self.take(episode, candidate);
        }
    }

    fn simplify_operations(&mut self, episode: &mut Episode) -> bool {
        let mut changed = false;
        let mut at = 0;
        while at < episode.operations.len() {
            let simpler = simpler(&episode.operations[at]);
            let taken = simpler.into_iter().any(|operation| {
                let mut candidate = episode.clone();
                candidate.operations[at] = operation;
                self.take(episode, candidate)
            });
            changed |= taken;
            at += usize::from(!taken);
        }
        changed
    }

    /// Sets parts of the first state to 0, then single words to 0 or to something smaller.
    fn simplify_state(&mut self, episode: &mut Episode) -> bool {
        let phy = |p| FIRST_PHY + p * PHY_WORDS;
        let entry = |i| FIRST_ENTRY + i * ENTRY_WORDS;
        let mut parts = vec![0..WORDS, 0..FIRST_PHY, 6..FIRST_PHY, FIRST_PHY..STORE, STORE..WORDS];
        parts.push(FIRST_ENTRY..WORDS);
        parts.extend((0..24).map(|p| phy(p)..phy(p + 1)));
        parts.extend((0..32).map(|i| entry(i)..entry(i + 1)));
        parts.extend((0..WORDS).map(|word| word..word + 1));
        let mut changed = false;
        for part in parts {
            let mut candidate = episode.clone();
            candidate.state.words_mut()[part.clone()].fill(0);
            changed |=
                candidate.state.words() != episode.state.words() && self.take(episode, candidate);
        }
        for word in 0..WORDS {
            let now = episode.state.words()[word];
            for smaller in [1, 2, now & 0xFF, now & 0xFFFF, now / 2, now.wrapping_sub(1)] {
                let mut candidate = episode.clone();
                candidate.state.words_mut()[word] = smaller;
                if smaller < now && self.take(episode, candidate) {
                    changed = true;
                    break;
                }
            }
        }
        changed
    }
}

/// The phy that an operation is about.
fn about(operation: &Operation) -> Option<u32> {
    match operation {
        Operation::Serve { frame, .. } => frame.get(9).map(|&phy| u32::from(phy)),
        Operation::Event { phy, .. } | Operation::LinkChange { phy } => Some(*phy),
        _ => None,
    }
}

/// Exchanges phys 0 and p in an operation.
fn exchange(operation: &mut Operation, p: u32) {
    let other = |phy: u32| {
        if phy == p {
            0
        } else if phy == 0 {
            p
        } else {
            phy
        }
    };
    match operation {
        Operation::Serve { frame, .. } if frame.len() >= 12 => {
            frame[9] = other(u32::from(frame[9])) as u8;
        }
        Operation::Event { phy, .. } | Operation::LinkChange { phy } => *phy = other(*phy),
        Operation::Start(start) => start.groups.swap(0, p as usize),
        _ => {}
    }
}

/// Numbers below one, the smallest first.
fn below(number: u32) -> Vec<u32> {
    let all = [0, 1, number & 0xFF, number / 2, number.wrapping_sub(1)];
    all.into_iter().filter(|&smaller| smaller < number).collect()
}

/// Simpler operations of the same kind, the simplest first.
fn simpler(operation: &Operation) -> Vec<Operation> {
    match operation.clone() {
        Operation::Start(start) => {
            simpler_starts(&start).into_iter().map(|s| Operation::Start(Box::new(s))).collect()
        }
        Operation::Serve { source, frame, room, fill } => {
            simpler_requests(source, &frame, room, fill)
        }
        Operation::Event { phy, source, amount } => {
            let phys = below(phy).into_iter().map(|phy| Operation::Event { phy, source, amount });
            let amounts = below(amount);
            phys.chain(amounts.into_iter().map(|amount| Operation::Event { phy, source, amount }))
                .collect()
        }
        Operation::LinkChange { phy } => {
            below(phy).into_iter().map(|phy| Operation::LinkChange { phy }).collect()
        }
        Operation::Notice { .. } => Vec::new(),
        Operation::Reach { source } => {
            below(source).into_iter().map(|source| Operation::Reach { source }).collect()
        }
    }
}

fn simpler_starts(start: &Start) -> Vec<Start> {
    let mut simpler = Vec::new();
    let mut add = |change: &dyn Fn(&mut Start)| {
        let mut candidate = start.clone();
        change(&mut candidate);
        if candidate != *start {
            simpler.push(candidate);
        }
    };
    for number in below(start.number) {
        add(&|start| start.number = number);
    }
    add(&|start| start.identifier = [0; 8]);
    add(&|start| start.groups = [0; 24]);
    let mut plain = [0x2; 32];
    plain[1] = u32::MAX;
    add(&|start| start.table = plain);
    for i in 0..24 {
        add(&|start| start.groups[i] = 0);
    }
    for i in (0..32).filter(|&i| start.table[i] != plain[i]) {
        add(&|start| start.table[i] = plain[i]);
    }
    simpler
}

fn simpler_requests(source: u32, frame: &[u8], room: usize, fill: Fill) -> Vec<Operation> {
    let request = |frame: Vec<u8>| Operation::Serve { source, frame, room, fill };
    let mut simpler = Vec::new();
    for byte in [0x00, 0xEE] {
        let frame = frame.to_vec();
        if let Fill::Pool(_) = fill {
            simpler.push(Operation::Serve { source, frame, room, fill: Fill::Byte(byte) });
        }
    }
    if room != 1028 {
        simpler.push(Operation::Serve { source, frame: frame.to_vec(), room: 1028, fill });
    }
    for source in below(source) {
        simpler.push(Operation::Serve { source, frame: frame.to_vec(), room, fill });
    }
    // A descriptor less in a 93h request, the last or the first.
    if frame.len() >= 20 && frame[1] == 0x93 {
        for at in [frame.len() - 8, 12] {
            let mut fewer = frame.to_vec();
            fewer.drain(at..at + 8);
            (fewer[3], fewer[11]) = (frame[3].wrapping_sub(2), frame[11].wrapping_sub(1));
            simpler.push(request(fewer));
        }
    }
    for size in [0, 4, 8, 12, frame.len() / 2, frame.len().saturating_sub(1)] {
        if size < frame.len() {
            simpler.push(request(frame[..size].to_vec()));
        }
    }
    for (at, &byte) in frame.iter().enumerate() {
        for smaller in [0, byte & 1, byte / 2] {
            if smaller < byte {
                let mut frame = frame.to_vec();
                frame[at] = smaller;
                simpler.push(request(frame));
            }
        }
    }
    simpler
}
