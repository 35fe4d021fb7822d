//! What occurred in a run, so that a reader sees that nothing is unreached. A run of at least
//! `ENOUGH` operations in which some kind of answer never occurred has failed.

use crate::operations::Operation;
use crate::twin::judge::{judge, Wrong};
use crate::twin::{is_counting, is_peak, Monitor, Phy, Shelf, Store};

pub const ENOUGH: u64 = 200_000;

const FUNCTIONS: [u8; 8] = [0x00, 0x01, 0x06, 0x11, 0x14, 0x21, 0x91, 0x93];

/// The results that each function can give; 00h is acceptance.
const RESULTS: [&[u8]; 8] = [
    &[0x00, 0x03],
    &[0x00, 0x03],
    &[0x00, 0x03, 0x02],
    &[0x00, 0x03, 0x10, 0x16],
    &[0x00, 0x03, 0x10, 0x16],
    &[0x00, 0x03, 0x21],
    &[0x00, 0x03, 0x04, 0x10, 0x20, 0x13],
    &[0x00, 0x03, 0x04, 0x10, 0x20, 0x02, 0x17],
];

macro_rules! marks {
    ($($mark:ident $name:literal,)*) => {
        #[derive(Clone, Copy)]
        enum Mark { $($mark),* }
        const MARKS: &[&str] = &[$($name),*];
    };
}

marks! {
    Start "starts accepted",
    Event "event reports accepted",
    LinkChange "link changes accepted",
    Reduced "reduced functionality notices",
    Ses "SES notices",
    Reach "reach queries answered",
    H4Serve "H4 to a request",
    H4Reach "H4 to a reach query",
    H6Right "H6 to a frame that begins with 40h",
    H6Wrong "H6 to one that does not",
    H10Response "H10 to 41h",
    H10Other "H10 to another first byte",
    H10Unknown "H10 to an unknown function",
    H10Length "H10 to a wrong length",
    H10Alone "H10 to a frame with nothing else wrong",
    H7Event "H7 to an event report",
    H7LinkChange "H7 to a link change",
    Unknown "01h",
    ListUnderFfh "06h lists with a descriptor under FFh",
    ListUnderPhys "06h lists with a descriptor under a phy",
    ListBoth "06h lists with both",
    Operation00 "91h none",
    Operation01 "91h link reset",
    Operation03 "91h disable of an enabled phy",
    Operation03Again "91h disable of a disabled phy",
    Operation05 "91h error counts to 0",
    FourDescriptors "93h with four descriptors accepted",
    ClearNothing "93h clearing, no peak watched",
    Expander1 "Expander 1h originations",
    Expander1More "reports that originate Expander 1h more than once",
    Expander2 "Expander 2h originations",
    ChangesRound "change count FFFFh to 0001h",
    Change0Round "Change FFFFh to 0001h",
    Expander1Round "Expander 1h FFFFh to 0001h or beyond",
    Expander2Round "Expander 2h FFFFh to 0001h",
    Expander3Round "Expander 3h FFFFh to 0001h",
    SesRound "SES FFFFh to 0001h",
    Cut "reports told cut",
    CutAgain "reports told cut, the count at FFFFFFFFh before",
    JustFull "error counts that came to FFFFFFFFh exactly, not cut",
    FullPlus0 "0 added to an error count of FFFFFFFFh, not cut",
    CutNotWrapped "reports told cut, a monitor on the source not wrapped",
    Wrapped "monitors wrapped",
    WrappedNotCut "monitors on 01h to 04h wrapped, the error count not cut",
    WrappedNoCount "monitors on a source without an error count wrapped",
    NumberAbove24 "operations on a phy number above 24",
    GroupAbove31 "operations about a phy in a group above 31",
    Length03ToOthers "21h of a wrong length from another group than 1",
    ListOfNone "21h of an empty store",
    ListFrom0000h "21h from 0000h, store not empty",
    ListFromOldest "21h from the oldest index",
    ListFromStored "21h from a stored index, not the oldest",
    ListFromAbove "21h from an index not stored, one above it",
    ListFromLowest "21h from an index not stored, none above it",
    ListGoneRound "21h from an index not stored, store gone round",
    ListOf32 "21h lists of 32",
    ListOfBegun "21h whole lists of a store not full",
    ListRound "21h lists across FFFFh",
    Report1 "reports that store one",
    Report2 "reports that store two",
    Report3 "reports that store three",
    Report4 "reports that store four",
    Clear1 "clears that store one",
    Clear2 "clears that store two",
    Clear3 "clears that store three",
    Clear4 "clears that store four",
    ClearMoved "clears that store a peak moved to another peak source",
    ClearMovedTo "clears that store a monitor moved to a peak source from none",
    ClearMovedOff "clears that store, a peak moved off before",
    ClearAllMovedOff "clears that store nothing, all peaks moved off before",
    Refused04 "04h to a clear that would have stored",
    Refused20 "20h to a clear that would have stored",
    Refused02 "02h to a clear that would have stored",
    Refused17 "17h to a clear that would have stored",
    RefusedH9 "H9 to a report that would have stored",
    StoreFirst "stores into an empty store",
    StoreFills "stores that fill it",
    StoreFull "stores into a full store",
    PlaceRound "stores past the last place",
    LastRound "last index FFFFh to 0001h or beyond",
    LastWithin "last index FFFFh to 0001h within what is stored",
    CountAbove63 "stores where the count is above 63",
    LastZero "stores where the last index is 0000h and the count is not 0",
    CountZero "stores where the count is 0 and the last index is not 0000h",
    StartEmpties "starts that empty a store",
}

const REPORTS: [Mark; 4] = [Mark::Report1, Mark::Report2, Mark::Report3, Mark::Report4];
const CLEARS: [Mark; 4] = [Mark::Clear1, Mark::Clear2, Mark::Clear3, Mark::Clear4];

pub struct Tally {
    refusals: [u64; 11],
    results: [[u64; 0x22]; 8],
    marks: [u64; MARKS.len()],
}

impl Tally {
    pub fn new() -> Tally {
        Tally { refusals: [0; 11], results: [[0; 0x22]; 8], marks: [0; MARKS.len()] }
    }

    fn mark(&mut self, mark: Mark, occurred: bool) {
        self.marks[mark as usize] += u64::from(occurred);
    }

    /// Notes one operation: its answer, the shelf before and after, and the response.
    pub fn note(
        &mut self,
        operation: &Operation,
        told: u32,
        before: &Shelf,
        after: &Shelf,
        out: &[u8],
    ) {
        if told >> 31 == 1 {
            self.refusals[(told & 0xF) as usize] += 1;
            self.mark(Mark::H4Serve, told & 0xF == 4 && is_request(operation));
            self.mark(Mark::H4Reach, told & 0xF == 4 && !is_request(operation));
            self.mark(
                Mark::H7Event,
                told & 0xF == 7 && matches!(operation, Operation::Event { .. }),
            );
            let link_change = matches!(operation, Operation::LinkChange { .. });
            self.mark(Mark::H7LinkChange, told & 0xF == 7 && link_change);
            self.mark(Mark::RefusedH9, told & 0xF == 9 && would_cross(operation, before));
            if let Operation::Serve { frame, .. } = operation {
                self.no_request(told & 0xF, frame);
            }
            return;
        }
        match operation {
            Operation::Start(_) => {
                self.mark(Mark::StartEmpties, before.store.kept() > 0);
                return self.mark(Mark::Start, true);
            }
            Operation::Serve { source, frame, .. } => {
                let out = &out[..told as usize];
                self.mark(Mark::Length03ToOthers, *source != 1 && out[1..3] == [0x21, 0x03]);
                self.response(frame, out, before, after)
            }
            &Operation::Event { source, amount, phy } => {
                self.mark(Mark::Event, true);
                self.event(&before.phys[phy as usize], source as u8, amount, told == 1);
            }
            Operation::LinkChange { .. } => self.mark(Mark::LinkChange, true),
            Operation::Notice { ses } => {
                self.mark(if *ses { Mark::Ses } else { Mark::Reduced }, true)
            }
            Operation::Reach { .. } => self.mark(Mark::Reach, true),
        }
        self.counts(about(operation), before, after);
        self.stored(is_request(operation), &before.store, &after.store);
    }

    /// H6 and H10: what else was wrong with the frame.
    fn no_request(&mut self, refusal: u32, frame: &[u8]) {
        if refusal == 6 {
            let right = frame.first() == Some(&0x40);
            self.mark(if right { Mark::H6Right } else { Mark::H6Wrong }, !frame.is_empty());
        }
        if refusal == 10 {
            let mut request = frame.to_vec();
            request[0] = 0x40;
            let wrong = judge(&request).wrong;
            self.mark(if frame[0] == 0x41 { Mark::H10Response } else { Mark::H10Other }, true);
            self.mark(Mark::H10Unknown, wrong == Some(Wrong::Result(0x01)));
            self.mark(Mark::H10Length, wrong == Some(Wrong::Result(0x03)));
            self.mark(Mark::H10Alone, wrong.is_none());
        }
    }

    fn response(&mut self, frame: &[u8], out: &[u8], before: &Shelf, after: &Shelf) {
        let (function, result) = (out[1], out[2]);
        let Some(row) = FUNCTIONS.iter().position(|&known| known == function) else {
            return self.mark(Mark::Unknown, result == 0x01);
        };
        self.results[row][usize::from(result)] += 1;
        if function == 0x93 && frame.len() >= 12 && frame[6] & 1 == 1 {
            let number = usize::from(before.number).min(24);
            if let Some(phy) = before.phys[..number].get(usize::from(frame[9])) {
                let watched = phy.monitors.iter().any(|monitor| is_peak(monitor.source));
                self.mark(Mark::Refused04, result == 0x04 && watched);
                self.mark(Mark::Refused20, result == 0x20 && watched);
                self.mark(Mark::Refused02, result == 0x02 && watched);
                self.mark(Mark::Refused17, result == 0x17 && watched);
            }
        }
        if result != 0 {
            return;
        }
        match function {
            0x06 if out[7] != 0 => {
                let (first, last) = (out[8], out[out.len() - 8]);
                self.mark(Mark::ListUnderFfh, first == 0xFF);
                self.mark(Mark::ListUnderPhys, last != 0xFF);
                self.mark(Mark::ListBoth, first == 0xFF && last != 0xFF);
            }
            0x21 => self.list(u16::from_be_bytes([frame[6], frame[7]]), out, &before.store),
            0x91 => {
                let was = before.phys[usize::from(frame[9])].enabled;
                self.mark(Mark::Operation00, frame[10] == 0x00);
                self.mark(Mark::Operation01, frame[10] == 0x01);
                self.mark(Mark::Operation03, frame[10] == 0x03 && was);
                self.mark(Mark::Operation03Again, frame[10] == 0x03 && !was);
                self.mark(Mark::Operation05, frame[10] == 0x05);
            }
            0x93 => {
                let p = usize::from(frame[9]);
                let moved = before.phys[p].expander2 != after.phys[p].expander2;
                self.mark(Mark::FourDescriptors, frame[11] == 4);
                self.mark(Mark::ClearNothing, frame[6] & 1 == 1 && !moved);
                if frame[6] & 1 == 1 {
                    self.clear(&before.phys[p], &after.phys[p]);
                }
            }
            _ => {}
        }
    }

    /// An accepted 93h with a clear: what its descriptors did to the sources.
    fn clear(&mut self, before: &Phy, after: &Phy) {
        let sources = [0, 1, 2, 3].map(|i| (before.monitors[i].source, after.monitors[i].source));
        let any = |moved: fn(u8, u8) -> bool| sources.iter().any(|&(was, is)| moved(was, is));
        let stores = any(|_, is| is_peak(is));
        let off = any(|was, is| is_peak(was) && !is_peak(is));
        self.mark(Mark::ClearMoved, any(|was, is| is_peak(was) && is_peak(is) && was != is));
        self.mark(Mark::ClearMovedTo, any(|was, is| !is_peak(was) && is_peak(is)));
        self.mark(Mark::ClearMovedOff, stores && off);
        self.mark(Mark::ClearAllMovedOff, !stores && off);
    }

    /// An accepted 21h with this start.
    fn list(&mut self, start: u16, out: &[u8], store: &Store) {
        let (kept, n) = (store.kept(), usize::from(out[11]));
        self.mark(Mark::ListOfNone, kept == 0);
        if kept == 0 {
            return;
        }
        if start == 0x0000 {
            return self.mark(Mark::ListFrom0000h, true);
        }
        let indexes = store.indexes();
        let is_stored = indexes.contains(&start);
        let oldest = indexes.iter().copied().find(|&index| index != 0).unwrap_or(0);
        let is_oldest = oldest == start;
        let one_above = indexes.iter().any(|&index| index > start);
        self.mark(Mark::ListFromOldest, is_oldest);
        self.mark(Mark::ListFromStored, is_stored && !is_oldest);
        self.mark(Mark::ListFromAbove, !is_stored && one_above);
        self.mark(Mark::ListFromLowest, !is_stored && !one_above);
        self.mark(Mark::ListGoneRound, !is_stored && oldest > store.last);
        self.mark(Mark::ListOf32, n == 32);
        self.mark(Mark::ListOfBegun, n == kept && n < 32);
        self.mark(Mark::ListRound, out[6..8] > out[8..10]);
    }

    /// An accepted event report, and whether it was told that its addition was cut.
    fn event(&mut self, phy: &Phy, source: u8, amount: u32, cut: bool) {
        let watching = || phy.monitors.iter().filter(|monitor| monitor.source == source);
        let wraps = |monitor: &Monitor| monitor.value.checked_add(amount).is_none();
        let wrapped = is_counting(source) && watching().any(wraps);
        self.mark(Mark::Cut, cut);
        self.mark(Mark::Wrapped, wrapped);
        if let 0x01..=0x04 = source {
            let error = phy.errors[usize::from(source - 1)];
            let full = error == u32::MAX;
            self.mark(Mark::CutAgain, cut && full);
            self.mark(Mark::JustFull, !cut && amount > 0 && error.wrapping_add(amount) == u32::MAX);
            self.mark(Mark::FullPlus0, !cut && full && amount == 0);
            self.mark(Mark::CutNotWrapped, cut && !watching().all(wraps));
            self.mark(Mark::WrappedNotCut, !cut && wrapped);
        } else {
            self.mark(Mark::WrappedNoCount, !cut && wrapped);
        }
    }

    /// What the operation did to the counts.
    fn counts(&mut self, phy: Option<usize>, before: &Shelf, after: &Shelf) {
        let round = |before: u16, after: u16| before == 0xFFFF && after == 0x0001;
        self.mark(Mark::NumberAbove24, before.number > 24);
        self.mark(Mark::ChangesRound, round(before.changes, after.changes));
        self.mark(Mark::Expander3Round, round(before.expander3, after.expander3));
        self.mark(Mark::SesRound, round(before.ses0, after.ses0));
        let Some((was, is)) = phy.and_then(|p| before.phys.get(p).zip(after.phys.get(p))) else {
            return;
        };
        self.mark(Mark::GroupAbove31, was.group > 31);
        self.mark(Mark::Expander1, was.expander1 != is.expander1);
        self.mark(Mark::Expander1More, is.expander1 > was.expander1.saturating_add(1));
        self.mark(Mark::Expander2, was.expander2 != is.expander2);
        self.mark(Mark::Change0Round, round(was.change0, is.change0));
        self.mark(Mark::Expander1Round, was.expander1 > is.expander1);
        self.mark(Mark::Expander2Round, round(was.expander2, is.expander2));
    }

    /// What the operation stored; a request stores by a clear.
    fn stored(&mut self, by_clear: bool, before: &Store, after: &Store) {
        let more = (after.count % 32 + 32 - before.count % 32) % 32;
        if !(1..=4).contains(&more) {
            return;
        }
        self.mark(if by_clear { CLEARS } else { REPORTS }[more as usize - 1], true);
        self.mark(Mark::StoreFirst, before.last == 0 && before.count == 0);
        self.mark(Mark::StoreFills, before.kept() < 32 && after.kept() == 32);
        self.mark(Mark::StoreFull, before.kept() == 32);
        self.mark(Mark::PlaceRound, before.count % 32 > after.count % 32);
        self.mark(Mark::LastRound, before.last > after.last);
        self.mark(Mark::LastWithin, before.last > after.last && before.last != 0xFFFF);
        self.mark(Mark::CountAbove63, before.count > 63);
        self.mark(Mark::LastZero, before.last == 0 && before.count != 0);
        self.mark(Mark::CountZero, before.last != 0 && before.count == 0);
    }

    /// The counts, one line for each function and one for each group of other kinds.
    pub fn lines(&self) -> Vec<String> {
        let mut lines = Vec::new();
        for (row, results) in RESULTS.iter().enumerate() {
            let counts = results.iter().map(|&result| {
                let count = self.results[row][usize::from(result)];
                if result == 0 {
                    format!("accepted {count}")
                } else {
                    format!("{result:02X}h {count}")
                }
            });
            let counts: Vec<String> = counts.collect();
            lines.push(format!("{:02X}h: {}", FUNCTIONS[row], counts.join(", ")));
        }
        let refusals: Vec<String> =
            (1..=10).map(|h| format!("H{h} {}", self.refusals[h])).collect();
        lines.push(refusals.join(", "));
        let marks = MARKS.iter().zip(self.marks).map(|(name, count)| format!("{name} {count}"));
        let marks: Vec<String> = marks.collect();
        lines.extend(marks.chunks(4).map(|some| some.join(", ")));
        lines
    }

    /// The kinds that never occurred.
    pub fn missing(&self) -> Vec<String> {
        let mut missing = Vec::new();
        for (row, results) in RESULTS.iter().enumerate() {
            let none =
                results.iter().filter(|&&result| self.results[row][usize::from(result)] == 0);
            missing
                .extend(none.map(|result| format!("{:02X}h with {result:02X}h", FUNCTIONS[row])));
        }
        missing.extend((1..=10).filter(|&h| self.refusals[h] == 0).map(|h| format!("H{h}")));
        let marks = MARKS.iter().zip(self.marks);
        missing.extend(marks.filter(|(_, count)| *count == 0).map(|(name, _)| name.to_string()));
        missing
    }
}

fn is_request(operation: &Operation) -> bool {
    matches!(operation, Operation::Serve { .. })
}

/// Whether an event report, were it accepted, would take a peak to its threshold.
fn would_cross(operation: &Operation, shelf: &Shelf) -> bool {
    let &Operation::Event { phy, source, amount } = operation else {
        return false;
    };
    let crosses = |value, threshold| value < threshold && amount >= threshold;
    shelf.phys.get(phy as usize).is_some_and(|phy| {
        let watching = phy.monitors.iter().filter(|monitor| u32::from(monitor.source) == source);
        watching.into_iter().any(|monitor| crosses(monitor.value, monitor.threshold))
    })
}

/// The phy that an operation is about.
fn about(operation: &Operation) -> Option<usize> {
    match operation {
        Operation::Serve { frame, .. } => frame.get(9).map(|&phy| usize::from(phy)),
        Operation::Event { phy, .. } | Operation::LinkChange { phy } => Some(*phy as usize),
        _ => None,
    }
}
