//! A second reading of document 01, and of document 02's #101, #103 and #104, written in plain Rust
//! without looking at the shelf server Kinubarsil itself: a twin that `drive.rs` runs beside it, and the
//! baseline of `tests/bench`.
//!
//! The comments quote the sentences of the documents where they are carried out. A
//! `cfg!(fault = ..)` is a planted fault; without `--cfg` it is false and costs nothing.
//! `tests/twin/run --faults` tries that the driver notices each of them.
#![forbid(unsafe_code)]

mod functions;
pub mod judge;
#[cfg(test)]
mod shelf_w;
mod store;

pub use store::{Entry, Store};

/// "1 to 24 phys, numbered from 0."
pub const MOST_PHYS: usize = 24;
/// "Zone groups 0 to 31."
pub const GROUPS: usize = 32;
/// The shortest response buffer that is not H5.
pub const ROOM: usize = 1028;

/// "FFh means 'no particular phy'."
const NO_PHY: u8 = 0xFF;

/// House refusals.
pub const H1: u32 = 1;
pub const H2: u32 = 2;
pub const H3: u32 = 3;
pub const H4: u32 = 4;
pub const H5: u32 = 5;
pub const H6: u32 = 6;
pub const H7: u32 = 7;
pub const H8: u32 = 8;
pub const H9: u32 = 9;
pub const H10: u32 = 10;

/// SMP functions.
pub const REPORT_GENERAL: u8 = 0x00;
pub const REPORT_MANUFACTURER_INFORMATION: u8 = 0x01;
pub const REPORT_BROADCAST: u8 = 0x06;
pub const REPORT_PHY_ERROR_LOG: u8 = 0x11;
pub const REPORT_PHY_EVENT: u8 = 0x14;
pub const REPORT_PHY_EVENT_LIST: u8 = 0x21;
pub const PHY_CONTROL: u8 = 0x91;
pub const CONFIGURE_PHY_EVENT: u8 = 0x93;

/// Function results.
pub const UNKNOWN_SMP_FUNCTION: u8 = 0x01;
pub const SMP_FUNCTION_FAILED: u8 = 0x02;
pub const INVALID_REQUEST_FRAME_LENGTH: u8 = 0x03;
pub const INVALID_EXPANDER_CHANGE_COUNT: u8 = 0x04;
pub const PHY_DOES_NOT_EXIST: u8 = 0x10;
pub const UNKNOWN_PHY_OPERATION: u8 = 0x13;
pub const PHY_VACANT: u8 = 0x16;
pub const UNKNOWN_PHY_EVENT_SOURCE: u8 = 0x17;
pub const SMP_ZONE_VIOLATION: u8 = 0x20;
pub const NO_MANAGEMENT_ACCESS_RIGHTS: u8 = 0x21;

type Buffer = [u8; ROOM];

/// "A monitor has an event source, a 32-bit value and a 32-bit threshold."
#[derive(Clone, Copy, Debug, PartialEq, Eq)]
pub struct Monitor {
    pub source: u8,
    pub value: u32,
    pub threshold: u32,
}

/// "Per phy: its group, enabled or not, four error counts, four monitors, three broadcast counts:
/// Change reason 0h, Expander 1h and 2h."
#[derive(Clone, Copy, Debug, PartialEq, Eq)]
pub struct Phy {
    pub group: u8,
    pub enabled: bool,
    pub errors: [u32; 4],
    pub monitors: [Monitor; 4],
    pub change0: u16,
    pub expander1: u16,
    pub expander2: u16,
}

/// The shelf. On one that no start made, a phy number above 24 counts as 24, and a phy whose group
/// is above 31 is reached by nobody.
#[derive(Clone, Copy, Debug, PartialEq, Eq)]
pub struct Shelf {
    pub number: u8,
    pub changes: u16,
    pub expander3: u16,
    pub ses0: u16,
    pub identifier: [u8; 8],
    pub table: [u32; GROUPS],
    pub phys: [Phy; MOST_PHYS],
    pub store: Store,
}

/// "counting 01h to 06h, 20h to 2Ah, 40h to 45h"
pub fn is_counting(source: u8) -> bool {
    matches!(source, 0x01..=0x06 | 0x20..=0x2A | 0x40..=0x45)
}

/// "peak 2Bh to 2Eh"
pub fn is_peak(source: u8) -> bool {
    matches!(source, 0x2B..=0x2E)
}

/// The sources a report may name.
pub fn is_supported(source: u8) -> bool {
    is_counting(source) || is_peak(source)
}

/// "3 source (00h allowed)": the sources a monitor may be set to.
fn may_watch(source: u8) -> bool {
    source == 0x00 || is_supported(source)
}

/// "A source reaches a phy if its row has the bit of the phy's group." No group above 31 has one.
fn reaches(row: u32, group: u8) -> bool {
    u64::from(row) >> group.min(63) & 1 == 1
}

/// "A legal table is symmetric; row 1 is all ones; row 0 has bit 1 alone."
fn is_legal(table: &[u32; GROUPS]) -> bool {
    let symmetric = |g: usize| (0..g).all(|h| (table[g] >> h ^ table[h] >> g) & 1 == 0);
    table[0] == 1 << 1 && table[1] == u32::MAX && (2..GROUPS).all(symmetric)
}

/// "Originating adds one to that count; FFFFh goes to 0001h."
fn originate(count: &mut u16) {
    *count = count.checked_add(1).unwrap_or(if cfg!(fault = "count_to_zero") { 0 } else { 1 });
}

/// An error count stops at FFFFFFFFh. #104: "The saturating addition must answer whether the exact
/// sum was above FFFFFFFFh, as well as the new number." A sum of exactly FFFFFFFFh is not above it.
fn add_stopping(count: &mut u32, amount: u32) -> bool {
    const MOST: u64 = 0xFFFF_FFFF;
    let sum = u64::from(*count) + u64::from(amount);
    let full = *count == u32::MAX;
    *count = if cfg!(fault = "errors_wrap") { sum as u32 } else { sum.min(MOST) as u32 };
    if cfg!(fault = "cut_told_a_report_later") {
        return full && amount > 0;
    }
    let at_most = cfg!(fault = "cut_at_exactly_ffffffffh") && sum == MOST && amount > 0;
    let adds_none = cfg!(fault = "cut_where_0_is_added_to_ffffffffh") && full;
    !cfg!(fault = "cut_never_told") && (sum > MOST || at_most || adds_none)
}

/// "Response byte 0 is 41h, byte 1 the function, byte 2 the result, byte 3 the number of dwords
/// that follow. Bytes not named are 0."
fn accepted<const N: usize>(out: &mut Buffer, function: u8) -> &mut [u8; N] {
    let response = out.first_chunk_mut::<N>().expect("no response is longer than the buffer");
    *response = [0; N];
    response[0] = 0x41;
    response[1] = function;
    response[3] = (N / 4 - 1) as u8;
    response
}

/// "A failed response is 41h, the function, the result, 00h."
fn failed(out: &mut Buffer, function: u8, result: u8) -> usize {
    out[..4].copy_from_slice(&[0x41, function, result, 0x00]);
    4
}

/// The function of a request, if the frame is one. H6 is for a request under 4 bytes, and "H10,
/// first byte not 40h, takes its turn directly after H6 and before any function result" (#103).
fn function_of(frame: &[u8]) -> Result<u8, u32> {
    if cfg!(fault = "first_byte_before_size") && frame.first().is_some_and(|&first| first != 0x40) {
        return Err(H10);
    }
    let &[first, function, _, _, ..] = frame else {
        return Err(H6);
    };
    let late = cfg!(fault = "first_byte_after_01h") && !judge::is_known(function);
    let other = cfg!(fault = "other_first_bytes_pass") && first != 0x41;
    if first == 0x40 || late || other {
        return Ok(function);
    }
    Err(if cfg!(fault = "one_number_for_both") { H6 } else { H10 })
}

/// "03h INVALID REQUEST FRAME LENGTH: byte 3 or the frame's true length is not as below."
fn whole<'a, const N: usize>(frame: &'a [u8], lengths: &[u8]) -> Result<&'a [u8; N], u8> {
    match <&[u8; N]>::try_from(frame) {
        Ok(request) if lengths.contains(&request[3]) => Ok(request),
        _ => Err(INVALID_REQUEST_FRAME_LENGTH),
    }
}

/// "**93h**: request 12 + 8d bytes, length 2 + 2d, d in byte 11". "A 93h frame under 12 bytes fails
/// here." From d = 127 on, no byte 3 can be 2 + 2d.
fn with_descriptors(frame: &[u8]) -> Result<(&[u8; 12], &[[u8; 8]]), u8> {
    let (head, rest) = frame.split_first_chunk().ok_or(INVALID_REQUEST_FRAME_LENGTH)?;
    let (descriptors, left) = rest.as_chunks::<8>();
    let d = usize::from(head[11]);
    let length = if cfg!(fault = "length_cut") { (2 + 2 * d) & 0xFF } else { 2 + 2 * d };
    if descriptors.len() != d || !left.is_empty() || usize::from(head[3]) != length {
        return Err(INVALID_REQUEST_FRAME_LENGTH);
    }
    Ok((head, descriptors))
}

/// The descriptors of a 06h response.
struct Broadcasts<'a> {
    out: &'a mut Buffer,
    n: u8,
}

impl Broadcasts<'_> {
    /// "Descriptor: 0 phy, 2 reason, 4 and 5 count. Every non-zero count .. is listed"
    fn list(&mut self, phy: u8, reason: u8, count: u16) {
        if count != 0 {
            let [high, low] = count.to_be_bytes();
            let at = 8 + 8 * usize::from(self.n);
            self.out[at..at + 8].copy_from_slice(&[phy, 0, reason, 0, high, low, 0, 0]);
            self.n += 1;
        }
    }
}

impl Monitor {
    const FRESH: Monitor = Monitor { source: 0x00, value: 0, threshold: 0 };

    /// "Descriptor i sets monitor i; a changed source sets the value to 0, the same source keeps
    /// it." "Descriptor: 3 source (00h allowed), 4 to 7 threshold."
    fn configure(&mut self, descriptor: &[u8; 8]) {
        let &[_, _, _, source, a, b, c, d] = descriptor;
        if source != self.source || cfg!(fault = "same_source_zeroes") {
            self.value = 0;
        }
        self.source = source;
        self.threshold = u32::from_be_bytes([a, b, c, d]);
    }
}

impl Phy {
    /// "All phys are enabled, .. every other number is 0, and every monitor's source is 00h."
    /// The records past the phy number, whose groups are ignored, are the same with group 0.
    const FRESH: Phy = Phy {
        group: 0,
        enabled: true,
        errors: [0; 4],
        monitors: [Monitor::FRESH; 4],
        change0: 0,
        expander1: 0,
        expander2: 0,
    };

    /// "Each of the phy's monitors on that source changes: counting values wrap at 32 bits, peaks
    /// keep the larger. Sources 01h to 04h also add to the four error counts in the order above,
    /// which stop at FFFFFFFFh." The phy is number `p`. Says whether the report's "own addition was
    /// cut, and with 'no' for sources that have no error count" (#104).
    fn count(&mut self, p: u8, source: u8, amount: u32, store: &mut Store) -> bool {
        let mut cut = match source {
            0x01..=0x04 => add_stopping(&mut self.errors[usize::from(source - 1)], amount),
            0x05 if cfg!(fault = "cut_for_source_05h") => {
                add_stopping(&mut { self.errors[3] }, amount)
            }
            _ => false,
        };
        self.turn_if_falling();
        for monitor in self.monitors.iter_mut().filter(|monitor| monitor.source == source) {
            let before = monitor.value;
            if !is_peak(source) {
                let stop = cfg!(fault = "monitors_saturate");
                let sum = before.wrapping_add(amount);
                monitor.value = if stop { before.saturating_add(amount) } else { sum };
                cut |= cfg!(fault = "cut_where_a_monitor_wraps") && sum < before;
                continue;
            }
            monitor.value = before.max(amount);
            // "A peak that a report takes from below its threshold to it or above originates
            // Expander 1h, once per monitor."
            let below = before < monitor.threshold || cfg!(fault = "threshold_again");
            let crossed = below && monitor.value >= monitor.threshold;
            if crossed {
                originate(&mut self.expander1);
            }
            // "Each origination of Expander 1h stores the monitor that crossed, in monitor order if
            // several do, with its new value".
            if crossed || cfg!(fault = "stored_uncrossed") {
                let value = if cfg!(fault = "old_value_stored") { before } else { monitor.value };
                store.keep(p, Monitor { value, ..*monitor });
            }
        }
        self.turn_if_falling();
        cut
    }

    /// "each of the phy's monitors on a peak source goes to 0, and if there is one such monitor or
    /// more, Expander 2h is originated once." The phy is number `p`.
    fn clear_peaks(&mut self, p: u8, store: &mut Store) {
        let mut any = false;
        if !cfg!(fault = "stored_before_set") {
            self.keep_peaks(p, store);
        }
        for monitor in self.monitors.iter_mut().filter(|monitor| is_peak(monitor.source)) {
            monitor.value = 0;
            any = true;
        }
        if any {
            originate(&mut self.expander2);
        }
    }

    /// "each Expander 2h stores every peak monitor of the phy with its value before the clear, in
    /// monitor order."
    fn keep_peaks(&mut self, p: u8, store: &mut Store) {
        self.turn_if_falling();
        for monitor in self.monitors.iter().filter(|monitor| is_peak(monitor.source)) {
            let value = if cfg!(fault = "cleared_value_stored") { 0 } else { monitor.value };
            store.keep(p, Monitor { value, ..*monitor });
        }
        self.turn_if_falling();
    }

    /// The planted fault that stores in falling monitor order: the monitors are turned around, and
    /// back again.
    fn turn_if_falling(&mut self) {
        if cfg!(fault = "falling_order") {
            self.monitors.reverse();
        }
    }
}

impl Shelf {
    /// "A start takes phy number, 24 groups (those past the phy number are ignored), table and
    /// identifier." The change count is 0001h.
    pub fn start(
        number: u32,
        groups: &[u32; MOST_PHYS],
        table: &[u32; GROUPS],
        identifier: &[u8; 8],
    ) -> Result<Shelf, u32> {
        if !(1..=24).contains(&number) {
            return Err(H1);
        }
        let past = if cfg!(fault = "past_groups_judged") { MOST_PHYS } else { number as usize };
        let groups = &groups[..past];
        if groups.iter().any(|&group| group > 31) {
            return Err(H2);
        }
        if !is_legal(table) {
            return Err(H3);
        }
        let mut phys = [Phy::FRESH; MOST_PHYS];
        for (phy, &group) in phys.iter_mut().zip(groups) {
            phy.group = group as u8;
        }
        Ok(Shelf {
            number: number as u8,
            changes: 0x0001,
            expander3: 0,
            ses0: 0,
            identifier: *identifier,
            table: *table,
            phys,
            store: Store::EMPTY,
        })
    }

    /// One request. The length of the response, or H4, H5, H6 or H10, the lowest that applies. "The
    /// buffer past any response is unchanged."
    pub fn serve(&mut self, source: u32, frame: &[u8], out: &mut [u8]) -> Result<usize, u32> {
        let row = *self.table.get(source as usize).ok_or(H4)?;
        let out = out.first_chunk_mut::<ROOM>().ok_or(H5)?;
        let function = function_of(frame)?;
        let answer = match function {
            REPORT_GENERAL => self.report_general(frame, out),
            REPORT_MANUFACTURER_INFORMATION => self.report_manufacturer_information(frame, out),
            REPORT_BROADCAST => self.report_broadcast(row, frame, out),
            REPORT_PHY_ERROR_LOG => self.report_phy_error_log(row, frame, out),
            REPORT_PHY_EVENT => self.report_phy_event(row, frame, out),
            REPORT_PHY_EVENT_LIST => self.report_phy_event_list(source, frame, out),
            PHY_CONTROL => self.phy_control(row, frame, out),
            CONFIGURE_PHY_EVENT => self.configure_phy_event(row, frame, out),
            _ => Err(UNKNOWN_SMP_FUNCTION),
        };
        let length = answer.unwrap_or_else(|result| failed(out, function, result));
        if cfg!(fault = "buffer_zeroed") {
            out[length..].fill(0);
        }
        Ok(length)
    }

    /// "An event report names phy, source and a 32-bit amount." Its answer "says whether its own
    /// addition was cut" (#104); a refused one has no such answer.
    pub fn event(&mut self, phy: u32, source: u32, amount: u32) -> Result<bool, u32> {
        let number = self.number();
        let p = phy as u8;
        let phy = self.phys[..number].get_mut(phy as usize).ok_or(H7)?;
        let source = if cfg!(fault = "source_cut") { source & 0xFF } else { source };
        let source = u8::try_from(source).ok().filter(|&source| is_supported(source)).ok_or(H8)?;
        let most = match source {
            0x2B => 0xFF,
            0x2C => 0xFFFF,
            _ => u32::MAX,
        };
        if amount > most {
            return Err(H9);
        }
        Ok(phy.count(p, source, amount, &mut self.store))
    }

    /// "a link change on a phy (Change)"
    pub fn link_change(&mut self, phy: u32) -> Result<(), u32> {
        if phy as usize >= self.number() {
            return Err(H7);
        }
        self.originate_change(phy as usize);
        Ok(())
    }

    /// "two device notices (Expander 3h, SES)"
    pub fn notice(&mut self, ses: bool) {
        originate(if ses { &mut self.ses0 } else { &mut self.expander3 });
    }

    /// "A reach query gives, for a source group, the set of phys it reaches as a 32-bit number and
    /// how many they are; a group above 31 draws H4."
    pub fn reach(&self, source: u32) -> Result<(u32, u32), u32> {
        let row = *self.table.get(source as usize).ok_or(H4)?;
        let phys = self.phys[..self.number()].iter().enumerate();
        let set = phys.fold(0, |set, (p, phy)| set | u32::from(reaches(row, phy.group)) << p);
        Ok((set, set.count_ones()))
    }

    /// A phy number above 24 counts as 24.
    fn number(&self) -> usize {
        usize::from(self.number).min(MOST_PHYS)
    }

    /// "Change also moves the change count the same way."
    fn originate_change(&mut self, phy: usize) {
        originate(&mut self.phys[phy].change0);
        originate(&mut self.changes);
    }

    /// "04h INVALID EXPANDER CHANGE COUNT: 91h and 93h, when bytes 4 and 5 are neither 0000h nor
    /// the present count."
    fn expect_changes(&self, high: u8, low: u8) -> Result<(), u8> {
        let expected = u16::from_be_bytes([high, low]);
        if expected == 0x0000 || expected == self.changes {
            Ok(())
        } else {
            Err(INVALID_EXPANDER_CHANGE_COUNT)
        }
    }

    /// "10h PHY DOES NOT EXIST (functions with a phy, byte 9)", then "Not reached: 16h PHY VACANT
    /// for 11h and 14h, 20h SMP ZONE VIOLATION for 91h and 93h."
    fn addressed(&self, row: u32, phy: u8, not_reached: u8) -> Result<usize, u8> {
        let phy = usize::from(phy);
        let number = self.number();
        let group = self.phys[..number].get(phy).ok_or(PHY_DOES_NOT_EXIST)?.group;
        if reaches(row, group) {
            Ok(phy)
        } else {
            Err(not_reached)
        }
    }
}
