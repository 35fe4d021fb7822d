//! The thirteen cases of document 01's "Shelf W, for checking", and its "Easily got wrong"; then
//! document 02's #101 and #103 on the same shelf.

use super::judge::{judge, Judgement, Wrong};
use super::*;

/// "Four phys, groups 8, 8, 9, 1; row 8 has bits 1 and 8; row 9 bits 1 and 9; other rows from 2 up
/// bit 1 alone. The identifier is the bytes 01h, 02h and so on to 08h."
fn parts() -> ([u32; MOST_PHYS], [u32; GROUPS], [u8; 8]) {
    let mut groups = [0; MOST_PHYS];
    groups[..4].copy_from_slice(&[8, 8, 9, 1]);
    let mut table = [0x2; GROUPS];
    table[1] = 0xFFFF_FFFF;
    table[8] = 0x102;
    table[9] = 0x202;
    (groups, table, [1, 2, 3, 4, 5, 6, 7, 8])
}

fn shelf_w() -> Shelf {
    let (groups, table, identifier) = parts();
    Shelf::start(4, &groups, &table, &identifier).unwrap()
}

/// Serves a frame; the response, after looking that the buffer past it is unchanged.
fn serve(shelf: &mut Shelf, source: u32, frame: &[u8]) -> Result<Vec<u8>, u32> {
    let before = *shelf;
    let mut out = [0xA5; ROOM + 7];
    let told = shelf.serve(source, frame, &mut out);
    let length = told.unwrap_or(0);
    assert!(out[length..].iter().all(|&byte| byte == 0xA5));
    if told.is_err() || length == 4 && out[2] != 0 {
        assert_eq!(*shelf, before);
    }
    told.map(|length| out[..length].to_vec())
}

/// A 93h request with expected change count 0000h.
fn configure(phy: u8, clear: u8, descriptors: &[(u8, u32)]) -> Vec<u8> {
    let d = descriptors.len() as u8;
    let mut frame = vec![0x40, 0x93, 0, 2 + 2 * d, 0, 0, clear, 0, 0, phy, 0, d];
    for &(source, threshold) in descriptors {
        frame.extend([0, 0, 0, source]);
        frame.extend(threshold.to_be_bytes());
    }
    frame
}

fn control(phy: u8, operation: u8) -> [u8; 40] {
    let mut frame = [0; 40];
    (frame[0], frame[1], frame[3], frame[9], frame[10]) = (0x40, 0x91, 0x09, phy, operation);
    frame
}

const OK_91: [u8; 4] = [0x41, 0x91, 0x00, 0x00];
const OK_93: [u8; 4] = [0x41, 0x93, 0x00, 0x00];

#[test]
fn case_01_reach() {
    let shelf = shelf_w();
    assert_eq!(shelf.reach(8), Ok((0x0000_000B, 3)));
    assert_eq!(shelf.reach(9), Ok((0x0000_000C, 2)));
    assert_eq!(shelf.reach(0), Ok((0x0000_0008, 1)));
    assert_eq!(shelf.reach(32), Err(H4));
}

#[test]
fn case_02_phy_event_from_8_and_from_9() {
    let frame = [0x40, 0x14, 0, 2, 0, 0, 0, 0, 0, 2, 0, 0];
    assert_eq!(serve(&mut shelf_w(), 8, &frame).unwrap(), [0x41, 0x14, 0x16, 0x00]);
    let mut response = vec![0; 64];
    response[..6].copy_from_slice(&[0x41, 0x14, 0x00, 0x0F, 0x00, 0x01]);
    (response[9], response[15]) = (2, 4);
    assert_eq!(serve(&mut shelf_w(), 9, &frame).unwrap(), response);
}

#[test]
fn case_03_phy_event_with_length_00h() {
    let frame = [0x40, 0x14, 0, 0, 0, 0, 0, 0, 0, 2, 0, 0];
    assert_eq!(serve(&mut shelf_w(), 9, &frame).unwrap(), [0x41, 0x14, 0x03, 0x00]);
}

#[test]
fn case_04_phy_error_log_with_length_00h() {
    let frame = [0x40, 0x11, 0, 0, 0, 0, 0, 0, 0, 0, 0, 0];
    let mut response = vec![0; 28];
    response[..6].copy_from_slice(&[0x41, 0x11, 0x00, 0x06, 0x00, 0x01]);
    assert_eq!(serve(&mut shelf_w(), 8, &frame).unwrap(), response);
}

#[test]
fn case_05_phy_does_not_exist() {
    let frame = [0x40, 0x11, 0, 2, 0, 0, 0, 0, 0, 4, 0, 0];
    assert_eq!(serve(&mut shelf_w(), 1, &frame).unwrap(), [0x41, 0x11, 0x10, 0x00]);
}

#[test]
fn case_06_unknown_function() {
    assert_eq!(serve(&mut shelf_w(), 1, &[0x40, 2, 0, 0]).unwrap(), [0x41, 0x02, 0x01, 0x00]);
    assert_eq!(serve(&mut shelf_w(), 1, &[0x40, 2, 0]), Err(H6));
}

#[test]
fn case_07_expected_change_count() {
    let mut frame = [0x40, 0x93, 0, 2, 0, 2, 1, 0, 0, 0, 0, 0];
    let mut shelf = shelf_w();
    assert_eq!(serve(&mut shelf, 8, &frame).unwrap(), [0x41, 0x93, 0x04, 0x00]);
    frame[5] = 1;
    assert_eq!(serve(&mut shelf, 8, &frame).unwrap(), OK_93);
    assert_eq!(shelf, shelf_w());
}

#[test]
fn case_08_zone_violation() {
    let frame = [0x40, 0x93, 0, 2, 0, 0, 1, 0, 0, 2, 0, 0];
    assert_eq!(serve(&mut shelf_w(), 8, &frame).unwrap(), [0x41, 0x93, 0x20, 0x00]);
}

#[test]
fn case_09_reduced_functionality() {
    let mut shelf = shelf_w();
    shelf.notice(false);
    let response = [0x41, 6, 0, 3, 0, 1, 4, 1, 0xFF, 0, 3, 0, 0, 1, 0, 0];
    assert_eq!(serve(&mut shelf, 1, &[0x40, 6, 4, 0]).unwrap(), response);
}

#[test]
fn case_10_change_count_past_its_end() {
    let mut shelf = shelf_w();
    shelf.changes = 0xFFFF;
    assert_eq!(shelf.link_change(0), Ok(()));
    assert_eq!((shelf.changes, shelf.phys[0].change0), (0x0001, 1));
}

#[test]
fn case_11_wrapping_value_and_stopping_error_count() {
    let mut shelf = shelf_w();
    serve(&mut shelf, 1, &configure(0, 0, &[(0x01, 0)])).unwrap();
    shelf.phys[0].monitors[0].value = 0xFFFF_FFFE;
    shelf.phys[0].errors[0] = 0xFFFF_FFFE;
    assert_eq!(shelf.event(0, 0x01, 3), Ok(true));
    assert_eq!(shelf.phys[0].monitors[0].value, 0x0000_0001);
    assert_eq!(shelf.phys[0].errors, [0xFFFF_FFFF, 0, 0, 0]);
}

#[test]
fn case_12_peak_reaches_its_threshold_once() {
    let mut shelf = shelf_w();
    assert_eq!(serve(&mut shelf, 1, &configure(0, 0, &[(0x2D, 10)])).unwrap(), OK_93);
    for (amount, expander1) in [(9, 0), (10, 1), (12, 1)] {
        assert_eq!(shelf.event(0, 0x2D, amount), Ok(false));
        assert_eq!((shelf.phys[0].expander1, shelf.phys[0].monitors[0].value), (expander1, amount));
    }
}

#[test]
fn case_13_buffer_length() {
    let mut out = [0; 1028];
    assert_eq!(shelf_w().serve(1, &[0x40, 0, 0, 0], &mut out[..1027]), Err(H5));
    assert_eq!(shelf_w().serve(1, &[0x40, 0, 0, 0], &mut out), Ok(36));
    assert_eq!(out[..20], [0x41, 0, 0, 8, 0, 1, 0, 0, 0, 4, 0, 0, 1, 2, 3, 4, 5, 6, 7, 8]);
}

#[test]
fn wrong_1_one_addition_for_monitors_and_error_counts() {
    let mut shelf = shelf_w();
    serve(&mut shelf, 1, &configure(0, 0, &[(0x04, 0), (0x04, 0), (0x03, 0)])).unwrap();
    for cut in [false, true] {
        assert_eq!(shelf.event(0, 0x04, 0xFFFF_FFFF), Ok(cut));
    }
    let values = shelf.phys[0].monitors.map(|monitor| monitor.value);
    assert_eq!(values, [0xFFFF_FFFE, 0xFFFF_FFFE, 0, 0]);
    assert_eq!(shelf.phys[0].errors, [0, 0, 0, 0xFFFF_FFFF]);
}

#[test]
fn wrong_2_broadcast_count_to_0000h() {
    let mut shelf = shelf_w();
    (shelf.ses0, shelf.expander3, shelf.changes) = (0xFFFF, 0xFFFF, 0xFFFF);
    shelf.phys[1].change0 = 0xFFFF;
    shelf.notice(true);
    shelf.notice(false);
    assert_eq!(serve(&mut shelf, 8, &control(1, 0x01)).unwrap(), OK_91);
    assert_eq!((shelf.ses0, shelf.expander3, shelf.changes), (1, 1, 1));
    let response = [0x41, 6, 0, 3, 0, 1, 0, 1, 1, 0, 0, 0, 0, 1, 0, 0];
    assert_eq!(serve(&mut shelf, 8, &[0x40, 6, 0, 0]).unwrap(), response);
}

#[test]
fn wrong_3_sources_before_reach() {
    let frame = configure(2, 0, &[(0x99, 0)]);
    assert_eq!(serve(&mut shelf_w(), 8, &frame).unwrap()[2], SMP_ZONE_VIOLATION);
    assert_eq!(serve(&mut shelf_w(), 9, &frame).unwrap()[2], UNKNOWN_PHY_EVENT_SOURCE);
    let five = configure(2, 0, &[(0x99, 0); 5]);
    assert_eq!(serve(&mut shelf_w(), 9, &five).unwrap()[2], SMP_FUNCTION_FAILED);
}

#[test]
fn wrong_4_two_good_descriptors_and_a_bad_one() {
    let mut shelf = shelf_w();
    let frame = configure(0, 1, &[(0x01, 1), (0x2D, 2), (0x07, 3)]);
    assert_eq!(serve(&mut shelf, 8, &frame).unwrap(), [0x41, 0x93, 0x17, 0x00]);
    assert_eq!(shelf, shelf_w());
}

#[test]
fn wrong_5_unreached_phys_in_06h() {
    let mut shelf = shelf_w();
    for phy in 0..4 {
        shelf.link_change(phy).unwrap();
    }
    let response = serve(&mut shelf, 9, &[0x40, 6, 0, 0]).unwrap();
    assert_eq!(response[3..8], [5, 0, 5, 0, 2]);
    assert_eq!((response[8], response[16], response.len()), (2, 3, 24));
}

/// #103: "H6 keeps the first meaning", and "H10, first byte not 40h, takes its turn directly after H6
/// and before any function result"
#[test]
fn a_cut_frame_is_told_from_a_wrong_one() {
    let mut shelf = shelf_w();
    // an unknown function, a wrong length, a read, and a clear on a phy that 8 reaches
    let clear = [0x93, 0, 2, 0, 0, 1, 0, 0, 0, 0, 0];
    let rests = [&[0x02, 0, 0], &[0x14, 0, 2], &[0x00, 0, 0], &clear[..]];
    for first in (0..=0xFF).filter(|&first| first != 0x40) {
        for size in 0..=3 {
            assert_eq!(serve(&mut shelf, 8, &[first, 0x02, 0][..size]), Err(H6));
        }
        for rest in rests {
            let frame = [&[first], rest].concat();
            assert_eq!(serve(&mut shelf, 8, &frame), Err(H10));
            let wrong = Some(Wrong::House(H10));
            assert_eq!(judge(&frame), Judgement { function: Some(rest[0]), wrong });
        }
    }
    let wrong = Some(Wrong::House(H6));
    assert_eq!(judge(&[0x41, 0x14, 0x16]), Judgement { function: None, wrong });
    let results = rests.map(|rest| judge(&[&[0x40], rest].concat()).wrong);
    let [unknown, length] = [0x01, 0x03].map(|result| Some(Wrong::Result(result)));
    assert_eq!(results, [unknown, length, None, None]);
    // H4, then H5, then H6 or H10
    let mut out = [0; 1028];
    assert_eq!(shelf.serve(32, &[0x41, 0, 0, 0], &mut out[..1027]), Err(H4));
    assert_eq!(shelf.serve(31, &[0x41, 0, 0, 0], &mut out[..1027]), Err(H5));
    assert_eq!(shelf.serve(31, &[0x41, 0, 0, 0], &mut out), Err(H10));
    assert_eq!((shelf, out), (shelf_w(), [0; 1028]));
}

#[test]
fn starts_are_refused_by_the_lowest_number() {
    let (mut groups, table, identifier) = parts();
    let mut bad = table;
    bad[2] |= 1 << 3;
    assert_eq!(Shelf::start(0, &[32; MOST_PHYS], &bad, &identifier), Err(H1));
    assert_eq!(Shelf::start(25, &groups, &table, &identifier), Err(H1));
    groups[4] = 32;
    assert_eq!(Shelf::start(4, &groups, &table, &identifier), Ok(shelf_w()));
    assert_eq!(Shelf::start(5, &groups, &bad, &identifier), Err(H2));
    assert_eq!(Shelf::start(4, &groups, &bad, &identifier), Err(H3));
}

#[test]
fn numbers_from_outside_are_not_cut() {
    let mut shelf = shelf_w();
    assert_eq!(serve(&mut shelf, 264, &[0x40, 0, 0, 0]), Err(H4));
    assert_eq!(shelf.event(0, 0x12D, 1), Err(H8));
    assert_eq!(shelf.event(256, 0x00, 1), Err(H7));
    assert_eq!(shelf.event(0, 0x2B, 0x100), Err(H9));
    assert_eq!(shelf.event(0, 0x2C, 0x1_0000), Err(H9));
    assert_eq!(shelf.link_change(4), Err(H7));
}

#[test]
fn a_shelf_that_no_start_made() {
    let mut shelf = shelf_w();
    shelf.number = 200;
    shelf.phys[5].group = 40;
    assert_eq!(shelf.reach(1), Ok((0x00FF_FFDF, 23)));
    assert_eq!(serve(&mut shelf, 1, &[0x40, 0, 0, 0]).unwrap()[9], 24);
    assert_eq!(shelf.link_change(24), Err(H7));
}

#[test]
fn clearing_comes_after_setting() {
    let mut shelf = shelf_w();
    serve(&mut shelf, 1, &configure(0, 0, &[(0x2D, 10), (0x2E, 5), (0x20, 0)])).unwrap();
    for source in [0x2D, 0x2E, 0x20] {
        shelf.event(0, source, 7).unwrap();
    }
    assert_eq!(serve(&mut shelf, 8, &configure(0, 1, &[(0x01, 0)])).unwrap(), OK_93);
    assert_eq!(shelf.phys[0].monitors.map(|monitor| monitor.value), [0, 0, 7, 0]);
    assert_eq!((shelf.phys[0].expander1, shelf.phys[0].expander2), (1, 1));
}

#[test]
fn most_descriptors() {
    let frame = configure(0, 0, &[(0x01, 0); 126]);
    assert_eq!(serve(&mut shelf_w(), 1, &frame).unwrap()[2], SMP_FUNCTION_FAILED);
    let mut frame = frame;
    (frame[3], frame[11]) = (0, 127);
    frame.extend([0; 8]);
    assert_eq!(serve(&mut shelf_w(), 1, &frame).unwrap()[2], INVALID_REQUEST_FRAME_LENGTH);
    let mut shelf = shelf_w();
    for phy in &mut shelf.phys {
        (phy.group, phy.expander1, phy.expander2) = (1, 1, 0xFFFF);
    }
    (shelf.number, shelf.expander3) = (24, 1);
    let response = serve(&mut shelf, 1, &[0x40, 6, 4, 0]).unwrap();
    assert_eq!((response.len(), response[3], response[7]), (400, 99, 49));
}

/// A 21h request with this start.
fn list(start: u16) -> [u8; 8] {
    let [high, low] = start.to_be_bytes();
    [0x40, 0x21, 0, 1, 0, 0, high, low]
}

/// What group 1 is sent: bytes 3, 6 to 9 and 11 (length, first index, last index, number) and the
/// descriptors, after looking at the rest.
fn listed(shelf: &mut Shelf, start: u16) -> (u8, u16, u16, u8, Vec<[u8; 12]>) {
    let response = serve(shelf, 1, &list(start)).unwrap();
    let (head, rest) = response.split_first_chunk::<12>().unwrap();
    let (descriptors, left) = rest.as_chunks::<12>();
    assert_eq!((head[0], head[1], head[2], head[10]), (0x41, 0x21, 0x00, 3));
    assert_eq!(head[4..6], shelf.changes.to_be_bytes());
    assert!(left.is_empty());
    let index = |at: usize| u16::from_be_bytes([head[at], head[at + 1]]);
    (head[3], index(6), index(8), head[11], descriptors.to_vec())
}

/// Takes monitor 0 of phy 0, on 2Dh with threshold 10, to its threshold and stores it: one entry
/// for each value. In between it is put on no source and back on 2Dh, which stores nothing.
fn cross(shelf: &mut Shelf, values: std::ops::Range<u32>) {
    for value in values {
        for source in [0x00, 0x2D] {
            serve(shelf, 8, &configure(0, 0, &[(source, 10)])).unwrap();
        }
        shelf.event(0, 0x2D, value).unwrap();
    }
}

/// The descriptor that `cross` stores for a value.
fn crossed(value: u8) -> [u8; 12] {
    [0, 0, 0, 0x2D, 0, 0, 0, value, 0, 0, 0, 10]
}

#[test]
fn list_of_an_empty_store() {
    for start in [0x0000, 0x0001, 0xFFFF] {
        let response = serve(&mut shelf_w(), 1, &list(start)).unwrap();
        assert_eq!(response, [0x41, 0x21, 0x00, 0x02, 0, 1, 0, 0, 0, 0, 3, 0]);
    }
}

#[test]
fn list_of_one_that_crossed() {
    let mut shelf = shelf_w();
    assert_eq!(serve(&mut shelf, 8, &configure(0, 0, &[(0x2D, 10)])).unwrap(), OK_93);
    for amount in [9, 10, 12] {
        shelf.event(0, 0x2D, amount).unwrap();
    }
    let response = [
        [0x41, 0x21, 0x00, 0x05, 0x00, 0x01, 0x00, 0x01, 0x00, 0x01, 3, 1],
        [0x00, 0x00, 0x00, 0x2D, 0x00, 0x00, 0x00, 0x0A, 0x00, 0x00, 0x00, 0x0A],
    ];
    assert_eq!(serve(&mut shelf, 1, &list(0x0001)).unwrap(), response.concat());
    assert_eq!(listed(&mut shelf, 0x0000), (2, 0x0000, 0x0001, 0, vec![]));
}

#[test]
fn list_is_for_group_1_alone() {
    let mut shelf = shelf_w();
    cross(&mut shelf, 10..11);
    for source in (0..32).filter(|&source| source != 1) {
        assert_eq!(serve(&mut shelf, source, &list(1)).unwrap(), [0x41, 0x21, 0x21, 0x00]);
    }
    assert_eq!(serve(&mut shelf, 32, &list(1)), Err(H4));
    let mut long = list(1).to_vec();
    long.extend([0; 4]);
    for length in [0x00, 0x02] {
        long[3] = length;
        for source in [1, 8] {
            for frame in [&long[..], &long[..8], &long[..4]] {
                assert_eq!(serve(&mut shelf, source, frame).unwrap(), [0x41, 0x21, 0x03, 0x00]);
            }
        }
    }
    for size in [4, 7] {
        assert_eq!(serve(&mut shelf, 8, &list(1)[..size]).unwrap(), [0x41, 0x21, 0x03, 0x00]);
    }
    long[3] = 0x01;
    for size in [9, 12] {
        for source in [1, 8] {
            let response = serve(&mut shelf, source, &long[..size]).unwrap();
            assert_eq!(response, [0x41, 0x21, 0x03, 0x00]);
        }
    }
}

/// "depends on nothing else": neither on an empty store nor on the start nor on the row.
#[test]
fn rights_are_by_the_number_alone() {
    for start in [0x0000, 0x0001] {
        assert_eq!(serve(&mut shelf_w(), 8, &list(start)).unwrap(), [0x41, 0x21, 0x21, 0x00]);
    }
    let mut shelf = shelf_w();
    (shelf.table[8], shelf.table[1]) = (0xFFFF_FFFF, 0x0000_0000);
    assert_eq!(serve(&mut shelf, 8, &list(1)).unwrap(), [0x41, 0x21, 0x21, 0x00]);
    assert_eq!(listed(&mut shelf, 1), (2, 0, 0, 0, vec![]));
}

#[test]
fn list_ignores_bytes_2_4_and_5() {
    let mut shelf = shelf_w();
    cross(&mut shelf, 10..11);
    let as_sent = serve(&mut shelf, 1, &list(1)).unwrap();
    assert_eq!(serve(&mut shelf, 1, &[0x40, 0x21, 0xFF, 1, 0xFF, 0xFF, 0, 1]).unwrap(), as_sent);
}

#[test]
fn several_cross_in_monitor_order() {
    let mut shelf = shelf_w();
    let watch = [(0x2E, 5), (0x01, 5), (0x2E, 300), (0x2E, 7)];
    serve(&mut shelf, 9, &configure(2, 0, &watch)).unwrap();
    shelf.event(2, 0x2E, 7).unwrap();
    let descriptors =
        vec![[0, 0, 2, 0x2E, 0, 0, 0, 7, 0, 0, 0, 5], [0, 0, 2, 0x2E, 0, 0, 0, 7, 0, 0, 0, 7]];
    assert_eq!(listed(&mut shelf, 1), (8, 1, 2, 2, descriptors));
    shelf.event(2, 0x2E, 300).unwrap();
    let third = vec![[0, 0, 2, 0x2E, 0, 0, 1, 44, 0, 0, 1, 44]];
    assert_eq!(listed(&mut shelf, 3), (5, 3, 3, 1, third));
}

#[test]
fn a_clear_stores_after_the_setting_and_before_the_zeros() {
    let mut shelf = shelf_w();
    let watch = [(0x2D, 100), (0x20, 0), (0x2E, 0), (0x2B, 50)];
    serve(&mut shelf, 8, &configure(1, 0, &watch)).unwrap();
    for source in [0x2D, 0x20, 0x2E, 0x2B] {
        shelf.event(1, source, 9).unwrap();
    }
    assert_eq!(listed(&mut shelf, 1), (2, 0, 0, 0, vec![]));
    // Monitor 0 goes to another peak source, monitor 1 to a peak source and monitor 2 to none.
    let frame = configure(1, 1, &[(0x2C, 4), (0x2D, 5), (0x06, 6)]);
    assert_eq!(serve(&mut shelf, 8, &frame).unwrap(), OK_93);
    let descriptors = vec![
        [0, 0, 1, 0x2C, 0, 0, 0, 0, 0, 0, 0, 4],
        [0, 0, 1, 0x2D, 0, 0, 0, 0, 0, 0, 0, 5],
        [0, 0, 1, 0x2B, 0, 0, 0, 9, 0, 0, 0, 50],
    ];
    assert_eq!(listed(&mut shelf, 1), (11, 1, 3, 3, descriptors));
    // What is stored does not follow later changes.
    serve(&mut shelf, 8, &configure(1, 0, &[(0x01, 1); 4])).unwrap();
    assert_eq!(listed(&mut shelf, 3).4, [[0, 0, 1, 0x2B, 0, 0, 0, 9, 0, 0, 0, 50]]);
}

#[test]
fn what_stores_nothing() {
    let mut shelf = shelf_w();
    serve(&mut shelf, 8, &configure(0, 1, &[(0x01, 1), (0x2D, 0)])).unwrap();
    let store = shelf.store;
    assert_eq!((store.last, store.count), (1, 1));
    shelf.event(0, 0x01, 5).unwrap();
    shelf.event(0, 0x2D, 5).unwrap();
    shelf.event(0, 0x2E, 5).unwrap();
    shelf.link_change(0).unwrap();
    shelf.notice(false);
    shelf.notice(true);
    serve(&mut shelf, 8, &control(0, 0x05)).unwrap();
    serve(&mut shelf, 8, &configure(1, 1, &[])).unwrap();
    assert_eq!(serve(&mut shelf, 9, &configure(0, 1, &[])).unwrap()[2], SMP_ZONE_VIOLATION);
    let five = configure(0, 1, &[(0x2D, 0); 5]);
    assert_eq!(serve(&mut shelf, 8, &five).unwrap()[2], SMP_FUNCTION_FAILED);
    let unknown = configure(0, 1, &[(0x2D, 0), (0x07, 0)]);
    assert_eq!(serve(&mut shelf, 8, &unknown).unwrap()[2], UNKNOWN_PHY_EVENT_SOURCE);
    let mut late = configure(0, 1, &[]);
    late[5] = 9;
    assert_eq!(serve(&mut shelf, 8, &late).unwrap()[2], INVALID_EXPANDER_CHANGE_COUNT);
    assert_eq!(serve(&mut shelf, 32, &configure(0, 1, &[])), Err(H4));
    // A threshold under a standing peak, and a report that H9 refuses.
    serve(&mut shelf, 8, &configure(0, 0, &[(0x2B, 10), (0x2D, 5)])).unwrap();
    assert_eq!(shelf.phys[0].monitors[1], Monitor { source: 0x2D, value: 5, threshold: 5 });
    assert_eq!(shelf.event(0, 0x2B, 0x100), Err(H9));
    shelf.event(0, 0x2D, 6).unwrap();
    assert_eq!(shelf.store, store);
}

#[test]
fn a_full_store_forgets_the_oldest() {
    let mut shelf = shelf_w();
    cross(&mut shelf, 10..42);
    assert_eq!((shelf.store.last, shelf.store.count), (32, 32));
    let (length, first, last, number, descriptors) = listed(&mut shelf, 1);
    assert_eq!((length, first, last, number), (98, 1, 32, 32));
    assert_eq!(descriptors, (10..42).map(crossed).collect::<Vec<_>>());
    cross(&mut shelf, 42..43);
    assert_eq!((shelf.store.last, shelf.store.count), (33, 33));
    // 0001h is no longer stored: the lowest above it.
    let whole = (98, 2, 33, 32, (11..43).map(crossed).collect::<Vec<_>>());
    assert_eq!(listed(&mut shelf, 0x0001), whole);
    // None is above: the lowest.
    assert_eq!(listed(&mut shelf, 0x0022), whole);
    assert_eq!(listed(&mut shelf, 0xFFFF), whole);
    assert_eq!(listed(&mut shelf, 0x0000), (2, 0, 33, 0, vec![]));
    assert_eq!(listed(&mut shelf, 0x0021), (5, 33, 33, 1, vec![crossed(42)]));
    assert_eq!(listed(&mut shelf, 0x0020), (8, 32, 33, 2, vec![crossed(41), crossed(42)]));
    cross(&mut shelf, 43..74);
    assert_eq!((shelf.store.last, shelf.store.count), (64, 32));
    assert_eq!(listed(&mut shelf, 1).1, 33);
}

#[test]
fn indexes_go_from_ffffh_to_0001h() {
    let mut shelf = shelf_w();
    (shelf.store.last, shelf.store.count) = (0xFFFE, 62);
    cross(&mut shelf, 10..13);
    assert_eq!((shelf.store.last, shelf.store.count), (0x0002, 33));
    let three = vec![crossed(10), crossed(11), crossed(12)];
    assert_eq!(listed(&mut shelf, 0xFFFF), (11, 0xFFFF, 2, 3, three));
    assert_eq!(listed(&mut shelf, 0x0001), (8, 1, 2, 2, vec![crossed(11), crossed(12)]));
    assert_eq!(listed(&mut shelf, 0x0002), (5, 2, 2, 1, vec![crossed(12)]));
    // 30 indexes up to FFFFh, 0001h and 0002h. What is not stored gives the lowest above it, which
    // is the oldest.
    for start in [0x0003, 0xFFE1, 0xFFE2] {
        let (length, first, last, number, descriptors) = listed(&mut shelf, start);
        assert_eq!((length, first, last, number), (98, 0xFFE2, 2, 32));
        assert_eq!(descriptors[29..], [crossed(10), crossed(11), crossed(12)]);
    }
}

#[test]
fn a_store_that_no_start_made() {
    let mut shelf = shelf_w();
    (shelf.store.last, shelf.store.count) = (0, 40);
    assert_eq!(listed(&mut shelf, 1), (2, 0, 0, 0, vec![]));
    cross(&mut shelf, 10..11);
    assert_eq!((shelf.store.last, shelf.store.count), (1, 41));
    assert_eq!(listed(&mut shelf, 1), (5, 1, 1, 1, vec![crossed(10)]));
    // The 31 before it, which nobody stored, have FFE1h to FFFFh.
    assert_eq!(listed(&mut shelf, 2).1, 0xFFE1);
    (shelf.store.last, shelf.store.count) = (5, 0);
    assert_eq!(listed(&mut shelf, 5), (2, 0, 5, 0, vec![]));
    shelf.store.count = u32::MAX;
    cross(&mut shelf, 11..12);
    assert_eq!((shelf.store.last, shelf.store.count), (6, 32));
    assert_eq!(shelf.store.entries[31].monitor.value, 11);
}

#[test]
fn a_start_empties_the_store() {
    let (groups, table, identifier) = parts();
    assert_eq!(Shelf::start(4, &groups, &table, &identifier).unwrap().store, Store::EMPTY);
}

/// #104, with the error count at `count` before.
fn cut(count: u32, source: u32, amount: u32) -> Result<bool, u32> {
    let mut shelf = shelf_w();
    shelf.phys[0].errors = [count; 4];
    let answer = shelf.event(0, source, amount);
    if let 0x01..=0x04 = source {
        let sum = u64::from(count) + u64::from(amount);
        assert_eq!(u64::from(shelf.phys[0].errors[source as usize - 1]), sum.min(0xFFFF_FFFF));
    }
    answer
}

#[test]
fn a_report_says_whether_its_own_addition_was_cut() {
    const FULL: u32 = 0xFFFF_FFFF;
    for source in 0x01..=0x04 {
        // "FFFFFFFFh plus 0 is not cut, and a sum of exactly FFFFFFFFh is not."
        for (count, amount) in [(0, 0), (0, FULL), (FULL, 0), (FULL - 1, 1), (1, FULL - 1)] {
            assert_eq!(cut(count, source, amount), Ok(false));
        }
        for (count, amount) in [(FULL, 1), (1, FULL), (FULL - 1, 2), (FULL, FULL)] {
            assert_eq!(cut(count, source, amount), Ok(true));
        }
    }
    // "the answer is 'no' for every source but 01h to 04h"
    for source in [0x05, 0x06, 0x20, 0x2A, 0x2D, 0x2E, 0x40, 0x45] {
        assert_eq!(cut(FULL, source, FULL), Ok(false));
    }
    // "A refused report has no such answer."
    assert_eq!(cut(FULL, 0x07, FULL), Err(H8));
    assert_eq!(cut(FULL, 0x101, FULL), Err(H8));
    assert_eq!(cut(FULL, 0x2B, FULL), Err(H9));
}

#[test]
fn a_monitor_that_wraps_is_not_cut() {
    let mut shelf = shelf_w();
    serve(&mut shelf, 1, &configure(0, 0, &[(0x05, 0), (0x02, 0)])).unwrap();
    assert_eq!(shelf.event(0, 0x05, 0xFFFF_FFFF), Ok(false));
    assert_eq!(shelf.event(0, 0x05, 0xFFFF_FFFF), Ok(false));
    assert_eq!(shelf.event(0, 0x02, 0xFFFF_FFFF), Ok(false));
    // 91h with 05h: the error counts go to 0, the monitor stays, and then wraps alone.
    serve(&mut shelf, 1, &control(0, 0x05)).unwrap();
    assert_eq!(shelf.event(0, 0x02, 1), Ok(false));
    assert_eq!((shelf.phys[0].errors[1], shelf.phys[0].monitors[1].value), (1, 0));
    assert_eq!(shelf.phys[0].monitors[0].value, 0xFFFF_FFFE);
}
