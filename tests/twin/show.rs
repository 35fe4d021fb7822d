//! Operations, answers and places as readable lines.

use crate::operations::{Fill, Operation};
use crate::pair::{Difference, Place};
use crate::words::{ShelfWords, ENTRY_WORDS, FIRST_ENTRY, FIRST_PHY, PHY_WORDS, STORE};

/// The name of a word of the shelf, as in the header.
pub fn word_name(at: usize) -> String {
    match at {
        0 => "number".into(),
        1 => "changes".into(),
        2 => "expander3".into(),
        3 => "ses0".into(),
        4..=11 => format!("identifier[{}]", at - 4),
        12..FIRST_PHY => format!("table[{}]", at - 12),
        FIRST_PHY..STORE => {
            let (phy, word) = ((at - FIRST_PHY) / PHY_WORDS, (at - FIRST_PHY) % PHY_WORDS);
            format!("phys[{phy}].{}", phy_word_name(word))
        }
        STORE => "last".into(),
        STORE..FIRST_ENTRY => "count".into(),
        _ => {
            let (entry, word) =
                ((at - FIRST_ENTRY) / ENTRY_WORDS, (at - FIRST_ENTRY) % ENTRY_WORDS);
            let part = ["phy", "monitor.source", "monitor.value", "monitor.threshold"][word];
            format!("entries[{entry}].{part}")
        }
    }
}

fn phy_word_name(word: usize) -> String {
    match word {
        0 => "group".into(),
        1 => "enabled".into(),
        2..=5 => format!("errors[{}]", word - 2),
        6..=17 => {
            let part = ["source", "value", "threshold"][(word - 6) % 3];
            format!("monitors[{}].{part}", (word - 6) / 3)
        }
        18 => "change0".into(),
        19 => "expander1".into(),
        _ => "expander2".into(),
    }
}

/// Bytes in hex; a run of sixteen zeros or more is written short.
fn hex(bytes: &[u8]) -> String {
    let mut text = String::new();
    let mut at = 0;
    while at < bytes.len() {
        let zeros = bytes[at..].iter().take_while(|&&byte| byte == 0).count();
        if zeros >= 16 {
            text += &format!(" 00*{zeros}");
            at += zeros;
        } else {
            text += &format!(" {:02X}", bytes[at]);
            at += 1;
        }
    }
    if text.is_empty() {
        " (empty)".into()
    } else {
        text
    }
}

/// The words that are not 0, as `name=value`.
fn numbers(words: &[u32]) -> String {
    let set = words.iter().enumerate().filter(|(_, &word)| word != 0);
    set.map(|(i, word)| format!(" [{i}]={word:X}h")).collect()
}

pub fn state(words: &ShelfWords) -> String {
    let set = words.words().iter().enumerate().filter(|(_, &word)| word != 0);
    let text: String = set.map(|(i, word)| format!(" {}={word:X}h", word_name(i))).collect();
    if text.is_empty() {
        "all words 0".into()
    } else {
        format!("all words 0 but{text}")
    }
}

pub fn operation(operation: &Operation) -> String {
    match operation {
        Operation::Start(start) => format!(
            "start, phy number {}, groups 0 but{}, table 0 but{}, identifier{}",
            start.number,
            numbers(&start.groups),
            numbers(&start.table),
            hex(&start.identifier)
        ),
        Operation::Serve { source, frame, room, fill } => {
            let fill = match fill {
                Fill::Byte(byte) => format!("{byte:02X}h"),
                Fill::Pool(at) => format!("the pool from {at:04X}h"),
            };
            let size = frame.len();
            format!("request from {source}, {size} bytes{}, buffer {room} of {fill}", hex(frame))
        }
        Operation::Event { phy, source, amount } => {
            format!("event on phy {phy}, source {source:02X}h, amount {amount:X}h")
        }
        Operation::LinkChange { phy } => format!("link change on phy {phy}"),
        Operation::Notice { ses: true } => "notice, SES".into(),
        Operation::Notice { ses: false } => "notice, reduced functionality".into(),
        Operation::Reach { source } => format!("reach of {source}"),
    }
}

/// An answer of the operation, as both sides tell it.
pub fn answer(operation: &Operation, told: u32) -> String {
    if told >> 31 == 1 {
        return format!("H{} ({told:08X}h)", told & 0x7FFF_FFFF);
    }
    match operation {
        Operation::Serve { .. } => format!("response of {told} bytes"),
        Operation::Reach { .. } => format!("set {:06X}h, {}", told & 0xFF_FFFF, told >> 24),
        Operation::Event { .. } if told == 1 => "counted, and cut (1)".to_string(),
        _ => format!("done ({told})"),
    }
}

pub fn difference(last: &Operation, difference: &Difference) -> String {
    let Difference { host, twin, place } = *difference;
    let answers = format!("server: {}; twin: {}", answer(last, host), answer(last, twin));
    let place = match place {
        Place::Answer => "the answers differ".into(),
        Place::Judge { host, twin } => {
            format!("the frame judge: server {host:08X}h, twin {twin:08X}h")
        }
        Place::Buffer { at, host, twin } => {
            format!("buffer byte {at}: server {host:02X}h, twin {twin:02X}h")
        }
        Place::Word { at, host, twin } => {
            format!("{}: server {host:08X}h, twin {twin:08X}h", word_name(at))
        }
        Place::OutsideShelf => "the server wrote outside the shelf".into(),
    };
    format!("{answers}; first difference: {place}")
}
