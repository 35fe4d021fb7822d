//! Runs the server, over its C interface, and the twin side by side with random operations from a
//! fixed seed, and compares everything after each: the answer, the whole lent buffer, and all 678
//! words of the shelf. On a difference it prints the shortest failing sequence that it can find.
//!
//! `drive [--ops N] [--seed S]`

extern crate twin;

mod host;
mod operations;
mod pair;
mod random;
mod show;
mod shrink;
mod states;
mod tally;
mod told;
mod words;

use std::process::ExitCode;
use std::time::Instant;

use operations::Operation;
use pair::{Difference, Pair};
use random::Random;
use shrink::{Episode, Shrinker};
use states::Start;
use tally::Tally;
use words::ShelfWords;

struct Options {
    operations: u64,
    seed: u64,
}

fn options() -> Result<Options, String> {
    let mut options = Options { operations: 3_000_000, seed: 1 };
    let mut words = std::env::args().skip(1);
    while let Some(word) = words.next() {
        let number = words.next().and_then(|number| number.parse().ok());
        let number = number.ok_or_else(|| format!("{word} takes a number"))?;
        match word.as_str() {
            "--ops" => options.operations = number,
            "--seed" => options.seed = number,
            _ => return Err(format!("unknown option {word}; drive [--ops N] [--seed S]")),
        }
    }
    Ok(options)
}

/// Runs one episode, at most `most` operations of it. Gives how many it had, or what differed.
fn episode(
    random: &mut Random,
    pair: &mut Pair,
    tally: &mut Tally,
    most: u64,
) -> Result<u64, Box<(Episode, Difference)>> {
    let state = states::words(random);
    let mut operations = Vec::with_capacity(400);
    pair.load(&state);
    let length = (50 + u64::from(random.below(350))).min(most);
    let begin_with_start = random.chance(50);
    while (operations.len() as u64) < length {
        let operation = if operations.is_empty() && begin_with_start {
            Operation::Start(Box::new(states::start(random)))
        } else {
            operations::operation(random, &pair.twin)
        };
        let before = pair.twin;
        let told = pair.step(&operation);
        operations.push(operation);
        match told {
            Ok(told) => {
                let operation = &operations[operations.len() - 1];
                tally.note(operation, told, &before, &pair.twin, &pair.twin_out);
            }
            Err(difference) => return Err(Box::new((Episode { state, operations }, difference))),
        }
    }
    Ok(length)
}

/// From a start, clears of four peaks each until the indexes have gone from FFFFh to 0001h, with no
/// words but those that the start and the clears made; in between the desk reads from before,
/// within and behind what is stored. Gives how many operations it had, or what differed.
fn once_round(
    random: &mut Random,
    pair: &mut Pair,
    tally: &mut Tally,
) -> Result<u64, Box<(Episode, Difference)>> {
    let state = ShelfWords::ZERO;
    let mut operations: Vec<Operation> = Vec::new();
    pair.load(&state);
    let mut table = [0x2; 32];
    table[1] = u32::MAX;
    let start = Start { number: 24, groups: [1; 24], table, identifier: [0; 8] };
    let mut next = Operation::Start(Box::new(start));
    let mut stored: u32 = 0;
    while stored <= 0x1_0020 {
        let before = pair.twin;
        let told = pair.step(&next);
        operations.push(next);
        let told = match told {
            Ok(told) => told,
            Err(difference) => return Err(Box::new((Episode { state, operations }, difference))),
        };
        let last = &operations[operations.len() - 1];
        tally.note(last, told, &before, &pair.twin, &pair.twin_out);
        let serve = |frame: Vec<u8>| {
            let fill = operations::Fill::Byte(0xEE);
            Operation::Serve { source: 1, frame, room: twin::ROOM, fill }
        };
        next = if operations.len() % 4 == 0 {
            let back = random.below(40) as u16;
            let [high, low] = pair.twin.store.last.wrapping_add(3).wrapping_sub(back).to_be_bytes();
            serve(vec![0x40, 0x21, 0, 1, 0, 0, high, low])
        } else {
            stored += 4;
            let mut frame = vec![0x40, 0x93, 0, 10, 0, 0, 1, 0, 0, random.below(24) as u8, 0, 4];
            for _ in 0..4 {
                frame.extend([0, 0, 0, states::peak_source(random)]);
                frame.extend(random.number().to_be_bytes());
            }
            serve(frame)
        };
    }
    Ok(operations.len() as u64)
}

/// Prints the shortest sequence that still differs.
fn report(
    options: &Options,
    number: u64,
    mut episode: Episode,
    first: Difference,
    pair: &mut Pair,
) {
    let mut shrinker = Shrinker::new(pair);
    shrinker.shrink(&mut episode);
    let difference = shrinker.run(&episode).map_or(first, |(_, difference)| difference);
    let length = episode.operations.len();
    println!("twin: seed {}, operation {number}: the server and the twin differ", options.seed);
    let plural = if length == 1 { "" } else { "s" };
    let state = show::state(&episode.state);
    println!("twin: shortest sequence found: {length} operation{plural}, on {state}");
    for (i, operation) in episode.operations.iter().enumerate() {
        println!("twin:   {}. {}", i + 1, show::operation(operation));
    }
    if let Some(last) = episode.operations.last() {
        println!("twin: {}", show::difference(last, &difference));
    }
}

/// The summary; whether nothing was missing.
fn summary(options: &Options, tally: &Tally) -> bool {
    let Options { operations, seed } = options;
    for line in tally.lines() {
        println!("twin: {line}");
    }
    let missing = tally.missing();
    if *operations >= tally::ENOUGH && !missing.is_empty() {
        println!(
            "twin: {operations} operations, seed {seed}, never occurred: {}",
            missing.join("; ")
        );
        return false;
    }
    println!("twin: {operations} operations, seed {seed}, no difference");
    true
}

fn main() -> ExitCode {
    let options = match options() {
        Ok(options) => options,
        Err(error) => {
            eprintln!("twin: {error}");
            return ExitCode::from(2);
        }
    };
    let mut random = Random::new(options.seed);
    let mut pair = Pair::new();
    let mut tally = Tally::new();
    let mut done = 0;
    let mut shown = Instant::now();
    while done < options.operations {
        match episode(&mut random, &mut pair, &mut tally, options.operations - done) {
            Ok(more) => done += more,
            Err(found) => {
                let (episode, difference) = *found;
                let number = done + episode.operations.len() as u64;
                report(&options, number, episode, difference, &mut pair);
                return ExitCode::FAILURE;
            }
        }
        if shown.elapsed().as_secs() >= 1 {
            eprintln!("twin: {done} of {} operations", options.operations);
            shown = Instant::now();
        }
    }
    match once_round(&mut random, &mut pair, &mut Tally::new()) {
        Ok(more) => println!("twin: once round from a start: {more} operations, no difference"),
        Err(found) => {
            let (episode, difference) = *found;
            let number = done + episode.operations.len() as u64;
            report(&options, number, episode, difference, &mut pair);
            return ExitCode::FAILURE;
        }
    }
    if summary(&options, &tally) {
        ExitCode::SUCCESS
    } else {
        ExitCode::FAILURE
    }
}
