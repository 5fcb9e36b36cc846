//! The reference: sends the blocks and streams of GSM 05.03 by the plainest reading of its
//! formulas, and receives them by the fewest disagreements. Its answers are laid beside those of
//! the kit and of the access sheet, line by line.
//!
//! reference answer                     reads kit lines, prints the answers
//! reference sheet                      reads access sheet lines, prints the answers
//! reference examples                   prints the values of the table of examples, a row a line
//! reference make-lines SEED COUNT      prints COUNT kit lines that send
//! reference make-received SEED COUNT   prints COUNT kit lines that receive
//! reference make-views SEED COUNT      prints COUNT kit lines for the trellis view
//! reference make-lessons SEED COUNT    prints COUNT kit lines of lessons, each on fresh streams
//! reference make-stream SEED BLOCKS    prints the kit lines of one stream of BLOCKS blocks
//! reference make-lend SEED COUNT       prints COUNT kit lines, most of which lend a buffer
//! reference make-help SEED COUNT       prints COUNT kit lines, most of which ask for help
//! reference make-totals SEED COUNT     prints COUNT kit lines, many of which ask for the totals
//! reference make-ties SEED COUNT       prints COUNT kit lines of lessons in which most blocks tie
//! reference make-missing SEED COUNT    prints COUNT kit lines of lessons in which bits are missing
//! reference make-bursts SEED COUNT     prints COUNT kit lines of lessons in which bursts are missing
//! reference make-efr SEED COUNT        prints COUNT kit lines of enhanced full rate
//! reference make-whose SEED COUNT      prints COUNT kit lines, most of which ask whose a burst was
//! reference make-marks SEED COUNT      prints COUNT kit lines, most of which mark a decoder's block
//! reference make-hub SEED COUNT        prints COUNT kit lines of classes that come to a hub
//! reference make-windows SEED COUNT    prints COUNT kit lines as a text from Windows has them
//! reference make-full SEED             prints the kit lines of one stream of 16,383 blocks
//! reference make-sheet SEED COUNT      prints COUNT access sheet lines
//!
//! The usage names these. One more is known, which it does not name yet:
//!
//! reference make-frames SEED COUNT     prints COUNT kit lines, most of which write or read frames
//!
//! What the papers define stands in model/, what chance gives in chance/, what makes lines in
//! makers/. A channel is a row of the table in model/channel.rs, and its formulas stand in
//! model/coding.rs and model/receiving.rs, those of enhanced full rate in model/efr.rs; a frame is
//! the printed table in model/frame.rs; a refusal is a row of model/refusal.rs, a verb a row in
//! kit.rs, an example a row in examples.rs, a mode that makes lines a row of makers/mod.rs. What is
//! said of a verb or of a refusal is a row of README; of frames nothing is said yet.

// Loops keep the index k of the standard, so that each reads like its formula.
#![allow(clippy::needless_range_loop, clippy::manual_memcpy)]

mod chance;
mod examples;
mod handbook;
mod kit;
mod makers;
mod model;
mod page;
mod sheet;
mod text;

use crate::kit::Kit;
use crate::makers::{Maker, FRAMES, MAKERS};
use std::io::{Read, Result, Write};
use std::process::ExitCode;

/// What the command line asks for.
enum Task {
    Answer,
    Sheet,
    Examples,
    /// The seed and the count of lines to be made.
    Make(&'static Maker, u64, usize),
}

/// The command lines that are known, but that of frames.
fn usage() -> String {
    let making = |maker: &Maker| format!(" | {} {}", maker.mode, maker.numbers);
    let makers: String = MAKERS.iter().map(making).collect();
    format!("usage: reference answer | sheet | examples{}", makers)
}

/// The task that the arguments name; nothing if they name none.
fn task(arguments: &[String]) -> Option<Task> {
    let words: Vec<&str> = arguments.iter().map(|word| word.as_str()).collect();
    match words.as_slice() {
        ["answer"] => Some(Task::Answer),
        ["sheet"] => Some(Task::Sheet),
        ["examples"] => Some(Task::Examples),
        [mode, numbers @ ..] => making(mode, numbers),
        [] => None,
    }
}

/// The task of making lines; nothing if the mode or its numbers are none.
fn making(mode: &str, numbers: &[&str]) -> Option<Task> {
    let mut makers = MAKERS.iter().chain([&FRAMES]);
    let maker = makers.find(|maker| maker.mode == mode)?;
    if numbers.len() != maker.numbers.split(' ').count() {
        return None;
    }
    let (seed, count) = match numbers {
        [seed] => (seed.parse().ok()?, 0),
        [seed, count] => (seed.parse().ok()?, count.parse().ok()?),
        _ => return None,
    };
    Some(Task::Make(maker, seed, count))
}

/// All of standard input, any bytes.
fn standard_input() -> Result<Vec<u8>> {
    let mut input = Vec::new();
    std::io::stdin().read_to_end(&mut input)?;
    Ok(input)
}

/// Does the task and prints what comes of it.
fn run(task: Task) -> Result<()> {
    let output = match task {
        Task::Answer => {
            let mut kit = Kit::fresh();
            page::answers_to_text(&standard_input()?, |line| kit.answer(line))
        }
        Task::Sheet => page::answers(&standard_input()?, sheet::answer),
        Task::Examples => page::of_lines(&examples::lines()),
        Task::Make(maker, seed, count) => maker.page(seed, count),
    };
    let mut paper = std::io::stdout();
    paper.write_all(&output)?;
    // A last line without its newline would wait otherwise.
    paper.flush()
}

fn main() -> ExitCode {
    let arguments: Vec<String> = std::env::args().skip(1).collect();
    let done = match task(&arguments) {
        Some(task) => run(task).map_err(|error| error.to_string()),
        None => Err(usage()),
    };
    match done {
        Ok(()) => ExitCode::SUCCESS,
        Err(words) => {
            eprintln!("{}", words);
            ExitCode::FAILURE
        }
    }
}

#[cfg(test)]
mod tests {
    use super::*;

    /// The task that a command line, written with single spaces, names.
    fn task_of(command: &str) -> Option<Task> {
        let arguments: Vec<String> = command.split(' ').map(String::from).collect();
        task(&arguments)
    }

    /// The command line makes lines with this maker, this seed and this count.
    fn makes(command: &str, mode: &str, seed: u64, count: usize) {
        match task_of(command) {
            Some(Task::Make(maker, found_seed, found_count)) => {
                let found = (maker.mode, found_seed, found_count);
                assert_eq!(found, (mode, seed, count), "{}", command);
            }
            _ => panic!("{}", command),
        }
    }

    #[test]
    fn the_twenty_one_commands_are_known() {
        assert!(matches!(task_of("answer"), Some(Task::Answer)));
        assert!(matches!(task_of("sheet"), Some(Task::Sheet)));
        assert!(matches!(task_of("examples"), Some(Task::Examples)));
        makes("make-lines 7 100", "make-lines", 7, 100);
        makes("make-received 9 300", "make-received", 9, 300);
        makes("make-views 6 400", "make-views", 6, 400);
        makes("make-lessons 5 500", "make-lessons", 5, 500);
        makes("make-stream 4 600", "make-stream", 4, 600);
        makes("make-lend 2 700", "make-lend", 2, 700);
        makes("make-help 1 800", "make-help", 1, 800);
        makes("make-totals 10 1000", "make-totals", 10, 1000);
        makes("make-ties 11 1100", "make-ties", 11, 1100);
        makes("make-missing 12 1200", "make-missing", 12, 1200);
        makes("make-efr 13 1300", "make-efr", 13, 1300);
        makes("make-whose 14 1400", "make-whose", 14, 1400);
        makes("make-marks 15 1500", "make-marks", 15, 1500);
        makes("make-bursts 7 20", "make-bursts", 7, 20);
        makes("make-hub 16 1600", "make-hub", 16, 1600);
        makes("make-windows 0 900", "make-windows", 0, 900);
        makes("make-full 3", "make-full", 3, 0);
        makes("make-sheet 8 200", "make-sheet", 8, 200);
    }

    #[test]
    fn the_usage_names_them() {
        let words = "usage: reference answer | sheet | examples | make-lines SEED COUNT | \
            make-received SEED COUNT | make-views SEED COUNT | make-lessons SEED COUNT | \
            make-stream SEED BLOCKS | make-lend SEED COUNT | make-help SEED COUNT | \
            make-totals SEED COUNT | make-ties SEED COUNT | make-missing SEED COUNT | \
            make-bursts SEED COUNT | make-efr SEED COUNT | make-whose SEED COUNT | \
            make-marks SEED COUNT | make-hub SEED COUNT | make-windows SEED COUNT | \
            make-full SEED | make-sheet SEED COUNT";
        assert_eq!(usage(), words);
    }

    #[test]
    fn the_command_of_frames_is_known_and_the_usage_does_not_name_it_yet() {
        makes("make-frames 17 1700", "make-frames", 17, 1700);
        assert!(!usage().contains("make-frames"));
    }

    #[test]
    fn other_commands_are_not() {
        for command in [
            "",
            "answer 1",
            "examples 1",
            "make-lines",
            "make-lines 7",
            "make-lines x 5",
            "make-sheet 7 -1",
            "make-view 7 1",
            "make-received 7 1 1",
            "make-lessons 7",
            "make-stream 7",
            "make-stream 7 x",
            "make-help",
            "make-help 7",
            "make-totals",
            "make-totals 7",
            "make-total 7 1",
            "totals",
            "make-ties",
            "make-ties 7",
            "make-tie 7 1",
            "make-missing",
            "make-missing 7",
            "make-missed 7 1",
            "make-efr",
            "make-efr 7",
            "make-efr? 7 1",
            "efr",
            "make-whose",
            "make-whose 7",
            "make-who 7 1",
            "whose",
            "make-marks",
            "make-marks 7",
            "make-mark 7 1",
            "mark",
            "make-hub",
            "make-hub 7",
            "make-hubs 7 1",
            "hub",
            "make-frames",
            "make-frames 7",
            "make-frame 7 1",
            "frame",
            "frame?",
            "make-windows 7 x",
            "make-window 7 1",
            "help",
            "make-full",
            "make-full x",
            "make-full 7 1",
        ] {
            assert!(task_of(command).is_none(), "{}", command);
        }
    }
}
