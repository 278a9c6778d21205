//! The reference's own functions, asked by case lines on standard input, or timed over a recording. ../../README.md describes both.

mod cases;
mod lent;
mod listing;
mod messages;
mod placed;
mod rdh0;
mod reading;
mod scan;
mod seen;
mod timing;
mod validator;

use std::process::exit;

const USAGE: &str = "usage:
    driver                                        answers the cases on standard input
    driver rdh0                                   answers the words of eight bytes on standard input
    driver list FILE                              writes the listing of a recording
    driver time-load FILE SKIP STATS BUFFER TIMES times the loads over a recording
    driver time-list FILE BUFFER TIMES            times the listing, written to /dev/null";

fn main() {
    let words: Vec<String> = std::env::args().skip(1).collect();
    let words: Vec<&str> = words.iter().map(String::as_str).collect();
    let done = match words[..] {
        [] => cases::answer_all(),
        ["rdh0"] => rdh0::answer_all(),
        ["list", file] => listing::to_stdout(file),
        ["time-load", file, skip, stats, buffer, times] => timing::loads(file, skip == "1", stats == "1", number(buffer), number(times)),
        ["time-list", file, buffer, times] => timing::listing(file, number(buffer), number(times)),
        _ => fail(USAGE),
    };
    if let Err(e) = done {
        fail(&e.to_string());
    }
}

fn number(word: &str) -> usize {
    word.parse().unwrap_or_else(|_| fail(USAGE))
}

/// Says why on standard error and ends the program.
fn fail(why: &str) -> ! {
    eprintln!("{why}");
    exit(2)
}
