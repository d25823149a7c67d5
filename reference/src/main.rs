//! The independent second program: replays, captures, what to run them on, and timing.

mod aes;
mod capture;
mod client;
mod compare;
mod comparisons;
mod generate;
mod listener;
mod packet;
mod pcap;
mod script;
mod summary;
mod timing;
mod wire;

#[cfg(test)]
mod capture_tests;
#[cfg(test)]
mod compare_tests;
#[cfg(test)]
mod tests;

use std::io::{self, Write};
use std::process::ExitCode;

use comparisons::Comparisons;
use summary::{Side, Summary};

const USAGE: &str = "usage: reference listener|client < SCRIPT
       reference capture SETUP CAPTURE [OUT]
       reference compare SETUP CAPTURE CAPTURE [ENTRIES]
       reference generate listener|client SEED CALLS
       reference generate setup SEED
       reference generate capture|capture-last SEED RECORDS
       reference generate compare-setup|compare-unusable|compare-entries SEED
       reference generate compare-first|compare-second SEED [RECORDS]
       reference timing WORK COUNT LIVE PAYLOAD
       reference summary listener|client|capture|compare < ANSWERS";

/// How many records captures to be compared have where nothing is said of it.
const PAIR_RECORDS: usize = 300;

fn main() -> ExitCode {
    let words: Vec<String> = std::env::args().skip(1).collect();
    let words: Vec<&str> = words.iter().map(String::as_str).collect();
    match command(&words) {
        Some(Ok(())) => ExitCode::SUCCESS,
        // Whoever read the answers has gone; there is nobody left to tell.
        Some(Err(e)) if e.kind() == io::ErrorKind::BrokenPipe => ExitCode::SUCCESS,
        Some(Err(e)) => {
            eprintln!("reference: {e}");
            ExitCode::FAILURE
        }
        None => {
            eprintln!("{USAGE}");
            ExitCode::from(2)
        }
    }
}

fn command(words: &[&str]) -> Option<io::Result<()>> {
    let (input, mut output) = (io::stdin().lock(), io::stdout().lock());
    match words {
        ["listener"] => Some(script::run(&mut script::ListenerSession::new(), input, output)),
        ["client"] => Some(script::run(&mut script::ClientSession::new(), input, output)),
        ["capture", setup, capture] => Some(capture::run([setup, capture], None, input, output)),
        ["capture", setup, capture, out] => Some(capture::run([setup, capture], Some(out), input, output)),
        ["compare", _, "-", "-", ..] => None,
        ["compare", setup, first, second] => {
            Some(compare::run([setup, first, second], compare::MOST_ENTRIES, input, output))
        }
        ["compare", setup, first, second, entries] => {
            Some(compare::run([setup, first, second], compare::room(entries)?, input, output))
        }
        ["generate", what, seed] => {
            let seed = seed.parse().ok()?;
            let made = match *what {
                "setup" => generate::setup(seed),
                "compare-setup" => generate::pair_setup(seed),
                "compare-unusable" => generate::unusable_setup(seed),
                "compare-entries" => {
                    generate::room(seed).map_or(String::new(), |word| word + "\n").into_bytes()
                }
                "compare-first" | "compare-second" => generated(what, seed, PAIR_RECORDS)?,
                _ => return None,
            };
            Some(print(&made, output))
        }
        ["generate", what, seed, count] => {
            let made = generated(what, seed.parse().ok()?, count.parse().ok()?)?;
            Some(print(&made, output))
        }
        ["timing", work, count, live, payload] => {
            let (count, live) = (count.parse().ok()?, live.parse().ok()?);
            let digest = timing::run(work, count, live, payload.parse().ok()?)?;
            Some(writeln!(output, "{digest}"))
        }
        ["summary", "compare"] => {
            drop(output);
            Some(Comparisons::read(input).map(|comparisons| comparisons.print()))
        }
        ["summary", side] => {
            let side = Side::of(side)?;
            drop(output);
            Some(Summary::read(input, side).map(|summary| summary.print(side)))
        }
        _ => None,
    }
}

/// So much of something, made from a seed.
fn generated(what: &str, seed: u64, count: usize) -> Option<Vec<u8>> {
    let pair = || generate::pair(seed, count);
    match what {
        "listener" => Some(generate::listener(seed, count)),
        "client" => Some(generate::client(seed, count)),
        "capture" => Some(generate::capture(seed, count)),
        "capture-last" => Some(format!("{}\n", generate::last_record(seed, count)).into_bytes()),
        "compare-first" => Some(pair().0),
        "compare-second" => Some(pair().1),
        _ => None,
    }
}

fn print(made: &[u8], mut output: impl Write) -> io::Result<()> {
    output.write_all(made)?;
    output.flush()
}
