//! Runs the excerpt of etherparse 0.21.0 and writes what it answers as vectors (FORMAT.md) on standard output.
//!
//!     vectors full PUBLISHED [CAPTURE..]      everything
//!     vectors sample PUBLISHED [CAPTURE..]    the sample that the repository keeps
//!     vectors damaged PUBLISHED [CAPTURE..]   the sample, each answer with one bit turned round
//!     vectors others                          what no vector holds, as text: refusals 2 and 3, and the calls that stop on every input
//!
//! The count of each call, and of the calls that stopped at an absent file, goes to standard error; the last line there is `complete`.

mod calls;
mod inputs;
mod sink;

use sink::{Mode, Sink};
use std::env;

fn main() {
    std::panic::set_hook(Box::new(|info| {
        if calls::absent(info.payload()).is_none() {
            eprintln!("{info}");
        }
    }));
    let args: Vec<String> = env::args().skip(1).collect();
    match args.iter().map(String::as_str).collect::<Vec<_>>()[..] {
        [mode @ ("full" | "sample" | "damaged"), published, ref captures @ ..] => {
            let mut sink = Sink::new(match mode {
                "full" => Mode::Full,
                "sample" => Mode::Sample,
                _ => Mode::Damaged,
            });
            inputs::published(&mut sink, &String::from_utf8(read(published)).unwrap());
            inputs::all(&mut sink);
            for capture in captures {
                inputs::traffic(&mut sink, &read(capture));
            }
            drop(sink);
            eprintln!("complete");
        }
        ["others"] => calls::others(),
        _ => eprintln!("vectors full|sample|damaged PUBLISHED [CAPTURE..], or vectors others"),
    }
}

fn read(path: &str) -> Vec<u8> {
    std::fs::read(path).unwrap_or_else(|e| panic!("{path}: {e}"))
}
