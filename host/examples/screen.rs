//! The shift screen: how many entries wait in each class and which is the most urgent of them, once a second, while entries come in and are
//! taken. The screen has the class record alone and never reads the list:
//!
//! ```text
//! cargo run --example screen -- 5
//! ```
//!
//! shows it five times; without a number it goes on for a minute.

use mdlist_host::*;
use std::error::Error;
use std::fmt::Write as _;
use std::io::{self, Write};
use std::process::ExitCode;
use std::sync::atomic::{AtomicBool, Ordering};
use std::sync::{Mutex, PoisonError};
use std::thread;
use std::time::Duration;

const D: u32 = 8;
const K: u32 = u32::MAX;
const C: u32 = 512;

const USAGE: &str = "screen [SECONDS]";

/// The class record, lent to the calls on the list and copied for the screen.
pub type Record = Mutex<[u32; CLASS_WORDS]>;

/// The sixteen classes as a screen shows them, from the record alone: docs/REFERENCE.md, *Entries*, has what a key says.
pub fn shown(classes: &[u32]) -> Result<String, Refusal> {
    let mut text = String::from("class  waiting  first: unit  serial\n");
    for number in 0..16 {
        let InClass { count, least } = counted::class(classes, number)?;
        let line = match least {
            0 => writeln!(text, "{number:>5} {count:>8}"),
            key => writeln!(text, "{number:>5} {count:>8} {:>12} {:>7}", key / 4_096 % 65_536, key % 4_096),
        };
        line.expect("a String takes any text");
    }
    Ok(text)
}

/// Numbers at random, without end.
fn numbers(mut seed: u64) -> impl FnMut(u32) -> u32 {
    move |below| {
        seed = seed.wrapping_mul(6_364_136_223_846_793_005).wrapping_add(1_442_695_040_888_963_407);
        ((seed >> 33) % u64::from(below)) as u32
    }
}

/// Enters notes and takes some of them until the shift is over; a full list is swept, and where nothing is freed one more is taken.
fn work(words: &mut [u32], record: &Record, over: &AtomicBool) -> Result<(), Refusal> {
    let mut below = numbers(2026);
    while !over.load(Ordering::Relaxed) {
        {
            // held for the call alone
            let mut classes = record.lock().unwrap_or_else(PoisonError::into_inner);
            let mut list = Counted::new(words, &mut *classes);
            let key = below(16) * 268_435_456 + (1 + below(65_535)) * 4_096 + below(4_096);
            let is_full = match list.insert(key, 1) {
                Ok(_) | Err(Refusal::KeyLive { .. }) => false,
                Err(Refusal::NoFreeCell { .. }) => list.sweep()? == 0,
                Err(refusal) => return Err(refusal),
            };
            if is_full || below(3) == 0 {
                match list.take() {
                    Ok(_) | Err(Refusal::NothingLive { .. }) => (),
                    Err(refusal) => return Err(refusal),
                }
            }
        }
        thread::sleep(Duration::from_millis(5));
    }
    Ok(())
}

/// Shows the screen so many times, a second apart, while entries come in.
pub fn shift(seconds: u32, mut output: impl Write) -> Result<(), Box<dyn Error>> {
    let mut words = vec![0; words_needed(D, C)];
    let record = Record::new([0; CLASS_WORDS]);
    counted::set_up(D, K, C, &mut words, &mut *record.lock().unwrap_or_else(PoisonError::into_inner))?;
    let over = AtomicBool::new(false);
    thread::scope(|scope| {
        let working = scope.spawn(|| work(&mut words, &record, &over));
        let watched = watch(seconds, &record, &mut output);
        over.store(true, Ordering::Relaxed);
        working.join().map_err(|_| "the list's thread ended early")??;
        Ok(watched?)
    })
}

fn watch(seconds: u32, record: &Record, output: &mut impl Write) -> io::Result<()> {
    for _ in 0..seconds {
        thread::sleep(Duration::from_secs(1));
        let classes = *record.lock().unwrap_or_else(PoisonError::into_inner);
        writeln!(output, "{}", shown(&classes).map_err(io::Error::other)?)?;
        output.flush()?;
    }
    Ok(())
}

fn run(mut arguments: impl Iterator<Item = String>) -> Result<(), Box<dyn Error>> {
    let seconds = arguments.next().map_or(Ok(60), |seconds| seconds.parse()).map_err(|_| USAGE)?;
    if arguments.next().is_some() {
        return Err(USAGE.into());
    }
    shift(seconds, io::stdout().lock())
}

fn main() -> ExitCode {
    match run(std::env::args().skip(1)) {
        Ok(()) => ExitCode::SUCCESS,
        Err(why) => {
            eprintln!("screen: {why}");
            ExitCode::from(2)
        }
    }
}
