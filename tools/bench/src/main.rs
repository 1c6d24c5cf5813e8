//! The proved record reader beside a plain Rust one, and the proved calls beside Chialisp's Rust: their speed, and their answers.

mod agree;
#[cfg(before)]
mod before_after;
mod calls;
mod drawn;
mod guarded;
mod library;
mod order_speed;
mod orders;
mod pages;
mod plain;
#[cfg(before)]
mod releases;
mod speed;
mod whole_speed;

use std::process::ExitCode;

const HELP: &str = "bench COMMAND ..

  speed [--seed S]            bytes per second of the library and of a plain Rust reader on forms of three sizes, and their ratio
  agree --count N --seed S    N inputs, valid, damaged and random: number and place of both against the oracle's reader
  calls --count N --seed S [--directed]
                              N cases of the calls Whole form, Children only and Single helper, whole, damaged and random:
                              their answers against the oracle's; first every directed case, if asked for
  names --count N --seed S    N cases of the call Name
  orders --count N --seed S   N assigns, ordered, deadlocked and refused: the answers of the call Order against the oracle's
  pages --count N --seed S    N forms, whole and damaged: the answers of the call Page against the oracle's
  order-speed                 microseconds that ordering an assign of 10 or 64 bindings takes the library and Chialisp's Rust
  whole [--seed S]            nanoseconds for a byte of Whole form, from bytes to bytes, beside Chialisp's Rust on built trees and
                              with reading and writing
  before-after [--seed S]     two releases, which before-after.sh links: nanoseconds for a lookup, and for a byte of Whole form";

fn main() -> ExitCode {
    let words: Vec<String> = std::env::args().skip(1).collect();
    let words: Vec<&str> = words.iter().map(String::as_str).collect();
    match command(&words) {
        Ok(()) => ExitCode::SUCCESS,
        Err(why) => {
            eprintln!("bench: {why}");
            ExitCode::FAILURE
        }
    }
}

fn command(words: &[&str]) -> Result<(), String> {
    match words {
        ["speed"] => speed::speed(1),
        ["speed", "--seed", seed] => speed::speed(number(seed)?),
        ["agree", "--count", count, "--seed", seed] => agree::agree(number(seed)?, number(count)? as usize),
        ["calls", "--count", count, "--seed", seed] => calls::agree(number(seed)?, number(count)? as usize, false),
        ["calls", "--count", count, "--seed", seed, "--directed"] => calls::agree(number(seed)?, number(count)? as usize, true),
        ["names", "--count", count, "--seed", seed] => calls::names(number(seed)?, number(count)? as usize),
        ["orders", "--count", count, "--seed", seed] => orders::agree(number(seed)?, number(count)? as usize),
        ["pages", "--count", count, "--seed", seed] => pages::agree(number(seed)?, number(count)? as usize),
        ["order-speed"] => order_speed::speed(),
        ["whole"] => whole_speed::speed(1),
        ["whole", "--seed", seed] => whole_speed::speed(number(seed)?),
        ["before-after"] => before_after(1),
        ["before-after", "--seed", seed] => before_after(number(seed)?),
        [] | ["help" | "--help" | "-h"] => {
            println!("{HELP}");
            Ok(())
        }
        _ => Err(format!("no such command; see 'bench help': {}", words.join(" "))),
    }
}

#[cfg(before)]
fn before_after(seed: u64) -> Result<(), String> {
    before_after::speed(seed)
}

#[cfg(not(before))]
fn before_after(_: u64) -> Result<(), String> {
    Err("only one release is linked: before-after.sh links two".to_string())
}

fn number(word: &str) -> Result<u64, String> {
    word.parse().map_err(|_| format!("not a number: {word}"))
}
