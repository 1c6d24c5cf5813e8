//! Runs the rename pass of Chialisp's Rust compiler on form records, and makes test vectors of it.

use oracle::answers::{self, Call, Case, Checked, Opened, CALLS};
use oracle::generate::Maker;
use oracle::orders;
use oracle::reads::{self, Series};
use oracle::records::{Bytes, Record};
use oracle::{calls, cases, compare, pages, print, reader, rows, sample, sexps, vectors};
use std::io::{self, BufRead};
use std::process::ExitCode;

const HELP: &str = "oracle COMMAND ..

  vectors --call C --count N --seed S [--max-bytes B] [--max-cost W]
                      N random vector lines of a call (name, order, whole, children, helper, all), of inputs of at
                      most B bytes whose walk computes records of at most W bytes in all
  cases               the worked cases as vector lines
  answer              reads left-hand sides (or whole lines) and prints vector lines
  compare-model --count N --seed S
                      runs the model and the Rust on N random forms and compares
  reads --count N --seed S
                      N reading cases: at every limit, small records cut and changed, random ones
  store-reads --count N --seed S FILE
                      writes N of them, most of them small, to a file
  store-orders --count N --seed S [--long] FILE
                      writes N different cases of the call order to a file, most of them small; or of any length
  store-pages --count N --seed S FILE
                      writes N different cases of the call page to a file, most of them small
  page HEX            the page of a CF
  store-sexps --count N --seed S FILE
                      writes N different cases of Invent and Substitute to a file, most of them small
  calls --count N --seed S [--full]
                      N cases of the calls whole, children and helper as vector lines, each after a line that says what
                      it is about
  store-calls --count N --seed S [--full] FILE
                      writes N different cases of these calls to a file, most of them small; or of any length
  rows [--batch N]    reads vector lines and prints an antt file that checks them by computation
  show HEX            a CF, a helper or an assign, readable
  run CALL HEX [COUNTER]
                      runs the Rust on one record; what goes in and what comes out, readable and as bytes
  differences         the same for inputs where the pass surprises

A vector line: call F work counter buffer input-hex -> number place counter output-hex
A reading case: kind F input-hex -> number place (kind: form, helper, assign)
buffer is the length of the result buffer; no bytes are written as '-'. The output is what is written at the front of the buffer.
With number 5 the order call writes the indices of the stuck bindings.";

type Done = Result<(), String>;

fn main() -> ExitCode {
    // a panic of the Rust under test is reported as a disagreement
    std::panic::set_hook(Box::new(|_| {}));
    let words: Vec<String> = std::env::args().skip(1).collect();
    let words: Vec<&str> = words.iter().map(String::as_str).collect();
    match command(&words) {
        Ok(()) => ExitCode::SUCCESS,
        Err(why) => {
            eprintln!("oracle: {why}");
            ExitCode::FAILURE
        }
    }
}

fn command(words: &[&str]) -> Done {
    match words {
        ["vectors", options @ ..] => vectors(options),
        ["cases"] => cases::worked().iter().try_for_each(print_line),
        ["answer"] => answer_lines(),
        ["compare-model", options @ ..] => compare::compare(number(options, "--count", None)?, number(options, "--seed", None)?),
        ["reads", options @ ..] => print_reads(options),
        ["store-reads", options @ .., file] => store(file, options, |seed, count| Ok(reads::store(seed, count))),
        ["store-orders", options @ .., file] => store(file, options, |seed, count| {
            let series = if options.contains(&"--long") { orders::Series::full(seed) } else { orders::Series::short(seed) };
            orders::store(series, count)
        }),
        ["store-sexps", options @ .., file] => {
            store(file, options, |seed, count| sexps::store(sexps::Series::seeded(seed), count))
        }
        ["store-pages", options @ .., file] => {
            store(file, options, |seed, count| pages::store(pages::Series::short(seed), count))
        }
        ["page", hex] => page(hex),
        ["calls", options @ ..] => print_calls(options),
        ["store-calls", options @ .., file] => {
            store(file, options, |seed, count| calls::store(call_series(options, seed), count))
        }
        ["rows", options @ ..] => rows::rows(&input_lines()?, number(options, "--batch", Some(rows::BATCH))? as usize),
        ["show", hex] => show(hex),
        ["run", call, hex] => run(call_named(call)?, &vectors::from_hex(hex)?, 0),
        ["run", call, hex, counter] => {
            let counter = counter.parse().map_err(|_| format!("not a number: {counter}"))?;
            run(call_named(call)?, &vectors::from_hex(hex)?, counter)
        }
        ["differences"] => differences(),
        [] | ["help" | "--help" | "-h"] => {
            println!("{HELP}");
            Ok(())
        }
        _ => Err(format!("no such command; see 'oracle help': {}", words.join(" "))),
    }
}

/// The number after an option.
fn number(options: &[&str], name: &str, default: Option<u64>) -> Result<u64, String> {
    match options.iter().position(|word| *word == name) {
        None => default.ok_or(format!("{name} is missing")),
        Some(at) => options.get(at + 1).and_then(|word| word.parse().ok()).ok_or(format!("{name} wants a number")),
    }
}

fn call_named(word: &str) -> Result<Call, String> {
    let names: Vec<&str> = CALLS.iter().map(|(_, name)| *name).collect();
    Call::named(word).ok_or(format!("no such call: {word} (one of {})", names.join(" ")))
}

fn input_lines() -> Result<Vec<String>, String> {
    let lines: Result<Vec<String>, _> = io::stdin().lock().lines().collect();
    let lines = lines.map_err(|e| e.to_string())?;
    Ok(lines.into_iter().filter(|line| !line.trim().is_empty() && !line.starts_with('#')).collect())
}

fn print_line(case: &Case) -> Done {
    let answer = answers::answer(case).map_err(|why| format!("{why}: {}", vectors::left(case)))?;
    println!("{}", vectors::line(case, &answer));
    Ok(())
}

fn vectors(options: &[&str]) -> Done {
    let word = options.iter().position(|word| *word == "--call").and_then(|at| options.get(at + 1));
    let call = match word {
        None => return Err("--call is missing".to_string()),
        Some(&"all") => None,
        Some(word) => Some(call_named(word)?),
    };
    let count = number(options, "--count", None)?;
    let max_bytes = number(options, "--max-bytes", Some(answers::MAX_F))? as usize;
    let max_cost = number(options, "--max-cost", Some(u64::MAX))? as usize;
    let mut maker = Maker::seeded(number(options, "--seed", None)?);
    for _ in 0..count {
        let call = call.unwrap_or_else(|| sample::some_call(&mut maker.random));
        print_line(&sample::some_case(&mut maker, call, max_bytes, max_cost))?;
    }
    Ok(())
}

fn answer_lines() -> Done {
    input_lines()?.iter().try_for_each(|line| print_line(&vectors::case_of(line)?))
}

fn print_reads(options: &[&str]) -> Done {
    let series = Series::full(number(options, "--seed", None)?);
    let count = number(options, "--count", None)? as usize;
    series.take(count).for_each(|reading| println!("{}", reading.line()));
    Ok(())
}

/// The series that the options ask for.
fn call_series(options: &[&str], seed: u64) -> calls::Series {
    match options.contains(&"--full") {
        true => calls::Series::full(seed),
        false => calls::Series::short(seed),
    }
}

fn print_calls(options: &[&str]) -> Done {
    let series = call_series(options, number(options, "--seed", None)?);
    let count = number(options, "--count", None)? as usize;
    calls::lines(series, count)?.iter().for_each(|line| println!("{line}"));
    Ok(())
}

/// Writes so many cases, as they are stored, to a file.
fn store(file: &str, options: &[&str], stored: impl Fn(u64, usize) -> Checked<Bytes>) -> Done {
    let count = number(options, "--count", None)? as usize;
    let bytes = stored(number(options, "--seed", None)?, count)?;
    std::fs::write(file, &bytes).map_err(|why| format!("cannot write {file}: {why}"))?;
    println!("{count} cases in {} bytes", bytes.len());
    Ok(())
}

fn readable(opened: &Opened) -> String {
    match opened {
        Opened::Form(form) => print::form(form),
        Opened::Helper(helper) => print::helper(helper),
        Opened::Assign(assign) => print::let_form(assign),
    }
}

/// Reads a record for `show` or `run`; a refusal is told with its number and place.
fn opened(call: Call, input: &[u8]) -> Result<Opened, String> {
    answers::read(call, input).map_err(|refusal| format!("refused: {} at {}", refusal.number, refusal.place))
}

fn show(hex: &str) -> Done {
    let input = vectors::from_hex(hex)?;
    let call = match input.first() {
        Some(b'B') => Call::Order,
        Some(b'H') => Call::Helper,
        _ => Call::Whole,
    };
    println!("{}", readable(&opened(call, &input)?));
    Ok(())
}

fn page(hex: &str) -> Done {
    let form = reader::form_with_mods(&vectors::from_hex(hex)?).map_err(|r| format!("refused: {} at {}", r.number, r.place))?;
    pages::lines(&form).iter().for_each(|line| print!("{}", String::from_utf8_lossy(line)));
    Ok(())
}

fn run(call: Call, input: &[u8], counter: u64) -> Done {
    println!("in   {}\n     {}", readable(&opened(call, input)?), vectors::hex(input));
    let f = answers::MAX_F;
    let case = Case { call, f, work: f * answers::WORK_PER_F, counter, buffer: f as usize, input: input.to_vec() };
    let answer = answers::answer(&case)?;
    if answer.number != 0 {
        println!("out  refused: {} at {}", answer.number, answer.place);
        return Ok(());
    }
    let output = &answer.output;
    let shown = match call {
        Call::Order => format!("{output:?}"),
        _ => readable(&opened(call, output)?),
    };
    println!("out  {shown}\n     {}\n     counter {}", vectors::hex(output), answer.counter);
    Ok(())
}

fn differences() -> Done {
    for (what, form) in cases::differences() {
        println!("{what}");
        run(Call::Whole, &form.bytes(), 0)?;
        println!();
    }
    Ok(())
}
