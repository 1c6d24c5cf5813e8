//! Vector lines: `call F work counter buffer input-hex -> number place counter output-hex`. No bytes are written as `-`. A line does
//! not have the rounds of an order.

use crate::answers::{self, Answer, Call, Case, Opened};
use crate::ordering;
use crate::records::Bytes;

pub fn hex(bytes: &[u8]) -> String {
    if bytes.is_empty() {
        return "-".to_string();
    }
    bytes.iter().map(|byte| format!("{byte:02x}")).collect()
}

pub fn from_hex(word: &str) -> Result<Bytes, String> {
    if word == "-" {
        return Ok(Bytes::new());
    }
    let digits: Vec<char> = word.chars().collect();
    digits
        .chunks(2)
        .map(|pair| u8::from_str_radix(&pair.iter().collect::<String>(), 16))
        .collect::<Result<Bytes, _>>()
        .ok()
        .filter(|_| digits.len().is_multiple_of(2))
        .ok_or(format!("not hexadecimal: {word}"))
}

pub fn left(case: &Case) -> String {
    let Case { call, f, work, counter, buffer, input } = case;
    format!("{} {f} {work} {counter} {buffer} {}", call.word(), hex(input))
}

pub fn line(case: &Case, answer: &Answer) -> String {
    let Answer { number, place, counter, output, .. } = answer;
    format!("{} -> {number} {place} {counter} {}", left(case), hex(output))
}

fn number<T: std::str::FromStr>(word: &str) -> Result<T, String> {
    word.parse().map_err(|_| format!("not a number: {word}"))
}

/// The case of a line, with or without an answer.
pub fn case_of(line: &str) -> Result<Case, String> {
    let left = line.split("->").next().unwrap_or_default();
    let words: Vec<&str> = left.split_whitespace().collect();
    let [call, f, work, counter, buffer, input] = words[..] else {
        return Err(format!("six words expected: {line}"));
    };
    Ok(Case {
        call: Call::named(call).ok_or(format!("no such call: {call}"))?,
        f: number(f)?,
        work: number(work)?,
        counter: number(counter)?,
        buffer: number(buffer)?,
        input: from_hex(input)?,
    })
}

/// The answer of a line, with the rounds that its case has.
pub fn answer_of(line: &str) -> Result<Answer, String> {
    let right = line.split_once("->").map(|(_, right)| right).unwrap_or_default();
    let words: Vec<&str> = right.split_whitespace().collect();
    let [n, place, counter, output] = words[..] else {
        return Err(format!("four words expected after ->: {line}"));
    };
    let (case, n) = (case_of(line)?, number(n)?);
    let rounds = rounds(&case, n);
    Ok(Answer { number: n, place: number(place)?, counter: number(counter)?, rounds, output: from_hex(output)? })
}

/// Those of the assign in an order that is accepted, else 0.
fn rounds(case: &Case, number: u64) -> u64 {
    match (number, answers::read(case.call, &case.input)) {
        (0, Ok(Opened::Assign(assign))) => ordering::rounds(&assign.bindings),
        _ => 0,
    }
}
