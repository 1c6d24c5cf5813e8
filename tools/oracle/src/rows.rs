//! Vector lines as an antt file: batches of rows, each proved by computing what the definitions answer.
//!
//! A row compares number, place, counter, rounds, length and the whole result buffer, which is filled with 7 before the call. The rounds
//! of an order are counted in its input, since a vector line does not have them. With number 5 its stuck bindings are compared in the
//! row's sequence.

use crate::answers::{walked, Answer, Case};
use crate::vectors::{answer_of, case_of, hex};

/// A batch may weigh so much. A larger one is not checked faster, and a much larger one ends at the prover's limit of steps.
pub const BATCH: u64 = 3000;

/// The bytes of input and output, and a part of those that the walk computes.
fn weight(case: &Case, answer: &Answer) -> usize {
    let walk = walked(case.call, &case.input, case.counter);
    case.input.len() + answer.output.len() + walk.cost / 10
}

/// The definitions' own names stand here and nowhere else.
const HEAD: &str = "-- Rows: what the definitions answer is what the Rust gave. Made by tools/oracle.
-- Assumes nothing.
use mathlib.Core.Bool.{true, false}
use mathlib.Core.List.{List, [], ◌∷◌, ◌++◌, map}
use mathlib.Core.Path.{◌≡◌, refl}
use Prim.Native.Char.{code}
use Prim.Native.Nat.{ℕ, ◌+◌, ◌*◌, ◌-◌}
use Prim.Native.String.{String, [] as []ˢ, ◌∷◌ as ◌∷ˢ◌}
use lib.Dec.{ltb}
use lib.ListN.{length, replicate}
use Rattle.names.specs.CallAnswer.{CallResult, name_call}
use Rattle.names.specs.Names.{Bytes}
use Rattle.names.specs.Refusals.{refusal_number, refusal_place}
use Rattle.ordering.specs.OrderCall.{order_call}
use Rattle.walk.specs.Calls.{computing_all, whole_call, children_call, helper_call}

pub data Call : Type 0 where
  name order whole children helper : Call

abbrev pub digit : ℕ → ℕ
digit c = elim (ltb c 58) [ true ↦ c - 48 | false ↦ c - 87 ]

-- the bytes of a word in hexadecimal
abbrev pub hex : String → Bytes
hex []ˢ = []
hex (c ∷ˢ []ˢ) = []
hex (c ∷ˢ d ∷ˢ s) = (16 * digit (code c) + digit (code d)) ∷ hex s

-- F, work, counter, input, result buffer
abbrev pub answer : Call → ℕ → ℕ → ℕ → Bytes → Bytes → CallResult
answer name f w c input buffer = name_call input c buffer
answer order f w c input buffer = order_call f w c input buffer
answer whole f w c input buffer = whole_call f w c input buffer
answer children f w c input buffer = children_call f w c input buffer
answer helper f w c input buffer = helper_call f w c input buffer

-- number, place, counter, rounds, length, the whole buffer
abbrev pub Seen : Type 0
Seen = ℕ × ℕ × ℕ × ℕ × ℕ × Bytes

abbrev pub seen : CallResult → Seen
seen r = (refusal_number r.0.refusal, (refusal_place r.0.refusal).start, r.0.counter, r.0.rounds, r.0.len, r.1)

-- with a buffer of b bytes 7
abbrev pub run : Call → ℕ → ℕ → ℕ → ℕ → String → Seen
run k f w c b input = seen (answer k f w c (hex input) (replicate b 7))

abbrev pub padded : ℕ → Bytes → Bytes
padded b out = out ++ replicate (b - length out) 7

abbrev pub gave : ℕ → ℕ → ℕ → ℕ → ℕ → String → Seen
gave n p c r b out = (n, p, c, r, length (hex out), padded b (hex out))
";

const UNFOLDING: &str = "computing_all";

/// Rows that are checked together, from one line to another.
struct Batch {
    index: usize,
    first: usize,
    weight: usize,
    rows: Vec<String>,
}

/// Prints the file.
pub fn rows(lines: &[String], most: usize) -> Result<(), String> {
    println!("{HEAD}");
    let mut batch = Batch { index: 1, first: 1, weight: 0, rows: Vec::new() };
    for line in lines {
        let (case, answer) = (case_of(line)?, answer_of(line)?);
        let weight = weight(&case, &answer);
        if !batch.rows.is_empty() && batch.weight + weight > most {
            print_batch(&batch);
            let first = batch.first + batch.rows.len();
            batch = Batch { index: batch.index + 1, first, weight: 0, rows: Vec::new() };
        }
        batch.weight += weight;
        batch.rows.push(row(&case, &answer));
    }
    print_batch(&batch);
    Ok(())
}

fn row(case: &Case, answer: &Answer) -> String {
    let Case { call, f, work, counter, buffer, input } = case;
    let Answer { number, place, counter: after, rounds, output } = answer;
    let (input, output) = (quoted(input), quoted(output));
    format!(
        "(run {} {f} {work} {counter} {buffer} {input}, gave {number} {place} {after} {rounds} {buffer} {output})",
        call.word()
    )
}

fn quoted(bytes: &[u8]) -> String {
    match bytes {
        [] => "\"\"".to_string(),
        _ => format!("\"{}\"", hex(bytes)),
    }
}

fn print_batch(batch: &Batch) {
    let Batch { index, first, rows, .. } = batch;
    println!("-- batch-{index}: lines {first},{}", first + rows.len() - 1);
    println!("abbrev pub table-{index} : List (Seen × Seen)\ntable-{index} =");
    for row in rows {
        println!("    {row} ∷");
    }
    println!("    []\n");
    println!("pub batch-{index} : map (λ r. r.0) table-{index} ≡ map (λ r. r.1) table-{index}");
    println!("unfolding {UNFOLDING}\nbatch-{index} = refl\n");
}
