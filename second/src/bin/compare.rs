//! `compare N [SEED]`: runs N generated cases through the library and this implementation and
//! compares all they give. A difference is printed and ends the program with 1.

#![forbid(unsafe_code)]

use std::collections::BTreeMap;
use std::process::ExitCode;

use second::generate::{self, Case};
use second::side_by_side::{all_calls, Call, Outcome};

/// How often each call gave each reply.
type Tally = BTreeMap<u32, [usize; Call::ALL.len()]>;

const USAGE: &str = "usage: compare N [SEED]";
/// The most lines printed about one difference.
const LINES: usize = 40;

fn main() -> ExitCode {
    let Some((count, seed)) = arguments() else {
        eprintln!("{USAGE}");
        return ExitCode::from(2);
    };
    let mut tally = Tally::new();
    for number in 0..count {
        let case = generate::case(seed, number);
        let outcomes = all_calls(&case);
        if outcomes.iter().any(|outcome| !outcome.different.is_empty()) {
            report(seed, number, &case, &outcomes);
            return ExitCode::FAILURE;
        }
        for outcome in outcomes {
            tally.entry(outcome.reply).or_default()[outcome.call as usize] += 1;
        }
    }
    print_tally(&tally);
    println!("{count} compared, 0 different");
    ExitCode::SUCCESS
}

/// The number of cases and the seed, 1 if none is given.
fn arguments() -> Option<(u64, u64)> {
    let arguments: Vec<String> = std::env::args().skip(1).collect();
    let (count, seed) = match arguments.as_slice() {
        [count] => (count, "1"),
        [count, seed] => (count, seed.as_str()),
        _ => return None,
    };
    Some((count.parse().ok()?, seed.parse().ok()?))
}

fn print_tally(tally: &Tally) {
    for (reply, counts) in tally {
        let each = Call::ALL.iter().zip(counts);
        let words: Vec<String> = each
            .map(|(call, count)| format!("{} {count:>7}", call.name()))
            .collect();
        println!("reply {reply:>2}: {}", words.join("  "));
    }
}

/// Prints a case on which the implementations differ, and how.
fn report(seed: u64, number: u64, case: &Case, outcomes: &[Outcome]) {
    println!("seed {seed}, case {number}: {}", case.kind);
    println!("file: {}", hex(&case.file));
    println!(
        "frames {}, input {} words, output {} words",
        case.run.frames,
        case.run.input.len(),
        case.run.output_length
    );
    report_plans(case);
    let different = outcomes
        .iter()
        .filter(|outcome| !outcome.different.is_empty());
    for outcome in different {
        println!(
            "{}: {} words differ",
            outcome.call.name(),
            outcome.different.len()
        );
        for line in outcome.different.iter().take(LINES) {
            println!("  {line}");
        }
        if outcome.call == Call::Write {
            println!("  the fields written: {:?}", case.network);
        }
    }
}

/// Prints what the calls about plans were given.
fn report_plans(case: &Case) {
    println!("file with plans: {}", case.subject.kind);
    println!("  {}", hex(&case.subject.file));
    println!("  {:?}", case.wanted);
    for given in &case.given {
        println!("  {given:?}");
    }
    println!("  {:?}", case.turn_run);
    println!("  {:?}", case.timed_run);
}

fn hex(bytes: &[u8]) -> String {
    let bytes: Vec<String> = bytes.iter().map(|byte| format!("{byte:02X}")).collect();
    bytes.join(" ")
}
