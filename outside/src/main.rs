//! Compares the proved code with the second implementation on random inputs, and measures its
//! speed. It ends with status 1 if any result differs.
//!
//! Arguments: how many inputs, 1,000,000 if it is left out; the seed, 1 if it is left out.

mod compare;
mod ffi;
mod speed;

use std::env;
use std::process::ExitCode;

use outside::inputs::{next_made, outcome, Counts, Input, Rng};

/// More differences than these are counted, and not printed.
const PRINTED: u64 = 20;

fn main() -> ExitCode {
    let mut arguments = env::args().skip(1);
    let mut number = |or: u64| match arguments.next() {
        None => Some(or),
        Some(word) => word.parse().ok(),
    };
    let (Some(inputs), Some(seed)) = (number(1_000_000), number(1)) else {
        eprintln!("how many inputs, and the seed: two numbers");
        return ExitCode::FAILURE;
    };
    let differences = compare_all(inputs, seed);
    println!();
    speed::measure();
    if differences == 0 {
        ExitCode::SUCCESS
    } else {
        ExitCode::FAILURE
    }
}

/// How many results differ.
fn compare_all(inputs: u64, seed: u64) -> u64 {
    let mut rng = Rng::new(seed);
    let mut more = Rng::new(!seed);
    let mut counts = Counts::default();
    let mut differences = 0;
    for number in 0..inputs {
        let made = next_made(&mut rng);
        if let Err(difference) = compare::compare(&made.input, &mut more) {
            differences += 1;
            if differences <= PRINTED {
                println!("input {number}, {}, {}:", made.input.call(), made.kind);
                println!("    {}", shown(&made.input));
                println!("    {}:", difference.asked);
                println!("        the proved code says {}", difference.proved);
                println!("        the second one says  {}", difference.second);
            }
        }
        counts.add(&made, outcome(&made.input));
    }
    print!("{counts}");
    println!("{inputs} inputs of the seed {seed}: {differences} differences");
    differences
}

/// An input, its bytes in hexadecimal.
fn shown(input: &Input) -> String {
    match input {
        Input::Crc(bytes) | Input::Request(bytes) | Input::Event(bytes) | Input::Answer(bytes) => {
            compare::hex(bytes)
        }
        Input::Packets { message, .. } => format!("{} in {input:?}", compare::hex(message)),
        _ => format!("{input:?}"),
    }
}
