//! Random inputs for every reader and writer, lawful ones and such as break a rule.
//!
//! The inputs are built by builders of their own, not by the writers of `second`; only its types
//! are used. Each input is known by its kind and, where its kind decides it, by what it is meant
//! to be, so that the generator is tested too.

mod counts;
mod damage;
mod lists;
mod requests;
mod rng;
mod sources;
mod writes;

use crate::hand::crc32c_by_8;
use crate::second::Occurrence;

pub use counts::{outcome, Counts, Outcome};
pub use rng::Rng;

/// No reader is given more bytes than this.
pub const LONGEST: usize = 4400;

/// What one call is given. `room` is the length of the buffer that it is lent.
#[derive(Clone, Debug, PartialEq, Eq)]
pub enum Input {
    /// Any bytes, for both check sums.
    Crc(Vec<u8>),
    Request(Vec<u8>),
    Event(Vec<u8>),
    Answer(Vec<u8>),
    WriteSync {
        room: usize,
        items: Vec<(u8, bool)>,
        delay: u8,
        retry: u8,
    },
    WriteAck {
        room: usize,
    },
    /// The sources are lawful, at most 64 and of unlike IDs; there may be none.
    WriteEvent {
        room: usize,
        transmission: u8,
        sources: Vec<Occurrence>,
    },
    /// The same of its sources.
    WriteAnswer {
        room: usize,
        slot: bool,
        sources: Vec<Occurrence>,
    },
    Packets {
        destination_address: u8,
        source_address: u8,
        source_id: u8,
        destination_id: u8,
        message: Vec<u8>,
    },
    /// Rows for a table board, which asks 13, 14, 15.
    Rows(Vec<Occurrence>),
}

/// What an input is meant to be, by the way in which it was made.
#[derive(Clone, Copy, Debug, PartialEq, Eq)]
pub enum Meant {
    Accepted,
    Refused(u8),
    /// A put that has no refusal number.
    NotTaken,
    /// Random damage, which may be lawful.
    Either,
}

/// An input, what kind of it was made, and what it is meant to be.
#[derive(Clone, Debug)]
pub struct Made {
    pub kind: &'static str,
    pub meant: Meant,
    pub input: Input,
}

impl Input {
    pub fn call(&self) -> &'static str {
        match self {
            Input::Crc(_) => "check sums",
            Input::Request(_) => "read request",
            Input::Event(_) => "read event",
            Input::Answer(_) => "read answer",
            Input::WriteSync { .. } => "write sync",
            Input::WriteAck { .. } => "write ack",
            Input::WriteEvent { .. } => "write event",
            Input::WriteAnswer { .. } => "write answer",
            Input::Packets { .. } => "packets",
            Input::Rows(_) => "rows",
        }
    }
}

/// The next random input.
pub fn next(rng: &mut Rng) -> Input {
    next_made(rng).input
}

/// The next random input, with what is known of it.
pub fn next_made(rng: &mut Rng) -> Made {
    match rng.below(100) {
        0..=2 => check_sums(rng),
        3..=29 => reader(requests::request(rng), Input::Request),
        30..=51 => reader(lists::event(rng), Input::Event),
        52..=69 => reader(lists::answer(rng), Input::Answer),
        70..=76 => writes::sync(rng),
        77..=79 => writes::ack(rng),
        80..=85 => writes::event(rng),
        86..=90 => writes::answer(rng),
        91..=95 => writes::packets(rng),
        _ => writes::rows(rng),
    }
}

fn check_sums(rng: &mut Rng) -> Made {
    let most = *rng.pick(&[8, 40, 40, 80, 300]);
    let length = if rng.one_in(50) { 4300 } else { most };
    let length = rng.between(0, length);
    Made {
        kind: "random bytes",
        meant: Meant::Accepted,
        input: Input::Crc(rng.bytes(length)),
    }
}

fn reader((kind, meant, bytes): lists::MadeBytes, input: fn(Vec<u8>) -> Input) -> Made {
    Made {
        kind,
        meant,
        input: input(bytes),
    }
}

/// The bytes with their check word behind them.
fn sealed(mut bytes: Vec<u8>) -> Vec<u8> {
    let word = crc32c_by_8(&bytes);
    bytes.extend(word.to_le_bytes());
    bytes
}

#[cfg(test)]
mod tests {
    use super::*;

    /// So many inputs of a seed, counted; each is what it is meant to be.
    fn counted(seed: u64, inputs: usize) -> Counts {
        let mut rng = Rng::new(seed);
        let mut counts = Counts::default();
        for _ in 0..inputs {
            let made = next_made(&mut rng);
            let outcome = outcome(&made.input);
            let as_meant = match made.meant {
                Meant::Either => true,
                Meant::Refused(number) => outcome == Outcome::Refused(number),
                Meant::NotTaken => outcome == Outcome::NotTaken,
                Meant::Accepted => !matches!(outcome, Outcome::Refused(_) | Outcome::NotTaken),
            };
            assert!(as_meant, "{outcome:?}, but {made:?}");
            counts.add(&made, outcome);
        }
        counts
    }

    #[test]
    fn inputs_are_what_they_are_meant_to_be() {
        counted(1, 50_000);
    }

    #[test]
    fn the_same_seed_yields_the_same_inputs() {
        let (mut one, mut other) = (Rng::new(7), Rng::new(7));
        for _ in 0..1000 {
            assert_eq!(next(&mut one), next(&mut other));
        }
        assert_ne!(Rng::new(7).number(), Rng::new(8).number());
    }

    #[test]
    fn no_reader_is_given_more_than_the_longest() {
        let mut rng = Rng::new(3);
        for _ in 0..20_000 {
            if let Input::Request(bytes) | Input::Event(bytes) | Input::Answer(bytes) =
                next(&mut rng)
            {
                assert!(bytes.len() <= LONGEST, "{}", bytes.len());
            }
        }
    }

    /// A million inputs: `cargo test --release -- --ignored --nocapture`.
    #[test]
    #[ignore]
    fn every_result_comes_a_thousand_times_in_a_million() {
        let counts = counted(2, 1_000_000);
        print!("{counts}");
        assert_eq!(counts.outcomes().count(), RESULTS.len());
        for result in RESULTS {
            let found = counts
                .outcomes()
                .find(|(call, outcome, _)| (*call, *outcome) == result);
            assert!(
                found.is_some_and(|(_, _, count)| count >= 1000),
                "{result:?}: {found:?}"
            );
        }
    }

    /// Every result that a call can have.
    const RESULTS: [(&str, Outcome); 36] = [
        ("check sums", Outcome::Accepted),
        ("read request", Outcome::Sync),
        ("read request", Outcome::Ack),
        ("read request", Outcome::Refused(2)),
        ("read request", Outcome::Refused(3)),
        ("read request", Outcome::Refused(4)),
        ("read request", Outcome::Refused(5)),
        ("read request", Outcome::Refused(6)),
        ("read request", Outcome::Refused(7)),
        ("read request", Outcome::Refused(8)),
        ("read request", Outcome::Refused(9)),
        ("read event", Outcome::Occurrences),
        ("read event", Outcome::Overflow),
        ("read event", Outcome::Refused(25)),
        ("read answer", Outcome::Occurrences),
        ("read answer", Outcome::Overflow),
        ("read answer", Outcome::Refused(28)),
        ("write sync", Outcome::Written),
        ("write sync", Outcome::Refused(17)),
        ("write sync", Outcome::Refused(19)),
        ("write sync", Outcome::Refused(20)),
        ("write ack", Outcome::Written),
        ("write ack", Outcome::Refused(17)),
        ("write event", Outcome::Occurrences),
        ("write event", Outcome::Overflow),
        ("write event", Outcome::Refused(10)),
        ("write answer", Outcome::Occurrences),
        ("write answer", Outcome::Overflow),
        ("write answer", Outcome::Refused(1)),
        ("packets", Outcome::Accepted),
        ("packets", Outcome::NotTaken),
        ("packets", Outcome::Refused(16)),
        ("rows", Outcome::Accepted),
        ("rows", Outcome::Refused(13)),
        ("rows", Outcome::Refused(14)),
        ("rows", Outcome::Refused(15)),
    ];
}
