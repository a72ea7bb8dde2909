//! How often each kind of input was made and each result came.

use std::collections::BTreeMap;
use std::fmt;

use super::{Input, Made};
use crate::second::{self, List, Message};

/// What came of an input.
#[derive(Clone, Copy, Debug, PartialEq, Eq, PartialOrd, Ord)]
pub enum Outcome {
    Sync,
    Ack,
    Occurrences,
    Overflow,
    Written,
    Accepted,
    NotTaken,
    Refused(u8),
}

#[derive(Default)]
pub struct Counts {
    kinds: BTreeMap<(&'static str, &'static str), u64>,
    outcomes: BTreeMap<(&'static str, Outcome), u64>,
}

impl Counts {
    pub fn add(&mut self, made: &Made, outcome: Outcome) {
        let call = made.input.call();
        *self.kinds.entry((call, made.kind)).or_default() += 1;
        *self.outcomes.entry((call, outcome)).or_default() += 1;
    }

    /// How often each kind of input was made, by the call that it is for.
    pub fn kinds(&self) -> impl Iterator<Item = (&'static str, &'static str, u64)> + '_ {
        self.kinds
            .iter()
            .map(|((call, kind), count)| (*call, *kind, *count))
    }

    /// How often each result came, by call.
    pub fn outcomes(&self) -> impl Iterator<Item = (&'static str, Outcome, u64)> + '_ {
        self.outcomes
            .iter()
            .map(|((call, outcome), count)| (*call, *outcome, *count))
    }
}

impl fmt::Display for Counts {
    fn fmt(&self, f: &mut fmt::Formatter) -> fmt::Result {
        for (call, outcome, count) in self.outcomes() {
            writeln!(f, "{count:>9}  {call}: {outcome}")?;
        }
        for (call, kind, count) in self.kinds() {
            writeln!(f, "{count:>9}  {call}, {kind}")?;
        }
        Ok(())
    }
}

impl fmt::Display for Outcome {
    fn fmt(&self, f: &mut fmt::Formatter) -> fmt::Result {
        match self {
            Outcome::Sync => f.write_str("a sync"),
            Outcome::Ack => f.write_str("an ack"),
            Outcome::Occurrences => f.write_str("a list"),
            Outcome::Overflow => f.write_str("the overflow header"),
            Outcome::Written => f.write_str("written"),
            Outcome::Accepted => f.write_str("accepted"),
            Outcome::NotTaken => f.write_str("not taken"),
            Outcome::Refused(number) => write!(f, "refused ({number})"),
        }
    }
}

/// What the second implementation makes of an input.
pub fn outcome(input: &Input) -> Outcome {
    match input {
        Input::Crc(_) => Outcome::Accepted,
        Input::Request(bytes) => read(second::read_request(bytes)),
        Input::Event(bytes) => read(second::read_event(bytes)),
        Input::Answer(bytes) => read(second::read_answer(bytes)),
        Input::WriteSync {
            room,
            items,
            delay,
            retry,
        } => written(second::write_sync(
            &mut vec![0; *room],
            items,
            *delay,
            *retry,
        )),
        Input::WriteAck { room } => written(second::write_ack(&mut vec![0; *room])),
        Input::WriteEvent {
            room,
            transmission,
            sources,
        } => {
            let mut buffer = vec![0; *room];
            let result = second::write_event(&mut buffer, *transmission, sources);
            list_written(result, &buffer, 4)
        }
        Input::WriteAnswer {
            room,
            slot,
            sources,
        } => {
            let mut buffer = vec![0; *room];
            let result = second::write_answer(&mut buffer, *slot, sources);
            list_written(result, &buffer, 8)
        }
        Input::Packets {
            destination_address,
            source_address,
            message,
            ..
        } => match second::addresses_refusal(*destination_address, *source_address) {
            Err(number) => Outcome::Refused(number),
            Ok(()) if second::message_is_taken(message) => Outcome::Accepted,
            Ok(()) => Outcome::NotTaken,
        },
        Input::Rows(rows) => match second::rows_refusal(rows) {
            Err(number) => Outcome::Refused(number),
            Ok(()) => Outcome::Accepted,
        },
    }
}

fn read(result: Result<Message, u8>) -> Outcome {
    match result {
        Err(number) => Outcome::Refused(number),
        Ok(Message::Sync { .. }) => Outcome::Sync,
        Ok(Message::Ack { .. }) => Outcome::Ack,
        Ok(Message::Event { list, .. } | Message::Answer { list, .. }) => match list {
            List::Overflow => Outcome::Overflow,
            List::Occurrences(_) => Outcome::Occurrences,
        },
    }
}

fn written(result: Result<usize, u8>) -> Outcome {
    match result {
        Err(number) => Outcome::Refused(number),
        Ok(_) => Outcome::Written,
    }
}

/// What was written, by the length info of the list that begins at `list`.
fn list_written(result: Result<usize, u8>, buffer: &[u8], list: usize) -> Outcome {
    match result {
        Err(number) => Outcome::Refused(number),
        Ok(_) if buffer[list + 4] == 0x80 => Outcome::Overflow,
        Ok(_) => Outcome::Occurrences,
    }
}
