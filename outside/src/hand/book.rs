//! A book as a plain struct.
//!
//! It writes no requests, takes no answers but the one that it is made with, and shows no source
//! but by its place. Measured and tested is the pick-up, accepted; its refusals are there too.

use super::event::{read_answer, read_event};
use super::list::{key, ListView};
use super::Mailbox;

const MOST_ENTRIES: usize = 64;
const MOST_READING: usize = 64;
const ROOM: usize = 4224;

#[derive(Clone, Copy, Debug, PartialEq, Eq)]
pub enum BookState {
    Blind,
    Settled,
    Holding,
    Waiting,
}

#[derive(Clone)]
pub struct Book {
    pub state: BookState,
    pub generation: Option<u8>,
    count: usize,
    keys: [u64; MOST_ENTRIES],
    lengths: [u8; MOST_ENTRIES],
    readings: [[u8; MOST_READING]; MOST_ENTRIES],
}

impl Book {
    pub const fn new() -> Book {
        Book {
            state: BookState::Blind,
            generation: None,
            count: 0,
            keys: [0; MOST_ENTRIES],
            lengths: [0; MOST_ENTRIES],
            readings: [[0; MOST_READING]; MOST_ENTRIES],
        }
    }

    /// A book that has just taken this answer to a sync.
    pub fn settled(answer: &[u8]) -> Result<Book, u8> {
        let mut book = Book::new();
        let (_, list) = read_answer(answer)?;
        if !list.overflow && book.merge(&list) {
            book.state = BookState::Settled;
        }
        Ok(book)
    }

    /// Makes a holding book settled, as the empty answer to an ack does.
    pub fn settle(&mut self) {
        self.state = BookState::Settled;
    }

    pub fn pick_up(&mut self, carrier: &Mailbox, buffer: &mut [u8]) -> Result<usize, u8> {
        match self.state {
            BookState::Waiting => return Err(18),
            BookState::Blind => return Err(22),
            BookState::Settled | BookState::Holding => {}
        }
        if buffer.len() < ROOM {
            return Err(23);
        }
        let length = carrier.message().len();
        if length == 0 {
            return Err(24);
        }
        let message = &mut buffer[..length];
        message.copy_from_slice(carrier.message());
        let list = read_event(message)?;
        let generation = list.transmission >> 3;
        if self.generation == Some(generation) {
            return Err(26);
        }
        let shows = self.state == BookState::Settled && !list.overflow && self.merge(&list);
        if shows {
            self.generation = Some(generation);
            self.state = BookState::Holding;
        } else {
            self.go_blind();
        }
        Ok(length)
    }

    /// The unique ID as one number, with the reading of the entry at this place.
    pub fn entry(&self, place: usize) -> Option<(u64, &[u8])> {
        let length = usize::from(self.lengths[..self.count].get(place).copied()?);
        Some((self.keys[place], &self.readings[place][..length]))
    }

    /// Whether all occurrences found an entry; if not, the book is to go blind.
    fn merge(&mut self, list: &ListView) -> bool {
        let mut next = 0;
        for (id, reading) in list.occurrences() {
            let Some(place) = self.place(key(&id), next) else {
                return false;
            };
            self.lengths[place] = reading.len() as u8;
            self.readings[place][..reading.len()].copy_from_slice(reading);
            next = place + 1;
        }
        true
    }

    /// The place of the entry of this key, a new one if there is none, none if there are 64 others.
    /// Lists follow the board's order mostly, so the place after the last one is tried first.
    fn place(&mut self, key: u64, next: usize) -> Option<usize> {
        let keys = &self.keys[..self.count];
        if keys.get(next) == Some(&key) {
            return Some(next);
        }
        let found = keys.iter().position(|other| *other == key);
        if found.is_none() && self.count < MOST_ENTRIES {
            self.keys[self.count] = key;
            self.count += 1;
            return Some(self.count - 1);
        }
        found
    }

    fn go_blind(&mut self) {
        self.state = BookState::Blind;
        self.generation = None;
        self.count = 0;
    }
}

impl Default for Book {
    fn default() -> Book {
        Book::new()
    }
}

#[cfg(test)]
mod tests {
    use super::*;
    use crate::inputs::{next, Input, Rng};
    use crate::second::{self, List, Message, Occurrence};

    fn settled(sources: &[Occurrence]) -> Book {
        let mut answer = [0; 4115];
        let length = second::write_answer(&mut answer, false, sources).unwrap();
        Book::settled(&answer[..length]).unwrap()
    }

    fn entries(book: &Book) -> Vec<(u64, Vec<u8>)> {
        (0..MOST_ENTRIES)
            .map_while(|place| book.entry(place))
            .map(|(key, reading)| (key, reading.to_vec()))
            .collect()
    }

    /// The entries after these occurrences, by the plain rule.
    fn merged(mut entries: Vec<(u64, Vec<u8>)>, list: &[Occurrence]) -> Vec<(u64, Vec<u8>)> {
        for occurrence in list {
            let entry = (key(&occurrence.id), occurrence.reading.clone());
            match entries.iter_mut().find(|(key, _)| *key == entry.0) {
                Some(found) => *found = entry,
                None => entries.push(entry),
            }
        }
        entries
    }

    #[test]
    fn a_pick_up_merges_as_the_plain_rule_says() {
        let mut rng = Rng::new(1);
        let mut met = [0; 4];
        let mut book = settled(&[]);
        for _ in 0..20_000 {
            let Input::Event(bytes) = next(&mut rng) else {
                continue;
            };
            let mut carrier = Mailbox::new();
            if !carrier.put(&bytes, 0) {
                continue;
            }
            let before = entries(&book);
            let mut buffer = [0; ROOM];
            let result = book.pick_up(&carrier, &mut buffer);
            match second::read_event(&bytes) {
                Err(number) => {
                    assert_eq!(result, Err(number));
                    met[0] += 1;
                }
                Ok(Message::Event {
                    list: List::Overflow,
                    ..
                }) => met[1] += 1,
                Ok(Message::Event {
                    list: List::Occurrences(list),
                    generation,
                    ..
                }) => {
                    let after = merged(before, &list);
                    assert_eq!(result, Ok(bytes.len()));
                    if after.len() <= MOST_ENTRIES {
                        assert_eq!(entries(&book), after);
                        assert_eq!(book.generation, Some(generation));
                        assert_eq!(book.state, BookState::Holding);
                        met[2] += 1;
                    } else {
                        assert_eq!(book.state, BookState::Blind);
                        met[3] += 1;
                    }
                }
                other => panic!("{other:?}"),
            }
            if book.state == BookState::Blind {
                assert!(entries(&book).is_empty());
                book = settled(&[]);
            }
            book.generation = None;
            book.settle();
        }
        assert!(met.iter().all(|count| *count > 10), "{met:?}");
    }

    #[test]
    fn generations() {
        let mut buffer = [0; ROOM];
        let mut carrier = Mailbox::new();
        let mut book = settled(&[]);
        assert_eq!(book.pick_up(&carrier, &mut buffer), Err(24));
        let mut message = [0; 4111];
        for (transmission, result, state) in [
            (8, Ok(19 - 4), BookState::Holding),
            (9, Err(26), BookState::Holding),
            (16, Ok(19 - 4), BookState::Blind),
            (24, Err(22), BookState::Blind),
        ] {
            let length = second::write_event(&mut message, transmission, &[]).unwrap();
            carrier.put(&message[..length], 0);
            assert_eq!(book.pick_up(&carrier, &mut buffer), result);
            assert_eq!(book.state, state);
        }
    }
}
