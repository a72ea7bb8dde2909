//! An endpoint as a plain struct, with a board of fields of fixed size and a mailbox.
//!
//! It has all calls but the reset, lends no report mask and reads no board that is not lawful.
//! Measured and tested are the accepted sync and the idle tick; the rest is there so that these
//! two work with the state that an endpoint has.

use super::event::{write_answer_of, write_event_of, ROOM_EVENT};
use super::lawful::is_lawful;
use super::request::{read_request, RequestView};
use crate::second::{Id, Occurrence};

const MOST_SOURCES: usize = 64;
const MOST_READING: usize = 64;
const MOST_MESSAGE: usize = 4224;
const ROOM_ANSWER: usize = 4115;
const ATTEMPTS: u8 = 8;
const NO_ID: Id = Id {
    identifier: 0,
    scope: 0,
    info: 0,
};

/// Readings by place.
struct Readings {
    lengths: [u8; MOST_SOURCES],
    bytes: [[u8; MOST_READING]; MOST_SOURCES],
}

impl Readings {
    const fn new() -> Readings {
        Readings {
            lengths: [0; MOST_SOURCES],
            bytes: [[0; MOST_READING]; MOST_SOURCES],
        }
    }

    fn get(&self, place: usize) -> &[u8] {
        &self.bytes[place][..usize::from(self.lengths[place])]
    }

    fn set(&mut self, place: usize, reading: &[u8]) {
        self.lengths[place] = reading.len() as u8;
        self.bytes[place][..reading.len()].copy_from_slice(reading);
    }
}

/// A table board.
pub struct Board {
    count: usize,
    ids: [Id; MOST_SOURCES],
    readings: Readings,
    /// The identifiers that a source has.
    identifiers: [u64; 4],
}

impl Board {
    /// The rows are 1 to 64, lawful and of unlike IDs; this is not asked.
    pub fn new(rows: &[Occurrence]) -> Board {
        let mut board = Board {
            count: rows.len(),
            ids: [NO_ID; MOST_SOURCES],
            readings: Readings::new(),
            identifiers: [0; 4],
        };
        for (place, row) in rows.iter().enumerate() {
            board.ids[place] = row.id;
            board.readings.set(place, &row.reading);
            switch(&mut board.identifiers, row.id.identifier, true);
        }
        board
    }

    fn enabled<'a>(
        &'a self,
        enabled: &'a [u64; 4],
    ) -> impl Iterator<Item = (Id, &'a [u8])> + Clone + 'a {
        self.ids[..self.count]
            .iter()
            .enumerate()
            .filter(|(_, id)| is_on(enabled, id.identifier))
            .map(|(place, id)| (*id, self.readings.get(place)))
    }
}

/// Marks, each with its reading.
struct Marks {
    places: u64,
    readings: Readings,
}

impl Marks {
    const fn new() -> Marks {
        Marks {
            places: 0,
            readings: Readings::new(),
        }
    }

    fn mark(&mut self, place: usize, reading: &[u8]) {
        self.places |= 1 << place;
        self.readings.set(place, reading);
    }

    fn listed<'a>(&'a self, board: &'a Board) -> impl Iterator<Item = (Id, &'a [u8])> + Clone + 'a {
        let mut left = self.places;
        std::iter::from_fn(move || {
            let place = left.trailing_zeros() as usize;
            let id = board.ids.get(place)?;
            left &= left - 1;
            Some((*id, self.readings.get(place)))
        })
    }
}

/// A carrier that keeps its message whole.
pub struct Mailbox {
    pub link_up: bool,
    pub destination: u8,
    /// 0 where there is no message.
    length: usize,
    bytes: [u8; MOST_MESSAGE],
}

impl Mailbox {
    pub const fn new() -> Mailbox {
        Mailbox {
            link_up: true,
            destination: 0,
            length: 0,
            bytes: [0; MOST_MESSAGE],
        }
    }

    /// Whether the message was taken.
    pub fn put(&mut self, message: &[u8], destination: u8) -> bool {
        if !self.link_up || message.is_empty() || message.len() > MOST_MESSAGE {
            return false;
        }
        self.bytes[..message.len()].copy_from_slice(message);
        self.length = message.len();
        self.destination = destination;
        true
    }

    pub fn message(&self) -> &[u8] {
        &self.bytes[..self.length]
    }

    fn withdraw(&mut self) {
        self.length = 0;
    }
}

impl Default for Mailbox {
    fn default() -> Mailbox {
        Mailbox::new()
    }
}

#[derive(Clone, Copy, Debug, PartialEq, Eq)]
pub enum EndpointState {
    Off,
    Armed { age: u16 },
    Sending { attempts: u8, ticks: u8 },
    Failed,
}

pub struct Endpoint {
    pub state: EndpointState,
    pub enabled: [u64; 4],
    delay: u8,
    retry: u8,
    prior: Marks,
    since: Marks,
    generation: u8,
    destination: u8,
    pub failure: bool,
}

impl Endpoint {
    pub const fn new() -> Endpoint {
        Endpoint {
            state: EndpointState::Off,
            enabled: [0; 4],
            delay: 0,
            retry: 0,
            prior: Marks::new(),
            since: Marks::new(),
            generation: 0,
            destination: 0,
            failure: false,
        }
    }

    /// A sync or an ack; hands back the length of its answer.
    pub fn request(
        &mut self,
        board: &Board,
        carrier: &mut Mailbox,
        request: &[u8],
        sender: u8,
        answer: &mut [u8],
    ) -> Result<usize, u8> {
        if answer.len() < ROOM_ANSWER {
            return Err(1);
        }
        let request = read_request(request)?;
        Ok(if request.count == 0 {
            self.ack(board, carrier, request.slot, sender, answer)
        } else {
            self.sync(board, carrier, &request, sender, answer)
        })
    }

    fn sync(
        &mut self,
        board: &Board,
        carrier: &mut Mailbox,
        request: &RequestView,
        sender: u8,
        answer: &mut [u8],
    ) -> usize {
        let mut enabled = self.enabled;
        for (identifier, on) in request.items() {
            if is_on(&board.identifiers, identifier) {
                switch(&mut enabled, identifier, on);
            }
        }
        let length = write_answer_of(answer, request.slot, board.enabled(&enabled));
        if overflowed(answer) {
            return length;
        }
        self.enabled = enabled;
        self.delay = request.delay;
        self.retry = request.retry;
        self.failure = false;
        if enabled == [0; 4] {
            self.clear(carrier);
            self.state = EndpointState::Off;
        } else {
            self.arm(carrier, sender);
        }
        length
    }

    fn ack(
        &mut self,
        board: &Board,
        carrier: &mut Mailbox,
        slot: bool,
        sender: u8,
        answer: &mut [u8],
    ) -> usize {
        match self.state {
            EndpointState::Off => write_answer_of(answer, slot, std::iter::empty()),
            EndpointState::Armed { .. } => {
                self.destination = sender;
                write_answer_of(answer, slot, std::iter::empty())
            }
            EndpointState::Sending { .. } | EndpointState::Failed => {
                let length = write_answer_of(answer, slot, self.since.listed(board));
                if !overflowed(answer) {
                    self.arm(carrier, sender);
                }
                length
            }
        }
    }

    /// 100 ms have passed; hands back the length of the event message, or 0 without one.
    pub fn tick(
        &mut self,
        board: &Board,
        carrier: &mut Mailbox,
        buffer: &mut [u8],
    ) -> Result<usize, u8> {
        if buffer.len() < ROOM_EVENT {
            return Err(10);
        }
        match self.state {
            EndpointState::Off | EndpointState::Failed => Ok(0),
            EndpointState::Armed { age } => {
                let delay = 10 * u16::from(self.delay);
                let age = (age + 1).min(delay);
                self.state = EndpointState::Armed { age };
                if age < delay || self.prior.places == 0 {
                    return Ok(0);
                }
                self.generation = (self.generation + 1) % 32;
                self.attempt(board, carrier, buffer, 1)
            }
            EndpointState::Sending { .. } if self.retry == 0 => Ok(0),
            EndpointState::Sending { attempts, ticks } if ticks + 1 < self.retry => {
                self.state = EndpointState::Sending {
                    attempts,
                    ticks: ticks + 1,
                };
                Ok(0)
            }
            EndpointState::Sending {
                attempts: ATTEMPTS, ..
            } => {
                self.fail(carrier);
                Ok(0)
            }
            EndpointState::Sending { attempts, .. } => {
                self.attempt(board, carrier, buffer, attempts + 1)
            }
        }
    }

    /// The source at this place has this reading now.
    pub fn change(&mut self, board: &mut Board, place: usize, reading: &[u8]) -> Result<(), u8> {
        if place >= board.count {
            return Err(11);
        }
        let id = board.ids[place];
        if !is_lawful(id.identifier, id.scope, id.info, reading) {
            return Err(12);
        }
        board.readings.set(place, reading);
        if is_on(&self.enabled, id.identifier) {
            match self.state {
                EndpointState::Off => {}
                EndpointState::Armed { .. } => self.prior.mark(place, reading),
                EndpointState::Sending { .. } | EndpointState::Failed => {
                    self.since.mark(place, reading)
                }
            }
        }
        Ok(())
    }

    #[cold]
    fn attempt(
        &mut self,
        board: &Board,
        carrier: &mut Mailbox,
        buffer: &mut [u8],
        attempts: u8,
    ) -> Result<usize, u8> {
        let transmission = self.generation << 3 | (attempts - 1);
        let length = write_event_of(buffer, transmission, self.prior.listed(board))?;
        let taken = carrier.put(&buffer[..length], self.destination);
        if taken || self.retry > 0 {
            self.state = EndpointState::Sending { attempts, ticks: 0 };
        } else {
            self.fail(carrier);
        }
        Ok(length)
    }

    fn fail(&mut self, carrier: &mut Mailbox) {
        self.state = EndpointState::Failed;
        self.failure = true;
        carrier.withdraw();
    }

    fn arm(&mut self, carrier: &mut Mailbox, sender: u8) {
        self.clear(carrier);
        self.state = EndpointState::Armed { age: 0 };
        self.destination = sender;
    }

    fn clear(&mut self, carrier: &mut Mailbox) {
        self.prior.places = 0;
        self.since.places = 0;
        carrier.withdraw();
    }
}

impl Default for Endpoint {
    fn default() -> Endpoint {
        Endpoint::new()
    }
}

/// Whether the answer in the buffer has the overflow bit.
fn overflowed(answer: &[u8]) -> bool {
    answer[12] & 0x80 != 0
}

fn is_on(identifiers: &[u64; 4], identifier: u8) -> bool {
    identifiers[usize::from(identifier >> 6)] >> (identifier & 63) & 1 == 1
}

fn switch(identifiers: &mut [u64; 4], identifier: u8, on: bool) {
    let bit = 1 << (identifier & 63);
    let word = &mut identifiers[usize::from(identifier >> 6)];
    *word = if on { *word | bit } else { *word & !bit };
}

#[cfg(test)]
mod tests {
    use super::*;
    use crate::inputs::{next, Input, Rng};
    use crate::second;

    /// Random lawful rows, at least one.
    fn rows(rng: &mut Rng) -> Vec<Occurrence> {
        loop {
            match next(rng) {
                Input::WriteEvent { sources, .. } if !sources.is_empty() => return sources,
                _ => {}
            }
        }
    }

    /// A sync that switches each identifier of the rows on or off, in 4 of 5 cases on.
    fn switches(rng: &mut Rng, rows: &[Occurrence]) -> Vec<(u8, bool)> {
        let mut items: Vec<(u8, bool)> = Vec::new();
        for row in rows {
            if items.iter().all(|item| item.0 != row.id.identifier) {
                items.push((row.id.identifier, !rng.one_in(5)));
            }
        }
        items
    }

    fn synced(endpoint: &mut Endpoint, board: &Board, items: &[(u8, bool)], delay: u8) -> Vec<u8> {
        let mut request = [0; 217];
        let length = second::write_sync(&mut request, items, delay, 0).unwrap();
        let mut answer = [0; ROOM_ANSWER];
        let length = endpoint
            .request(
                board,
                &mut Mailbox::new(),
                &request[..length],
                9,
                &mut answer,
            )
            .unwrap();
        answer[..length].to_vec()
    }

    #[test]
    fn a_sync_is_answered_as_the_second_implementation_writes_it() {
        let mut rng = Rng::new(1);
        for _ in 0..500 {
            let rows = rows(&mut rng);
            let items = switches(&mut rng, &rows);
            let listed: Vec<Occurrence> = rows
                .iter()
                .filter(|row| items.contains(&(row.id.identifier, true)))
                .cloned()
                .collect();
            let mut expected = [0; ROOM_ANSWER];
            let length = second::write_answer(&mut expected, false, &listed).unwrap();
            let mut endpoint = Endpoint::new();
            let answer = synced(&mut endpoint, &Board::new(&rows), &items, 1);
            assert_eq!(answer, expected[..length]);
            let armed = !listed.is_empty() && answer[12] != 0x80;
            let state = if armed {
                EndpointState::Armed { age: 0 }
            } else {
                EndpointState::Off
            };
            assert_eq!(endpoint.state, state);
        }
    }

    #[test]
    fn an_idle_tick_writes_nothing_and_ages() {
        let rows = [Occurrence {
            id: Id {
                identifier: 6,
                scope: 2,
                info: 0,
            },
            reading: vec![1],
        }];
        let board = Board::new(&rows);
        let mut carrier = Mailbox::new();
        let mut endpoint = Endpoint::new();
        let mut buffer = [0xEE; ROOM_EVENT];
        assert_eq!(
            endpoint.tick(&board, &mut carrier, &mut buffer[1..]),
            Err(10)
        );
        assert_eq!(endpoint.tick(&board, &mut carrier, &mut buffer), Ok(0));
        synced(&mut endpoint, &board, &[(6, true)], 1);
        for tick in 1..20 {
            assert_eq!(endpoint.tick(&board, &mut carrier, &mut buffer), Ok(0));
            assert_eq!(endpoint.state, EndpointState::Armed { age: tick.min(10) });
        }
        assert_eq!(buffer, [0xEE; ROOM_EVENT]);
        assert_eq!(carrier.message(), []);
    }

    #[test]
    fn a_mark_is_sent_at_the_delay() {
        let mut rng = Rng::new(2);
        for _ in 0..200 {
            let rows = rows(&mut rng);
            let mut board = Board::new(&rows);
            let mut endpoint = Endpoint::new();
            let items: Vec<(u8, bool)> = switches(&mut rng, &rows)
                .iter()
                .map(|item| (item.0, true))
                .collect();
            if synced(&mut endpoint, &board, &items, 0)[12] == 0x80 {
                continue;
            }
            let marked: Vec<Occurrence> = rows.iter().filter(|_| rng.one_in(2)).cloned().collect();
            for (place, row) in rows.iter().enumerate() {
                if marked.contains(row) {
                    endpoint.change(&mut board, place, &row.reading).unwrap();
                }
            }
            let mut expected = [0xEE; ROOM_EVENT];
            let mut length = 0;
            if !marked.is_empty() {
                length = second::write_event(&mut expected, 8, &marked).unwrap();
            }
            let mut buffer = [0xEE; ROOM_EVENT];
            let mut carrier = Mailbox::new();
            assert_eq!(endpoint.tick(&board, &mut carrier, &mut buffer), Ok(length));
            assert_eq!(buffer, expected);
            assert_eq!(carrier.message(), &expected[..length]);
        }
    }
}
