//! One input, given to the proved code and to the second implementation: every number, every field
//! and every byte of every buffer must be the same.

use std::fmt::Debug;

use outside::hand;
use outside::inputs::{Input, Rng};
use outside::second::{self, Id, List, Message, Occurrence};

use crate::ffi::{self, Head, Reader, Row, Switch, Told, Way};

const MOST_MESSAGE: usize = 4224;
const PACKET: usize = 73;
const MOST_ROWS: usize = 64;
const MOST_SWITCHES: usize = 255;

/// A result that differs: what was asked, and what the proved code and the second implementation say.
pub struct Difference {
    pub asked: &'static str,
    pub proved: String,
    pub second: String,
}

type Same = Result<(), Difference>;

/// Compares the two on an input; the generator gives what the input leaves open.
pub fn compare(input: &Input, rng: &mut Rng) -> Same {
    match input {
        Input::Crc(bytes) => checks(bytes),
        Input::Request(bytes) => {
            let read = second::read_request(bytes);
            reader(Reader::Request, bytes, &read, rng)?;
            ack_list(bytes, &read, rng)
        }
        Input::Event(bytes) => {
            let read = second::read_event(bytes);
            let refusal = *read.as_ref().err().unwrap_or(&0);
            same("event refusal", ffi::event_refusal(bytes), refusal)?;
            reader(Reader::Event, bytes, &read, rng)?;
            list(within(bytes, 4), rng)
        }
        Input::Answer(bytes) => {
            reader(Reader::Answer, bytes, &second::read_answer(bytes), rng)?;
            list(within(bytes, 8), rng)
        }
        Input::WriteSync {
            room,
            items,
            delay,
            retry,
        } => {
            let switches = switches(items);
            writer(
                "write sync",
                *room,
                |buffer| ffi::write_sync(buffer, &switches, *delay, *retry),
                |buffer| second::write_sync(buffer, items, *delay, *retry),
            )
        }
        Input::WriteAck { room } => writer("write ack", *room, ffi::write_ack, second::write_ack),
        Input::WriteEvent {
            room,
            transmission,
            sources,
        } => {
            let (rows, mask) = marked_rows(sources, rng);
            writer(
                "write event",
                *room,
                |buffer| ffi::write_event(buffer, *transmission, &rows, mask),
                |buffer| second::write_event(buffer, *transmission, sources),
            )
        }
        Input::WriteAnswer {
            room,
            slot,
            sources,
        } => {
            let (rows, mask) = marked_rows(sources, rng);
            writer(
                "write answer",
                *room,
                |buffer| ffi::write_answer(buffer, *slot, &rows, mask),
                |buffer| second::write_answer(buffer, *slot, sources),
            )
        }
        Input::Packets {
            destination_address,
            source_address,
            source_id,
            destination_id,
            message,
        } => {
            let way = Way {
                destination_address: *destination_address,
                source_address: *source_address,
                source_id: *source_id,
                destination_id: *destination_id,
            };
            carriers(way, message, rng)
        }
        Input::Rows(rows) => {
            let given: Vec<Row> = rows.iter().map(Row::of).collect();
            let refusal = second::rows_refusal(rows).err().unwrap_or(0);
            same("table board", ffi::table_board(&given), refusal)
        }
    }
}

fn same<T: PartialEq + Debug>(asked: &'static str, proved: T, second: T) -> Same {
    if proved == second {
        return Ok(());
    }
    Err(Difference {
        asked,
        proved: format!("{proved:?}"),
        second: format!("{second:?}"),
    })
}

/// Buffers may be long, so only the first place that differs is told.
fn same_bytes(asked: &'static str, proved: &[u8], second: &[u8]) -> Same {
    if proved == second {
        return Ok(());
    }
    let place = proved.iter().zip(second).position(|(a, b)| a != b);
    let told = |bytes: &[u8]| format!("from the place {place:?} on: {}", hex(from(bytes, place)));
    Err(Difference {
        asked,
        proved: told(proved),
        second: told(second),
    })
}

fn from(bytes: &[u8], place: Option<usize>) -> &[u8] {
    let place = place.unwrap_or(0);
    &bytes[place..bytes.len().min(place + 80)]
}

pub fn hex(bytes: &[u8]) -> String {
    bytes.iter().map(|byte| format!("{byte:02X}")).collect()
}

/// A buffer with something in each byte.
fn filled(length: usize) -> Vec<u8> {
    (0..length).map(|place| (place * 37 + 11) as u8).collect()
}

fn checks(bytes: &[u8]) -> Same {
    same("CRC-32C", ffi::crc32c(bytes), second::crc32c(bytes))?;
    same("CRC-8", ffi::crc8(bytes), second::crc8(bytes))?;
    same(
        "CRC-32C by hand",
        hand::crc32c_by_8(bytes),
        second::crc32c(bytes),
    )
}

fn writer(
    asked: &'static str,
    room: usize,
    proved: impl FnOnce(&mut [u8]) -> Told,
    second: impl FnOnce(&mut [u8]) -> Result<usize, u8>,
) -> Same {
    let (mut ours, mut theirs) = (filled(room), filled(room));
    same(asked, proved(&mut ours), second(&mut theirs).into())?;
    same_bytes(asked, &ours, &theirs)
}

fn switches(items: &[(u8, bool)]) -> Vec<Switch> {
    let switch = |&(identifier, on)| Switch { identifier, on };
    items.iter().map(switch).collect()
}

/// The sources as rows that are marked, mostly with one more row that is not.
fn marked_rows(sources: &[Occurrence], rng: &mut Rng) -> (Vec<Row>, u64) {
    let mut rows: Vec<Row> = sources.iter().map(Row::of).collect();
    let all = u64::MAX;
    if rows.len() == MOST_ROWS || (!rows.is_empty() && rng.one_in(4)) {
        return (rows, all);
    }
    let place = rng.between(0, rows.len());
    rows.insert(place, Row::of(&another(sources, rng)));
    (rows, all & !(1 << place))
}

/// A lawful occurrence of another ID than all of these.
fn another(sources: &[Occurrence], rng: &mut Rng) -> Occurrence {
    loop {
        let id = Id {
            identifier: rng.between(0xC0, 0xFF) as u8,
            scope: 0,
            info: rng.number() as u32,
        };
        if sources.iter().all(|source| source.id != id) {
            let length = rng.between(0, 64);
            return Occurrence {
                id,
                reading: rng.bytes(length),
            };
        }
    }
}

/// What stands before a reader is called, so that what it leaves is seen.
struct Shown {
    refusal: u8,
    head: Head,
    switches: Vec<Switch>,
    rows: Vec<Row>,
}

impl Shown {
    fn before(rng: &mut Rng) -> Shown {
        let few = rng.one_in(16);
        let head = Head {
            kind: 0xEE,
            slot: true,
            first: 0xEE,
            retry: 0xEE,
            generation: 0xEE,
            retries: 0xEE,
            overflow: true,
            number: 0xEEEE,
        };
        let switch = Switch {
            identifier: 0xEE,
            on: true,
        };
        let row = Row {
            identifier: 0xEE,
            scope: 0xEE,
            length: 0xEE,
            info: 0xEEEE_EEEE,
            bytes: [0xEE; 64],
        };
        Shown {
            refusal: 0,
            head,
            switches: vec![switch; if few { rng.below(4) } else { MOST_SWITCHES }],
            rows: vec![row; if few { rng.below(4) } else { MOST_ROWS }],
        }
    }

    fn clone_of(&self) -> Shown {
        Shown {
            switches: self.switches.clone(),
            rows: self.rows.clone(),
            ..*self
        }
    }

    /// What the second implementation reads, shown as C is shown it.
    fn show(&mut self, read: &Result<Message, u8>) {
        match read {
            Err(number) => self.refusal = *number,
            Ok(Message::Sync {
                slot,
                delay,
                retry,
                items,
            }) => {
                self.head = Head {
                    first: *delay,
                    retry: *retry,
                    number: items.len(),
                    ..head(1, *slot)
                };
                let switches = switches(items);
                self.switches
                    .iter_mut()
                    .zip(switches)
                    .for_each(|(place, switch)| *place = switch);
            }
            Ok(Message::Ack { slot, .. }) => self.head = head(2, *slot),
            Ok(Message::Event {
                generation,
                retries,
                list,
            }) => {
                let head = Head {
                    generation: *generation,
                    retries: *retries,
                    ..head(3, false)
                };
                self.show_list(head, list);
            }
            Ok(Message::Answer { slot, list }) => self.show_list(head(4, *slot), list),
        }
    }

    fn show_list(&mut self, head: Head, list: &List) {
        self.head = head;
        match list {
            List::Overflow => self.head.overflow = true,
            List::Occurrences(list) => {
                self.head.number = list.len();
                self.rows
                    .iter_mut()
                    .zip(list)
                    .for_each(|(place, occurrence)| *place = Row::of(occurrence));
            }
        }
    }

    fn same_as(&self, asked: &'static str, second: &Shown) -> Same {
        same(asked, self.refusal, second.refusal)?;
        same(asked, self.head, second.head)?;
        same(asked, &self.switches, &second.switches)?;
        same(asked, &self.rows, &second.rows)
    }
}

fn head(kind: u8, slot: bool) -> Head {
    Head {
        kind,
        slot,
        ..Head::default()
    }
}

fn reader(reader: Reader, bytes: &[u8], read: &Result<Message, u8>, rng: &mut Rng) -> Same {
    let mut proved = Shown::before(rng);
    let mut second = proved.clone_of();
    proved.refusal = ffi::read(
        reader,
        bytes,
        &mut proved.head,
        &mut proved.switches,
        &mut proved.rows,
    );
    second.show(read);
    let asked = match reader {
        Reader::Request => "read request",
        Reader::Event => "read event",
        Reader::Answer => "read answer",
    };
    proved.same_as(asked, &second)
}

/// The enable list of an ack; nothing is copied of another request, or into too short a buffer.
fn ack_list(bytes: &[u8], read: &Result<Message, u8>, rng: &mut Rng) -> Same {
    let room = if rng.one_in(16) {
        rng.below(12)
    } else {
        MOST_MESSAGE
    };
    writer(
        "ack's list",
        room,
        |buffer| ffi::ack_list(bytes, buffer),
        |buffer| match read {
            Err(number) => Err(*number),
            Ok(Message::Ack { list, .. }) if list.len() <= buffer.len() => {
                buffer[..list.len()].copy_from_slice(list);
                Ok(list.len())
            }
            Ok(_) => Ok(0),
        },
    )
}

/// What stands between a head of so many bytes and a check word, as far as there is any.
fn within(bytes: &[u8], head: usize) -> &[u8] {
    let end = bytes.len().saturating_sub(4);
    &bytes[head.min(end)..end]
}

fn list(bytes: &[u8], rng: &mut Rng) -> Same {
    let mut proved = Shown::before(rng);
    let mut second = proved.clone_of();
    let is_list = ffi::read_list(bytes, &mut proved.head, &mut proved.rows);
    let read = second::read_list(bytes);
    same("read list", is_list, read.is_some())?;
    if let Some((transmission, list)) = read {
        let head = Head {
            generation: transmission >> 3,
            retries: transmission & 7,
            ..head(5, false)
        };
        second.show_list(head, &list);
    }
    proved.same_as("read list", &second)
}

fn carriers(way: Way, message: &[u8], rng: &mut Rng) -> Same {
    let refusal = second::addresses_refusal(way.destination_address, way.source_address);
    let packets = second::packets(
        way.destination_address,
        way.source_address,
        way.source_id,
        way.destination_id,
        message,
    );
    let counted = refusal.map(|()| packets.len());
    same(
        "packet count",
        ffi::packet_count(way, message),
        counted.into(),
    )?;
    for number in 0..=packets.len() {
        let room = if rng.one_in(8) {
            rng.between(0, PACKET)
        } else {
            PACKET
        };
        let (mut ours, mut theirs) = (filled(room), filled(room));
        let told = ffi::packet(way, message, number, &mut ours);
        let copied = match packets.get(number) {
            Some(packet) if packet.len() <= room => {
                theirs[..packet.len()].copy_from_slice(packet);
                packet.len()
            }
            _ => 0,
        };
        same("packet", told, refusal.map(|()| copied).into())?;
        same_bytes("packet", &ours, &theirs)?;
    }
    same_bytes(
        "joined packets",
        &second::joined(&packets),
        taken(refusal, message),
    )?;
    let room = if rng.one_in(8) {
        rng.between(0, MOST_MESSAGE - 1)
    } else {
        rng.between(MOST_MESSAGE, MOST_MESSAGE + 20)
    };
    let fetch = |buffer: &mut [u8]| fetched(message, buffer);
    writer(
        "mailbox",
        room,
        |buffer| ffi::mailbox_deliver(way.destination_id, message, buffer),
        fetch,
    )?;
    writer(
        "SMBus carrier",
        room,
        |buffer| ffi::smbus_deliver(way, message, buffer),
        |buffer| refusal.and_then(|()| fetch(buffer)),
    )
}

/// The bytes that packets bring: none where the addresses are refused or the message is not taken.
fn taken(refusal: Result<(), u8>, message: &[u8]) -> &[u8] {
    if refusal.is_ok() && second::message_is_taken(message) {
        message
    } else {
        &[]
    }
}

/// What a fetch leaves, after a put of this message on a new carrier.
fn fetched(message: &[u8], buffer: &mut [u8]) -> Result<usize, u8> {
    if buffer.len() < MOST_MESSAGE {
        return Err(23);
    }
    if !second::message_is_taken(message) {
        return Err(24);
    }
    buffer[..message.len()].copy_from_slice(message);
    Ok(message.len())
}
