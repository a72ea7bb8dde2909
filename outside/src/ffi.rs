//! The calls of the static library, as C declares them, and what they hand out.
//!
//! A slice goes as a pointer and a length. Every call refuses what it cannot do, so any slices and
//! numbers are right for it. Each hands back the number of its refusal, 0 where there is none.

use outside::second::{Id, Occurrence};

/// A source with a reading of it.
#[repr(C)]
#[derive(Clone, Copy, Debug, PartialEq, Eq)]
pub struct Row {
    pub identifier: u8,
    pub scope: u8,
    pub length: u8,
    pub info: u32,
    pub bytes: [u8; 64],
}

/// An item of an enable list.
#[repr(C)]
#[derive(Clone, Copy, Debug, PartialEq, Eq)]
pub struct Switch {
    pub identifier: u8,
    pub on: bool,
}

/// What a message says beside its items and occurrences.
#[repr(C)]
#[derive(Clone, Copy, Debug, Default, PartialEq, Eq)]
pub struct Head {
    pub kind: u8,
    pub slot: bool,
    pub first: u8,
    pub retry: u8,
    pub generation: u8,
    pub retries: u8,
    pub overflow: bool,
    pub number: usize,
}

impl Row {
    /// The row of an occurrence; of a reading of more than 64 bytes the first 64.
    pub fn of(occurrence: &Occurrence) -> Row {
        let Occurrence { id, reading } = occurrence;
        let kept = reading.len().min(64);
        let mut bytes = [0; 64];
        bytes[..kept].copy_from_slice(&reading[..kept]);
        let Id {
            identifier,
            scope,
            info,
        } = *id;
        Row {
            identifier,
            scope,
            length: u8::try_from(reading.len()).unwrap_or(u8::MAX),
            info,
            bytes,
        }
    }
}

/// What a call hands back: the number of its refusal, and its count, 0 where it was refused.
#[derive(Clone, Copy, Debug, PartialEq, Eq)]
pub struct Told {
    pub refusal: u8,
    pub count: usize,
}

impl From<Result<usize, u8>> for Told {
    fn from(result: Result<usize, u8>) -> Told {
        match result {
            Ok(count) => Told { refusal: 0, count },
            Err(refusal) => Told { refusal, count: 0 },
        }
    }
}

/// Where the packets of a message go from and to.
#[derive(Clone, Copy, Debug)]
pub struct Way {
    pub destination_address: u8,
    pub source_address: u8,
    pub source_id: u8,
    pub destination_id: u8,
}

extern "C" {
    fn fenduxi_crc32c(bytes: *const u8, length: usize) -> u32;
    fn fenduxi_crc8(bytes: *const u8, length: usize) -> u8;
    fn fenduxi_write_sync(
        buffer: *mut u8,
        room: usize,
        items: *const Switch,
        number: usize,
        first: u8,
        retry: u8,
        count: *mut usize,
    ) -> u8;
    fn fenduxi_write_ack(buffer: *mut u8, room: usize, count: *mut usize) -> u8;
    fn fenduxi_write_event(
        buffer: *mut u8,
        room: usize,
        transmission: u8,
        rows: *const Row,
        number: usize,
        mask: u64,
        count: *mut usize,
    ) -> u8;
    fn fenduxi_write_answer(
        buffer: *mut u8,
        room: usize,
        slot: bool,
        rows: *const Row,
        number: usize,
        mask: u64,
        count: *mut usize,
    ) -> u8;
    fn fenduxi_table_board(rows: *const Row, number: usize) -> u8;
    fn fenduxi_read_request(
        bytes: *const u8,
        length: usize,
        head: *mut Head,
        switches: *mut Switch,
        switches_room: usize,
        rows: *mut Row,
        rows_room: usize,
    ) -> u8;
    fn fenduxi_read_event(
        bytes: *const u8,
        length: usize,
        head: *mut Head,
        switches: *mut Switch,
        switches_room: usize,
        rows: *mut Row,
        rows_room: usize,
    ) -> u8;
    fn fenduxi_read_answer(
        bytes: *const u8,
        length: usize,
        head: *mut Head,
        switches: *mut Switch,
        switches_room: usize,
        rows: *mut Row,
        rows_room: usize,
    ) -> u8;
    fn fenduxi_read_list(
        bytes: *const u8,
        length: usize,
        head: *mut Head,
        rows: *mut Row,
        rows_room: usize,
    ) -> bool;
    fn fenduxi_ack_list(
        bytes: *const u8,
        length: usize,
        buffer: *mut u8,
        room: usize,
        count: *mut usize,
    ) -> u8;
    fn fenduxi_event_refusal(bytes: *const u8, length: usize) -> u8;
    fn fenduxi_packet_count(
        destination_address: u8,
        source_address: u8,
        source_id: u8,
        destination_id: u8,
        message: *const u8,
        length: usize,
        count: *mut usize,
    ) -> u8;
    fn fenduxi_packet(
        destination_address: u8,
        source_address: u8,
        source_id: u8,
        destination_id: u8,
        message: *const u8,
        length: usize,
        number: usize,
        buffer: *mut u8,
        room: usize,
        count: *mut usize,
    ) -> u8;
    fn fenduxi_smbus_deliver(
        destination_address: u8,
        source_address: u8,
        source_id: u8,
        destination_id: u8,
        message: *const u8,
        length: usize,
        buffer: *mut u8,
        room: usize,
        count: *mut usize,
    ) -> u8;
    fn fenduxi_mailbox_deliver(
        destination_id: u8,
        message: *const u8,
        length: usize,
        buffer: *mut u8,
        room: usize,
        count: *mut usize,
    ) -> u8;
    fn fenduxi_write_events(
        buffer: *mut u8,
        room: usize,
        transmissions: *const u8,
        transmissions_number: usize,
        rows: *const Row,
        number: usize,
        mask: u64,
        count: *mut usize,
    ) -> u8;
    fn fenduxi_endpoint_steps(
        rows: *const Row,
        number: usize,
        message: *const u8,
        length: usize,
        steps: *const u8,
        steps_number: usize,
        buffer: *mut u8,
        room: usize,
        count: *mut usize,
    ) -> u8;
    fn fenduxi_book_rounds(
        opening: *const u8,
        opening_length: usize,
        even: *const u8,
        even_length: usize,
        odd: *const u8,
        odd_length: usize,
        answer: *const u8,
        answer_length: usize,
        numbers: *const u8,
        numbers_number: usize,
        buffer: *mut u8,
        room: usize,
        count: *mut usize,
    ) -> u8;
}

pub fn crc32c(bytes: &[u8]) -> u32 {
    unsafe { fenduxi_crc32c(bytes.as_ptr(), bytes.len()) }
}

pub fn crc8(bytes: &[u8]) -> u8 {
    unsafe { fenduxi_crc8(bytes.as_ptr(), bytes.len()) }
}

pub fn write_sync(buffer: &mut [u8], items: &[Switch], first: u8, retry: u8) -> Told {
    told(|count| unsafe {
        fenduxi_write_sync(
            buffer.as_mut_ptr(),
            buffer.len(),
            items.as_ptr(),
            items.len(),
            first,
            retry,
            count,
        )
    })
}

pub fn write_ack(buffer: &mut [u8]) -> Told {
    told(|count| unsafe { fenduxi_write_ack(buffer.as_mut_ptr(), buffer.len(), count) })
}

pub fn write_event(buffer: &mut [u8], transmission: u8, rows: &[Row], mask: u64) -> Told {
    told(|count| unsafe {
        fenduxi_write_event(
            buffer.as_mut_ptr(),
            buffer.len(),
            transmission,
            rows.as_ptr(),
            rows.len(),
            mask,
            count,
        )
    })
}

pub fn write_answer(buffer: &mut [u8], slot: bool, rows: &[Row], mask: u64) -> Told {
    told(|count| unsafe {
        fenduxi_write_answer(
            buffer.as_mut_ptr(),
            buffer.len(),
            slot,
            rows.as_ptr(),
            rows.len(),
            mask,
            count,
        )
    })
}

pub fn table_board(rows: &[Row]) -> u8 {
    unsafe { fenduxi_table_board(rows.as_ptr(), rows.len()) }
}

/// Which reader of messages is called.
#[derive(Clone, Copy, Debug, PartialEq, Eq)]
pub enum Reader {
    Request,
    Event,
    Answer,
}

pub fn read(
    reader: Reader,
    bytes: &[u8],
    head: &mut Head,
    switches: &mut [Switch],
    rows: &mut [Row],
) -> u8 {
    let call = match reader {
        Reader::Request => fenduxi_read_request,
        Reader::Event => fenduxi_read_event,
        Reader::Answer => fenduxi_read_answer,
    };
    unsafe {
        call(
            bytes.as_ptr(),
            bytes.len(),
            head,
            switches.as_mut_ptr(),
            switches.len(),
            rows.as_mut_ptr(),
            rows.len(),
        )
    }
}

pub fn read_list(bytes: &[u8], head: &mut Head, rows: &mut [Row]) -> bool {
    unsafe {
        fenduxi_read_list(
            bytes.as_ptr(),
            bytes.len(),
            head,
            rows.as_mut_ptr(),
            rows.len(),
        )
    }
}

pub fn ack_list(bytes: &[u8], buffer: &mut [u8]) -> Told {
    told(|count| unsafe {
        fenduxi_ack_list(
            bytes.as_ptr(),
            bytes.len(),
            buffer.as_mut_ptr(),
            buffer.len(),
            count,
        )
    })
}

pub fn event_refusal(bytes: &[u8]) -> u8 {
    unsafe { fenduxi_event_refusal(bytes.as_ptr(), bytes.len()) }
}

pub fn packet_count(way: Way, message: &[u8]) -> Told {
    told(|count| unsafe {
        fenduxi_packet_count(
            way.destination_address,
            way.source_address,
            way.source_id,
            way.destination_id,
            message.as_ptr(),
            message.len(),
            count,
        )
    })
}

pub fn packet(way: Way, message: &[u8], number: usize, buffer: &mut [u8]) -> Told {
    told(|count| unsafe {
        fenduxi_packet(
            way.destination_address,
            way.source_address,
            way.source_id,
            way.destination_id,
            message.as_ptr(),
            message.len(),
            number,
            buffer.as_mut_ptr(),
            buffer.len(),
            count,
        )
    })
}

pub fn smbus_deliver(way: Way, message: &[u8], buffer: &mut [u8]) -> Told {
    told(|count| unsafe {
        fenduxi_smbus_deliver(
            way.destination_address,
            way.source_address,
            way.source_id,
            way.destination_id,
            message.as_ptr(),
            message.len(),
            buffer.as_mut_ptr(),
            buffer.len(),
            count,
        )
    })
}

pub fn mailbox_deliver(destination_id: u8, message: &[u8], buffer: &mut [u8]) -> Told {
    told(|count| unsafe {
        fenduxi_mailbox_deliver(
            destination_id,
            message.as_ptr(),
            message.len(),
            buffer.as_mut_ptr(),
            buffer.len(),
            count,
        )
    })
}

pub fn write_events(buffer: &mut [u8], transmissions: &[u8], rows: &[Row], mask: u64) -> Told {
    told(|count| unsafe {
        fenduxi_write_events(
            buffer.as_mut_ptr(),
            buffer.len(),
            transmissions.as_ptr(),
            transmissions.len(),
            rows.as_ptr(),
            rows.len(),
            mask,
            count,
        )
    })
}

pub fn endpoint_steps(rows: &[Row], message: &[u8], steps: &[u8], buffer: &mut [u8]) -> Told {
    told(|count| unsafe {
        fenduxi_endpoint_steps(
            rows.as_ptr(),
            rows.len(),
            message.as_ptr(),
            message.len(),
            steps.as_ptr(),
            steps.len(),
            buffer.as_mut_ptr(),
            buffer.len(),
            count,
        )
    })
}

/// What a book is told in its rounds.
pub struct Rounds<'a> {
    pub opening: &'a [u8],
    pub even: &'a [u8],
    pub odd: &'a [u8],
    pub answer: &'a [u8],
}

pub fn book_rounds(rounds: &Rounds, numbers: &[u8], buffer: &mut [u8]) -> Told {
    told(|count| unsafe {
        fenduxi_book_rounds(
            rounds.opening.as_ptr(),
            rounds.opening.len(),
            rounds.even.as_ptr(),
            rounds.even.len(),
            rounds.odd.as_ptr(),
            rounds.odd.len(),
            rounds.answer.as_ptr(),
            rounds.answer.len(),
            numbers.as_ptr(),
            numbers.len(),
            buffer.as_mut_ptr(),
            buffer.len(),
            count,
        )
    })
}

/// Calls with a place for the count, which is filled with a number that no call counts.
fn told(call: impl FnOnce(*mut usize) -> u8) -> Told {
    let mut count = usize::MAX;
    let refusal = call(&mut count);
    Told { refusal, count }
}
