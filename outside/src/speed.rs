//! How long the proved code takes, beside hand-written code at the same optimisation.

use std::hint::black_box;
use std::time::{Duration, Instant};

use outside::hand::{self, Board, Book, Endpoint, EndpointState, ListView, Mailbox};
use outside::inputs::Rng;
use outside::second::{self, Id, Occurrence};

use crate::ffi::{self, Head, Reader, Rounds, Row};

/// How long one run takes at least, and how many there are of each; the shortest counts. What is
/// compared runs by turns, so that another load of the machine meets all of it.
const RUN: Duration = Duration::from_millis(1);
const RUNS: usize = 400;

const ROOM: usize = 4224;
const HEAD: usize = 4;
const LIST_HEAD: usize = 7;
const OCCURRENCE_HEAD: usize = 9;
const CHECK: usize = 4;
const DELAY: u8 = 255;

/// Messages of so many bytes, with so many occurrences.
const MESSAGES: [(usize, usize); 3] = [(25, 1), (256, 24), (4111, 64)];

/// Measures everything, and prints a table.
pub fn measure() {
    println!(
        "nanoseconds a call, the best of {RUNS} runs, and how many times the other's the first is"
    );
    checks();
    for (length, number) in MESSAGES {
        message(length, number);
    }
    descending();
    ticks();
}

/// A function that makes so many calls.
type Calls<'a> = &'a mut dyn FnMut(usize);

/// The nanoseconds of a call, in the shortest of the runs of each.
fn times<const N: usize>(mut all: [Calls; N]) -> [f64; N] {
    let numbers = all.each_mut().map(|calls| calls_of_a_run(calls));
    let mut shortest = [Duration::MAX; N];
    for _ in 0..RUNS {
        for (place, calls) in all.iter_mut().enumerate() {
            shortest[place] = shortest[place].min(run(calls, numbers[place]));
        }
    }
    std::array::from_fn(|place| shortest[place].as_nanos() as f64 / numbers[place] as f64)
}

fn run(calls: &mut Calls, number: usize) -> Duration {
    let start = Instant::now();
    calls(number);
    start.elapsed()
}

fn calls_of_a_run(calls: &mut Calls) -> usize {
    let mut number = 1;
    while run(calls, number) < RUN {
        number *= 2;
    }
    number
}

/// Makes so many calls of a function that makes one.
fn each(mut call: impl FnMut()) -> impl FnMut(usize) {
    move |number| (0..number).for_each(|_| call())
}

fn row<const N: usize>(what: &str, names: [&str; N], all: [f64; N]) {
    print!("{what:<46}");
    for (place, (name, nanoseconds)) in names.iter().zip(all).enumerate() {
        print!("  {name} {nanoseconds:>8.1}");
        if place > 0 {
            print!(" ({:.2})", all[0] / nanoseconds);
        }
    }
    println!();
}

const BOTH: [&str; 2] = ["proved", "by hand"];

fn checks() {
    let mut rng = Rng::new(1);
    for (length, _) in MESSAGES {
        let bytes = rng.bytes(length);
        let all = times([
            &mut each(|| {
                black_box(ffi::crc32c(black_box(&bytes)));
            }),
            &mut each(|| {
                black_box(by_8(black_box(&bytes)));
            }),
            &mut each(|| {
                black_box(by_table(black_box(&bytes)));
            }),
        ]);
        let names = ["proved", "slicing by 8", "one table"];
        row(&format!("CRC-32C of {length} bytes"), names, all);
    }
}

/// A call, as the proved one is.
#[inline(never)]
fn by_8(bytes: &[u8]) -> u32 {
    hand::crc32c_by_8(bytes)
}

#[inline(never)]
fn by_table(bytes: &[u8]) -> u32 {
    hand::crc32c_by_table(bytes)
}

/// Writing, reading, syncing and picking up with a message of so many bytes and occurrences.
fn message(length: usize, number: usize) {
    let sources = sources(length, number);
    let rows: Vec<Row> = sources.iter().map(Row::of).collect();
    let views: Vec<(Id, &[u8])> = sources.iter().map(|o| (o.id, &o.reading[..])).collect();
    let even = event(8, &sources);
    assert_eq!(even.len(), length);
    writing(length, &rows, &views);
    reading(length, &even);
    syncing(length, &sources, &rows);
    picking_up(length, &sources);
}

fn writing(length: usize, rows: &[Row], views: &[(Id, &[u8])]) {
    let (mut ours, mut theirs) = ([0; ROOM], [0; ROOM]);
    let all = times([
        &mut |number| {
            let transmissions = vec![8; number];
            let told = ffi::write_events(&mut ours, &transmissions, rows, u64::MAX);
            assert_eq!(told, Ok(length).into());
        },
        &mut each(|| {
            let count = hand::write_event(black_box(&mut theirs), black_box(8), black_box(views));
            assert_eq!(count, Ok(length));
        }),
    ]);
    row(
        &format!("writing an event message of {length} bytes"),
        BOTH,
        all,
    );
}

fn reading(length: usize, message: &[u8]) {
    row(
        &format!("reading an event message of {length} bytes"),
        BOTH,
        reading_times(message),
    );
    let mut switches = [];
    let (mut ours, mut theirs) = ([BLANK_ROW; 64], [BLANK_ROW; 64]);
    let all = times([
        &mut each(|| {
            let mut head = Head::default();
            let message = black_box(message);
            let refusal = ffi::read(Reader::Event, message, &mut head, &mut switches, &mut ours);
            assert_eq!(black_box(refusal), 0);
        }),
        &mut each(|| {
            let view = hand::read_event(black_box(message));
            let head = view.map_or_else(|_| Head::default(), |view| show(&view, &mut theirs));
            black_box((head, &mut theirs));
        }),
    ]);
    row("    and its rows written out", BOTH, all);
}

fn reading_times(message: &[u8]) -> [f64; 2] {
    times([
        &mut each(|| assert_eq!(ffi::event_refusal(black_box(message)), 0)),
        &mut each(|| assert!(hand::read_event(black_box(message)).is_ok())),
    ])
}

/// The longest message, with unique IDs that descend.
fn descending() {
    let mut sources = sources(4111, 64);
    sources.reverse();
    let message = event(8, &sources);
    let all = reading_times(&message);
    row("reading 4111 bytes, unique IDs descending", BOTH, all);
}

fn syncing(length: usize, sources: &[Occurrence], rows: &[Row]) {
    let request = sync_of(sources);
    let (mut ours, mut theirs) = ([0; ROOM], [0; ROOM]);
    let answer = length + 4;
    let all = times([
        &mut |number| {
            let told = ffi::endpoint_steps(rows, &request, &vec![1; number], &mut ours);
            assert_eq!(told, Ok(answer).into());
        },
        &mut |number| {
            let told = hand_steps(sources, &request, &vec![1; number], &mut theirs);
            assert_eq!(told, Ok(answer));
        },
    ]);
    row(
        &format!("a sync with an answer of {answer} bytes"),
        BOTH,
        all,
    );
}

fn picking_up(length: usize, sources: &[Occurrence]) {
    let mut book = self::sources(4111, 64);
    for (entry, source) in book.iter_mut().zip(sources) {
        entry.id = source.id;
    }
    let opening = answer(&book);
    let empty = answer(&[]);
    let (even, odd) = (event(8, sources), event(16, sources));
    let rounds = Rounds {
        opening: &opening,
        even: &even,
        odd: &odd,
        answer: &empty,
    };
    let (mut ours, mut theirs) = ([0; ROOM], [0; ROOM]);
    let all = times([
        &mut |number| {
            let told = ffi::book_rounds(&rounds, &turns(number), &mut ours);
            assert_eq!(told, Ok(length).into());
        },
        &mut |number| {
            let told = hand_rounds(&rounds, &turns(number), &mut theirs);
            assert_eq!(told, Ok(length));
        },
    ]);
    row(&format!("a round of a book with {length} bytes"), BOTH, all);
}

/// A tick of an armed endpoint without marks, by the number of its board's sources.
fn ticks() {
    for number in [1, 8, 64] {
        let sources = sources(HEAD + LIST_HEAD + CHECK + number * 10, number);
        let rows: Vec<Row> = sources.iter().map(Row::of).collect();
        let request = sync_of(&sources);
        let (mut ours, mut theirs) = ([0; ROOM], [0; ROOM]);
        let all = times([
            &mut |number| {
                let told = ffi::endpoint_steps(&rows, &request, &idle(number), &mut ours);
                assert_eq!(told, Ok(0).into());
            },
            &mut |number| {
                let told = hand_steps(&sources, &request, &idle(number), &mut theirs);
                assert_eq!(told, Ok(0));
            },
        ]);
        row(&format!("an idle tick, {number} sources"), BOTH, all);
    }
}

/// A sync and so many ticks.
fn idle(number: usize) -> Vec<u8> {
    let mut steps = vec![0; number + 1];
    steps[0] = 1;
    steps
}

/// 0 and 1 by turns.
fn turns(number: usize) -> Vec<u8> {
    (0..number).map(|place| (place % 2) as u8).collect()
}

/// Vendor sources of unlike IDs, whose event message has so many bytes.
fn sources(length: usize, number: usize) -> Vec<Occurrence> {
    let readings = length - HEAD - LIST_HEAD - CHECK - number * OCCURRENCE_HEAD;
    let mut rng = Rng::new(length as u64);
    (0..number)
        .map(|place| {
            let more = usize::from(place < readings % number);
            Occurrence {
                id: Id {
                    identifier: 0xC0 + place as u8,
                    scope: 0,
                    info: rng.number() as u32,
                },
                reading: rng.bytes(readings / number + more),
            }
        })
        .collect()
}

fn event(transmission: u8, sources: &[Occurrence]) -> Vec<u8> {
    let mut buffer = vec![0; ROOM];
    let count = second::write_event(&mut buffer, transmission, sources);
    buffer.truncate(count.unwrap_or(0));
    buffer
}

fn answer(sources: &[Occurrence]) -> Vec<u8> {
    let mut buffer = vec![0; ROOM];
    let count = second::write_answer(&mut buffer, false, sources);
    buffer.truncate(count.unwrap_or(0));
    buffer
}

/// A sync that switches the identifiers of these sources on.
fn sync_of(sources: &[Occurrence]) -> Vec<u8> {
    let items: Vec<(u8, bool)> = sources.iter().map(|o| (o.id.identifier, true)).collect();
    let mut buffer = vec![0; ROOM];
    let count = second::write_sync(&mut buffer, &items, DELAY, 0);
    buffer.truncate(count.unwrap_or(0));
    buffer
}

/// What `endpoint_steps` of the static library does.
fn hand_steps(
    sources: &[Occurrence],
    message: &[u8],
    steps: &[u8],
    buffer: &mut [u8],
) -> Result<usize, u8> {
    let board = Board::new(sources);
    let mut endpoint = Endpoint::new();
    let mut carrier = Mailbox::new();
    let mut last = Ok(0);
    for step in steps {
        last = if *step == 0 {
            endpoint.tick(&board, &mut carrier, black_box(buffer))
        } else {
            endpoint.request(&board, &mut carrier, message, *step, black_box(buffer))
        };
    }
    assert!(matches!(endpoint.state, EndpointState::Armed { .. }));
    last
}

/// What `book_rounds` of the static library does.
fn hand_rounds(rounds: &Rounds, numbers: &[u8], buffer: &mut [u8]) -> Result<usize, u8> {
    let mut book = Book::settled(rounds.opening)?;
    let mut carrier = Mailbox::new();
    let mut last = Ok(0);
    for number in numbers {
        let message = if number % 2 == 0 {
            rounds.even
        } else {
            rounds.odd
        };
        carrier.put(message, 0);
        last = book.pick_up(&carrier, black_box(buffer));
        hand_ack(black_box(buffer));
        let (_, list) = hand::read_answer(black_box(rounds.answer))?;
        assert!(!list.overflow);
        book.settle();
    }
    last
}

/// An ack, written by hand.
fn hand_ack(buffer: &mut [u8]) {
    let ack = [
        0x84, 0x08, 0, 0, 3, 0, 0, 0, 4, 0, 0, 0, 0, 0, 0, 0, 0, 0, 5, 0, 5,
    ];
    let word = hand::crc32c_by_8(&ack);
    buffer[..ack.len()].copy_from_slice(&ack);
    buffer[ack.len()..ack.len() + CHECK].copy_from_slice(&word.to_le_bytes());
}

/// Writes the occurrences of an event message into rows, as the static library does.
fn show(view: &ListView, rows: &mut [Row]) -> Head {
    let mut head = Head {
        kind: 3,
        generation: view.transmission >> 3,
        retries: view.transmission & 7,
        overflow: view.overflow,
        ..Head::default()
    };
    if view.overflow {
        return head;
    }
    for (id, reading) in view.occurrences() {
        if let Some(row) = rows.get_mut(head.number) {
            row.identifier = id.identifier;
            row.scope = id.scope;
            row.info = id.info;
            row.length = reading.len() as u8;
            row.bytes = [0; 64];
            row.bytes[..reading.len()].copy_from_slice(reading);
        }
        head.number += 1;
    }
    head
}

const BLANK_ROW: Row = Row {
    identifier: 0,
    scope: 0,
    length: 0,
    info: 0,
    bytes: [0; 64],
};
