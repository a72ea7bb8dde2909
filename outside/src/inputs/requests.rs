//! Requests, from fields that are each free to be wrong.

use super::lists::MadeBytes;
use super::sources::edge_or_between;
use super::{damage, sealed, Meant, Rng};

const LEAST: usize = 25;
const MOST: usize = 4224;
const MOST_ITEMS_PART: usize = 4096;
/// The most bytes between the enable list's header and its items.
const MOST_GAP: usize = 250;

struct Fields {
    /// The bytes before the enable list.
    head: [u8; 16],
    count: u8,
    version: u8,
    total: u16,
    header_length: u8,
    gap: Vec<u8>,
    items: Vec<Vec<u8>>,
    behind_items: Vec<u8>,
    behind_list: Vec<u8>,
}

pub fn request(rng: &mut Rng) -> MadeBytes {
    let mut fields = lawful(rng);
    match rng.below(20) {
        0..=8 => (fields.kind(), Meant::Accepted, sealed(fields.bytes())),
        9 => at_the_limit(rng, fields),
        10 | 11 => {
            let before = sealed(fields.bytes());
            let (kind, bytes) = damage::unsealed(rng, before);
            (kind, Meant::Refused(first_refusal(&bytes)), bytes)
        }
        12 => several(rng, fields),
        13 => length(rng, fields),
        14 => sealed_damage(rng, fields.bytes()),
        _ => {
            let (kind, number, spoil) = *rng.pick(&SPOILS);
            spoil(rng, &mut fields);
            (kind, Meant::Refused(number), sealed(fields.bytes()))
        }
    }
}

/// The refusal of bytes whose check word is wrong.
fn first_refusal(bytes: &[u8]) -> u8 {
    match bytes {
        _ if !(LEAST..=MOST).contains(&bytes.len()) => 2,
        [0x84, ..] => 4,
        _ => 3,
    }
}

/// A lawful request, mostly shorter than 100 bytes and always far from the limits.
fn lawful(rng: &mut Rng) -> Fields {
    let mut fields = Fields {
        head: [
            0x84,
            0x08,
            0,
            0,
            0x03,
            0,
            0,
            0,
            0x04,
            rng.byte(),
            rng.byte(),
            0,
            0,
            0,
            0,
            0,
        ],
        count: 0,
        version: 0,
        total: 0,
        header_length: 0,
        gap: Vec::new(),
        items: items(rng),
        behind_items: Vec::new(),
        behind_list: Vec::new(),
    };
    while fields.items_part() > 2000 {
        fields.items.pop();
    }
    fields.head[1] |= rng.below(2) as u8;
    if rng.one_in(2) {
        fields.fill_what_is_not_read(rng);
    }
    fields.gap = some_bytes(rng, MOST_GAP);
    fields.behind_items = some_bytes(rng, 40);
    fields.behind_list = some_bytes(rng, 40);
    fields.measure();
    fields
}

fn items(rng: &mut Rng) -> Vec<Vec<u8>> {
    let count = match rng.below(16) {
        0..=3 => 0,
        4 => edge_or_between(rng, 1, 64),
        5 if rng.one_in(4) => edge_or_between(rng, 65, 255),
        _ => rng.between(1, 4),
    };
    let spread = rng.between(1, 256);
    (0..count).map(|_| item(rng, spread)).collect()
}

/// An item of one of the first `spread` identifiers.
fn item(rng: &mut Rng, spread: usize) -> Vec<u8> {
    let length = match rng.below(64) {
        0 => edge_or_between(rng, 3, 255),
        1..=15 => rng.between(3, 6),
        _ => 3,
    };
    let mut item = rng.bytes(length);
    item[0] = length as u8;
    item[1] = rng.below(spread) as u8;
    if rng.one_in(2) {
        item[2] &= 0x80;
    }
    item
}

/// Mostly none, else a few, sometimes up to `most`.
fn some_bytes(rng: &mut Rng, most: usize) -> Vec<u8> {
    let length = match rng.below(16) {
        0 => edge_or_between(rng, 0, most),
        1..=4 => rng.between(1, 4),
        _ => 0,
    };
    rng.bytes(length)
}

impl Fields {
    fn kind(&self) -> &'static str {
        match self.count {
            0 if self.behind_items.is_empty() => "ack",
            0 => "ack with bytes in its items' part",
            1..=64 => "sync",
            _ => "sync of more than 64 items",
        }
    }

    fn fill_what_is_not_read(&mut self, rng: &mut Rng) {
        self.head[1] |= rng.byte() & 0b110;
        self.head[2] = rng.byte() & 0xFC;
        for place in [3, 5, 6, 7, 11, 12, 13, 14, 15] {
            self.head[place] = rng.byte();
        }
        self.version = rng.byte();
    }

    /// Makes the count and the two lengths right.
    fn measure(&mut self) {
        self.count = self.items.len() as u8;
        self.header_length = (5 + self.gap.len()) as u8;
        self.total = (5 + self.gap.len() + self.items_part()) as u16;
    }

    fn items_part(&self) -> usize {
        self.items.iter().map(Vec::len).sum::<usize>() + self.behind_items.len()
    }

    /// The length with the check word.
    fn length(&self) -> usize {
        16 + 5 + self.gap.len() + self.items_part() + self.behind_list.len() + 4
    }

    fn bytes(&self) -> Vec<u8> {
        let mut bytes = self.head.to_vec();
        bytes.extend([self.count, self.version]);
        bytes.extend(self.total.to_le_bytes());
        bytes.push(self.header_length);
        bytes.extend(&self.gap);
        self.items.iter().for_each(|item| bytes.extend(item));
        bytes.extend(&self.behind_items);
        bytes.extend(&self.behind_list);
        bytes
    }

    /// Makes the items' part this long with bytes behind the items, and the rest short enough for
    /// the request's limit.
    fn stretch_items_part(&mut self, rng: &mut Rng, length: usize) {
        self.items.truncate(16);
        self.behind_items.clear();
        let missing = length - self.items_part();
        self.behind_items = rng.bytes(missing);
        self.gap.truncate(MOST - LEAST - length);
        self.behind_list
            .truncate(MOST - LEAST - length - self.gap.len());
        self.measure();
    }

    /// Makes the request this long with bytes behind the enable list.
    fn stretch(&mut self, rng: &mut Rng, length: usize) {
        let missing = length.saturating_sub(self.length());
        self.behind_list.extend(rng.bytes(missing));
    }
}

/// A request near its greatest length, or one whose items' part is.
fn at_the_limit(rng: &mut Rng, mut fields: Fields) -> MadeBytes {
    if rng.one_in(2) {
        let length = rng.between(MOST_ITEMS_PART - 3, MOST_ITEMS_PART + 4);
        fields.stretch_items_part(rng, length);
        let meant = if length > MOST_ITEMS_PART {
            Meant::Refused(8)
        } else {
            Meant::Accepted
        };
        return ("items' part at its limit", meant, sealed(fields.bytes()));
    }
    let length = rng.between(MOST - 2, MOST + 2);
    fields.stretch(rng, length);
    let meant = if length > MOST {
        Meant::Refused(2)
    } else {
        Meant::Accepted
    };
    ("length at its limit", meant, sealed(fields.bytes()))
}

/// A request that is too short or too long.
fn length(rng: &mut Rng, mut fields: Fields) -> MadeBytes {
    if rng.one_in(8) {
        let length = edge_or_between(rng, MOST + 1, MOST + 60);
        fields.stretch(rng, length);
        return ("too long", Meant::Refused(2), sealed(fields.bytes()));
    }
    let mut bytes = fields.bytes();
    let length = edge_or_between(rng, 0, LEAST - 1);
    bytes.truncate(length.saturating_sub(4));
    let mut bytes = sealed(bytes);
    bytes.truncate(length);
    ("too short", Meant::Refused(2), bytes)
}

/// Damage to the bytes of a request before its check word is made.
fn sealed_damage(rng: &mut Rng, mut bytes: Vec<u8>) -> MadeBytes {
    match rng.below(4) {
        0 => {
            let length = edge_or_between(rng, LEAST - 4, bytes.len());
            bytes.truncate(length);
            ("sealed, cut", Meant::Either, sealed(bytes))
        }
        1 => {
            let length = rng.between(5, 40);
            bytes.truncate(16);
            bytes.extend(rng.bytes(length));
            ("sealed, random enable list", Meant::Either, sealed(bytes))
        }
        _ => {
            let place = if rng.one_in(2) {
                rng.below(bytes.len())
            } else {
                rng.below(21)
            };
            bytes[place] ^= rng.byte_but_zero();
            ("sealed, byte changed", Meant::Either, sealed(bytes))
        }
    }
}

/// Several faults in one request; the first question's number is the refusal.
fn several(rng: &mut Rng, mut fields: Fields) -> MadeBytes {
    let mut least = None;
    for (_, number, spoil) in SPOILS.iter().rev() {
        if rng.one_in(4) {
            spoil(rng, &mut fields);
            least = Some(*number);
        }
    }
    let mut bytes = sealed(fields.bytes());
    if rng.one_in(4) {
        let last = bytes.len() - 1;
        bytes[last] ^= rng.byte_but_zero();
        least = Some(first_refusal(&bytes));
    }
    let meant = least.map_or(Meant::Accepted, Meant::Refused);
    ("several faults", meant, bytes)
}

/// Breaks one rule in a deliberate way.
type Spoil = fn(&mut Rng, &mut Fields);

/// With the number of the refusal, in its order. None makes right what one further down made wrong.
const SPOILS: [(&str, u8, Spoil); 13] = [
    ("message type", 3, |rng, fields| {
        fields.head[0] ^= rng.byte_but_zero()
    }),
    ("command's kind", 5, |rng, fields| {
        fields.head[1] ^= (rng.between(1, 31) as u8) << 3
    }),
    ("command", 5, |rng, fields| {
        fields.head[4] ^= rng.byte_but_zero()
    }),
    ("configuration", 5, |rng, fields| {
        fields.head[8] ^= rng.byte_but_zero()
    }),
    ("flags", 6, |rng, fields| {
        fields.head[2] |= rng.between(1, 3) as u8
    }),
    ("header length below 5", 7, |rng, fields| {
        fields.header_length = rng.below(5) as u8
    }),
    ("total length below the header length", 7, |rng, fields| {
        fields.header_length = fields.header_length.max(5);
        fields.total = edge_or_between(rng, 0, usize::from(fields.header_length) - 1) as u16;
    }),
    ("total length beyond the request", 7, total_beyond),
    ("item's length below 3", 9, short_item),
    ("item beyond the items' part", 9, long_item),
    ("one item too many", 9, item_too_many),
    ("items too many", 9, items_too_many),
    ("no items' part", 9, no_items_part),
];

fn total_beyond(rng: &mut Rng, fields: &mut Fields) {
    let most = fields.length() - 20;
    fields.total = if rng.one_in(2) {
        most + 1
    } else {
        rng.between(most + 1, 0xFFFF)
    } as u16;
}

fn short_item(rng: &mut Rng, fields: &mut Fields) {
    if fields.items.is_empty() {
        fields.items.push(item(rng, 256));
    }
    let place = rng.below(fields.items.len());
    fields.items[place][0] = rng.below(3) as u8;
    fields.measure();
}

/// The last item is longer than what is left of the items' part.
fn long_item(rng: &mut Rng, fields: &mut Fields) {
    fields.behind_items.truncate(200);
    let least = 4 + fields.behind_items.len();
    let length = edge_or_between(rng, least, 255);
    fields.items.truncate(254);
    fields
        .items
        .push(vec![length as u8, rng.byte(), rng.byte()]);
    fields.measure();
}

/// What is behind the items begins like another one, but is too short for it.
fn item_too_many(rng: &mut Rng, fields: &mut Fields) {
    fields.items.truncate(254);
    let left = rng.below(4);
    let length = edge_or_between(rng, left.max(2) + 1, 255) as u8;
    fields.behind_items = [length, rng.byte(), rng.byte()][..left].to_vec();
    fields.measure();
    fields.count += 1;
}

fn items_too_many(rng: &mut Rng, fields: &mut Fields) {
    let least = fields.items_part() / 3 + 1;
    if least <= 255 {
        fields.count = edge_or_between(rng, least, 255) as u8;
    } else {
        item_too_many(rng, fields);
    }
}

fn no_items_part(rng: &mut Rng, fields: &mut Fields) {
    fields.items.clear();
    fields.behind_items.clear();
    fields.measure();
    fields.count = edge_or_between(rng, 1, 255) as u8;
}
