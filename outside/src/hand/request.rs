//! Requests, read in place.

use super::unsealed;

const MOST_ITEMS_PART: usize = 4096;

/// A lawful request in its bytes.
#[derive(Clone, Copy, Debug)]
pub struct RequestView<'a> {
    pub slot: bool,
    pub delay: u8,
    pub retry: u8,
    /// How many items; an ack has none.
    pub count: u8,
    items_part: &'a [u8],
}

impl<'a> RequestView<'a> {
    /// Identifier and switch of each item.
    pub fn items(&self) -> impl Iterator<Item = (u8, bool)> + 'a {
        let mut rest = self.items_part;
        (0..self.count).map_while(move |_| {
            let &[length, identifier, switch, ..] = rest else {
                return None;
            };
            rest = rest.get(usize::from(length)..)?;
            Some((identifier, switch & 0x80 != 0))
        })
    }
}

/// Asks the questions 2 to 9 in their order.
pub fn read_request(bytes: &[u8]) -> Result<RequestView<'_>, u8> {
    if !(25..=4224).contains(&bytes.len()) {
        return Err(2);
    }
    if bytes[0] != 0x84 {
        return Err(3);
    }
    let Some((head, list)) = unsealed(bytes).and_then(|request| request.split_first_chunk::<16>())
    else {
        return Err(4);
    };
    if head[1] >> 3 != 1 || head[4] != 0x03 || head[8] != 0x04 {
        return Err(5);
    }
    if head[2] & 0b11 != 0 {
        return Err(6);
    }
    let &[count, _, low, high, header, ..] = list else {
        return Err(2);
    };
    let total = usize::from(u16::from_le_bytes([low, high]));
    let header = usize::from(header);
    if header < 5 || total < header || total > list.len() {
        return Err(7);
    }
    let items_part = &list[header..total];
    if items_part.len() > MOST_ITEMS_PART {
        return Err(8);
    }
    if !items_fit(count, items_part) {
        return Err(9);
    }
    Ok(RequestView {
        slot: head[1] & 1 == 1,
        delay: head[10],
        retry: head[9],
        count,
        items_part,
    })
}

fn items_fit(count: u8, items_part: &[u8]) -> bool {
    let mut place = 0;
    for _ in 0..count {
        match items_part.get(place) {
            Some(&length) if length >= 3 => place += usize::from(length),
            _ => return false,
        }
    }
    place <= items_part.len()
}
