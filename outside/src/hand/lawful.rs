//! Which unique IDs and readings are lawful, by a table.

pub const FIRST_VENDOR: u8 = 0xC0;

struct Rule {
    /// Bit s is 1 if scope s is lawful.
    scopes: u8,
    length: u8,
    highest: u8,
}

const fn rule(scopes: u8, length: u8, highest: u8) -> Rule {
    Rule {
        scopes,
        length,
        highest,
    }
}

/// By identifier.
static RULES: [Rule; 12] = [
    rule(0b00_0010, 1, 1),
    rule(0b00_0010, 1, 1),
    rule(0b00_0110, 1, 7),
    rule(0b00_0010, 1, 3),
    rule(0b00_0010, 0, 0),
    rule(0b00_0100, 0, 0),
    rule(0b00_0100, 1, 255),
    rule(0b00_0100, 1, 255),
    rule(0b00_0100, 1, 255),
    rule(0b00_0100, 1, 255),
    rule(0b00_0110, 0, 0),
    rule(0b01_0000, 1, 1),
];

/// Whether an occurrence with this unique ID and this reading is lawful.
pub fn is_lawful(identifier: u8, scope: u8, info: u32, reading: &[u8]) -> bool {
    if identifier >= FIRST_VENDOR {
        return reading.len() <= 64 && vendor_info_is_lawful(scope, info);
    }
    let Some(rule) = RULES.get(usize::from(identifier)) else {
        return false;
    };
    let highest = reading.first().copied().unwrap_or(0);
    scope < 8
        && rule.scopes >> scope & 1 == 1
        && reading.len() == usize::from(rule.length)
        && highest <= rule.highest
        && match scope {
            1 => info <= 0xFFFF,
            2 => info == 0,
            _ => info & !0xFF == 0x1_0000,
        }
}

fn vendor_info_is_lawful(scope: u8, info: u32) -> bool {
    match scope {
        0 => true,
        1 | 5 => info <= 0xFFFF,
        2 => info == 0,
        3 => info <= 0xFF,
        4 => info <= 0x1_00FF,
        _ => false,
    }
}
