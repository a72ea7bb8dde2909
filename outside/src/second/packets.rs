//! A message as the MCTP packets of SMBus.

use super::crc8;

const PAYLOAD: usize = 64;
const HEADER: usize = 8;
const MOST_MESSAGE: usize = 4224;
const ADDRESSES: u8 = 128;

/// The question that making an SMBus carrier asks: 16.
pub fn addresses_refusal(destination_address: u8, source_address: u8) -> Result<(), u8> {
    if destination_address < ADDRESSES && source_address < ADDRESSES {
        Ok(())
    } else {
        Err(16)
    }
}

/// Whether a put takes the message, the link being up. A put has no refusal number.
pub fn message_is_taken(message: &[u8]) -> bool {
    (1..=MOST_MESSAGE).contains(&message.len())
}

/// The packets of the message; none where the addresses are refused or the message is not taken.
pub fn packets(
    destination_address: u8,
    source_address: u8,
    source_id: u8,
    destination_id: u8,
    message: &[u8],
) -> Vec<Vec<u8>> {
    if addresses_refusal(destination_address, source_address).is_err() || !message_is_taken(message)
    {
        return Vec::new();
    }
    let count = message.len().div_ceil(PAYLOAD);
    let packet = |(number, payload): (usize, &[u8])| {
        let mut bytes = vec![
            destination_address * 2,
            0x0F,
            payload.len() as u8 + 5,
            source_address * 2 + 1,
            0x01,
            destination_id,
            source_id,
            flags(number, count),
        ];
        bytes.extend(payload);
        bytes.push(crc8(&bytes));
        bytes
    };
    message.chunks(PAYLOAD).enumerate().map(packet).collect()
}

/// The payloads of packets that `packets` made, one after the other.
pub fn joined(packets: &[Vec<u8>]) -> Vec<u8> {
    packets
        .iter()
        .flat_map(|packet| &packet[HEADER..packet.len() - 1])
        .copied()
        .collect()
}

fn flags(number: usize, count: usize) -> u8 {
    let first = u8::from(number == 0) << 7;
    let last = u8::from(number + 1 == count) << 6;
    let number = (number % 4) as u8;
    let chosen_by_sender = 1 << 3;
    first | last | number << 4 | chosen_by_sender
}

#[cfg(test)]
mod tests {
    use super::*;

    #[test]
    fn the_documented_packet() {
        let message = [
            0x84, 0x28, 0, 0, 1, 0, 0x11, 0, 0, 7, 8, 9, 1, 0, 6, 0, 0, 0, 0, 2, 0x1E, 0x2C, 0x41,
            0x70, 0xD9,
        ];
        let packet = [
            &[0x20, 0x0F, 0x1E, 0x3B, 1, 8, 0x0A, 0xC8],
            &message[..],
            &[0xDA],
        ]
        .concat();
        assert_eq!(packets(0x10, 0x1D, 0x0A, 0x08, &message), [packet]);
    }

    #[test]
    fn flags_of_five_packets() {
        let message: Vec<u8> = (0..300).map(|i| i as u8).collect();
        let packets = packets(0, 127, 0, 0, &message);
        let flags: Vec<u8> = packets.iter().map(|packet| packet[7]).collect();
        assert_eq!(flags, [0x88, 0x18, 0x28, 0x38, 0x48]);
        assert_eq!(joined(&packets), message);
    }

    #[test]
    fn counts_and_lengths() {
        for (length, count, last) in [
            (1, 1, 10),
            (63, 1, 72),
            (64, 1, 73),
            (65, 2, 10),
            (4224, 66, 73),
        ] {
            let packets = packets(1, 2, 3, 4, &vec![7; length]);
            assert_eq!(packets.len(), count);
            assert_eq!(packets[count - 1].len(), last);
            assert_eq!(joined(&packets), vec![7; length]);
        }
    }

    #[test]
    fn what_is_not_sent() {
        assert_eq!(addresses_refusal(128, 0), Err(16));
        assert_eq!(addresses_refusal(0, 128), Err(16));
        assert_eq!(addresses_refusal(127, 127), Ok(()));
        assert!(!message_is_taken(&[]));
        assert!(!message_is_taken(&[0; 4225]));
        assert!(packets(128, 0, 0, 0, &[1]).is_empty());
    }
}
