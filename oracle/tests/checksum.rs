//! The checksum's stand-in, against what its publishers give and against Python's.

use spacepackets::crc::{CRC_CCITT_FALSE, CRC_CCITT_FALSE_BIG_TABLE, CRC_CCITT_FALSE_NO_TABLE};

/// The three forms, whole and in two parts: all must be the same number.
fn checksum(message: &[u8]) -> u16 {
    let by_table = CRC_CCITT_FALSE.checksum(message);
    assert_eq!(by_table, CRC_CCITT_FALSE_NO_TABLE.checksum(message));
    assert_eq!(by_table, CRC_CCITT_FALSE_BIG_TABLE.checksum(message));
    let (front, back) = message.split_at(message.len() / 3);
    macro_rules! in_parts {
        ($($form:ident),*) => {$(
            let mut digest = $form.digest();
            digest.update(front);
            digest.update(back);
            assert_eq!(by_table, digest.finalize());
        )*};
    }
    in_parts!(
        CRC_CCITT_FALSE,
        CRC_CCITT_FALSE_NO_TABLE,
        CRC_CCITT_FALSE_BIG_TABLE
    );
    by_table
}

#[test]
fn published_vectors() {
    assert_eq!(checksum(&[0, 0]), 0x1D0F);
    assert_eq!(checksum(&[0, 0, 0]), 0xCC9C);
    assert_eq!(checksum(&[0xAB, 0xCD, 0xEF, 0x01]), 0x04A2);
    assert_eq!(checksum(&[0x14, 0x56, 0xF8, 0x9A, 0x00, 0x01]), 0x7FD5);
    assert_eq!(checksum(b"123456789"), 0x29B1);
}

/// The message of a length, as in crc_hqx.py.
fn message(length: u64) -> Vec<u8> {
    let mut state = length + 1;
    (0..length)
        .map(|_| {
            state = (state * 1103515245 + 12345) % (1 << 31);
            (state >> 16) as u8
        })
        .collect()
}

#[test]
fn as_python() {
    let lines: Vec<&str> = include_str!("crc_hqx.txt").lines().collect();
    assert_eq!(lines.len(), 305);
    for line in lines {
        let (length, crc) = line.split_once(' ').unwrap();
        let crc = u16::from_str_radix(crc, 16).unwrap();
        assert_eq!(checksum(&message(length.parse().unwrap())), crc, "{length}");
    }
}
