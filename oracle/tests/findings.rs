//! Faults of the crate, each with the smallest input that shows it.

use arbitrary_int::u11;
use oracle::answer;
use spacepackets::crc::CRC_CCITT_FALSE;
use spacepackets::ecss::tc::{
    PusTcCreator, PusTcCreatorWithReservedAppData, PusTcReader, PusTcSecondaryHeader,
};
use spacepackets::ecss::{CreatorConfig, MessageTypeId, PusVersion};
use spacepackets::{
    CcsdsPacketCreator, CcsdsPacketReader, CcsdsZeroCopyWriter, ChecksumType, PacketType, SpHeader,
    ccsds_packet_len_for_user_data_len,
};
use std::panic::{AssertUnwindSafe, catch_unwind};

fn header() -> SpHeader {
    SpHeader::new_from_apid(u11::new(0))
}

fn sec_header(version: PusVersion) -> PusTcSecondaryHeader {
    let mut header = PusTcSecondaryHeader::new_simple(MessageTypeId::new(0, 0));
    header.version = version;
    header
}

fn config(has_checksum: bool) -> CreatorConfig {
    CreatorConfig {
        set_ccsds_len: true,
        has_checksum,
    }
}

/// Totals above 65,542 are written with a length that has wrapped: 65,543 as 7.
#[test]
fn a_length_wraps() {
    for (data_len, has_checksum, field) in [
        (65_529, true, 65_535),
        (65_530, true, 0),
        (65_531, false, 65_535),
        (65_532, false, 0),
    ] {
        let data = vec![0; data_len];
        let sec = sec_header(PusVersion::PusC);
        let creator = PusTcCreator::new(header(), sec, &data, config(has_checksum));
        assert_eq!(creator.sp_header().data_len, field);
        let mut buf = vec![0; creator.len_written()];
        assert_eq!(creator.write_to_slice(&mut buf), Ok(creator.len_written()));
        // What is written is not read back.
        let read = PusTcReader::new_no_checksum_verification(&buf, has_checksum);
        assert_eq!(read.is_ok(), field != 0);

        let mut buf = vec![0; creator.len_written()];
        let reserved =
            PusTcCreatorWithReservedAppData::new(&mut buf, header(), sec, data_len, has_checksum);
        assert!(reserved.is_ok());
        assert_eq!(buf[4..6], field.to_be_bytes());
    }
}

/// A version other than C, a public field, panics instead of `VersionNotSupported`, and the
/// primary header is already in the buffer.
#[test]
fn octets_are_written_before_a_panic() {
    for version in [PusVersion::EsaPus, PusVersion::PusA] {
        let sec = sec_header(version);
        let creator = PusTcCreator::new(header(), sec, &[], config(false));
        assert!(catch_unwind(|| creator.calc_own_crc16()).is_err());
        for write in 0..4 {
            let mut buf = [0xEE; 11];
            let result = catch_unwind(AssertUnwindSafe(|| match write {
                0 => creator.write_to_slice(&mut buf),
                1 => creator.write_to_slice_crc_no_table(&mut buf),
                2 => creator.write_to_slice_no_crc(&mut buf),
                _ => PusTcCreatorWithReservedAppData::new(&mut buf, header(), sec, 0, false)
                    .map(|reserved| reserved.finalize()),
            }));
            assert!(result.is_err());
            assert_eq!(buf[..6], [0x18, 0x00, 0xC0, 0x00, 0x00, 0x04]);
            assert_eq!(buf[6..], [0xEE; 5]);
        }
    }
}

/// A reservation whose total does not fit `usize` passes the check of room.
#[test]
fn a_reservation_wraps() {
    let data_len = usize::MAX - 10;
    let sec = sec_header(PusVersion::PusC);
    let mut buf = [0xEE; 11];
    let mut reserved =
        PusTcCreatorWithReservedAppData::new(&mut buf, header(), sec, data_len, false).unwrap();
    assert_eq!(reserved.len_written(), 0);
    assert!(catch_unwind(AssertUnwindSafe(|| reserved.app_data_mut().len())).is_err());
    assert_eq!(reserved.finalize(), 0);
    assert_eq!(buf[..6], [0x18, 0x00, 0xC0, 0x00, 0xFF, 0xF9]);

    // Without room for the headers it panics instead of refusing.
    let none = catch_unwind(AssertUnwindSafe(|| {
        PusTcCreatorWithReservedAppData::new(&mut [], header(), sec, data_len, false).is_ok()
    }));
    assert!(none.is_err());

    // Where the wrapped total is still too large, the refusal names it.
    let wrapped = "reserve 0,0,0,0,0,0,0 2,0,0,0,0 18446744073709551615 1 - f -";
    assert_eq!(answer(wrapped.as_bytes()), "err:1:0:12 -");
}

/// The reader reports C for every nibble, and takes any version, type and flag.
#[test]
fn the_reader_reports_c() {
    for nibble in 0..16 {
        assert_eq!(
            answer(format!("read nocrc E00000000004{nibble:X}000000000").as_bytes()),
            "ok 7,0,0,0,0,0,4 2,0,0,0,0 11 11 0 -"
        );
    }
}

/// Not ported: a packet of no data. The length with a checksum is 7 instead of 8, and the checksum
/// goes over the last octet of the header.
#[test]
fn an_empty_space_packet_with_a_checksum() {
    let crc16 = Some(ChecksumType::WithCrc16);
    assert_eq!(ccsds_packet_len_for_user_data_len(0, crc16), Some(7));
    let creator = CcsdsPacketCreator::new(header(), PacketType::Tc, &[], crc16).unwrap();
    assert_eq!(creator.sp_header().data_len, 1);
    let mut buf = [0; 8];
    assert_eq!(creator.write_to_slice(&mut buf), Ok(7));
    let crc = CRC_CCITT_FALSE
        .checksum(&[0x10, 0x00, 0xC0, 0x00, 0x00])
        .to_be_bytes();
    assert_eq!(buf, [0x10, 0x00, 0xC0, 0x00, 0x00, crc[0], crc[1], 0x00]);
}

/// Not ported: without a checksum the length field of no data is 65,535 (a debug build stops).
#[test]
fn an_empty_space_packet_without_a_checksum() {
    let creator = CcsdsPacketCreator::new(header(), PacketType::Tc, &[], None).unwrap();
    assert_eq!(creator.sp_header().data_len, 65_535);
    assert_eq!(creator.len_written(), 7);
}

/// Not ported: a packet of 7 octets with an ignored checksum takes an octet of the header for its
/// first half, and its user data panics.
#[test]
fn a_checksum_that_reaches_into_the_header() {
    let packet = [0x18, 0x00, 0xC0, 0x00, 0x00, 0x00, 0xAB];
    let reader = CcsdsPacketReader::new(&packet, Some(ChecksumType::WithCrc16ButIgnored)).unwrap();
    assert_eq!(reader.checksum(), Some(0x00AB));
    assert!(catch_unwind(|| reader.user_data().len()).is_err());
}

/// Not ported: without a checksum the user data of the in-place writer runs past the packet.
#[test]
fn user_data_past_the_packet() {
    let mut buf = [0x18, 0x00, 0xC0, 0x00, 0x00, 0x00, 0xAB, 0xCD];
    let writer = CcsdsZeroCopyWriter::new(&mut buf, None).unwrap();
    assert_eq!(writer.packet_data(), [0xAB]);
    assert_eq!(writer.user_data(), [0xAB, 0xCD]);
}
