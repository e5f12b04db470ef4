//! The answers, from the crate's calls alone.

use crate::request::{Creation, Edit, Fin, Mode, Request, Reservation, Sec, Setter, Sp};
use arbitrary_int::{u3, u4, u11, u14};
use spacepackets::crc::{CRC_CCITT_FALSE, CRC_CCITT_FALSE_BIG_TABLE, CRC_CCITT_FALSE_NO_TABLE};
use spacepackets::ecss::tc::{
    AckFlags, GenericPusTcSecondaryHeader, PUS_TC_MIN_LEN_WITHOUT_APP_DATA, PusTcCreator,
    PusTcCreatorWithReservedAppData, PusTcReader, PusTcSecondaryHeader,
};
use spacepackets::ecss::{
    CreatorConfig, MessageTypeId, PusError, PusVersion, verify_crc16_ccitt_false_from_raw,
    verify_crc16_ccitt_false_from_raw_no_table, verify_crc16_ccitt_false_from_raw_to_pus_error,
    verify_crc16_ccitt_false_from_raw_to_pus_error_no_table,
};
use spacepackets::{
    ByteConversionError, CcsdsPacket, MAX_APID, MAX_SEQ_COUNT, PacketId, PacketSequenceControl,
    PacketType, SequenceFlags, SpHeader,
};

/// The answer, without its line end.
pub fn answer(request: &Request) -> String {
    match request {
        Request::Crc(data) => format!(
            "{:04X} {:04X} {:04X}",
            CRC_CCITT_FALSE.checksum(data),
            CRC_CCITT_FALSE_NO_TABLE.checksum(data),
            CRC_CCITT_FALSE_BIG_TABLE.checksum(data)
        ),
        Request::Verify(data, crc) => verify(data, *crc),
        Request::SphRead(data) => sph_read(data),
        Request::SphWrite(sp, buf) => {
            let header = header(sp);
            written(buf, |buf| header.write_to_slice(buf))
        }
        Request::Read(mode, data) => read_answer(*mode, data),
        Request::Create(creation, buf) => made(&create(creation), buf),
        Request::Build(setters, data, buf) => made(&build(setters, data), buf),
        Request::Reserve(reservation, buf) => reserve(reservation, buf),
        Request::CompareCreator(mode, raw, creation) => match read(*mode, raw) {
            Err(e) => refusal(e),
            Ok(reader) => {
                let creator = create(creation);
                flags(&[reader == creator, creator == reader])
            }
        },
        Request::CompareReaders(mode, data, other_mode, other) => {
            compare_readers(read(*mode, data), read(*other_mode, other))
        }
        Request::Simple(apid, service, subtype) => simple(*apid, *service, *subtype),
        Request::Ack(number) => {
            let ack = ack_flags(*number);
            flags(&[
                ack.acceptance(),
                ack.start(),
                ack.progress(),
                ack.completion(),
            ])
        }
        Request::Consts => format!(
            "ALL={} HEADER_LEN={} LENGTH={} MIN={} DEFAULT={} MAX_APID={} MAX_SEQ_COUNT={}",
            AckFlags::ALL.raw_value().value(),
            PusTcSecondaryHeader::HEADER_LEN,
            SpHeader::LENGTH,
            PUS_TC_MIN_LEN_WITHOUT_APP_DATA,
            AckFlags::default().raw_value().value(),
            MAX_APID.value(),
            MAX_SEQ_COUNT.value()
        ),
    }
}

fn verify(data: &[u8], crc: u16) -> String {
    let told = |result: Result<(), PusError>| result.map_or_else(refusal, |()| "ok".into());
    format!(
        "{} {} {}",
        flags(&[
            verify_crc16_ccitt_false_from_raw(data),
            verify_crc16_ccitt_false_from_raw_no_table(data),
        ]),
        told(verify_crc16_ccitt_false_from_raw_to_pus_error(data, crc)),
        told(verify_crc16_ccitt_false_from_raw_to_pus_error_no_table(
            data, crc
        ))
    )
}

fn sph_read(data: &[u8]) -> String {
    match SpHeader::from_be_bytes(data) {
        Err(e) => refusal(e),
        Ok((header, rest)) => format!(
            "ok {} {} {} {} {}",
            sp_text(&header),
            header.packet_len(),
            rest.len(),
            header.packet_id_raw(),
            header.psc_raw()
        ),
    }
}

fn read(mode: Mode, data: &[u8]) -> Result<PusTcReader<'_>, PusError> {
    match mode {
        Mode::New => PusTcReader::new(data),
        Mode::NoTable => PusTcReader::new_checksum_no_table(data),
        Mode::NoVerify => PusTcReader::new_no_checksum_verification(data, true),
        Mode::NoCrc => PusTcReader::new_no_checksum(data),
    }
}

fn read_answer(mode: Mode, data: &[u8]) -> String {
    let reader = match read(mode, data) {
        Err(e) => return refusal(e),
        Ok(reader) => reader,
    };
    format!(
        "ok {} {} {} {} {} {}",
        sp_text(reader.sp_header()),
        sec_text(&reader),
        reader.len_packed(),
        start(reader.app_data(), data.as_ptr()),
        reader.app_data().len(),
        match reader.crc16() {
            Some(crc) => format!("{crc:04X}"),
            None => "-".into(),
        }
    )
}

fn compare_readers(
    one: Result<PusTcReader<'_>, PusError>,
    other: Result<PusTcReader<'_>, PusError>,
) -> String {
    match (one, other) {
        (Ok(one), Ok(other)) => flags(&[one == other, other == one]),
        (one, other) => [one, other]
            .map(|read| read.map_or_else(refusal, |_| "ok".into()))
            .join(" "),
    }
}

fn create(creation: &Creation) -> PusTcCreator<'_> {
    let mut creator = PusTcCreator::new(
        header(&creation.sp),
        sec_header(&creation.sec),
        &creation.data,
        CreatorConfig {
            set_ccsds_len: creation.set_ccsds_len,
            has_checksum: creation.has_checksum,
        },
    );
    for edit in &creation.edits {
        apply(&mut creator, edit);
    }
    creator
}

fn apply(creator: &mut PusTcCreator<'_>, edit: &Edit) {
    match *edit {
        Edit::Apid(n) => creator.set_apid(u11::new(n)),
        Edit::SeqCount(n) => creator.set_seq_count(u14::new(n)),
        Edit::SeqFlags(n) => creator.set_seq_flags(seq_flags(n)),
        Edit::Ack(n) => creator.set_ack_flags(ack_flags(n)),
        Edit::Source(n) => creator.set_source_id(n),
        Edit::Pvn(n) => creator.sp_header_mut().version = u3::new(n),
        Edit::Telecommand(on) => creator.sp_header_mut().set_packet_type(packet_type(on)),
        Edit::SecHeader(true) => creator.sp_header_mut().set_sec_header_flag(),
        Edit::SecHeader(false) => creator.sp_header_mut().clear_sec_header_flag(),
        Edit::DataLen(n) => creator.sp_header_mut().data_len = n,
        Edit::Service(n) => creator.sec_header.message_type_id.type_id = n,
        Edit::Subtype(n) => creator.sec_header.message_type_id.subtype_id = n,
        Edit::Version(n) => creator.sec_header.version = version(n),
        Edit::Update => creator.update_ccsds_data_len(),
    }
}

fn build<'a>(setters: &[Setter], data: &'a [u8]) -> PusTcCreator<'a> {
    let mut builder = PusTcCreator::builder();
    for setter in setters {
        builder = match *setter {
            Setter::PacketId(telecommand, sec_header, apid) => builder.with_packet_id(
                PacketId::new(packet_type(telecommand), sec_header, u11::new(apid)),
            ),
            Setter::SeqControl(flags, count) => builder.with_packet_sequence_control(
                PacketSequenceControl::new(seq_flags(flags), u14::new(count)),
            ),
            Setter::SeqCount(n) => builder.with_sequence_count(u14::new(n)),
            Setter::MessageType(service, subtype) => {
                builder.with_message_type_id(MessageTypeId::new(service, subtype))
            }
            Setter::Service(n) => builder.with_service_type_id(n),
            Setter::Subtype(n) => builder.with_message_subtype_id(n),
            Setter::Source(n) => builder.with_source_id(n),
            Setter::Ack(n) => builder.with_ack_flags(ack_flags(n)),
            Setter::Apid(n) => builder.with_apid(u11::new(n)),
            Setter::Checksum(on) => builder.with_checksum(on),
            Setter::Data => builder.with_app_data(data),
        };
    }
    builder.build()
}

/// A creator's fields, and its three writes, each on its own copy of `buf`.
fn made(creator: &PusTcCreator<'_>, buf: &[u8]) -> String {
    format!(
        "made {} {} {} {} {:04X} {} {} {}",
        sp_text(creator.sp_header()),
        sec_text(creator),
        flags(&[creator.has_checksum()]),
        creator.len_written(),
        creator.calc_own_crc16(),
        written(buf, |buf| creator.write_to_slice(buf)),
        written(buf, |buf| creator.write_to_slice_crc_no_table(buf)),
        written(buf, |buf| creator.write_to_slice_no_crc(buf))
    )
}

fn simple(apid: u16, service: u8, subtype: u8) -> String {
    let header = SpHeader::new_from_apid(u11::new(apid));
    let creator = PusTcCreator::new_simple(
        header,
        MessageTypeId::new(service, subtype),
        &[],
        CreatorConfig::default(),
    );
    format!("{} {}", sp_text(&header), made(&creator, &[0; 13]))
}

fn reserve(reservation: &Reservation, before: &[u8]) -> String {
    fn reserved<'buf>(
        it: &Reservation,
        buf: &'buf mut [u8],
    ) -> Result<PusTcCreatorWithReservedAppData<'buf>, ByteConversionError> {
        PusTcCreatorWithReservedAppData::new(
            buf,
            header(&it.sp),
            sec_header(&it.sec),
            it.data_len,
            it.has_checksum,
        )
    }

    // The buffer is lent until the end, so what it holds after `new` is seen on a copy.
    let mut after_new = before.to_vec();
    if let Err(e) = reserved(reservation, &mut after_new) {
        return format!("{} {}", refusal(e), hex(&after_new));
    }
    let mut buf = before.to_vec();
    let origin = buf.as_ptr();
    let mut writer = reserved(reservation, &mut buf).expect("as on the copy");
    let told = format!(
        "{} {} {} {}",
        writer.len_written(),
        writer.app_data_len(),
        start(writer.app_data(), origin),
        writer.app_data().len()
    );
    writer.app_data_mut()[..reservation.fill.len()].copy_from_slice(&reservation.fill);
    let len = match reservation.fin {
        Fin::Finalize => writer.finalize(),
        Fin::NoTable => writer.finalize_checksum_no_table(),
        Fin::NoChecksum => writer.finalize_no_checksum(),
    };
    format!("ok {} {told} ok:{len} {}", hex(&after_new), hex(&buf))
}

/// A write's answer on a copy of `buf`, and that copy after it.
fn written(
    buf: &[u8],
    write: impl FnOnce(&mut [u8]) -> Result<usize, ByteConversionError>,
) -> String {
    let mut buf = buf.to_vec();
    let told = write(&mut buf).map_or_else(refusal, |len| format!("ok:{len}"));
    format!("{told} {}", hex(&buf))
}

/// The number and the values of a refusal.
fn refusal(error: impl Into<PusError>) -> String {
    match error.into() {
        PusError::ByteConversion(ByteConversionError::ToSliceTooSmall { found, expected }) => {
            format!("err:1:{found}:{expected}")
        }
        PusError::ByteConversion(ByteConversionError::FromSliceTooSmall { found, expected }) => {
            format!("err:2:{found}:{expected}")
        }
        PusError::VersionNotSupported(nibble) => format!("err:3:{}", nibble.value()),
        PusError::ChecksumFailure(crc) => format!("err:4:{crc:04X}"),
        PusError::CrcCalculationMissing => "err:5".into(),
    }
}

fn header(sp: &Sp) -> SpHeader {
    let mut header = SpHeader::new(
        PacketId::new(
            packet_type(sp.telecommand),
            sp.sec_header,
            u11::new(sp.apid),
        ),
        PacketSequenceControl::new(seq_flags(sp.seq_flags), u14::new(sp.seq_count)),
        sp.data_len,
    );
    header.version = u3::new(sp.pvn);
    header
}

fn sec_header(sec: &Sec) -> PusTcSecondaryHeader {
    let mut header = PusTcSecondaryHeader::new(
        MessageTypeId::new(sec.service, sec.subtype),
        ack_flags(sec.ack),
        sec.source,
    );
    header.version = version(sec.version);
    header
}

fn packet_type(telecommand: bool) -> PacketType {
    if telecommand {
        PacketType::Tc
    } else {
        PacketType::Tm
    }
}

fn seq_flags(number: u8) -> SequenceFlags {
    SequenceFlags::try_from(number).expect("the grammar lets 0 to 3 through")
}

fn version(number: u8) -> PusVersion {
    PusVersion::try_from(number).expect("the grammar lets 0 to 2 through")
}

fn ack_flags(number: u8) -> AckFlags {
    AckFlags::new_with_raw_value(u4::new(number))
}

fn sp_text(header: &SpHeader) -> String {
    format!(
        "{},{},{},{},{},{},{}",
        header.ccsds_version().value(),
        header.packet_type() as u8,
        header.sec_header_flag() as u8,
        header.apid().value(),
        header.sequence_flags() as u8,
        header.seq_count().value(),
        header.data_len()
    )
}

fn sec_text(packet: &impl GenericPusTcSecondaryHeader) -> String {
    format!(
        "{},{},{},{},{}",
        packet.pus_version().map_or_else(|n| n.value(), |v| v as u8),
        packet.ack_flags().raw_value().value(),
        packet.service_type_id(),
        packet.message_subtype_id(),
        packet.source_id()
    )
}

/// Where a part of some octets starts in them.
fn start(part: &[u8], origin: *const u8) -> usize {
    part.as_ptr().addr() - origin.addr()
}

fn flags(flags: &[bool]) -> String {
    let texts: Vec<&str> = flags.iter().map(|f| if *f { "1" } else { "0" }).collect();
    texts.join(" ")
}

fn hex(octets: &[u8]) -> String {
    if octets.is_empty() {
        return "-".into();
    }
    let digit = |n: u8| char::from(b"0123456789ABCDEF"[usize::from(n)]);
    octets
        .iter()
        .flat_map(|octet| [digit(octet >> 4), digit(octet & 15)])
        .collect()
}
