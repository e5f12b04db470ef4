//! The crate's own calls, for a caller in C: each answers one number, 0 where the crate refuses.
#![no_std]

use core::panic::PanicInfo;
use core::slice::{from_raw_parts, from_raw_parts_mut};
use spacepackets::crc::{CRC_CCITT_FALSE, CRC_CCITT_FALSE_BIG_TABLE, CRC_CCITT_FALSE_NO_TABLE};
use spacepackets::ecss::tc::{GenericPusTcSecondaryHeader, PusTcCreator, PusTcReader};
use spacepackets::ecss::{CreatorConfig, MessageTypeId};
use spacepackets::{CcsdsPacket, PacketId, PacketSequenceControl, SpHeader};

/// There is no standard library to end the program by.
#[panic_handler]
fn stop(_: &PanicInfo) -> ! {
    loop {}
}

/// # Safety
/// `n` octets can be read at `data`. So it is of every call here.
#[unsafe(no_mangle)]
pub unsafe extern "C" fn rust_table(data: *const u8, n: usize) -> usize {
    CRC_CCITT_FALSE.checksum(unsafe { from_raw_parts(data, n) }) as usize
}

/// # Safety
/// As above.
#[unsafe(no_mangle)]
pub unsafe extern "C" fn rust_sixteen(data: *const u8, n: usize) -> usize {
    CRC_CCITT_FALSE_BIG_TABLE.checksum(unsafe { from_raw_parts(data, n) }) as usize
}

/// # Safety
/// As above.
#[unsafe(no_mangle)]
pub unsafe extern "C" fn rust_bits(data: *const u8, n: usize) -> usize {
    CRC_CCITT_FALSE_NO_TABLE.checksum(unsafe { from_raw_parts(data, n) }) as usize
}

/// The checked read: the sum of what it reports.
///
/// # Safety
/// As above.
#[unsafe(no_mangle)]
pub unsafe extern "C" fn rust_read(data: *const u8, n: usize) -> usize {
    match PusTcReader::new(unsafe { from_raw_parts(data, n) }) {
        Err(_) => 0,
        Ok(reader) => sum(&reader),
    }
}

/// The octets of a packet that passes the checked read, and by what that reports the checks of the strict verdict, which the
/// crate does not have.
///
/// # Safety
/// As above.
#[unsafe(no_mangle)]
pub unsafe extern "C" fn rust_judge(data: *const u8, n: usize) -> usize {
    match PusTcReader::new(unsafe { from_raw_parts(data, n) }) {
        Ok(reader)
            if reader.ccsds_version().value() == 0
                && reader.is_tc()
                && reader.sec_header_flag()
                && reader.raw_data()[6] >> 4 == 2
                && reader.apid().value() != 0x7FF =>
        {
            reader.len_packed()
        }
        _ => 0,
    }
}

fn sum(reader: &PusTcReader<'_>) -> usize {
    reader.ccsds_version().value() as usize
        + reader.packet_id_raw() as usize
        + reader.psc_raw() as usize
        + reader.data_len() as usize
        + reader.service_type_id() as usize
        + reader.message_subtype_id() as usize
        + reader.ack_flags().raw_value().value() as usize
        + reader.source_id() as usize
        + reader.crc16().unwrap_or(0) as usize
}

/// A command made and written: its octets.
///
/// # Safety
/// As above, and `room` octets can be written at `buf`.
#[unsafe(no_mangle)]
pub unsafe extern "C" fn rust_write(
    id: u16,
    psc: u16,
    service: u8,
    subtype: u8,
    data: *const u8,
    n: usize,
    buf: *mut u8,
    room: usize,
) -> usize {
    let header = SpHeader::new(PacketId::from(id), PacketSequenceControl::from(psc), 0);
    let made = PusTcCreator::new_simple(
        header,
        MessageTypeId::new(service, subtype),
        unsafe { from_raw_parts(data, n) },
        CreatorConfig::default(),
    );
    made.write_to_slice(unsafe { from_raw_parts_mut(buf, room) })
        .unwrap_or(0)
}
