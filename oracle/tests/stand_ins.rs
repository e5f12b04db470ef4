//! What the other stand-ins must do for the published files.

use arbitrary_int::{u1, u2, u3, u4, u11, u14};
use spacepackets::ecss::tc::{ACK_ALL, AckFlags};
use spacepackets::ecss::{PusError, PusServiceId, PusVersion};
use spacepackets::{ByteConversionError, PacketType, SequenceFlags};
use std::panic::catch_unwind;

/// Every value of a width is taken and kept, and the first over it panics.
#[test]
fn widths() {
    macro_rules! width {
        ($($T:ident: $bits:expr),*) => {$(
            let over = 1 << $bits;
            for value in 0..over {
                assert_eq!($T::new(value).value(), value);
            }
            assert_eq!($T::MAX.value(), over - 1);
            assert!(catch_unwind(|| $T::new(over)).is_err());
        )*};
    }
    width!(u1: 1, u2: 2, u3: 3, u4: 4, u11: 11, u14: 14);
    assert!(catch_unwind(|| u11::new(u16::MAX)).is_err());
    assert!(catch_unwind(|| u4::new(u8::MAX)).is_err());
}

/// The four bits, read and built, for every nibble.
#[test]
fn acknowledgement_bits() {
    for nibble in 0..16 {
        let ack = AckFlags::new_with_raw_value(u4::new(nibble));
        let bits = [
            ack.acceptance(),
            ack.start(),
            ack.progress(),
            ack.completion(),
        ];
        assert_eq!(bits, [8, 4, 2, 1].map(|bit| nibble & bit != 0));
        let built = AckFlags::builder()
            .with_acceptance(bits[0])
            .with_start(bits[1])
            .with_progress(bits[2])
            .with_completion(bits[3])
            .build();
        assert_eq!(built, ack);
        assert_eq!(built.raw_value().value(), nibble);
    }
    assert_eq!(ACK_ALL.raw_value().value(), 15);
    assert_eq!(AckFlags::default().raw_value().value(), 0);
    assert_eq!(
        format!("{:?}", AckFlags::new_with_raw_value(u4::new(8))),
        "AckFlags { acceptance: true, start: false, progress: false, completion: false }"
    );
}

/// Enums from their numbers, and no other number.
#[test]
fn numbers_of_enums() {
    for number in 0..=255u8 {
        assert_eq!(PacketType::try_from(number).is_ok(), number < 2);
        assert_eq!(SequenceFlags::try_from(number).is_ok(), number < 4);
        assert_eq!(PusVersion::try_from(number).is_ok(), number < 3);
        if let Ok(flags) = SequenceFlags::try_from(number) {
            assert_eq!(flags.raw_value().value(), number);
        }
        if let Ok(service) = PusServiceId::try_from(number) {
            assert_eq!(u8::from(service), number);
        }
    }
    let services = (0..=255u8).filter(|n| PusServiceId::try_from(*n).is_ok());
    assert_eq!(services.count(), 20);
    assert_eq!(PusVersion::PusC.raw_value(), u4::new(2));
}

/// The conversion that `?` takes in the crate.
#[test]
fn from_the_inner_error() {
    let inner = ByteConversionError::FromSliceTooSmall {
        found: 1,
        expected: 2,
    };
    assert_eq!(PusError::from(inner), PusError::ByteConversion(inner));
}
