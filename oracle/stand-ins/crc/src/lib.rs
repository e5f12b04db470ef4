//! Stand-in for `crc`: 16-bit checksums without reflection, by table, by no table and by
//! sixteen tables.
#![no_std]
#![forbid(unsafe_code)]

/// The parameters of a checksum; those that reflect are left out.
pub struct Algorithm<W> {
    pub poly: W,
    pub init: W,
    pub xorout: W,
}

/// CRC-16/IBM-3740, also called CRC-16/CCITT-FALSE.
pub const CRC_16_IBM_3740: Algorithm<u16> = Algorithm {
    poly: 0x1021,
    init: 0xFFFF,
    xorout: 0,
};

/// Bit by bit.
pub struct NoTable;
/// `L` tables of 256 entries, used for `L` octets at a time.
pub struct Table<const L: usize>;

/// What a form keeps beside the algorithm, and how it takes octets in.
pub trait Implementation {
    type Data;
    fn update(poly: u16, data: &Self::Data, crc: u16, octets: &[u8]) -> u16;
}

impl Implementation for NoTable {
    type Data = ();

    fn update(poly: u16, _: &(), crc: u16, octets: &[u8]) -> u16 {
        octets
            .iter()
            .fold(crc, |crc, octet| shift(poly, crc ^ ((*octet as u16) << 8)))
    }
}

impl<const L: usize> Implementation for Table<L> {
    type Data = [[u16; 256]; L];

    fn update(_: u16, tables: &Self::Data, mut crc: u16, octets: &[u8]) -> u16 {
        let mut groups = octets.chunks_exact(L);
        for group in &mut groups {
            let mut next = if L == 1 { crc << 8 } else { 0 };
            for (i, octet) in group.iter().enumerate() {
                let held = match i {
                    0 => (crc >> 8) as u8,
                    1 => crc as u8,
                    _ => 0,
                };
                next ^= tables[L - 1 - i][(octet ^ held) as usize];
            }
            crc = next;
        }
        for octet in groups.remainder() {
            crc = (crc << 8) ^ tables[0][((crc >> 8) as u8 ^ octet) as usize];
        }
        crc
    }
}

/// Eight steps of the division.
const fn shift(poly: u16, mut crc: u16) -> u16 {
    let mut step = 0;
    while step < 8 {
        crc = if crc & 0x8000 != 0 {
            (crc << 1) ^ poly
        } else {
            crc << 1
        };
        step += 1;
    }
    crc
}

/// Table `k` has what an octet followed by `k` zero octets leaves.
const fn tables<const L: usize>(poly: u16) -> [[u16; 256]; L] {
    let mut tables = [[0; 256]; L];
    let mut k = 0;
    while k < L {
        let mut i = 0;
        while i < 256 {
            let before = if k == 0 {
                (i as u16) << 8
            } else {
                tables[k - 1][i]
            };
            tables[k][i] = shift(poly, before);
            i += 1;
        }
        k += 1;
    }
    tables
}

/// A checksum, ready for use.
pub struct Crc<W: 'static, I: Implementation = Table<1>> {
    algorithm: &'static Algorithm<W>,
    data: I::Data,
}

impl Crc<u16, NoTable> {
    pub const fn new(algorithm: &'static Algorithm<u16>) -> Self {
        Self {
            algorithm,
            data: (),
        }
    }
}

impl<const L: usize> Crc<u16, Table<L>> {
    pub const fn new(algorithm: &'static Algorithm<u16>) -> Self {
        Self {
            algorithm,
            data: tables(algorithm.poly),
        }
    }
}

impl<I: Implementation> Crc<u16, I> {
    pub fn checksum(&self, octets: &[u8]) -> u16 {
        let mut digest = self.digest();
        digest.update(octets);
        digest.finalize()
    }

    pub fn digest(&self) -> Digest<'_, u16, I> {
        Digest {
            crc: self,
            value: self.algorithm.init,
        }
    }
}

/// A checksum over octets that come in parts.
pub struct Digest<'a, W: 'static, I: Implementation = Table<1>> {
    crc: &'a Crc<W, I>,
    value: W,
}

impl<I: Implementation> Digest<'_, u16, I> {
    pub fn update(&mut self, octets: &[u8]) {
        self.value = I::update(self.crc.algorithm.poly, &self.crc.data, self.value, octets);
    }

    pub fn finalize(self) -> u16 {
        self.value ^ self.crc.algorithm.xorout
    }
}
