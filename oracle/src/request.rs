//! The grammar of requests. Numbers over a field's width are let through, for the crate to meet;
//! everything else that is no request is `None`.

/// The fields of a primary header, as numbers.
pub struct Sp {
    pub pvn: u8,
    pub telecommand: bool,
    pub sec_header: bool,
    pub apid: u16,
    pub seq_flags: u8,
    pub seq_count: u16,
    pub data_len: u16,
}

/// The fields of a secondary header, as numbers.
pub struct Sec {
    pub version: u8,
    pub ack: u8,
    pub service: u8,
    pub subtype: u8,
    pub source: u16,
}

#[derive(Clone, Copy)]
pub enum Mode {
    New,
    NoTable,
    NoVerify,
    NoCrc,
}

#[derive(Clone, Copy)]
pub enum Fin {
    Finalize,
    NoTable,
    NoChecksum,
}

/// A change of a creator.
pub enum Edit {
    Apid(u16),
    SeqCount(u16),
    SeqFlags(u8),
    Ack(u8),
    Source(u16),
    Pvn(u8),
    Telecommand(bool),
    SecHeader(bool),
    DataLen(u16),
    Service(u8),
    Subtype(u8),
    Version(u8),
    Update,
}

/// A call of the builder.
pub enum Setter {
    PacketId(bool, bool, u16),
    SeqControl(u8, u16),
    SeqCount(u16),
    MessageType(u8, u8),
    Service(u8),
    Subtype(u8),
    Source(u16),
    Ack(u8),
    Apid(u16),
    Checksum(bool),
    Data,
}

/// What a creator is made of.
pub struct Creation {
    pub sp: Sp,
    pub sec: Sec,
    pub set_ccsds_len: bool,
    pub has_checksum: bool,
    pub data: Vec<u8>,
    pub edits: Vec<Edit>,
}

/// A reservation, what it is filled with, and how it is finished.
pub struct Reservation {
    pub sp: Sp,
    pub sec: Sec,
    pub data_len: usize,
    pub has_checksum: bool,
    pub fill: Vec<u8>,
    pub fin: Fin,
}

pub enum Request {
    Crc(Vec<u8>),
    Verify(Vec<u8>, u16),
    SphRead(Vec<u8>),
    SphWrite(Sp, Vec<u8>),
    Read(Mode, Vec<u8>),
    Create(Creation, Vec<u8>),
    Build(Vec<Setter>, Vec<u8>, Vec<u8>),
    Reserve(Reservation, Vec<u8>),
    CompareCreator(Mode, Vec<u8>, Creation),
    CompareReaders(Mode, Vec<u8>, Mode, Vec<u8>),
    Simple(u16, u8, u8),
    Ack(u8),
    Consts,
}

/// Reads a whole line; nothing is run before all of it is found good.
pub fn parse(line: &[u8]) -> Option<Request> {
    let fields: Vec<&[u8]> = line.split(|c| *c == b' ').collect();
    Some(match fields[..] {
        [b"crc", data] => Request::Crc(octets(data)?),
        [b"verify", data, crc] => Request::Verify(octets(data)?, checksum(crc)?),
        [b"sphread", data] => Request::SphRead(octets(data)?),
        [b"sphwrite", header, buf] => Request::SphWrite(sp(header)?, octets(buf)?),
        [b"read", how, data] => Request::Read(mode(how)?, octets(data)?),
        [b"create", sp, sec, set, has, data, edits, buf] => {
            Request::Create(creation(sp, sec, set, has, data, edits)?, octets(buf)?)
        }
        [b"build", setters, data, buf] => {
            Request::Build(items(setters, setter)?, octets(data)?, octets(buf)?)
        }
        [b"reserve", sp, sec, len, has, fill, fin, buf] => {
            Request::Reserve(reservation(sp, sec, len, has, fill, fin)?, octets(buf)?)
        }
        [b"cmprc", how, raw, sp, sec, set, has, data, edits] => Request::CompareCreator(
            mode(how)?,
            octets(raw)?,
            creation(sp, sec, set, has, data, edits)?,
        ),
        [b"cmprr", how, data, other_how, other] => {
            Request::CompareReaders(mode(how)?, octets(data)?, mode(other_how)?, octets(other)?)
        }
        [b"simple", apid, service, subtype] => {
            Request::Simple(number(apid)?, number(service)?, number(subtype)?)
        }
        [b"ack", flags] => Request::Ack(number(flags)?),
        [b"consts"] => Request::Consts,
        _ => return None,
    })
}

fn creation(
    header: &[u8],
    sec_header: &[u8],
    set: &[u8],
    has: &[u8],
    data: &[u8],
    edits: &[u8],
) -> Option<Creation> {
    Some(Creation {
        sp: sp(header)?,
        sec: sec(sec_header)?,
        set_ccsds_len: flag(set)?,
        has_checksum: flag(has)?,
        data: octets(data)?,
        edits: items(edits, edit)?,
    })
}

fn reservation(
    header: &[u8],
    sec_header: &[u8],
    len: &[u8],
    has: &[u8],
    fill: &[u8],
    fin: &[u8],
) -> Option<Reservation> {
    let made = Reservation {
        sp: sp(header)?,
        sec: sec(sec_header)?,
        data_len: number(len)?,
        has_checksum: flag(has)?,
        fill: octets(fill)?,
        fin: match fin {
            b"f" => Fin::Finalize,
            b"n" => Fin::NoTable,
            b"c" => Fin::NoChecksum,
            _ => return None,
        },
    };
    (made.fill.len() <= made.data_len).then_some(made)
}

fn mode(field: &[u8]) -> Option<Mode> {
    Some(match field {
        b"new" => Mode::New,
        b"nt" => Mode::NoTable,
        b"noverify" => Mode::NoVerify,
        b"nocrc" => Mode::NoCrc,
        _ => return None,
    })
}

fn sp(field: &[u8]) -> Option<Sp> {
    let [pvn, ptype, shf, apid, flags, count, len] = values(field)?;
    Some(Sp {
        pvn: number(pvn)?,
        telecommand: flag(ptype)?,
        sec_header: flag(shf)?,
        apid: number(apid)?,
        seq_flags: digit(flags, 3)?,
        seq_count: number(count)?,
        data_len: number(len)?,
    })
}

fn sec(field: &[u8]) -> Option<Sec> {
    let [version, ack, service, subtype, source] = values(field)?;
    Some(Sec {
        version: digit(version, 2)?,
        ack: number(ack)?,
        service: number(service)?,
        subtype: number(subtype)?,
        source: number(source)?,
    })
}

fn edit(name: &[u8], value: Option<&[u8]>) -> Option<Edit> {
    let Some(value) = value else {
        return (name == b"upd").then_some(Edit::Update);
    };
    Some(match name {
        b"apid" => Edit::Apid(number(value)?),
        b"scount" => Edit::SeqCount(number(value)?),
        b"sflags" => Edit::SeqFlags(digit(value, 3)?),
        b"ack" => Edit::Ack(number(value)?),
        b"source" => Edit::Source(number(value)?),
        b"pvn" => Edit::Pvn(number(value)?),
        b"type" => Edit::Telecommand(flag(value)?),
        b"shf" => Edit::SecHeader(flag(value)?),
        b"dlen" => Edit::DataLen(number(value)?),
        b"service" => Edit::Service(number(value)?),
        b"subtype" => Edit::Subtype(number(value)?),
        b"version" => Edit::Version(digit(value, 2)?),
        _ => return None,
    })
}

fn setter(name: &[u8], value: Option<&[u8]>) -> Option<Setter> {
    let value = value?;
    Some(match name {
        b"pid" => {
            let [ptype, shf, apid] = values(value)?;
            Setter::PacketId(flag(ptype)?, flag(shf)?, number(apid)?)
        }
        b"psc" => {
            let [flags, count] = values(value)?;
            Setter::SeqControl(digit(flags, 3)?, number(count)?)
        }
        b"scount" => Setter::SeqCount(number(value)?),
        b"mtid" => {
            let [service, subtype] = values(value)?;
            Setter::MessageType(number(service)?, number(subtype)?)
        }
        b"service" => Setter::Service(number(value)?),
        b"subtype" => Setter::Subtype(number(value)?),
        b"source" => Setter::Source(number(value)?),
        b"ack" => Setter::Ack(number(value)?),
        b"apid" => Setter::Apid(number(value)?),
        b"cksum" => Setter::Checksum(flag(value)?),
        b"data" if value == b"1" => Setter::Data,
        _ => return None,
    })
}

/// `-`, or items with `;` between, each a name and what comes after its `=`.
fn items<T>(field: &[u8], item: fn(&[u8], Option<&[u8]>) -> Option<T>) -> Option<Vec<T>> {
    if field == b"-" {
        return Some(Vec::new());
    }
    field
        .split(|c| *c == b';')
        .map(|one| match one.iter().position(|c| *c == b'=') {
            Some(at) => item(&one[..at], Some(&one[at + 1..])),
            None => item(one, None),
        })
        .collect()
}

/// Exactly `N` values with `,` between.
fn values<const N: usize>(field: &[u8]) -> Option<[&[u8]; N]> {
    let values: Vec<&[u8]> = field.split(|c| *c == b',').collect();
    values.try_into().ok()
}

fn number<T: TryFrom<u64>>(field: &[u8]) -> Option<T> {
    if field.is_empty() || field.len() > 20 || !field.iter().all(u8::is_ascii_digit) {
        return None;
    }
    let value: u64 = std::str::from_utf8(field).ok()?.parse().ok()?;
    T::try_from(value).ok()
}

fn digit(field: &[u8], most: u8) -> Option<u8> {
    match field {
        [c @ b'0'..=b'9'] if c - b'0' <= most => Some(c - b'0'),
        _ => None,
    }
}

fn flag(field: &[u8]) -> Option<bool> {
    Some(digit(field, 1)? == 1)
}

fn checksum(field: &[u8]) -> Option<u16> {
    let pairs = octets(field)?;
    Some(u16::from_be_bytes(pairs.try_into().ok()?))
}

fn octets(field: &[u8]) -> Option<Vec<u8>> {
    if field == b"-" {
        return Some(Vec::new());
    }
    let pairs = field.chunks_exact(2);
    if field.is_empty() || !pairs.remainder().is_empty() {
        return None;
    }
    pairs
        .map(|pair| Some(nibble(pair[0])? << 4 | nibble(pair[1])?))
        .collect()
}

fn nibble(c: u8) -> Option<u8> {
    match c {
        b'0'..=b'9' => Some(c - b'0'),
        b'A'..=b'F' => Some(c - b'A' + 10),
        _ => None,
    }
}
