#!/usr/bin/env python3
"""Makes the request files of the gate, with the answers that tools/model.py gives.

For each name below it writes NAME.requests and NAME.answers, a line each, into the given folder. The same lines come
out at every run.

    examples  the first examples of docs/PROTOCOL.md: checksums, primary headers, acknowledgement flags, constants
    crc      the published vectors and random messages of every length from 0 to 300, of 4,096 and of 65,542 octets
    header   the primary header read and written: each field at its edges and over them, buffers of 0 to 8 octets
    write    creator, builder, reserved writer: the edges, edits, defaults, and two refusals at once in each pair
    limits   the largest packet and one octet more
    read     every short slice with every small length field in each way of reading; verifying; comparisons
    strict   each refusal of the strict verdict, faults together, and captures for the splitter
    grammar  lines that are no request, and their neighbours that are
    pus_a    PUS A at each source width: read, judged, created and built, at the edges and refused; other widths
    telemetry  reports at time lengths from 0 to 16: read, judged, created and reserved; other lengths; their grammar
    track    histories of the tracker: every pair of reports for every choice of acknowledgements, full tables, duplicates,
             reports that are none, random histories, and the grammar of the calls
    best     two captures of a report: each fault in one, in the other and in both, octets after the packet, empty captures,
             two packets that both pass, time lengths from 0 to 255, and the grammar of the fields
    spare    PUS C at each spare length: read, judged, created, built, reserved, compared and split, with each spare octet wrong,
             the largest packets, the same octets at every length, other lengths, and the grammar
    params   set requests read and written: every width's edges, NaNs of each kind, zeros, infinities, data that end early
             everywhere, the orders of refusals, faults of the list, 255 pairs, and the grammar of both
    profile  the small-satellite profile, judged and built: each rule at its edges, rules broken together, faults that stand before
             them, bits changed in an accepted packet, and the grammar
    gaps     captures with counts that follow and that do not, at the edges and around 16,383; 63 to 66 APIDs; refused packets
             between, tails, random captures, each with lists of no place and of some; and the grammar

    tools/vectors.py FOLDER
"""

import itertools
import pathlib
import random
import sys

import model
from model import LIMIT, MACHINE, PUS_C, Creator, Sec, Sp, Tm, be16, crc, pus_a, pus_c, telemetry, text

P5 = '1923C00500062F11010000616D'
P6 = P5[:-2] + '6C'
P5_SP, P5_SEC = '0,1,1,291,3,5,6', '2,15,17,1,0'
MODES = list(model.WAYS)
# For each field of the headers what it may hold at most, by the standard and in the record.
SP_WIDTHS = (7, 1, 1, 2047, 3, 16383, 65535)
SEC_WIDTHS = (2, 15, 255, 255, 65535)
TM_WIDTHS = (2, 15, 255, 255, 65535, 65535)


def row(fields):
    return ','.join(map(str, fields))


def zeros(count):
    return text(bytes(count))


def with_field(fields, at, value):
    return [*fields[:at], value, *fields[at + 1:]]


def with_four(setters):
    """A builder's setters, with all four acknowledgements named."""
    return 'ack=15' if setters == '-' else f'{setters};ack=15'


def edges(top):
    return sorted({0, 1, top})


def crc_requests(rng):
    yield from (f'crc {message}' for message in ('-', '00', 'FF', 'FFFF'))
    yield from (f'crc {message}' for message in ('0000', '000000', 'ABCDEF01', '1456F89A0001', text(b'123456789')))
    yield from (f'crc {text(rng.randbytes(length))}' for length in (*range(301), 4096, 65542))


def header_requests(rng):
    def random_header():
        return [rng.randint(0, top) for top in SP_WIDTHS]

    yield f'sphwrite {P5_SP} {zeros(8)}'
    for at, top in enumerate(SP_WIDTHS):
        for value in edges(top):
            for others in ([0] * 7, list(SP_WIDTHS), random_header(), random_header()):
                fields = with_field(others, at, value)
                yield f'sphwrite {row(fields)} {text(rng.randbytes(7))}'
                yield f'sphread {text(Sp(*fields).octets() + rng.randbytes(rng.randint(0, 3)))}'
    for length in range(9):
        for _ in range(6):
            yield f'sphwrite {row(random_header())} {text(rng.randbytes(length))}'
            yield f'sphread {text(rng.randbytes(length))}'
    over = {0: (8, 255), 3: (2048, 65535), 5: (16384, 65535)}       # place in the row, values over the width
    for length in range(9):
        for at, values in over.items():
            for value in values:
                yield f'sphwrite {row(with_field(random_header(), at, value))} {text(rng.randbytes(length))}'
    for chosen in itertools.chain(itertools.combinations(over, 2), [tuple(over)]):
        fields = random_header()
        for at in chosen:
            fields[at] = over[at][0]
        yield f'sphwrite {row(fields)} {text(rng.randbytes(6))}'


def write_requests(rng):
    def headers():
        return row(rng.randint(0, top) for top in SP_WIDTHS), row([2, *(rng.randint(0, t) for t in SEC_WIDTHS[1:])])

    yield 'consts'
    yield from (f'ack {number}' for number in (*range(18), 255))
    # The packet that everything starts from, on each path; then no room, just enough and more than enough.
    for length in (0, 10, 11, 12, 13, 14):
        buffer = text(rng.randbytes(length))
        yield f'create 0,0,0,291,3,5,0 {P5_SEC} 1 1 - - {buffer}'
        yield f'create 0,0,0,291,3,5,0 {P5_SEC} 1 0 - - {buffer}'
        yield f'create {P5_SP} {P5_SEC} 0 1 - - {buffer}'
        yield f'build pid=1,1,291;psc=3,5;mtid=17,1;ack=15 - {buffer}'
        yield f'build apid=291;scount=5;service=17;subtype=1;ack=15;source=0;cksum=1 - {buffer}'
        yield from (f'reserve {P5_SP} {P5_SEC} 0 {has} - {finish} {buffer}' for has in '01' for finish in 'fnc')
    yield from (f'simple {apid} {service} 1' for apid in (0, 1, 291, 2047, 2048, 65535) for service in (0, 17, 255))
    # Builder: with and without its data, and each setter, with all four acknowledgements where none are named.
    yield from (f'build {setters if "ack=" in setters else with_four(setters)} 0102 {zeros(16)}' for setters in (
        '-', 'data=1', 'data=1;data=1', 'cksum=0', 'cksum=0;data=1', 'pid=0,0,2047', 'pid=1,0,1', 'psc=0,16383',
        'psc=1,0', 'scount=16383', 'mtid=255,255', 'mtid=1,2;service=3', 'mtid=1,2;subtype=3', 'service=255', 'subtype=255',
        'source=65535', 'ack=0', 'ack=9', 'apid=2047', 'apid=1;apid=2', 'cksum=0;cksum=1', 'psc=2,7;scount=8',
        'scount=8;psc=2,7', 'pid=0,0,7;apid=8', 'apid=8;pid=0,0,7', 'apid=2048', 'pid=1,1,2048', 'scount=16384',
        'psc=3,16384', 'ack=16', 'ack=16;apid=2048', 'apid=2048;ack=16', 'apid=2048;apid=1'))
    # Its own default: acceptance and completion. A refused setter changes nothing of it.
    yield from (f'build {setters} 0102 {zeros(16)}' for setters in (
        '-', 'data=1', 'cksum=0', 'pid=0,0,2047', 'psc=1,0', 'mtid=255,255', 'source=65535', 'apid=2048', 'ack=15;ack=9',
        'apid=291;scount=5;mtid=17,1', 'apid=291;scount=5;mtid=17,1;ack=8', 'apid=291;scount=5;mtid=17,1;ack=1'))
    # Each field of both headers at its edges, with the length set and as it stands.
    for at, top in enumerate(SP_WIDTHS):
        for value, set_length in itertools.product(edges(top), '01'):
            sp, sec = headers()
            fields = row(with_field(sp.split(','), at, value))
            yield f'create {fields} {sec} {set_length} 1 {text(rng.randbytes(3))} - {zeros(17)}'
            yield f'reserve {fields} {sec} 3 1 {text(rng.randbytes(3))} f {text(rng.randbytes(17))}'
    for at, top in list(enumerate(SEC_WIDTHS))[1:]:
        for value in edges(top):
            sp, sec = headers()
            yield f'create {sp} {row(with_field(sec.split(","), at, value))} 1 1 0A - {zeros(14)}'
    # Edits are written as they stand; an update sets the length afresh.
    for edits in ('apid=7', 'scount=9', 'sflags=0', 'ack=0', 'source=513', 'pvn=5', 'type=0', 'shf=0', 'dlen=0',
                  'dlen=65535', 'service=8', 'subtype=9', 'version=2', 'upd', 'dlen=1;upd', 'upd;dlen=1',
                  'type=0;shf=0;upd', 'apid=1;apid=2', 'apid=2048', 'scount=16384', 'ack=16', 'pvn=8', 'pvn=8;upd',
                  'pvn=8;pvn=1', 'version=0', 'version=1', 'version=1;version=2', 'version=1;upd', 'apid=2048;ack=16'):
        for set_length in '01':
            yield f'create 0,0,0,1,3,2,77 2,15,3,4,5 {set_length} 1 0A0B - {zeros(16)}'.replace(' - ', f' {edits} ')
    # Data, buffer and checksum of many lengths; what the reserved writer finds in the buffer stays.
    for _ in range(60):
        sp, sec = headers()
        data, has = rng.randbytes(rng.randint(0, 40)), rng.randint(0, 1)
        buffer = rng.randbytes(max(0, 11 + len(data) + 2 * has + rng.randint(-3, 4)))
        yield f'create {sp} {sec} {rng.randint(0, 1)} {has} {text(data)} - {text(buffer)}'
        fill = data[:rng.randint(0, len(data))]
        yield f'reserve {sp} {sec} {len(data)} {has} {text(fill)} {rng.choice("fnc")} {text(buffer)}'
    yield from refusal_orders()


def refusal_orders():
    """Each fault that a creation or a reservation can have, alone and with each other."""
    faults = ['pvn', 'apid', 'scount', 'ack', 'version', 'room']
    for chosen in itertools.chain.from_iterable(itertools.combinations(faults, count) for count in (0, 1, 2)):
        sp = row([8 * ('pvn' in chosen), 1, 1, 2048 * ('apid' in chosen), 3, 16384 * ('scount' in chosen), 0])
        sec = row([1 if 'version' in chosen else 2, 16 if 'ack' in chosen else 15, 17, 1, 0])
        buffer = zeros(12 if 'room' in chosen else 13)
        yield f'create {sp} {sec} 1 1 - - {buffer}'
        yield f'create {sp} {sec} 0 0 - - {buffer}'
        yield f'reserve {sp} {sec} 0 1 - f {buffer}'
        # The faults that an edit can bring after construction: the first is refused by the edit, the second by the writes.
        edits = ';'.join(e for e in ('pvn=8', 'version=0') if e.split('=')[0] in chosen) or '-'
        yield f'create 0,1,1,1,3,0,0 2,15,17,1,0 1 1 - {edits} {buffer}'
    for data_len in (65529, 65530, 65535, 65536, MACHINE - 13, MACHINE - 12, MACHINE):
        for sp, sec in (P5_SP, P5_SEC), ('8,1,1,1,3,0,0', P5_SEC), (P5_SP, '0,15,17,1,0'):
            yield f'reserve {sp} {sec} {data_len} 1 - f {zeros(13)}'


def limits_requests(rng):
    largest, data = f'create {P5_SP} {P5_SEC} 1 1', rng.randbytes(65530)
    yield f'{largest} {text(data[1:])} - {zeros(65542)}'
    yield f'{largest} {text(data)} - -'
    yield f'reserve {P5_SP} 1,15,17,1,0 65530 1 - f {zeros(65543)}'       # 6 stands before 3


def packet_of(sp, sec, data, form):
    """The octets of a packet with its checksum."""
    creator = Creator(Sp(*sp), sec, 1, 1, data, form)
    return creator.write(bytes(creator.total()), True)[1]


def tc(data=b'', sp=(0, 1, 1, 291, 3, 5, 0), sec=(2, 15, 17, 1, 0), form=PUS_C):
    return packet_of(sp, Sec(*sec), data, form)


def sealed(octets):
    return octets + be16(crc(octets))


def read_requests(rng):
    cases = [P5, P6, P5[:20], '1923C00500032F11010000', '1923C00500042F11010000', '1923C00500052F1101000000']
    yield from (f'read {mode} {octets}' for octets in cases for mode in MODES)
    # Every slice length with every length field; where a checksum fits it is right at first, then damaged.
    lines = {}
    for length, field in itertools.product(range(17), range(14)):
        packet = bytes.fromhex('1923C005') + be16(field) + rng.randbytes(field + 1)
        packet = sealed(packet[:-2]) + rng.randbytes(16)
        for mode in MODES:
            lines[f'read {mode} {text(packet[:length])}'] = None
            if mode in ('new', 'nt') and length >= field + 7 >= 13:
                damaged = bytes([packet[0] ^ 1]) + packet[1:]
                lines[f'read {mode} {text(damaged[:length])}'] = None
    yield from lines
    for data_len in (0, 1, 2, 17, 64):                    # all that a header can say, with octets after the total
        for _ in range(4):
            sp = [rng.randint(0, top) for top in SP_WIDTHS]
            sec = [2, *(rng.randint(0, top) for top in SEC_WIDTHS[1:])]
            packet = tc(rng.randbytes(data_len), sp, sec)
            yield from (f'read {mode} {text(packet + rng.randbytes(rng.randint(0, 3)))}' for mode in MODES)
    for nibble in range(16):                              # the PUS version is reported as C, whatever stands there
        packet = sealed(bytes.fromhex('1923C0050006') + bytes([nibble << 4 | 5]) + bytes.fromhex('11010000'))
        yield f'read new {text(packet)}'
    for octets in ('-', '00', 'FFFF', '1D0F', P5, P6, P5 + '00', '29B1', text(b'123456789') + '29B1'):
        yield f'verify {octets} 616D'
        yield f'verify {octets} 0000'
    yield from comparisons(rng)
    for length in range(70):                              # both checksums of octets that do not verify, and of few
        yield f'verify {text(rng.randbytes(length))} {text(rng.randbytes(2))}'


def comparisons(rng):
    data = bytes.fromhex('0A0B0C')
    packet, short = tc(data), text(tc(data)[:14])
    same = f'{P5_SP[:-1]}9 {P5_SEC} 1 1 0A0B0C -'
    for mode in MODES:
        yield f'cmprc {mode} {text(packet)} {same}'
        yield f'cmprc {mode} {text(packet + b"tail")} {same}'
        yield f'cmprc {mode} {short} {same}'
        yield f'cmprc {mode} {text(packet[:-1] + bytes([packet[-1] ^ 1]))} {same}'
        # A reader without a checksum takes the last two octets as data.
        yield f'cmprc {mode} {text(packet)} {P5_SP} {P5_SEC} 1 0 {text(packet[11:])} -'
        yield f'cmprc {mode} {P5} {P5_SP} {P5_SEC} 1 1 - -'
        # The creator's choice of checksum is no part of the comparison.
        yield f'cmprc {mode} {P5} {P5_SP} {P5_SEC} 0 0 - -'
        yield f'cmprc {mode} {P5} {P5_SP} {P5_SEC} 0 1 616D -'
    for edits in ('pvn=1', 'type=0', 'shf=0', 'apid=0', 'sflags=0', 'scount=0', 'dlen=0', 'ack=0', 'service=0',
                  'subtype=0', 'source=1', 'version=1', 'version=0', 'apid=0;apid=291', 'dlen=0;upd', 'apid=2048'):
        yield f'cmprc noverify {text(packet)} {same[:-1]}{edits}'
    for wrong in ('0A0B0D', '0A0B', '-'):
        yield f'cmprc new {text(packet)} {same.replace("0A0B0C", wrong)}'
    flip = [text(packet[:at] + bytes([packet[at] ^ 1]) + packet[at + 1:]) for at in range(len(packet))]
    for mode, other in itertools.product(MODES, MODES):
        yield f'cmprr {mode} {text(packet)} {other} {text(packet)}'
        yield f'cmprr {mode} {text(packet)} {other} {text(packet + b"tail")}'
        yield f'cmprr {mode} {text(packet)} {other} {P5}'
        yield f'cmprr {mode} {text(packet)} {other} {flip[-1]}'
        yield f'cmprr {mode} {short} {other} {text(packet)}'
        yield f'cmprr {mode} {short} {other} {P5[:20]}'
    yield from (f'cmprr nocrc {text(packet)} noverify {one}' for one in flip)


# Each makes the first octets of a packet with APID 291 wrong in one way.
FAULTS = {'short': {}, 'checksum': {}, 'pvn': {0: 0x20}, 'type': {0: 0x10}, 'flag': {0: 0x08}, 'nibble': {6: 0x10},
          'idle': {0: 0x06, 1: 0xDC}}


def faulty(packet, chosen):
    """A packet with these faults, its checksum right unless that is one of them."""
    body = bytearray(packet[:-2])
    for fault in chosen:
        for at, bits in FAULTS[fault].items():
            body[at] ^= bits
    octets = bytearray(sealed(bytes(body)))
    if 'checksum' in chosen:
        octets[-1] ^= 1
    return bytes(octets[:-1] if 'short' in chosen else octets)


def strict_requests(rng):
    yield f'strict {P5}'
    yield f'strict {P6}'
    for count, data in itertools.product((0, 1, 2, 3), (b'', b'\x01\x02')):
        for chosen in itertools.combinations(FAULTS, count):
            yield f'strict {text(faulty(tc(data), chosen))}'
    for first in range(0, 256, 8):                        # every version number, type and flag; every version nibble
        yield f'strict {text(sealed(bytes([first | 1]) + bytes.fromhex("23C00500062F11010000")))}'
    for nibble in range(16):
        yield f'strict {text(sealed(bytes.fromhex("1923C0050006") + bytes([nibble << 4]) + bytes(4)))}'
    for length, field in itertools.product(range(15), range(9)):
        yield f'strict {text((bytes.fromhex("1923C005") + be16(field) + bytes(9))[:length])}'
    for apid, way in itertools.product((0, 1, 1023, 2045, 2046, 2047), ('strict', *(f'read {mode}' for mode in MODES))):
        yield f'{way} {text(tc(b"", (0, 1, 1, apid, 3, 5, 0)))}'
    for _ in range(20):                                   # what the verdict does not judge
        sp = [0, 1, 1, *(rng.randint(0, top) for top in SP_WIDTHS[3:])]
        sec = [2, *(rng.randint(0, top) for top in SEC_WIDTHS[1:])]
        yield f'strict {text(tc(rng.randbytes(rng.randint(0, 20)), sp, sec) + rng.randbytes(rng.randint(0, 3)))}'
    # Captures: P5, P6 and a tail; one packet of each fault; tails of every length.
    yield f'split {P5}{P6}1923C0'
    yield 'split -'
    each = [faulty(tc(b'\x07'), [fault]) for fault in FAULTS if fault != 'short']
    yield f'split {text(b"".join(each))}'
    yield f'split {text(b"".join(each[::-1]))}{P5}'
    yield f'split {P5}{"1923C0050000FF"}{P5}{"1923C00500042F11010000"}{P5}'       # totals of 7 and 11: number 2
    for length in range(14):
        yield f'split {P5}{P5[:2 * length]}'
        yield f'split {text(bytes.fromhex(P5)[:length])}'
    for _ in range(30):
        packets = []
        for _ in range(rng.randint(0, 8)):
            chosen = rng.sample(list(FAULTS), rng.choice((0, 0, 1)))
            packets.append(faulty(tc(rng.randbytes(rng.randint(0, 5))), chosen))
        yield f'split {text(b"".join(packets) + rng.randbytes(rng.randint(0, 8)))}'
    yield f'split {text(bytes.fromhex(P5) * 40)}'


def grammar_requests(_):
    yield from (
        '', ' ', '-', 'crc', 'crc ', ' crc 00', 'crc  00', 'crc 00 ', 'crc 00\r', 'crc\t00', 'CRC 00', 'crcs 00', 'crc 0',
        'crc 000', 'crc ab', 'crc AB', 'crc 0x', 'crc -', 'crc --', 'crc -00', 'crc 00-', 'crc 00 00', 'crc 0G', 'crc :0',
        'crc @0', 'crc /0', 'crc \xff\xff', 'verify 00 -', 'verify 00 000', 'verify 00 00000', 'verify 00 000g',
        'verify 00 ABCD', 'verify 00 abcd', 'ack', 'ack -', 'ack -1', 'ack +1', 'ack 1.', 'ack :', 'ack /', 'ack 007',
        'ack 255', 'ack 256', 'ack 1 1', 'ack 00000000000000000001', 'ack 000000000000000000001',
        'ack 18446744073709551616', 'ack 36893488147419103233', 'consts -', 'consts ', 'read new', 'read new - -',
        'read New -', 'read crc -', 'read noverif -', 'simple 1 2', 'simple 65536 1 1', 'simple 1 256 1', 'simple 1 1 256',
        'simple 1 1 1 1', 'strict', 'strict 0', 'split', 'split 0', 'cmprr new - new')
    for sp in ('0,1,1,291,3,5', '0,1,1,291,3,5,6,7', '0,1,1,291,3,5,', ',1,1,291,3,5,6', '256,1,1,291,3,5,6',
               '0,2,1,291,3,5,6', '0,1,2,291,3,5,6', '0,01,1,291,3,5,6', '0,1,01,291,3,5,6', '0,1,1,65536,3,5,6',
               '0,1,1,291,4,5,6', '0,1,1,291,03,5,6', '0,1,1,291,3,65536,6', '0,1,1,291,3,5,65536', '-',
               '000,1,1,0291,3,005,00006'):
        yield f'sphwrite {sp} 00000000000000'
        yield f'reserve {sp} {P5_SEC} 0 1 - f -'
    for sec in ('2,15,17,1', '2,15,17,1,0,0', '3,15,17,1,0', '02,15,17,1,0', '2,256,17,1,0', '2,15,256,1,0',
                '2,15,17,256,0', '2,15,17,1,65536', '2,15,17,1,-', '2,0015,017,01,00'):
        yield f'create {P5_SP} {sec} 1 1 - - -'
    for rest in ('2 1 - - -', '1 2 - - -', '01 1 - - -', '1 1 - -', '1 1 - - - -', '1 1 0 - -', '1 1 - - 0'):
        yield f'create {P5_SP} {P5_SEC} {rest}'
    for edits in ('upd', 'upd=', 'upd=1', 'upd;', ';upd', 'upd;;upd', 'apid', 'apid=', 'apid=-1', 'apid=65536', 'apid=1,2',
                  'sflags=4', 'sflags=01', 'type=2', 'shf=2', 'version=3', 'dlen=65536', 'pvn=256', 'seq=1', 'Apid=1',
                  'apid=1=2', 'apid= 1', '-;upd', 'apid=9999;version=9', 'source=00007'):
        yield f'create {P5_SP} {P5_SEC} 1 1 - {edits} -'
    for setters in ('data=0', 'data=', 'data', 'data=01', 'pid=1,1', 'pid=1,1,1,1', 'pid=2,1,1', 'pid=1,2,1', 'psc=4,1',
                    'psc=3', 'mtid=1', 'mtid=256,1', 'mtid=1,256', 'cksum=2', 'cksum', 'upd', 'dlen=1', 'source=65536',
                    'ack=256', 'apid=9999;ack=256', ';'):
        yield f'build {setters} - -'
    for rest in ('0 1 0A f -', '1 1 0A f -', '1 1 0A0B f -', '0 1 - x -', '0 1 - fn -', '0 1 - F -', '-1 1 - f -',
                 '18446744073709551615 1 - f -', '18446744073709551616 1 - f -', '018446744073709551615 1 - f -'):
        yield f'reserve {P5_SP} {P5_SEC} {rest}'
    yield f'reserve 8,1,1,291,3,5,6 {P5_SEC} 0 1 0A f -'
    yield f'cmprc new - {P5_SP} {P5_SEC} 1 1 - apid=65536'
    yield from form_grammar()


def form_grammar():
    """`in FORM` before a request. A bad field stands before a width that is none."""
    yield from ('in', 'in ', 'in a8', 'in a8 ', 'in  a8 strict -', 'in a8  strict -', 'IN a8 strict -', 'in a8 strict',
                'in a8 strict - -', 'in a8 strict 0', 'in a9 strict 0', 'in a9 read crc -', 'in a8 a8 strict -',
                'in a8 in a8 strict -', 'in strict -', 'strict in a8 -')
    for form in ('a', 'a08', 'a255', 'a256', 'a-8', 'a+8', 'a8.', 'a8,', 'aa8', 'A8', '8', '8a', 'b8', 'c0', 't0',
                 'a00000000000000000008', 'a000000000000000000008'):
        yield f'in {form} strict -'
    for other in ('crc 00', 'sphread -', f'reserve {P5_SP} {P5_SEC} 0 1 - f -', 'split -', 'cmprr new - new -', 'consts'):
        yield f'in a8 {other}'
    yield 'in a9 split -'


def pus_a_requests(rng):
    for width in 0, 8, 16:
        form = pus_a(width)
        yield from (f'in a{width} {request}' for part in (a_readings, a_writings) for request in part(rng, form))
    # Another width is refused before everything else that is wrong.
    for width in 1, 9, 24, 255:
        yield from (f'in a{width} {request}' for request in (
            f'read new {P5}', 'strict -', 'create 8,1,1,2048,3,5,6 2,16,17,1,65535 1 1 - apid=2048 -', 'build ack=16 - -'))
    yield f'strict {text(a_packet(pus_a(16)))}'           # PUS C refuses version 1 as before


def a_packet(form, nibble=1, data=b'', source=0, first=0x19, second_octet=0x23):
    """A ping of PUS A with its right checksum, whatever its nibble is."""
    second = bytes([nibble << 4 | 15, 17, 1]) + source.to_bytes(form.last_octets, 'big')
    return sealed(bytes([first, second_octet]) + bytes.fromhex('C005') + be16(form.start + len(data) - 5) + second + data)


def a_sources(form):
    """The edges of a source ID: those within the form's width, and those over it."""
    return [[source for source in (0, 1, 255, 256, 65535) if (source > form.tops[5]) == over] for over in (False, True)]


def a_readings(rng, form):
    ping = a_packet(form)
    wrong = ping[:-1] + bytes([ping[-1] ^ 1])
    yield from (f'read {mode} {text(ping)}' for mode in MODES)
    yield from (f'read {mode} {text(wrong)}' for mode in ('nt', 'noverify'))
    yield from (f'strict {text(octets)}' for octets in (ping, wrong, ping + b'tail'))
    # P5 is a ping of PUS C: it is read, and reported as A; the verdict refuses its nibble, and any other but 1.
    yield f'read new {P5}'
    yield f'strict {P5}'
    yield from (f'strict {text(a_packet(form, nibble))}' for nibble in (0, 9, 15))
    yield f'read new {text(a_packet(form, 9))}'
    for source in a_sources(form)[0]:
        yield f'strict {text(a_packet(form, data=rng.randbytes(3), source=source))}'
    for first in 0x39, 0x09, 0x11:                        # packet version number, type and flag stand before the nibble
        yield f'strict {text(a_packet(form, 2, first=first))}'
    for low, nibble in itertools.product((0xFE, 0xFF), (1, 2)):       # APID 2,046 and 2,047, of this version and of another
        packet = text(a_packet(form, nibble, first=0x1F, second_octet=low))
        yield from (f'{way} {packet}' for way in ('strict', 'read new'))
    # Lengths around the least totals: the octets that there are, and the total that the field states.
    for length, stated in (-1, 2), (0, 2), (0, -1), (0, 0), (1, 1):
        packet = bytes.fromhex('1923C005') + be16(form.start + stated - 7) + bytes.fromhex('1F1101000000')
        yield from (f'{kind} {text(packet[:form.start + length])}' for kind in ('read new', 'read nocrc'))
    yield f'strict {text(ping[:form.start - 1])}'


def a_writings(rng, form):
    within, over = a_sources(form)
    total = form.start + 4                                # of two octets of data and a checksum
    for source in within:
        yield f'create 0,0,0,291,3,5,0 1,15,17,1,{source} 1 1 0A0B - {text(rng.randbytes(total))}'
    for source in over:
        yield f'create 0,0,0,291,3,5,0 1,15,17,1,{source} 1 1 0A0B - {zeros(total)}'
    for source in over[:1]:                               # place 5 comes after place 4, before room and version
        yield f'create 0,0,0,291,3,5,0 1,16,17,1,{source} 1 1 0A0B - {zeros(total)}'
        yield f'create 0,0,0,291,3,5,0 2,15,17,1,{source} 0 1 0A0B - -'
        yield f'build source={source};ack=16 - -'
        yield f'build ack=16;source={source} - -'
    yield f'create 7,0,0,2047,0,16383,77 1,0,255,255,0 0 0 0A0B - {text(rng.randbytes(total))}'
    yield f'create 0,0,0,291,3,5,0 1,15,17,1,0 1 1 0A0B - {text(rng.randbytes(total - 1))}'
    yield f'create 0,0,0,291,3,5,0 2,15,17,1,0 1 1 0A0B - {text(rng.randbytes(total))}'
    yield f'create 0,0,0,291,3,5,0 0,15,17,1,0 1 1 0A0B - {text(rng.randbytes(total - 1))}'
    for edits in (f'source={within[-1]};dlen=0;upd', 'type=0;shf=0;dlen=9', 'version=2', 'version=0;version=1',
                  *(f'source={source};source=0' for source in over[:1])):
        yield f'create 0,0,0,1,3,2,77 1,9,3,4,0 1 1 0A0B {edits} {zeros(total)}'
    # Builder: its defaults, no room, and each source by its setter.
    yield from (f'build {setters} 0A0B {zeros(total)}' for setters in ('ack=15', '-'))
    yield f'build cksum=0;ack=9;data=1 0A0B {zeros(total - 3)}'
    yield from (f'build apid=291;scount=5;mtid=17,1;source={source};data=1;ack=15 0A0B {zeros(total)}' for source in within + over)
    # The largest packet and one octet more; without a buffer the answer is short.
    for length in 65542, 65543:
        data = (bytes(range(256)) * 256)[:length - form.start - 2]
        yield f'create {P5_SP} 1,15,17,1,{within[-1]} 1 1 {text(data)} - -'



TIME_LENGTHS = (0, 1, 4, 7, 16)
TM_SP, PONG = '0,0,1,291,3,5,0', '2,1,17,2,3,4'           # the report of a ping


def clock(length):
    """A time field, each octet another."""
    return bytes(range(0xA0, 0xA0 + length))


def tm(form, data=b'', sp=(0, 0, 1, 291, 3, 5, 0), fields=(2, 1, 17, 2, 3, 4)):
    return packet_of(sp, Tm(*fields).at(clock(form.last_octets)), data, form)


def with_octet(packet, at, octet):
    """A packet with another octet, sealed anew."""
    return sealed(packet[:at] + bytes([octet]) + packet[at + 1:-2])


def telemetry_requests(rng):
    for length in TIME_LENGTHS:
        form = telemetry(length)
        yield from (f'in t{length} {request}' for part in (tm_readings, tm_writings) for request in part(rng, form))
    parts = tm_lengths, tm_verdicts, tm_edits, tm_orders, tm_reservations
    yield from (f'in t7 {request}' for part in parts for request in part(rng, telemetry(7)))
    yield from tm_fields(rng)
    # The same octets at another time length: what is time here is source data there.
    packet = text(tm(telemetry(15), bytes([7, 8, 9])))
    yield from (f'in t{length} strict {packet}' for length in (0, 7, 14, 15, 16))
    # What is accepted as telemetry is no command, and the other way round.
    for length in 0, 7:
        packet = text(tm(telemetry(length), b'\x01'))
        yield from (f'{way} {packet}' for way in (f'in t{length} strict', 'strict', 'in a0 strict', 'in a16 strict'))
    packet = text(tc(bytes(6)))
    yield from (f'{way} {packet}' for way in ('strict', 'in t0 strict', 'in t4 strict', 'in t4 read new', 'in t7 strict'))
    yield f'in t0 strict {text(a_packet(pus_a(16), data=bytes(2)))}'
    yield from tm_above_16()
    yield from tm_limits()
    yield from tm_grammar()


def tm_above_16():
    """A time length above 16 is refused before everything else that is wrong, also with a time of that length."""
    for length in 17, 255:
        time = text(clock(7) * 40)[:2 * length]
        yield from (f'in t{length} {request}' for request in (
            'read new -', f'strict {text(tm(telemetry(16), bytes(9)))}',
            'create 8,0,1,2048,3,16384,0 1,16,17,2,3,4 - 1 1 - status=16 -',
            f'reserve 8,0,1,2048,3,16384,0 1,16,17,2,3,4 - {MACHINE} 1 0A c 0B'))
        for headers in (f'{TM_SP} {PONG}', f'8,0,1,291,3,5,0 {PONG}', f'0,0,1,2048,3,5,0 {PONG}',
                        f'0,0,1,291,3,16384,0 {PONG}', f'{TM_SP} 2,16,17,2,3,4', f'{TM_SP} 1,1,17,2,3,4'):
            yield from (f'in t{length} create {headers} {time} {set_length} 1 - - {zeros(40)}' for set_length in '10')
            yield f'in t{length} reserve {headers} {time} 0 1 - f {zeros(40)}'


def tm_readings(rng, form):
    pong = tm(form, rng.randbytes(2))
    wrong = pong[:-1] + bytes([pong[-1] ^ 1])
    yield from (f'read {mode} {text(pong)}' for mode in MODES)
    yield from (f'{way} {text(wrong)}' for way in ('read nt', 'read noverify', 'strict'))
    yield from (f'strict {text(octets)}' for octets in (pong + b'tail', tm(form), tm(form)[:form.start - 1]))


def tm_writings(rng, form):
    length, headers = form.last_octets, f'{TM_SP} {PONG}'
    time = text(clock(length))
    total = form.start + 4                                # of two octets of source data and a checksum
    for has, more in (1, -1), (1, 0), (1, 2), (0, -3), (0, -2):
        yield f'create {headers} {time} 1 {has} 0A0B - {text(rng.randbytes(total + more))}'
    for has, finish, more in (1, 'f', -1), (1, 'f', 0), (1, 'n', 1), (1, 'c', 0), (0, 'f', -2):
        yield f'reserve {headers} {time} 2 {has} 0A {finish} {text(rng.randbytes(total + more))}'
    for other in sorted({max(0, length - 1), length + 1, 0} - {length}):      # a time of another length, all else good
        yield f'create {headers} {text(clock(other))} 1 1 0A0B - {zeros(total + 1)}'
    yield f'reserve {headers} {text(clock(other))} 2 1 0A0B f {zeros(total + 1)}'


def tm_lengths(_, form):
    """Totals around the least ones: as many octets as are stated, and one fewer."""
    for total in range(form.start - 1, form.start + 4):
        octets = tm(form, bytes(5))
        octets = octets[:4] + be16(total - 7) + octets[6:total]
        if total >= form.start + 2:
            octets = sealed(octets[:-2])
        yield from (f'read {mode} {text(octets)}' for mode in MODES)
        yield from (f'{way} {text(octets[:-1])}' for way in ('read new', 'read nocrc', 'strict'))


def tm_verdicts(_, form):
    for chosen in itertools.chain.from_iterable(itertools.combinations(FAULTS, count) for count in (1, 2)):
        yield f'strict {text(faulty(tm(form, bytes([1, 2])), chosen))}'
    for nibble in 0, 1, 2, 3, 9, 15:                      # the reader reports C, whatever stands there
        yield f'strict {text(with_octet(tm(form), 6, nibble << 4 | 5))}'
        yield f'read new {text(with_octet(tm(form), 6, nibble << 4 | 5))}'
    yield from (f'strict {text(with_octet(tm(form), 0, number << 5 | 9))}' for number in (2, 7))
    for apid, way in itertools.product((2046, 2047), ('strict', *(f'read {mode}' for mode in MODES))):
        yield f'{way} {text(tm(form, b"", (0, 0, 1, apid, 3, 5, 0)))}'


def tm_edits(_, form):
    time, total = text(clock(7)), form.start + 4
    for edits in ('apid=7', 'apid=2047', 'scount=9', 'sflags=0', 'status=0', 'status=15', 'counter=65535', 'dest=258',
                  'pvn=5', 'type=1', 'shf=0', 'dlen=0', 'dlen=65535', 'service=8', 'subtype=9', 'upd', 'dlen=1;upd',
                  'upd;dlen=1', 'type=1;shf=0;upd', 'counter=1;counter=256', 'apid=2048', 'scount=16384', 'status=16',
                  'status=255;status=1', 'pvn=8', 'pvn=8;status=16', 'status=16;pvn=8', 'version=0', 'version=1;upd',
                  'version=1;version=2'):
        yield f'create 0,1,0,1,3,2,77 2,3,4,5,6,7 {time} 0 1 0A0B {edits} {zeros(total)}'


def tm_orders(_, form):
    """Each fault that a creation or a reservation can have, alone and with each other."""
    faults = ['time', 'pvn', 'apid', 'scount', 'status', 'room', 'version']
    for chosen in itertools.chain.from_iterable(itertools.combinations(faults, count) for count in (1, 2)):
        sp = row([8 * ('pvn' in chosen), 0, 1, 2048 * ('apid' in chosen), 3, 16384 * ('scount' in chosen), 0])
        fields = row([1 if 'version' in chosen else 2, 16 if 'status' in chosen else 15, 17, 2, 3, 4])
        buffer = zeros(form.start + ('room' not in chosen) + 1)
        for length in (6, 8) if 'time' in chosen else (7,):
            time = text(clock(length))
            yield from (f'create {sp} {fields} {time} {set_length} 1 - - {buffer}' for set_length in '10')
            yield f'reserve {sp} {fields} {time} 0 1 - f {buffer}'


def tm_reservations(rng, form):
    time, buffer = text(clock(7)), text(rng.randbytes(form.start + 6))
    for has, finish, fill in itertools.product('01', 'fnc', ('-', '0A0B0C')):
        yield f'reserve 7,1,0,2047,0,16383,9 2,15,255,255,65535,256 {time} 3 {has} {fill} {finish} {buffer}'
    # Lengths that there is no room for, and lengths that fit no machine size.
    for data_len, has in ((65520, 1), (65521, 1), (MACHINE - 22, 1), (MACHINE - 21, 1), (MACHINE - 20, 0),
                          (MACHINE - 19, 0), (MACHINE, 1)):
        yield f'reserve {TM_SP} {PONG} {time} {data_len} {has} - f {zeros(3)}'
    for fields, length in (PONG, 8), ('2,16,17,2,3,4', 7), ('0,1,17,2,3,4', 7):
        yield f'reserve {TM_SP} {fields} {text(clock(length))} {MACHINE} 1 - f {zeros(3)}'


def tm_fields(rng):
    """Each field of both headers at its edges, written and read, and over them, at one time length after the other."""
    lengths = itertools.cycle(TIME_LENGTHS)

    def headers():
        return [rng.randint(0, top) for top in SP_WIDTHS], [2, *(rng.randint(0, top) for top in TM_WIDTHS[1:])]

    def create(sp, fields, set_length):
        length = next(lengths)
        return (f'in t{length} create {row(sp)} {row(fields)} {text(rng.randbytes(length))} {set_length} 1 0A0B0C - '
                f'{text(rng.randbytes(18 + length))}')

    def octets(length, sp, fields, stated):
        """A sealed packet with these fields as they stand; its length is right unless another is stated."""
        form, data = telemetry(length), rng.randbytes(3)
        head = Sp(*sp if stated else with_field(sp, 6, form.start + len(data) + 2 - 7))
        return text(sealed(head.octets() + Tm(*fields).at(rng.randbytes(length)).octets(form) + data))

    def readings(sp, fields, at=None):
        """Packets with these fields; what is judged has the first three of a report, but for that at `at`."""
        report = [value if place == at else right for place, (value, right) in enumerate(zip(sp, (0, 0, 1)))]
        for way, first in ('read new', sp[:3]), ('read nocrc', sp[:3]), ('strict', report):
            length = next(lengths)
            yield f'in t{length} {way} {octets(length, [*first, *sp[3:]], fields, at == 6)}'

    for at, top in enumerate(SP_WIDTHS):
        for value in edges(top):
            sp, fields = headers()
            sp = with_field(sp, at, value)
            yield create(sp, fields, value % 2)
            yield from readings(sp, fields, at)
    over = {1: (16, 255)}                                 # place in the row, values over the width
    for at, top in enumerate(TM_WIDTHS):
        middle = (255, 256) if top == 65535 else ()
        for value in (*edges(top), *middle, *over.get(at, ())):
            sp, fields = headers()
            fields = with_field(fields, at, value)
            yield create(sp, fields, 1)
            if value in (16, 256) or at == 0:
                length = next(lengths)
                yield (f'in t{length} reserve {row(sp)} {row(fields)} {text(rng.randbytes(length))} 1 1 '
                       f'{text(rng.randbytes(1))} f {text(rng.randbytes(17 + length))}')
            if value <= top:
                yield from readings(sp, fields)


def tm_limits():
    """The largest packet and one octet more; without a buffer the answer is short."""
    data = bytes(range(256)) * 256
    for length in TIME_LENGTHS:
        for size, buffer in (65527 - length, zeros(LIMIT) if length == 16 else '-'), (65528 - length, '-'):
            yield f'in t{length} create {TM_SP} {PONG} {text(clock(length))} 1 1 {text(data[:size])} - {buffer}'
    largest = text(tm(telemetry(16), data[:65511]))
    yield from (f'in t16 {way} {largest}' for way in ('read new', 'strict'))
    yield f'in t0 create {TM_SP} {PONG} - 0 1 {text(data[:65528])} - -'           # no limit where the length stands
    time, data = text(clock(7)), zeros(65521)
    yield f'in t7 create {TM_SP} 2,16,17,2,3,4 {time} 1 1 {data} - -'             # 7 stands before 6, and 14 before both
    yield f'in t7 create {TM_SP} 2,16,17,2,3,4 {time}A7 1 1 {data} - -'
    yield f'in t7 reserve {TM_SP} {PONG} {time} 65520 1 - n {zeros(LIMIT)}'
    yield f'in t7 reserve {TM_SP} 1,1,17,2,3,4 {time} 65521 1 - f {zeros(LIMIT + 1)}'     # 6 stands before 3


def tm_grammar():
    """What follows `in tN`. A bad field stands before a time length that is none."""
    yield from ('in t', 'in t ', 'in t7', 'in t7 ', 'in t strict -', 'in t7 strict', 'in t7 strict - -', 'in t7 strict 0',
                'in t17 strict 0', 'in t17 read crc -', 'in t7 t7 strict -', 'in t7 in t7 strict -', 'in t7 a8 strict -')
    for form in ('t07', 't016', 't017', 't256', 't-1', 't+7', 't7.', 'tt7', 'T7', '7t', 'at7', 't00000000000000000007',
                 't000000000000000000007'):
        yield f'in {form} strict -'
    for other in ('crc 00', 'sphread -', f'sphwrite {TM_SP} -', 'build - - -', 'split -', 'cmprr new - new -', 'consts',
                  f'cmprc new - {TM_SP} {PONG} {text(clock(7))} 1 1 - -'):
        yield f'in t7 {other}'
    yield 'in t17 split -'
    for fields in ('2,0,17,2,0', '2,0,17,2,0,0,0', '2,0,17,2,0,', ',0,17,2,0,0', '3,0,17,2,0,0', '02,0,17,2,0,0',
                   '2,256,17,2,0,0', '2,0,256,2,0,0', '2,0,17,256,0,0', '2,0,17,2,65536,0', '2,0,17,2,0,65536',
                   '2,0,17,2,0,-', '-', P5_SEC, '2,015,017,02,0000256,00'):
        yield f'in t1 create {TM_SP} {fields} A0 1 1 - - -'
    for time in ('0', 'a0', 'AG', '--', 'A0-', '', 'A0 A0', '0xA0', 'A0A', 'A0A1', '-'):
        yield f'in t1 reserve {TM_SP} {PONG} {time} 0 1 - f 00'
    yield f'in t0 create {TM_SP} {PONG} 1 1 - - -'        # no TIME
    yield f'in t0 reserve {TM_SP} {PONG} 0 1 - f -'
    for edits in ('ack=1', 'ack=16', 'ack=255', 'apid=2048;ack=16', 'source=1', 'status=', 'status', 'status=256', 'status=1,2', 'counter=65536', 'dest=65536',
                  'dest=-1', 'Dest=1', 'time=A0', 'msg_counter=1', 'upd=1', 'status=1;', 'status=0015;counter=00007'):
        yield f'in t1 create {TM_SP} {PONG} A0 1 1 - {edits} -'
    yield f'in t17 create {TM_SP} {PONG} A0 1 1 - status=256 -'
    yield f'in t17 create {TM_SP} {PONG} A0 1 1 - ack=16 -'
    yield f'in a8 create {TM_SP} {PONG} A0 1 1 - - -'
    yield f'in a8 create {TM_SP} 1,15,17,1,0 1 1 - status=1 -'
    yield f'in t1 reserve {TM_SP} {PONG} A0 1 1 0A0B f 00'
    yield f'in t17 reserve {TM_SP} {PONG} A0 1 1 0A0B f 00'
    yield f'in t1 reserve {TM_SP} {PONG} A0 0 1 - x 00'
    yield f'in t1 reserve {TM_SP} {PONG} A0 18446744073709551616 1 - f 00'


def command(count, asked, apid=291):
    """A command with this sequence count that asks for these acknowledgements, and its request ID."""
    packet = tc(sp=(0, 1, 1, apid, 3, count, 0), sec=(2, asked, 17, 1, 0))
    return packet, packet[:4]


def report_data(request, subtype):
    """What a report of this subtype has: the request ID, a step in progress reports, a code in failures."""
    return request + b'\x05' * (subtype in (5, 6)) + b'\x00\x09' * (subtype % 2 == 0)


def report(request, subtype, time_len=0, service=1, data=None):
    data = report_data(request, subtype) if data is None else data
    return tm(telemetry(time_len), data, fields=(2, 0, service, subtype, 0, 0))


def calls(*made):
    """The calls of a request: a letter and octets each."""
    return ';'.join(f'{letter}:{text(octets)}' for letter, octets in made) or '-'


def track_requests(rng):
    packet, request = command(5, 15)
    for time_len in (0, 1, 7, 16, 17, 255):
        yield f'track {time_len} -'
        yield f'track {time_len} {calls(("s", packet), ("r", report(request, 1, min(time_len, 16))), ("o", request))}'
    yield from track_pairs()
    yield from track_tables()
    yield from track_malformed()
    yield from (track_history(rng, rng.choice((0, 7))) for _ in range(150))
    yield from track_grammar()


def track_pairs():
    """Each choice of acknowledgements with each report, and each report after it."""
    for asked, first in itertools.product(range(16), range(1, 9)):
        made = []
        for second in range(1, 9):
            packet, request = command(second, asked)
            made += [('s', packet), ('r', report(request, first)), ('o', request), ('r', report(request, second)), ('o', request)]
        yield f'track 0 {calls(*made)}'
    for asked in range(16):                                # all successes in order, and all failures of progress
        packet, request = command(1, asked)
        for subtypes in (1, 3, 5, 5, 7), (6, 6, 1, 3, 8), (3, 1, 5), (5, 3, 1), (1, 2), (5, 4):
            yield f'track 0 {calls(("s", packet), *(("r", report(request, subtype)) for subtype in subtypes))}'


def track_tables():
    """A request that is open already, and tables that are full."""
    packet, request = command(5, 15)
    nothing = command(5, 0)[0]
    yield f'track 0 {calls(("s", packet), ("s", packet), ("o", request), ("s", nothing), ("o", request), ("r", report(request, 7)))}'
    yield f'track 0 {calls(("s", nothing), ("o", request), ("r", report(request, 7)), ("s", packet), ("s", packet))}'
    yield f'track 0 {calls(("s", packet), ("r", report(request, 2)), ("s", packet), ("o", request), ("r", report(request, 8)))}'
    yield f'track 0 {calls(("s", packet + b"more"), ("r", report(request, 7) + b"more"))}'
    full = [('s', command(count, 9)[0]) for count in range(32)]
    extra, other = command(100, 1)
    yield f'track 0 {calls(*full[:31], ("s", extra), ("o", other))}'
    for more in (extra, command(100, 0)[0], command(7, 9)[0], command(7, 0)[0], extra[:-1], with_octet(extra, 6, 0x31)):
        yield f'track 0 {calls(*full, ("s", more))}'
    for count in 0, 13, 31:                                # a place that is used again, behind the others
        made = ('s', extra), ('r', report(command(count, 9)[1], 7)), ('s', extra), ('o', other), ('s', full[count][1])
        yield f'track 0 {calls(*full, *made)}'
    closing = [('r', report(command(count, 9)[1], 8)) for count in range(31, -1, -1)]
    yield f'track 0 {calls(*full, *closing, *full[:3])}'
    near = [tc(sp=(0, 1, 1, apid, flags, count, 0), sec=(2, 8, 17, 1, 0)) for apid, flags, count in
            ((291, 3, 5), (292, 3, 5), (1315, 3, 5), (291, 1, 5), (291, 3, 261), (291, 3, 6))]
    for octets in near:                                    # each octet of a request ID counts
        yield f'track 0 {calls(*(("s", one) for one in near), ("r", report(octets[:4], 1)), *(("o", one[:4]) for one in near))}'


def track_malformed():
    """Telemetry that is no report, on a command that is open."""
    packet, request = command(5, 8)                        # acceptance, whose coming would close it
    sent = 's', packet
    for service, subtype in (0, 1), (2, 1), (17, 2), (255, 7), (1, 0), (1, 9), (1, 10), (1, 255):
        yield f'track 0 {calls(sent, ("r", report(request, subtype, service=service)))}'
    for subtype, size in itertools.product(range(1, 9), range(9)):
        one, _ = command(5, 8 >> (subtype - 1) // 2)       # asks for just this kind
        yield f'track 0 {calls(("s", one), ("r", report(request, subtype, data=(request + bytes(5))[:size])), ("o", request))}'
    good = report(request, 1, 7)
    wrong = (good[:-1] + bytes([good[-1] ^ 1]), good[:-1], b'', packet, with_octet(good, 0, 0x29), with_octet(good, 0, 0x19),
             with_octet(good, 0, 0x01), with_octet(good, 6, 0x10), with_octet(with_octet(good, 0, 0x0F), 1, 0xFF),
             report(request, 1, 6), report(request, 1, 8), report(request, 2, 5))
    for octets in (*wrong, good):
        yield f'track 7 {calls(sent, ("r", octets), ("o", request))}'
    other = command(6, 15)[1]
    yield f'track 7 {calls(sent, ("r", report(other, 7, 7)), ("r", report(other, 9, 7)), ("o", request), ("o", other))}'
    for octets in (packet[:-1], packet[:-1] + b'\0', with_octet(packet, 0, 0x39), with_octet(packet, 0, 0x09),
                   with_octet(packet, 0, 0x11), with_octet(packet, 6, 0x1F), with_octet(with_octet(packet, 0, 0x1F), 1, 0xFF), b''):
        yield f'track 7 {calls(("s", octets), ("r", report(request, 1, 7)))}'


def track_history(rng, time_len, most=80):
    """Commands and reports by chance: duplicates, full tables, reports out of order, unasked, and malformed."""
    pool, sending = rng.choice(((3, 0.5), (10, 0.4), (60, 0.85)))
    made = []
    for _ in range(rng.randint(1, most)):
        asked = rng.choice((0, 1, 8, 9, 15, rng.randrange(16)))
        packet, request = command(rng.randrange(pool), asked, rng.choice((291, 291, 292)))
        way = rng.random()
        if way < sending:
            made.append(('s', packet if rng.random() < 0.95 else packet[:rng.randrange(13)]))
        elif way < 0.95:
            octets = report(request, rng.choice((1, 3, 5, 7, rng.randint(0, 9))), time_len)
            if rng.random() < 0.05:
                octets = with_octet(octets, rng.randrange(len(octets) - 2), rng.randrange(256))
            made.append(('r', octets))
        else:
            made.append(('o', request))
    return f'track {time_len} {calls(*made)}'


def track_grammar():
    packet, _ = command(5, 15)
    yield from ('track', 'track ', 'track 0', 'track 0 ', 'track 0 - -', 'track  0 -', 'track -', 'track - -', 'track -1 -',
                'track 256 -', 'track 007 -', 'track 0x0 -', 'Track 0 -', 'in a8 track 0 -', 'in t7 track 0 -', 'track 0 in')
    for made in (';', '-;', 's', 's:', 's:0', 's:-', 's:-;', ';s:-', 's:-;;s:-', 's:-;r:-', 'r:-', 'r', 'r:', 'r:0', 'o', 'o:',
                 'o:-', 'o:0', 'o:1923C0', 'o:1923C005', 'o:1923C00500', 'o:1923c005', 'o:1923C00', 'x:00', ':00', '00', 'S:00',
                 'R:00', 'O:1923C005', 's:00:', 's:00:00', 'so:00', 's=00', 's:ab', 's:0G', 's:00,r:00', 's: 00', 'o:1923C005;-',
                 f's:{text(packet)};o:1923C005', f's:{text(packet).lower()}', f's:{text(packet)};x', f's:{text(packet)};r:1'):
        yield f'track 0 {made}'
    yield 'track 256 s:0'


def best_requests(rng):
    for length in 0, 7, 16:
        yield from (f'best {length} {text(one)} {text(other)}' for one, other in best_captures(rng, telemetry(length)))
    # The same octets at other time lengths, those above 16 among them.
    packet = tm(telemetry(7), b'\x01\x02')
    pairs = list(itertools.product((packet, packet[:-1], b''), repeat=2))
    for length, (one, other) in itertools.product((0, 6, 8, 9, 10, 16, 17, 18, 255), pairs):
        yield f'best {length} {text(one)} {text(other)}'
    command = text(tc(bytes(9)))
    yield from (f'best 7 {captures}' for captures in (f'{command} {text(packet)}', f'{text(packet)} {command}', f'{command} -'))
    largest = tm(telemetry(16), (bytes(range(256)) * 256)[:65511])
    yield f'best 16 {text(largest[:-1])} {text(largest + b"tail")}'
    yield from best_grammar(text(packet))


def best_captures(rng, form):
    """Pairs of captures: damage in one, the other and both, in each way and with each other; octets after the packet."""
    packet, other = tm(form, b'\x01\x02'), tm(form, b'\x01\x03', (0, 0, 1, 291, 3, 6, 0))
    damaged = [faulty(packet, [fault]) for fault in FAULTS]
    tail = rng.randbytes(5)
    yield from itertools.product((packet, packet + tail, b''), repeat=2)
    yield from ((packet, other), (other, packet), (packet + tail, other), (other + tail, packet + packet))
    for octets in damaged:
        yield from ((octets, packet), (packet, octets), (octets, other + tail), (packet + tail, octets), (octets, b''), (b'', octets))
        yield octets + tail, packet + tail                # of a short one the tail is taken for its last octet
    yield from itertools.product(damaged, repeat=2)
    for chosen in itertools.combinations(FAULTS, 2):
        yield from ((faulty(packet, chosen), other), (faulty(packet, chosen), faulty(other, chosen[::-1])))
    for total in range(form.start - 1, form.start + 3):   # around the least totals
        octets = packet[:4] + be16(total - 7) + packet[6:total]
        octets = sealed(octets[:-2]) if total > form.start + 1 else octets
        yield from ((octets, b''), (b'', octets), (octets, packet), (octets, octets[:-1]))


def best_grammar(packet):
    yield from ('best', 'best ', 'best 0', 'best 0 -', 'best 0 - - -', 'best 0 - - ', 'best 0  -', 'best  0 - -', 'best - - -',
                'best -1 - -', 'best 256 - -', 'best 007 - -', 'best 0x0 - -', 'best 00000000000000000016 - -',
                'best 000000000000000000016 - -', 'Best 0 - -', 'best0 - -', 'bests 0 - -', 'in a8 best 0 - -', 'in t7 best 7 - -',
                'in best 0 - -', 'best 0 in -', 'best 17 - -', 'best 255 0 -', 'best 17 - 0', 'best t7 - -', 'best 7, - -')
    for octets in ('0', 'ab', '0G', '--', '-0', '00-', '00,00', '00:00', '0x00', packet[:-1], packet.lower(), packet + '-'):
        yield f'best 7 {octets} {packet}'
        yield f'best 7 {packet} {octets}'


def commands(*made):
    """A capture of commands, each an APID and a sequence count."""
    return b''.join(command(count, 9, apid)[0] for apid, count in made)


def gaps_requests(rng):
    for request in (*gaps_counts(), *gaps_apids(), *gaps_between(rng)):
        yield from (f'gaps {places} {text(request)}' for places in (0, 1, 2, 65535))
    yield from (gaps_capture(rng) for _ in range(150))
    yield from gaps_grammar()


def gaps_counts():
    """Each count at an edge after each; rows of counts, with one dropped, doubled or late by one place; two APIDs interleaved."""
    counts = 0, 1, 2, 255, 256, 8191, 8192, 16382, 16383
    yield from (commands((291, one), (291, other)) for one, other in itertools.product(counts, repeat=2))
    for first in 0, 5, 16380, 16382, 16383:
        counts = [(first + more) % 16384 for more in range(6)]
        yield commands(*((291, count) for count in counts))
        for at in range(6):
            yield commands(*((291, count) for count in counts[:at] + counts[at + 1:]))
            yield commands(*((291, count) for count in counts[:at] + counts[at:at + 1] + counts[at:]))
        for at in range(5):
            yield commands(*((291, count) for count in counts[:at] + counts[at:at + 2][::-1] + counts[at + 2:]))
        yield commands(*((291, count) for count in counts[::-1]))
        pairs = [(apid, count) for count in counts for apid in (291, 292)]
        yield commands(*pairs)
        yield from (commands(*pairs[:at], *pairs[at + 1:]) for at in range(12))
    yield commands((0, 1), (2046, 1), (0, 2), (2046, 3), (1023, 9), (0, 3), (2046, 4), (1023, 9))


def gaps_apids():
    """63 to 66 APIDs, then each of them again; a gap before the 65th, and behind it."""
    for count in 63, 64, 65, 66:
        once = [(apid * 31, apid) for apid in range(count)]
        yield commands(*once)
        for at in 0, 62, 63, 64:
            apid, last = once[min(at, count - 1)]
            yield commands(*once, (apid, last + 1), (apid, last + 3))
            yield commands(*once[:at], (0, 7), *once[at:], (apid, last))
        yield commands(*once, *((apid, last + 1) for apid, last in once))
        yield commands(*once[:64], (2046, 5), (0, 9), (2046, 6))
        yield commands(*once[:64], (0, 9), (2046, 5))


def gaps_between(rng):
    """Refused packets between, a tail of each length, and nothing else."""
    one, two, three = (command(count, 9)[0] for count in (5, 6, 7))
    for fault in FAULTS:
        wrong = faulty(tc(b'\x01\x02', (0, 1, 1, 291, 3, 6, 0)), [fault])
        wrong = wrong[:4] + be16(len(wrong) - 7) + wrong[6:]          # whole by its length, whatever else
        yield from (one + wrong + three, one + wrong + two, wrong + one + two, one + two + wrong, wrong, wrong + wrong)
    report = tm(telemetry(0), b'', (0, 0, 1, 291, 3, 6, 0))
    yield from (one + report + two, one + report + three, report)
    yield from (one + three + two[:length] for length in range(14))
    yield from (two[:length] for length in range(13))
    yield one + tc(rng.randbytes(300), (0, 1, 1, 291, 0, 6, 0)) + three
    yield from (one + bytes(length) + three for length in (1, 7, 14, 15))
    yield rng.randbytes(400)


def gaps_capture(rng, most=90):
    """Commands by chance: counts that mostly follow, few APIDs or many, refused packets between, a tail; lists of all sizes."""
    pool, counts, capture = rng.choice((1, 2, 5, 64, 65, 70, 300)), {}, b''
    start = rng.choice((0, 100, 16370, 16383))
    for _ in range(rng.randint(0, most)):
        apid = rng.randrange(pool)
        counts[apid] = (counts.get(apid, start) + rng.choice((1, 1, 1, 1, 1, 1, 0, 2, 3, 16383))) % 16384
        packet = tc(rng.randbytes(rng.choice((0, 0, 0, 1, 9))), (0, 1, 1, apid, rng.randrange(4), counts[apid], 0))
        way = rng.random()
        if way < 0.05:
            packet = packet[:-1] + bytes([packet[-1] ^ 1])
        elif way < 0.1:
            packet = with_octet(packet, rng.choice((0, 6)), rng.randrange(256))
        capture += packet
    capture += rng.randbytes(rng.choice((0, 0, 1, 5, 6, 12)))
    return f'gaps {rng.choice((0, 1, 2, 5, 90, 65535))} {text(capture)}'


def gaps_grammar():
    yield from ('gaps', 'gaps ', 'gaps 0', 'gaps 0 ', 'gaps 0 - -', 'gaps  0 -', 'gaps -', 'gaps - -', 'gaps -1 -', 'gaps 65536 -',
                'gaps 007 -', 'gaps 0x0 -', 'gaps 00000000000000065535 -', 'gaps 000000000000000065535 -', 'Gaps 0 -', 'gap 0 -',
                'gaps0 -', 'in a8 gaps 0 -', 'in c0 gaps 0 -', 'in t7 gaps 0 -', 'gaps 0 in', 'gaps 0, -', 'gaps 0 0', 'gaps 0 ab',
                'gaps 0 0G', 'gaps 0 00-', 'gaps 65536 0', f'gaps 0 {P5}', f'gaps 0 {P5[:-1]}', f'gaps 0 {P5.lower()}', f'gaps {P5}')


def spare_requests(rng):
    parts = spare_readings, spare_verdicts, spare_writings, spare_orders, spare_reservations, spare_comparisons, spare_splits
    for spare in range(5):
        form = pus_c(spare)
        yield from (f'in c{spare} {request}' for part in parts for request in part(rng, form))
    yield from spare_above_4()
    # A zero is data where there are fewer spare octets, and spare where there are more; another octet is data alone.
    for data in b'', bytes(1), bytes(2), bytes(4), bytes(5), b'\0\1', b'\1':
        packet = text(tc(data))
        yield from (f'in c{spare} {way} {packet}' for spare in range(5) for way in ('strict', 'read new', 'read nocrc'))
    yield from spare_limits()
    yield from spare_grammar()


def spare_readings(rng, form):
    for data in b'', rng.randbytes(3):
        packet = tc(data, form=form)
        wrong = packet[:-1] + bytes([packet[-1] ^ 1])
        yield from (f'read {mode} {text(octets)}' for mode in MODES for octets in (packet, packet + b'tail', wrong))
    for at, octet in itertools.product(range(form.spare_at, form.start), (1, 255)):       # what is spare is read over
        packet = text(with_octet(tc(b'data', form=form), at, octet))
        yield from (f'read {mode} {packet}' for mode in MODES)
    for length, stated in itertools.product(range(-2, 4), range(-2, 4)):                  # around the least totals
        octets = tc(bytes(8), (0, 1, 1, 291, 3, 5, 0), form=form)
        octets = octets[:4] + be16(form.start + stated - 7) + octets[6:]
        yield from (f'read {mode} {text(octets[:form.start + length])}' for mode in ('noverify', 'nocrc'))


def spare_verdicts(rng, form):
    packet = tc(rng.randbytes(2), form=form)
    for count in 0, 1, 2:
        for chosen in itertools.combinations(FAULTS, count):
            yield f'strict {text(faulty(packet, chosen))}'
            for at in {form.spare_at, form.start - 1} if form.spare else ():              # and a spare octet that is not zero
                yield f'strict {text(faulty(with_octet(packet, at, 0x80), chosen))}'
    for at, bit in itertools.product(range(form.spare_at, form.start), range(8)):
        yield f'strict {text(with_octet(packet, at, 1 << bit))}'
    for at in form.spare_at - 1, form.start:                                              # before them and behind them
        yield f'strict {text(with_octet(packet, at, 1))}'
    yield f'strict {P5}'
    yield f'strict {text(tc(b"", form=form))}'


def spare_writings(rng, form):
    total = form.start + 4                                # of two octets of data and a checksum
    for size in total - 1, total, total + 3:              # what the buffer held does not stand in the spare octets
        for has in 0, 1:
            yield f'create {P5_SP} {P5_SEC} 1 {has} 0A0B - {text(rng.randbytes(size))}'
    for edits in ('source=65535', 'dlen=0;upd', 'type=0;shf=0;dlen=9', 'version=1', 'ack=16', 'apid=2047', 'pvn=7;upd'):
        yield f'create {P5_SP} {P5_SEC} 0 1 0A0B {edits} {text(rng.randbytes(total))}'
    yield f'build - 0A0B {text(rng.randbytes(total))}'
    yield f'build apid=291;scount=5;mtid=17,1;ack=15;source=258;data=1 0A0B {text(rng.randbytes(total))}'
    yield f'build cksum=0;ack=9;data=1 0A0B {text(rng.randbytes(total - 3))}'


def spare_orders(_, form):
    """The faults of a creation and a reservation, alone and with each other."""
    for chosen in itertools.chain.from_iterable(itertools.combinations(('apid', 'ack', 'version', 'room'), count) for count in (1, 2)):
        sp = row([0, 1, 1, 2048 if 'apid' in chosen else 291, 3, 5, 0])
        sec = row([1 if 'version' in chosen else 2, 16 if 'ack' in chosen else 15, 17, 1, 0])
        buffer = zeros(form.start + 2 - ('room' in chosen))
        yield f'create {sp} {sec} 1 1 - - {buffer}'
        yield f'reserve {sp} {sec} 0 1 - f {buffer}'


def spare_reservations(rng, form):
    for size, has, finish in itertools.product((0, 2), (0, 1), 'fnc'):
        total = form.start + size + 2 * has
        for room, fill in (total, size), (total + 2, 0), (total - 1, size):
            yield f'reserve {P5_SP} {P5_SEC} {size} {has} {text(rng.randbytes(fill))} {finish} {text(rng.randbytes(room))}'
    for size in 65529 - form.spare, 65530 - form.spare, MACHINE - form.start - 2, MACHINE - form.start - 1, MACHINE:
        yield f'reserve {P5_SP} {P5_SEC} {size} 1 - f {zeros(13)}'


def spare_comparisons(rng, form):
    data = rng.randbytes(3)
    packet = tc(data, form=form)
    same = f'{P5_SP} {P5_SEC} 1 1 {text(data)}'
    for mode in MODES:
        yield f'cmprc {mode} {text(packet)} {same} -'
        yield f'cmprc {mode} {text(packet)} {P5_SP} {P5_SEC} 1 0 {text(packet[form.start:])} -'
        yield f'cmprc {mode} {text(packet[:-1])} {same} -'
        yield f'cmprr {mode} {text(packet)} {mode} {text(packet + b"tail")}'
        yield f'cmprr {mode} {text(packet)} nocrc {text(packet[:form.start])}'
    for at in range(form.spare_at, form.start + 1):       # a spare octet is none of a creator's, but one of the raw octets
        other = text(with_octet(packet, at, packet[at] ^ 1))
        yield f'cmprc noverify {other} {same} -'
        yield f'cmprr new {text(packet)} new {other}'
    yield f'cmprc new {text(packet)} {same} source=1'


def spare_splits(rng, form):
    packet = tc(rng.randbytes(2), form=form)
    wrong = [with_octet(packet, at, 1) for at in range(form.spare_at, form.start)]
    idle = [with_octet(with_octet(one, 0, 0x1F), 1, 0xFF) for one in (packet, *wrong)]    # 12 comes before 20
    yield f'split {text(b"".join([packet, *wrong, *idle, tc(), packet, packet[:-1]]))}'
    yield f'split {text(packet[:5])}'
    yield 'split -'


def spare_above_4():
    """Refused before everything else that is wrong; a reservation tells the buffer too."""
    wrong = '8,1,1,2048,3,5,6 0,16,17,1,0'
    for spare in 5, 6, 255:
        yield from (f'in c{spare} {request}' for request in (
            f'read new {P6}', 'read nocrc -', 'strict -', f'create {wrong} 1 1 - apid=2048 -', 'build ack=16 - -',
            f'reserve {wrong} 0 1 - f A0B1', f'cmprc new - {wrong} 1 1 - -', 'cmprr new - nocrc -', f'split {P5}', 'split -'))


def spare_limits():
    """The largest packet and one octet more; without a buffer the answer is short."""
    data = bytes(range(256)) * 256
    for spare in range(5):
        for size in 65529 - spare, 65530 - spare:
            yield f'in c{spare} create {P5_SP} {P5_SEC} 1 1 {text(data[:size])} - -'
    yield f'in c3 create {P5_SP} {P5_SEC} 1 1 {text(data[:65526])} - {zeros(LIMIT)}'
    yield f'in c3 strict {text(tc(data[:65526], form=pus_c(3)))}'
    yield f'in c4 reserve {P5_SP} 1,15,17,1,0 65526 1 - f {zeros(LIMIT + 1)}'             # 6 stands before 3


def spare_grammar():
    """What follows `in cN`. A bad field stands before a spare length that is none."""
    yield from ('in c', 'in c ', 'in c3', 'in c3 ', 'in c strict -', 'in c3 strict', 'in c3 strict - -', 'in c3 strict 0',
                'in c5 strict 0', 'in c5 read crc -', 'in c5 split 0', 'in c3 c3 strict -', 'in c3 in c3 strict -')
    for form in ('c03', 'c00004', 'c256', 'c-1', 'c+3', 'c3.', 'cc3', 'C3', '3c', 'ac3', 'c00000000000000000003',
                 'c000000000000000000003'):
        yield f'in {form} strict {P5}'
    for other in ('crc 00', 'verify 00 0000', 'sphread -', f'sphwrite {P5_SP} -', 'ack 1', 'simple 1 17 1', 'consts', 'track 0 -'):
        yield f'in c3 {other}'
    yield f'in c3 create {TM_SP} {PONG} - 1 1 - - -'
    yield f'in c5 reserve {P5_SP} {P5_SEC} 0 1 00 f -'
    yield f'in c3 reserve {P5_SP} {P5_SEC} 0 1 - x -'


# Rows of a list, one for each type that is named, and the edges of each.
ROWS = [(4001 * place + 7, *code) for place, code in
        enumerate([(ptc, pfc) for ptc in (3, 4) for pfc in model.INTEGERS] + [(5, 1), (5, 2)])]
WHOLE = ';'.join(map(row, ROWS))
SINGLES = ('00000000', '80000000', '3F800000', 'C0490FDB', '00000001', '807FFFFF', '007FFFFF', '00800000', '7F7FFFFF', '7F800000',
           'FF800000',
           '7F800001', 'FF800001', '7FBFFFFF', '7FC00000', 'FFC00000', '7FFFFFFF', 'FFFFFFFF', '7FA5A5A5')
DOUBLES = ('0000000000000000', '8000000000000000', '3FF0000000000000', '0000000000000001', '800FFFFFFFFFFFFF',
           '000FFFFFFFFFFFFF', '0010000000000000', '7FEFFFFFFFFFFFFF', '7FF0000000000000', 'FFF0000000000000', '7FF0000000000001', 'FFF0000000000001',
           '7FF7FFFFFFFFFFFF', '7FF8000000000000', 'FFF8000000000000', '7FFFFFFFFFFFFFFF', 'FFFFFFFFFFFFFFFF',
           '7FF5A5A5A5A5A5A5')


def patterns(number):
    """The edges of a type, as octets."""
    letter, size = model.kind_of(*next(row[1:] for row in ROWS if row[0] == number))
    if letter in 'fd':
        return SINGLES if letter == 'f' else DOUBLES
    half, top = 1 << 8 * size - 1, 1 << 8 * size
    edges = dict.fromkeys((0, 1, 127, 128, 255, half - 1, half, half + 1, top - 2, top - 1))
    return [f'{value:0{2 * size}X}' for value in edges]


def pair_octets(number, pattern):
    return f'{number:04X}{pattern}'


def params_requests(rng):
    yield from params_values()
    yield from params_early()
    yield from params_lists()
    yield from params_written()
    yield from (params_line(rng) for _ in range(200))
    yield from params_grammar()


def params_values():
    """Each type at its edges, read; and the same written."""
    yield from ('params - 00', f'params {WHOLE} 00', f'wparams {WHOLE} - 00', f'wparams {WHOLE} - -', 'wparams - - FFFF')
    for number, *_ in ROWS:
        for pattern in patterns(number):
            data = f'01{pair_octets(number, pattern)}'
            yield f'params {WHOLE} {data}'
            said = model.answer(f'params {WHOLE} {data}').split(' ')[2]
            yield f'wparams {WHOLE} {said} {"AA" * (len(data) // 2 + 1)}'
    for number, ptc, pfc in ROWS:                          # beside its width, and of every other kind
        letter, size = model.kind_of(ptc, pfc)
        half, top = 1 << 8 * size - 1, 1 << 8 * size
        values = {'u': (top - 1, top), 's': (half - 1, half, -half, -half - 1)}.get(letter, ())
        for value in values:
            if -2**63 <= value < 2**(64 if letter == 'u' else 63):
                yield f'wparams {WHOLE} {number}={letter}:{value} {zeros(16)}'
        for other in ('u:0', 's:0', 's:-1', 'f:3F800000', 'f:7FC00000', 'd:3FF0000000000000', 'd:7FF8000000000000'):
            yield f'wparams {WHOLE} {number}={other} {zeros(16)}'


def params_early():
    """Data that end at each octet, and that go on."""
    octet, _, _, _, _, eight, *_, single, _ = (number for number, *_ in ROWS)
    both = '02' + pair_octets(octet, 'A5') + pair_octets(single, '7FA5A5A5')
    for end in range(0, len(both) + 1, 2):
        yield f'params {WHOLE} {both[:end] or "-"}'
    yield from (f'params {WHOLE} {both}{more}' for more in ('00', '0007', 'FFFFFF'))
    for number, *_ in ROWS:
        data = '01' + pair_octets(number, patterns(number)[1])
        yield from (f'params {WHOLE} {data[:end]}' for end in range(2, len(data), 2))
    unknown, known = pair_octets(octet + 1, '00'), pair_octets(octet, '00')
    for data in ('01' + unknown, '01' + unknown[:4], '01' + unknown[:2], '02' + known + unknown, '02' + unknown + known,
                 '03' + known + unknown[:2], '02' + unknown, '02' + known, '02' + pair_octets(eight, '00'), '01' + unknown + '0000', '010000', '01FFFF',
                 '02' + pair_octets(octet, '01') + pair_octets(octet, '02'), '00' + unknown, '0000'):
        yield f'params {WHOLE} {data}'
    many = ''.join(pair_octets(octet, f'{count % 256:02X}') for count in range(256))
    for count in (254, 255):
        yield f'params {WHOLE} {count:02X}{many[:6 * count]}'
    yield f'params {WHOLE} FF{many}'
    yield f'params {WHOLE} FF{many[:6 * 254]}'


def params_lists():
    """Lists that do not rise, and types that are not named; before anything in the data or the pairs."""
    rows = ['5,3,4;5,3,4', '5,3,4;4,3,4', '4,3,4;5,3,4;5,3,12', '4,3,4;6,3,4;5,3,12', '0,3,4', '65535,3,4', '0,3,4;65535,4,16',
            '0,3,4;1,3,4;2,3,4', '2,3,4;1,3,4;0,3,4', '1,3,4;0,5,2', '-']
    for ptc, pfc in itertools.product((0, 1, 2, 3, 4, 5, 6, 255, 65535), (*range(18), 255, 65535)):
        yield f'params 1,{ptc},{pfc} 00'
    for listed in rows:
        for data in ('00', '-', '010005', '0100010203040506070809', '010000FF', '01FFFF8000000000000000'):
            yield f'params {listed} {data}'
        for made in ('-', '1=u:1', '9=u:1', '1=f:7FC00000', '0=u:1', '65535=s:-1'):
            yield f'wparams {listed} {made} 0000000000000000000000'


def params_written():
    """The order 21, 22, 24, 1, and buffers of each length."""
    wrong = '5,3,4;4,3,4'
    for listed, made in itertools.product((WHOLE, wrong), ('7=u:256', '8=u:0', '7=u:256;8=u:0', '8=u:0;7=u:256', '7=u:1', '7=u:1;4008=u:2',
                                                           '7=s:1;8=u:0', '7=u:1;7=u:2', '24013=s:-1;7=u:0', '-')):
        yield from (f'wparams {listed} {made} {zeros(size)}' for size in range(9))
    some = ';'.join(f'7=u:{count % 256}' for count in range(300))
    cut = some.split(';')
    for count in (254, 255, 256, 257, 300):
        for size in (764, 765, 766, 767, 1000):
            yield f'wparams {WHOLE} {";".join(cut[:count])} {zeros(size)}'
    yield f'wparams {WHOLE} {";".join(cut[:256])};8=u:0 {zeros(2)}'
    yield f'wparams {WHOLE} 8=u:0;{";".join(cut[:255])} {zeros(2)}'
    yield f'wparams {wrong} {";".join(cut[:256])} {zeros(2)}'


def wrong_pair(rng, numbers):
    number = rng.choice((rng.choice(numbers), rng.randrange(65536)))
    return f'{number}={rng.choice(("u:70000", "s:-200", "f:FFC00001"))}'


def params_line(rng):
    """A request by chance: read, now and then cut or with an octet changed; or its pairs written."""
    numbers = sorted(rng.sample(range(65536), rng.randint(1, 20)))
    rows = [(number, *rng.choice(ROWS)[1:]) for number in numbers]
    if rng.random() < 0.05:
        rng.shuffle(rows)
    listed, data = ';'.join(map(row, rows)), bytearray([0])
    for _ in range(rng.choice((0, 1, 2, 5, rng.randint(0, 40)))):
        number, ptc, pfc = rng.choice(rows)
        data += number.to_bytes(2, 'big') + rng.randbytes(model.kind_of(ptc, pfc)[1])
        data[0] += 1
    said = model.answer(f'params {listed} {text(data)}').split(' ')
    if rng.random() < 0.5 and said[0] == 'ok':
        made = [pair if rng.random() < 0.97 else wrong_pair(rng, numbers) for pair in said[2:]]
        return f'wparams {listed} {";".join(made) or "-"} {text(rng.randbytes(max(0, len(data) + rng.randint(-2, 3))))}'
    if rng.random() < 0.4:
        data = data[:rng.randrange(len(data) + 1)]
    if data and rng.random() < 0.3:
        data[rng.randrange(len(data))] = rng.randrange(256)
    return f'params {listed} {text(data)}'


def params_grammar():
    yield from ('params', 'params ', 'params -', 'params - ', 'params - - -', 'params  - -', 'params - 0', 'params - 0g', 'wparams',
                'wparams -', 'wparams - -', 'wparams - - - -', 'wparams - - 0', 'Params - 00', 'in a8 params - 00', 'in t7 wparams - - -')
    for listed in (';', '1', '1,3', '1,3,4,', '1,3,4,5', ',3,4', '1,,4', '1,3,', '65536,3,4', '1,65536,4', '1,3,65536', '-1,3,4', '1,3,4;',
                   ';1,3,4', '1,3,4;;2,3,4', '1.3.4', '01,03,04', '1,3,4;-', ';'.join(f'{count},3,4' for count in range(256)),
                   ';'.join(f'{count},3,4' for count in range(257))):
        yield f'params {listed} 00'
        yield f'wparams {listed} - 00'
    for made in (';', '7', '7=', '7=u', '7=u:', '7=u:x', '7=u:-1', '7=u:1:', '7=u:18446744073709551615', '7=u:18446744073709551616', '7=s:-',
                 '7=s:--1', '7=s:+1', '7=s:9223372036854775807', '7=s:9223372036854775808', '7=s:-9223372036854775808',
                 '7=s:-9223372036854775809', '7=s:-0', '7=f:', '7=f:0', '7=f:0000000', '7=f:000000000', '7=f:7fc00000', '7=f:-', '7=d:',
                 '7=d:00000000', '7=d:0000000000000000', '7=d:00000000000000000', '7=x:0', '65536=u:0', '=u:0', 'u:0', '7:u=0', '7=u:0;',
                 ';7=u:0', '7=u:0;;7=u:0', '-;7=u:0', '7=U:0', '07=u:00', '7=u:000000000000000000001', '7=u:00000000000000000001'):
        yield f'wparams {WHOLE} {made} {zeros(12)}'


# Each breaks one rule of the profile; `data` is empty data for service 17, and the first rule broken is the one that is told.
RULES = {'length': {'data': bytes(1012)}, 'segmented': {'sflags': 1}, 'apid': {'apid': 64}, 'service': {'service': 2},
         'acceptance': {'ack': 7}, 'data': {'service': 17, 'data': b'\1'}}


def profile_fields(*broken):
    """A command's fields within the profile but for these rules; the service's fault stands before that of its data."""
    fields = {'sflags': 3, 'apid': 63, 'scount': 5, 'ack': 9, 'service': 3, 'subtype': 1, 'source': 7, 'data': b''}
    for rule in reversed([rule for rule in RULES if rule in broken]):
        fields |= RULES[rule]
    return fields


def profile_packet(fields):
    sp = 0, 1, 1, fields['apid'], fields['sflags'], fields['scount'], 0
    return tc(fields['data'], sp, (2, fields['ack'], fields['service'], fields['subtype'], fields['source']))


def profile_setters(fields):
    """The builder's setters for these fields."""
    return (f'psc={fields["sflags"]},{fields["scount"]};apid={fields["apid"]};ack={fields["ack"]};service={fields["service"]};'
            f'subtype={fields["subtype"]};source={fields["source"]};data=1')


def profile_requests(rng):
    both = list(profile_edges(rng))
    yield from (f'profile {text(profile_packet(fields))}' for fields in both)
    yield from (f'pbuild {profile_setters(fields)} {text(fields["data"])} {text(rng.randbytes(15 + len(fields["data"])))}' for fields in both)
    yield from profile_verdicts(rng)
    yield from profile_builds(rng)
    yield from profile_grammar()


def profile_edges(rng):
    """Each rule at its edges and beyond them, then each choice of up to three rules that are broken."""
    good = profile_fields()
    for size in 0, 1, 2, 243, 1010, 1011, 1012, 1013, 1024, 1025:
        yield from (good | {'service': service, 'data': rng.randbytes(size)} for service in (20, 17))
    yield from (good | {'sflags': flags} for flags in range(4))
    yield from (good | {'apid': apid} for apid in (0, 1, 62, 63, 64, 65, 127, 128, 1023, 1024, 2046))
    yield from (good | {'service': service} for service in range(256))
    yield from (good | {'service': service, 'data': b'\0'} for service in (0, 1, 3, 5, 8, 16, 17, 18, 20))
    yield from (good | {'ack': ack} for ack in range(16))
    yield from (good | {'scount': count, 'subtype': subtype, 'source': source}
                for count, subtype, source in ((0, 0, 0), (16383, 255, 65535), (1, 128, 256)))
    for count in 2, 3:
        yield from (profile_fields(*broken) for broken in itertools.combinations(RULES, count))


def profile_verdicts(rng):
    within = profile_packet(profile_fields() | {'data': b'\1\2'})
    yield from (f'profile {text(octets)}' for octets in (b'', within[:-1], within + b'tail', within[:11], within[:10]))
    yield from (f'profile {octets}' for octets in (P5, P6))
    # The strict checks stand before each rule: an APID of 2,047 is idle, and more than 63.
    for broken, count in itertools.product([(), *((rule,) for rule in RULES)], (1, 2)):
        packet = profile_packet(profile_fields(*broken))
        yield from (f'profile {text(faulty(packet, chosen))}' for chosen in itertools.combinations([fault for fault in FAULTS if fault != "idle"], count))
        yield f'profile {text(profile_packet(profile_fields(*broken) | {"apid": 2047}))}'
    for spare in 1, 4:                                    # spare octets are data here
        yield f'profile {text(tc(b"", (0, 1, 1, 5, 3, 5, 0), (2, 8, 17, 1, 0), pus_c(spare)))}'
        yield f'profile {text(tc(b"", (0, 1, 1, 5, 3, 5, 0), (2, 8, 3, 1, 0), pus_c(spare)))}'
    yield f'profile {text(tm(telemetry(0)))}'
    for at in range(8 * len(within)):                     # each bit changed, and each run of two octets
        octets = bytearray(within)
        octets[at // 8] ^= 0x80 >> at % 8
        yield f'profile {text(octets)}'
    for at in range(len(within) - 1):
        octets = bytearray(within)
        octets[at] ^= rng.randint(1, 255)
        octets[at + 1] ^= rng.randint(0, 255)
        yield f'profile {text(octets)}'
    yield f'profile {text(tc((bytes(range(256)) * 256)[:65529]))}'


def profile_builds(rng):
    yield from (f'pbuild - - {zeros(13)}', f'pbuild mtid=17,1 - {zeros(13)}', f'pbuild mtid=17,1 AA {zeros(13)}',
                f'pbuild mtid=17,1;data=1 AA {zeros(14)}', f'pbuild mtid=17,1;data=1 - {zeros(13)}')
    setters = profile_setters(profile_fields())
    for data, room in itertools.product((b'', rng.randbytes(3)), (-13, -1, 0, 1, 20)):    # the room for it, and less and more
        yield f'pbuild {setters} {text(data)} {text(rng.randbytes(13 + len(data) + room))}'
    for broken in RULES:                                  # what is not built is not written, in whatever buffer
        fields = profile_fields(broken)
        yield f'pbuild {profile_setters(fields)} {text(fields["data"])} -'
    # A setter refuses what is handed in over its width, before all else; the last of a name stands.
    for setter in ('apid=2048', 'apid=65535', 'pid=1,1,2048', 'scount=16384', 'psc=3,16384', 'psc=0,16384', 'ack=16', 'ack=255'):
        yield from (f'pbuild {one} - {zeros(13)}' for one in (setter, f'{setters};{setter}', f'{setter};{setters}', f'psc=0,0;apid=64;{setter}'))
    for setter in ('apid=64', 'apid=2047', 'pid=0,0,63', 'pid=0,1,64', 'pid=1,1,0', 'scount=16383', 'psc=3,0', 'psc=2,16383', 'mtid=17,2',
                   'mtid=0,0', 'service=20', 'subtype=255', 'source=65535', 'ack=0', 'ack=7', 'ack=8', 'ack=15', 'apid=64;apid=63',
                   'psc=0,1;psc=3,2', 'psc=1,1;scount=2', 'ack=7;ack=8', 'mtid=2,2;service=1', 'service=17;data=1'):
        yield f'pbuild {setters};{setter} - {zeros(13)}'
    # 6 stands before the rules, and 25 up to it.
    most = (bytes(range(256)) * 256)[:65530]
    for size, setter in (65529, 'service=20'), (65530, 'psc=0,0;apid=64;ack=0;mtid=17,1'), (65530, 'apid=2048'):
        yield f'pbuild data=1;{setter} {text(most[:size])} -'


def profile_grammar():
    yield from ('profile', 'profile ', 'profile 0', 'profile - -', 'Profile -', 'profiles -', 'profile ab', 'in c0 profile -', 'in a8 profile -',
                'in t0 profile -', 'in profile -', 'pbuild', 'pbuild -', 'pbuild - -', 'pbuild - - - -', 'pbuild - 0 -', 'pbuild - - 0',
                'pbuild  - -', 'pbuild ack=16 0 -', 'in c0 pbuild - - -', 'in a16 pbuild - - -', 'pBuild - - -', 'pbuilds - - -')
    for setters in ('cksum=1', 'cksum=0', 'mtid=17,1;cksum=1', 'cksum', 'cksum=2', 'data=0', 'data=', 'data', 'data=01', 'pid=1,1', 'pid=2,1,1',
                    'psc=4,1', 'psc=3', 'mtid=1', 'mtid=256,1', 'upd', 'dlen=1', 'pvn=0', 'type=1', 'shf=1', 'sflags=3', 'version=2',
                    'source=65536', 'ack=256', 'apid=9999;ack=256', 'apid=65536', ';', 'apid=1;', 'apid=1;;ack=8', 'ack=+8', 'ack=008;mtid=03,1'):
        yield f'pbuild {setters} - {zeros(13)}'


def examples_requests(_):
    yield from ('crc -', 'crc 00', 'crc FFFF', 'crc ff', 'verify 1923C00500062F11010000616D 616D',
                'verify 1923C00500062F11010000616D 0000', 'verify 1923C00500062F11010000616C 0000', 'verify - ABCD', 'verify FF ABCD',
                'verify FFFF 12', 'sphread 1923C0050006', 'sphread FFFFFFFFFFFF00', 'sphread 1923C00500', 'sphread -',
                'sphwrite 0,1,1,291,3,5,6 0000000000000000', 'sphwrite 7,0,0,2047,0,16383,65535 AAAAAAAAAAAA',
                'sphwrite 0,1,1,291,3,5,6 0102', 'sphwrite 0,1,1,291,3,5,6 -', 'sphwrite 8,1,1,2048,3,5,6 0102', 'ack 9', 'ack 16',
                'ack 256', 'consts')


FILES = {'examples': examples_requests, 'crc': crc_requests, 'header': header_requests, 'write': write_requests,
         'limits': limits_requests, 'read': read_requests, 'strict': strict_requests, 'grammar': grammar_requests,
         'pus_a': pus_a_requests, 'telemetry': telemetry_requests, 'track': track_requests, 'best': best_requests,
         'spare': spare_requests, 'params': params_requests, 'profile': profile_requests, 'gaps': gaps_requests}


def main():
    if len(sys.argv) != 2:
        sys.exit(__doc__)
    folder = pathlib.Path(sys.argv[1])
    folder.mkdir(parents=True, exist_ok=True)
    for name, requests in FILES.items():
        lines = list(requests(random.Random(name)))
        for ending, content in ('requests', lines), ('answers', map(model.answer, lines)):
            (folder / f'{name}.{ending}').write_bytes(''.join(f'{line}\n' for line in content).encode('latin-1'))
        print(f'{name}: {len(lines)} requests')


if __name__ == '__main__':
    main()
