#!/usr/bin/env python3
"""A model of the packet layer's answers, written from its rules alone.

It speaks the protocol of docs/PROTOCOL.md, one request a line in and one answer a line out, and was written from the
layout, the table of refusals and the orders of refusals, without a look at the port or at the crate. The checksum is
Python's own, binascii.crc_hqx. Unlike the crate it also has an answer outside the domain of equality (a field over its
width, a version other than C, a total above 65,542 octets), to `strict`, `split`, `track`, `best`, `params`, `wparams`,
`profile`, `pbuild` and `gaps`, and to requests in PUS A, with spare octets and of telemetry. What is open it works out from all
calls so far, each time anew.

    tools/model.py <requests >answers
"""

import binascii
import sys

MACHINE = 2**64 - 1        # the largest machine size
LIMIT = 65542              # the largest total that a length field can state
TOPS = {1: 7, 2: 2047, 3: 16383, 4: 15}      # the largest in range, by the place that refusal 7 reports
SETTER_PLACES = {'pvn': 1, 'apid': 2, 'scount': 3, 'ack': 4, 'status': 4, 'source': 5}


class Refused(Exception):
    """A refusal: its number, then its values."""

    def __str__(self):
        return ':'.join(['err', *map(str, self.args)])


class BadRequest(Exception):
    """A line that is no request."""


# Refusals, and the records they are about.

def refuse_if(test, *number_and_values):
    if test:
        raise Refused(*number_and_values)


def in_range(place, value, tops=TOPS):
    """7: FieldRange place, value."""
    refuse_if(value > tops[place], 7, place, value)
    return value


def outcome(call, *arguments):
    """The answer of a call as a word: what it gives, or its refusal."""
    try:
        return str(call(*arguments))
    except Refused as refusal:
        return str(refusal)


def crc(octets):
    return binascii.crc_hqx(octets, 0xFFFF)


def crc_text(octets):
    return f'{crc(octets):04X}'


def be16(number):
    return number.to_bytes(2, 'big')


class Sp:
    """The primary header."""

    NAMES = ('pvn', 'type', 'shf', 'apid', 'sflags', 'scount', 'dlen')

    def __init__(self, *fields):
        self.__dict__.update(zip(self.NAMES, fields))

    def __str__(self):
        return ','.join(str(getattr(self, name)) for name in self.NAMES)

    def id_raw(self):
        return self.type << 12 | self.shf << 11 | self.apid

    def psc_raw(self):
        return self.sflags << 14 | self.scount

    def octets(self):
        return be16(self.pvn << 13 | self.id_raw()) + be16(self.psc_raw()) + be16(self.dlen)

    def check(self):
        in_range(1, self.pvn)
        in_range(2, self.apid)
        in_range(3, self.scount)

    @classmethod
    def read(cls, octets):
        """The fields of six octets."""
        first, second, length = (int.from_bytes(octets[at:at + 2], 'big') for at in (0, 2, 4))
        return cls(first >> 13, first >> 12 & 1, first >> 11 & 1, first & 2047, second >> 14, second & 16383, length)


class Sec:
    """The secondary header of a telecommand. Its last field, of as many octets as the form says, is the source ID; spare
    octets may end it."""

    NAMES = ('version', 'ack', 'service', 'subtype', 'source')
    LAST_AT, TYPE, OTHER_TYPE = 9, 1, 10

    def __init__(self, *fields):
        self.__dict__.update(zip(self.NAMES, fields))

    __str__ = Sp.__str__

    def words(self):
        return [self]

    def fits(self, form):
        return True

    def octets(self, form):
        first = bytes([self.version << 4 | self.ack, self.service, self.subtype])
        return first + self.source.to_bytes(form.last_octets, 'big') + bytes(form.spare)

    def check(self, form):
        """7. Place 5 can be over its width in PUS A alone."""
        in_range(4, self.ack)
        in_range(5, self.source, form.tops)

    @classmethod
    def read(cls, octets, form):
        """The fields from octet 6 of a packet; the version is always reported as the form's. No source octets are 0, and
        spare octets say nothing."""
        return cls(form.version, octets[6] & 15, octets[7], octets[8], int.from_bytes(octets[9:form.spare_at], 'big'))


class Tm:
    """The secondary header of telemetry. Its last field, of as many octets as the form says, is the time."""

    NAMES = ('version', 'status', 'service', 'subtype', 'counter', 'dest')
    LAST_AT, TYPE, OTHER_TYPE = 13, 0, 13

    __init__, __str__ = Sp.__init__, Sp.__str__

    def at(self, time):
        """The same fields with this time."""
        self.time = time
        return self

    def words(self):
        return [self, text(self.time)]

    def fits(self, form):
        return len(self.time) == form.last_octets

    def octets(self, _):
        first = bytes([self.version << 4 | self.status, self.service, self.subtype])
        return first + be16(self.counter) + be16(self.dest) + self.time

    def check(self, _):
        in_range(4, self.status)

    @classmethod
    def read(cls, octets, form):
        """The fields from octet 6 of a packet; the version is always reported as the form's."""
        counter, dest = (int.from_bytes(octets[at:at + 2], 'big') for at in (9, 11))
        return cls(form.version, octets[6] & 15, octets[7], octets[8], counter, dest).at(octets[13:form.start])


class Form:
    """A form of packet: the record of its secondary header, its PUS version, and how many octets the record's last field
    has and how many are spare after it, which the mission fixes. The data start after these. `bad` is the refusal of a
    number that makes no form."""

    def __init__(self, record, version, last_octets, spare, good, bad):
        self.record, self.version, self.last_octets, self.spare = record, version, last_octets, spare
        self.good, self.bad = good, bad
        self.spare_at = record.LAST_AT + last_octets
        self.start = self.spare_at + spare
        self.tops = TOPS | {5: 256**last_octets - 1}

    def check(self, sec=None):
        """32: SourceWidth, 19: SpareLength, or 14: TimeLength, which a time of another length than the form's is too. Before
        all others."""
        refuse_if(not self.good or sec and not sec.fits(self), self.bad)


def pus_c(spare):
    """The form with this many spare octets."""
    return Form(Sec, 2, 2, spare, spare <= 4, 19)


PUS_C = pus_c(0)


def pus_a(width):
    """The form with a source ID of this many bits."""
    return Form(Sec, 1, width // 8, 0, width in (0, 8, 16), 32)


def telemetry(length):
    """The form with a time field of this many octets."""
    return Form(Tm, 2, length, 0, length <= 16, 14)


# Writing.

def check_fields(form, sp, sec):
    """32, 19 or 14, then 7 in the order of the places."""
    form.check(sec)
    sp.check()
    sec.check(form)


class Creator:
    """A packet to write. Construction: 32, 19 or 14, 7, 6."""

    def __init__(self, sp, sec, set_length, has_checksum, data, form=PUS_C):
        self.sp, self.sec, self.has_checksum, self.data, self.form = sp, sec, has_checksum, data, form
        self.check()
        sp.type, sp.shf = form.record.TYPE, 1
        if set_length:
            self.update_length()

    def check(self):
        check_fields(self.form, self.sp, self.sec)

    def total(self):
        return self.form.start + len(self.data) + 2 * self.has_checksum

    def update_length(self):
        """7, 6."""
        self.check()
        refuse_if(self.total() > LIMIT, 6, len(self.data))
        self.sp.dlen = self.total() - 7

    def version_check(self):
        refuse_if(self.sec.version != self.form.version, 3, self.sec.version)

    def body(self):
        return self.sp.octets() + self.sec.octets(self.form) + self.data

    def own_checksum(self):
        """7, 3."""
        self.check()
        self.version_check()
        return crc_text(self.body())

    def write(self, buffer, checksum_wanted):
        """7, 1, 3. The number of octets and the buffer after."""
        self.check()
        refuse_if(len(buffer) < self.total(), 1, len(buffer), self.total())
        self.version_check()
        packet = self.body()
        if self.has_checksum and checksum_wanted:
            packet += be16(crc(packet))
        return len(packet), packet + buffer[len(packet):]

    def edit(self, name, *values):
        """A setter: 7, for what is handed in only. Any PUS version is taken: it has no width, and writes judge it."""
        if name == 'upd':
            return self.update_length()
        if name in SETTER_PLACES:
            in_range(SETTER_PLACES[name], *values, self.form.tops)
        setattr(self.sp if name in Sp.NAMES else self.sec, name, *values)

    def answer(self, buffer, writes=(True, True, False)):
        """The record, then each of the writes, with the checksum wanted or not, on its own copy of the buffer."""
        words = ['made', self.sp, self.sec, self.has_checksum, self.total(), outcome(self.own_checksum)]
        for checksum_wanted in writes:
            words += written(self.write, buffer, checksum_wanted)
        return words


def written(write, buffer, *rest):
    """The outcome of a write and the buffer after it; a refusal alters no octet."""
    try:
        count, after = write(buffer, *rest)
        return [f'ok:{count}', text(after)]
    except Refused as refusal:
        return [refusal, text(buffer)]


def sp_write(buffer, sp):
    """7, 1."""
    sp.check()
    refuse_if(len(buffer) < 6, 1, len(buffer), 6)
    return 6, sp.octets() + buffer[6:]


def new_builder(form):
    return Sp(0, 1, 1, 0, 3, 0, 0), Sec(form.version, 8 + 1, 0, 0, 0)     # acceptance and completion


def build(setters, data, form):
    """The builder: 32 or 19; each setter refuses what is handed in, 7; then construction, with the length set."""
    form.check()
    sp, sec = new_builder(form)
    has_checksum, used = 1, b''
    for name, values in setters:
        if name in ('pid', 'apid'):
            sp.apid = in_range(2, values[-1])             # type and flag are construction's
        elif name in ('psc', 'scount'):
            sp.scount = in_range(3, values[-1])
            sp.sflags = values[0] if name == 'psc' else sp.sflags
        elif name == 'ack':
            sec.ack = in_range(4, *values)
        elif name == 'source':
            sec.source = in_range(5, *values, form.tops)
        elif name == 'mtid':
            sec.service, sec.subtype = values
        elif name == 'cksum':
            has_checksum, = values
        elif name == 'data':
            used = data
        else:
            setattr(sec, name, *values)
    return Creator(sp, sec, 1, has_checksum, used, form)


def reserve(sp, sec, data_len, has_checksum, fill, finish, buffer, form):
    """19 or 14, 7, 6 for the machine size, 1, 6 for the packet limit, 3; then the data part filled, then the finish."""
    start = form.start
    total = start + data_len + 2 * has_checksum
    try:
        check_fields(form, sp, sec)
        refuse_if(total > MACHINE, 6, data_len)
        refuse_if(len(buffer) < total, 1, len(buffer), total)
        refuse_if(total > LIMIT, 6, data_len)
        refuse_if(sec.version != form.version, 3, sec.version)
    except Refused as refusal:
        return [refusal, text(buffer)]
    sp.type, sp.shf, sp.dlen = form.record.TYPE, 1, total - 7
    first = sp.octets() + sec.octets(form) + buffer[start:]
    filled = first[:start] + fill + first[start + len(fill):]
    end = start + data_len
    if finish == 'c':
        count, last = end, filled
    else:
        stored = be16(crc(filled[:end])) if has_checksum else b''
        count, last = total, filled[:end] + stored + filled[total:]
    return ['ok', text(first), total, data_len, start, data_len, f'ok:{count}', text(last)]


# Reading.

def verified(octets, stored):
    """2 for fewer octets than a checksum has; 4 with the stored checksum and that of all but the last two octets."""
    refuse_if(len(octets) < 2, 2, len(octets), 2)
    refuse_if(crc(octets) != 0, 4, stored, crc_text(octets[:-2]))
    return 'ok'


class Reader:
    """A packet read. `checksum` is none, taken or compared."""

    def __init__(self, octets, checksum, form=PUS_C):
        form.check()
        self.start = form.start
        refuse_if(len(octets) < self.start, 2, len(octets), self.start)
        self.sp, self.sec = Sp.read(octets), form.record.read(octets, form)
        self.total = self.sp.dlen + 7
        refuse_if(len(octets) < self.total, 2, len(octets), self.total)
        refuse_if(self.total < self.start, 2, self.total, self.start)
        self.raw, self.stored, self.end = octets[:self.total], '-', self.total
        if checksum != 'none':
            self.end = self.total - 2
            refuse_if(self.end < self.start, 2, self.end, self.start)
            self.stored = text(self.raw[self.end:])
        if checksum == 'compared':
            verified(self.raw, self.stored)
        self.data = self.raw[self.start:self.end]

    def place(self):
        return [self.total, self.start, len(self.data)]

    def equals_creator(self, creator):
        return str(self.sp) == str(creator.sp) and str(self.sec) == str(creator.sec) and self.data == creator.data


WAYS = {'new': 'compared', 'nt': 'compared', 'noverify': 'taken', 'nocrc': 'none'}


def strict(octets, form=PUS_C):
    """All reader checks with the checksum, then 9, 10 or 13, 11, 3, 12, 20. The whole nibble counts: PUS A refuses 9 too."""
    reader = Reader(octets, 'compared', form)
    refuse_if(reader.sp.pvn != 0, 9, reader.sp.pvn)
    refuse_if(reader.sp.type != form.record.TYPE, form.record.OTHER_TYPE)
    refuse_if(reader.sp.shf == 0, 11)
    refuse_if(octets[6] >> 4 != form.version, 3, octets[6] >> 4)
    refuse_if(reader.sp.apid == 0b11111111111, 12)        # idle packets: no commands, no reports
    refuse_if(any(octets[form.spare_at:form.start]), 20)
    return reader


def verdict(octets, form):
    """`accept`, or the number of the refusal."""
    try:
        strict(octets, form)
        return 'accept'
    except Refused as refusal:
        return refusal.args[0]


def split(octets, form=PUS_C):
    form.check()
    at, words = 0, []
    while len(octets) - at >= 6:
        total = Sp.read(octets[at:at + 6]).dlen + 7
        if len(octets) - at < total:
            break
        words.append(f'{at}:{total}:{verdict(octets[at:at + total], form)}')
        at += total
    if at < len(octets):
        words.append(f'{at}:{len(octets) - at}:tail')
    return words + [f'end:{len(octets)}']


# Open commands.

KINDS = {8: 1, 4: 3, 2: 5, 1: 7}        # the acknowledgement bits, and the success that each asks for; its failure is one more
ENDS = {2, 4, 7, 8}                     # completion, and a failure of acceptance or start


def report(octets, time_len):
    """The request and the subtype of a report. 15: not a strictly accepted report of its shape."""
    try:
        reader = strict(octets, telemetry(time_len))
    except Refused:
        raise Refused(15)
    subtype = reader.sec.subtype
    size = 4 + (subtype in (5, 6)) + 2 * (subtype % 2 == 0)
    refuse_if(reader.sec.service != 1 or not 1 <= subtype <= 8 or len(reader.data) != size, 15)
    return reader.data[:4], subtype


class History:
    """The commands that were taken and the reports that came, in order. There is no list of what is open."""

    def __init__(self, time_len):
        self.time_len, self.calls = time_len, []

    def closed(self, at):
        """Whether the calls since have closed the command that was sent at this place."""
        _, request, asked = self.calls[at]
        came = {number for call, other, number in self.calls[at + 1:] if call == 'r' and other == request}
        awaited = [success for bit, success in KINDS.items() if asked & bit]
        return bool(came & ENDS) or 7 not in awaited and all(came & {success, success + 1} for success in awaited)

    def open(self):
        """The requests that are open, in the order of sending."""
        return [request for at, (call, request, asked) in enumerate(self.calls)
                if call == 's' and asked and not self.closed(at)]

    def send(self, octets):
        """The strict verdict's refusals; 17, 18, unless nothing is asked for."""
        asked, request = strict(octets).sec.ack, octets[:4]
        refuse_if(asked and request in self.open(), 17)
        refuse_if(asked and len(self.open()) == 32, 18)
        self.calls.append(('s', request, asked))
        return 'ok'

    def report(self, octets):
        """15, 16. A report on a command that is not open has come all the same."""
        request, subtype = report(octets, self.time_len)
        was_open = request in self.open()
        self.calls.append(('r', request, subtype))
        refuse_if(not was_open, 16)
        return 'ok'

    def is_open(self, request):
        return int(request in self.open())


def track(time_len, calls):
    history = History(time_len)
    answers = {'s': history.send, 'r': history.report, 'o': history.is_open}
    words = [outcome(answers[letter], octets) for letter, octets in calls]
    return words + ['open:' + (','.join(map(text, history.open())) or '-')]


# Two captures of one telemetry packet.

def best(time_len, *captures):
    """The first capture that the strict verdict accepts, and its packet; where there is none, each refusal."""
    refusals = []
    for station, octets in zip(('first', 'second'), captures):
        try:
            return [station, text(strict(octets, telemetry(time_len)).raw)]
        except Refused as refusal:
            refusals.append(refusal)
    return ['neither', *refusals, '-']


# Parameter values, and the set request of service 20, subtype 3.

INTEGERS = {4: 1, 12: 2, 13: 3, 14: 4, 15: 6, 16: 8}      # the octets of an integer by its PFC
REALS = {1: ('f', 4), 2: ('d', 8)}                        # the letter and the octets of a real
MOST_PAIRS = 255


def kind_of(ptc, pfc):
    """The letter of a type's values and their octets; none for a type that is not named."""
    if ptc == 5:
        return REALS.get(pfc)
    if ptc in (3, 4) and pfc in INTEGERS:
        return 'us'[ptc - 3], INTEGERS[pfc]
    return None


def checked_list(rows):
    """21: not strictly rising, or a type that is not named."""
    rising = all(a[0] < b[0] for a, b in zip(rows, rows[1:]))
    types = {row[0]: kind_of(*row[1:]) for row in rows}
    refuse_if(not rising or None in types.values(), 21)
    return types


def engineering(letter, octets):
    if letter in 'us':
        return int.from_bytes(octets, 'big', signed=letter == 's')
    return text(octets)


def params(rows, data):
    types = checked_list(rows)

    def up_to_octet(end):
        refuse_if(len(data) < end, 2, len(data), end)
        return end

    at, words = up_to_octet(1), []
    for _ in range(data[0]):
        start = up_to_octet(at + 2)
        number = int.from_bytes(data[at:start], 'big')
        refuse_if(number not in types, 22)
        letter, size = types[number]
        at = up_to_octet(start + size)
        words.append(f'{number}={letter}:{engineering(letter, data[start:at])}')
    refuse_if(at < len(data), 23)
    return ['ok', len(words), *words]


def value_octets(kind, letter, value):
    """24: a value of another kind, or over its width."""
    refuse_if(kind[0] != letter, 24)
    if letter in 'fd':
        return value
    try:
        return value.to_bytes(kind[1], 'big', signed=letter == 's')
    except OverflowError:
        raise Refused(24) from None


def set_request(rows, pairs_set):
    """The application data. A record holds the first 255 pairs, and how many there were."""
    types, held = checked_list(rows), pairs_set[:MOST_PAIRS]
    refuse_if(any(number not in types for number, _, _ in held), 22)
    refuse_if(len(pairs_set) > MOST_PAIRS, 24)
    written = [number.to_bytes(2, 'big') + value_octets(types[number], letter, value) for number, letter, value in held]
    return b''.join([bytes([len(held)]), *written])


def wparams(rows, pairs_set, buffer):
    try:
        octets = set_request(rows, pairs_set)
        refuse_if(len(buffer) < len(octets), 1, len(buffer), len(octets))
    except Refused as refusal:
        return [refusal, text(buffer)]
    return [f'ok:{len(octets)}', text(octets + buffer[len(octets):])]


# The small-satellite profile.

SERVICES = 1, 3, 5, 8, 17, 20


def in_profile(sp, sec, data):
    """25 to 30, in the order of the rules."""
    refuse_if(PUS_C.start + len(data) + 2 > 1024, 25)
    refuse_if(sp.sflags != 3, 26)
    refuse_if(sp.apid >= 64, 27)
    refuse_if(sec.service not in SERVICES, 28)
    refuse_if(not sec.ack & 8, 29)
    refuse_if(sec.service == 17 and len(data) > 0, 30)


def profile(octets):
    """The strict verdict, then the profile's rules."""
    reader = strict(octets)
    in_profile(reader.sp, reader.sec, reader.data)
    return reader


def profile_build(setters, data):
    """The builder's 7 and 6, then the profile's rules."""
    creator = build(setters, data, PUS_C)
    in_profile(creator.sp, creator.sec, creator.data)
    return creator


# Gaps in a recorded uplink.

def gaps(places, octets):
    """31 at the first accepted command of a 65th APID; 1 at a gap that the list has no place for. What was listed stands."""
    totals, lasts, rows = {'accepted': 0, 'refused': 0, 'tail': 0}, {}, []
    try:
        for at, size, kind in (word.split(':') for word in split(octets)[:-1]):
            if kind == 'accept':
                sp = Sp.read(octets[int(at):int(at) + 6])
                refuse_if(sp.apid not in lasts and len(lasts) == 64, 31)
                expected = (lasts.get(sp.apid, sp.scount - 1) + 1) % 16384        # the first starts its APID
                if sp.scount != expected:
                    refuse_if(len(rows) == places, 1, places, places + 1)
                    rows.append(f'{sp.apid}:{expected}:{sp.scount}')
                lasts[sp.apid] = sp.scount
            totals[{'accept': 'accepted', 'tail': 'tail'}.get(kind, 'refused')] += int(size)
    except Refused as refusal:
        return [refusal, '-', *(rows or '-')]
    return ['ok', *(f'{name}:{count}' for name, count in totals.items()), *(rows or '-')]


# The words of the protocol.

def text(octets):
    return octets.hex().upper() or '-'


def octets_of(word):
    if word == '-':
        return b''
    if not word or len(word) % 2 or not set(word) <= set('0123456789ABCDEF'):
        raise BadRequest
    return bytes.fromhex(word)


def checksum_of(word):
    if word == '-' or len(word) != 4:
        raise BadRequest
    return octets_of(word)


def up_to(top):
    """A number in 1 to 20 digits."""
    def read(word):
        if not 1 <= len(word) <= 20 or not set(word) <= set('0123456789') or int(word) > top:
            raise BadRequest
        return int(word)
    return read


def one_of(*words):
    def read(word):
        if word not in words:
            raise BadRequest
        return word
    return read


def digit_of(*digits):
    """A number in one digit, one of these."""
    return lambda word: int(one_of(*digits)(word))


def row_of(*readers):
    def read(word):
        return [read_one(one) for read_one, one in pairs(readers, word.split(','))]
    return read


def pairs(readers, words):
    if len(readers) != len(words):
        raise BadRequest
    return zip(readers, words)


def list_of(grammar):
    """A list of `name=values` with `;` between; `-` for none. A name without a reader of values stands alone."""
    def read(word):
        items = []
        for item in [] if word == '-' else word.split(';'):
            name, equals, values = item.partition('=')
            if name not in grammar or bool(equals) != bool(grammar[name]):
                raise BadRequest
            items.append((name, grammar[name](values) if equals else []))
        return items
    return read


def CALLS(word):
    """Calls with `;` between, each a letter, `:` and octets, of a request ID four; `-` for none."""
    calls = []
    for item in [] if word == '-' else word.split(';'):
        letter, colon, octets = item.partition(':')
        if letter not in ('s', 'r', 'o') or not colon or letter == 'o' and len(octets) != 8:
            raise BadRequest
        calls.append((letter, octets_of(octets)))
    return calls


def LIST(word):
    """Rows `ID,PTC,PFC` with `;` between, at most 256 of them; `-` for none."""
    rows = [row_of(U16, U16, U16)(item) for item in ([] if word == '-' else word.split(';'))]
    if len(rows) > 256:
        raise BadRequest
    return rows


def signed(word):
    """A number with its sign, of 64 bits."""
    size = up_to(2**63)(word.removeprefix('-'))
    value = -size if word.startswith('-') else size
    if value == 2**63:
        raise BadRequest
    return value


def pattern(size):
    def read(word):
        octets = octets_of(word)
        if len(octets) != size:
            raise BadRequest
        return octets
    return read


def PAIRS(word):
    """`ID=u:N`, `ID=s:N`, `ID=f:` and eight digits, `ID=d:` and sixteen, with `;` between; `-` for none."""
    values = {'u': U64, 's': signed, 'f': pattern(4), 'd': pattern(8)}
    made = []
    for item in [] if word == '-' else word.split(';'):
        number, equals, said = item.partition('=')
        letter, colon, value = said.partition(':')
        if not equals or not colon or letter not in values:
            raise BadRequest
        made.append((U16(number), letter, values[letter](value)))
    return made


U8, U16, U64 = up_to(255), up_to(65535), up_to(MACHINE)
FLAG, SEQFLAGS, VERSION = digit_of('0', '1'), digit_of('0', '1', '2', '3'), digit_of('0', '1', '2')
SP_ROW, SEC_ROW = (U8, FLAG, FLAG, U16, SEQFLAGS, U16, U16), (VERSION, U8, U8, U8, U16)
TM_ROW = (VERSION, U8, U8, U8, U16, U16)
DATA, CCCC, MODE, FIN = octets_of, checksum_of, one_of(*WAYS), one_of('f', 'n', 'c')
PROFILE_ITEMS = {
    'pid': row_of(FLAG, FLAG, U16), 'psc': row_of(SEQFLAGS, U16), 'scount': row_of(U16), 'mtid': row_of(U8, U8),
    'service': row_of(U8), 'subtype': row_of(U8), 'source': row_of(U16), 'ack': row_of(U8), 'apid': row_of(U16),
    'data': row_of(one_of('1'))}
PROFILE_SETTERS = list_of(PROFILE_ITEMS)                  # its checksum cannot be switched off
SETTERS = list_of(PROFILE_ITEMS | {'cksum': row_of(FLAG)})


def SP(word):
    return Sp(*row_of(*SP_ROW)(word))


def SEC(word):
    return Sec(*row_of(*SEC_ROW)(word))


def TM(word):
    return Tm(*row_of(*TM_ROW)(word))


def edits_of(names, readers):
    """EDITS of a creator whose secondary header has these fields."""
    fields = [*zip(Sp.NAMES, SP_ROW), *zip(names, readers)]
    return list_of({'upd': None} | {name: row_of(read) for name, read in fields})


EDITS, TM_EDITS = edits_of(Sec.NAMES, SEC_ROW), edits_of(Tm.NAMES, TM_ROW)


# The requests: each gives its words.

def edited(sp, sec, set_length, has_checksum, data, edits, form=PUS_C):
    creator = Creator(sp, sec, set_length, has_checksum, data, form)
    for name, values in edits:
        creator.edit(name, *values)
    return creator


def do_crc(octets):
    return [crc_text(octets)] * 3


def do_verify(octets, stored):
    return [int(crc(octets) == 0)] * 2 + [outcome(verified, octets, text(stored))] * 2


def do_sphread(octets):
    refuse_if(len(octets) < 6, 2, len(octets), 6)
    sp = Sp.read(octets)
    return ['ok', sp, sp.dlen + 7, len(octets) - 6, sp.id_raw(), sp.psc_raw()]


def do_sphwrite(sp, buffer):
    return written(sp_write, buffer, sp)


def do_read(mode, octets, form=PUS_C):
    reader = Reader(octets, WAYS[mode], form)
    return ['ok', reader.sp, *reader.sec.words(), *reader.place(), reader.stored]


def do_create(sp, sec, set_length, has_checksum, data, edits, buffer, form=PUS_C):
    return edited(sp, sec, set_length, has_checksum, data, edits, form).answer(buffer)


def do_build(setters, data, buffer, form=PUS_C):
    return build(setters, data, form).answer(buffer)


def do_reserve(sp, sec, data_len, has_checksum, fill, finish, buffer, form=PUS_C):
    if len(fill) > data_len:
        raise BadRequest
    return reserve(sp, sec, data_len, has_checksum, fill, finish, buffer, form)


def timed(do):
    """A request whose header has its time in the next field."""
    return lambda sp, tm, time, *fields: do(sp, tm.at(time), *fields)


def do_cmprc(mode, octets, sp, sec, set_length, has_checksum, data, edits, form=PUS_C):
    reader = Reader(octets, WAYS[mode], form)
    creator = edited(sp, sec, set_length, has_checksum, data, edits, form)
    return [int(reader.equals_creator(creator))] * 2


def do_cmprr(mode, octets, other_mode, other_octets, form=PUS_C):
    form.check()
    reads, words = [], []
    for way, packet in (mode, octets), (other_mode, other_octets):
        try:
            reads.append(Reader(packet, WAYS[way], form))
            words.append('ok')
        except Refused as refusal:
            words.append(refusal)
    if len(reads) < 2:
        return words
    return [int(reads[0].raw == reads[1].raw)] * 2


def do_simple(apid, service, subtype):
    sp = Sp(0, 0, 0, in_range(2, apid), 3, 0, 0)
    first = str(sp)
    return [first, *Creator(sp, Sec(2, 15, service, subtype, 0), 1, 1, b'').answer(bytes(13))]


def do_ack(number):
    in_range(4, number)
    return [number >> bit & 1 for bit in (3, 2, 1, 0)]


def do_consts():
    return ['ALL=15 HEADER_LEN=5 LENGTH=6 MIN=11 DEFAULT=0 MAX_APID=2047 MAX_SEQ_COUNT=16383']


def accepted(reader):
    return ['accept', reader.sp, *reader.sec.words(), *reader.place()]


def do_strict(octets, form=PUS_C):
    return accepted(strict(octets, form))


def do_profile(octets):
    return accepted(profile(octets))


def do_pbuild(setters, data, buffer):
    """The profile's command has one write, with the checksum."""
    return profile_build(setters, data).answer(buffer, (True,))


CREATION = [SP, SEC, FLAG, FLAG, DATA, EDITS]
REQUESTS = {
    'crc': (do_crc, [DATA]),
    'verify': (do_verify, [DATA, CCCC]),
    'sphread': (do_sphread, [DATA]),
    'sphwrite': (do_sphwrite, [SP, DATA]),
    'read': (do_read, [MODE, DATA]),
    'create': (do_create, [*CREATION, DATA]),
    'build': (do_build, [SETTERS, DATA, DATA]),
    'reserve': (do_reserve, [SP, SEC, U64, FLAG, DATA, FIN, DATA]),
    'cmprc': (do_cmprc, [MODE, DATA, *CREATION]),
    'cmprr': (do_cmprr, [MODE, DATA, MODE, DATA]),
    'simple': (do_simple, [U16, U8, U8]),
    'ack': (do_ack, [U8]),
    'consts': (do_consts, []),
    'strict': (do_strict, [DATA]),
    'split': (split, [DATA]),
    'track': (track, [U8, CALLS]),
    'best': (best, [U8, DATA, DATA]),
    'params': (params, [LIST, DATA]),
    'wparams': (wparams, [LIST, PAIRS, DATA]),
    'profile': (do_profile, [DATA]),
    'pbuild': (do_pbuild, [PROFILE_SETTERS, DATA, DATA]),
    'gaps': (gaps, [U16, DATA]),
}
IN_PUS_A = {kind: REQUESTS[kind] for kind in ('read', 'create', 'build', 'strict')}
IN_PUS_C = IN_PUS_A | {kind: REQUESTS[kind] for kind in ('reserve', 'split', 'cmprc', 'cmprr')}
IN_TELEMETRY = {
    'read': REQUESTS['read'],
    'create': (timed(do_create), [SP, TM, DATA, FLAG, FLAG, DATA, TM_EDITS, DATA]),
    'reserve': (timed(do_reserve), [SP, TM, DATA, U64, FLAG, DATA, FIN, DATA]),
    'strict': REQUESTS['strict'],
}
# the form of a number, and what may come after it
FORMS = {'a': (pus_a, IN_PUS_A), 'c': (pus_c, IN_PUS_C), 't': (telemetry, IN_TELEMETRY)}


def FORM(word):
    """A letter and any u8, since a number that makes no form is refused only where the whole line is good."""
    if word[:1] not in FORMS:
        raise BadRequest
    form_of, known = FORMS[word[:1]]
    return form_of(U8(word[1:])), known


def parsed(line):
    """What a line asks for: the call, its kind, and its fields, each by its grammar, with the form last that `in` names."""
    form, known = [], REQUESTS
    kind, *words = line.split(' ')
    if kind == 'in' and len(words) > 1:
        named, known = FORM(words[0])
        form, (kind, *words) = [named], words[1:]
    if kind not in known:
        raise BadRequest
    do, grammar = known[kind]
    return do, kind, [read(word) for read, word in pairs(grammar, words)] + form


def answer(line):
    """The answer to one request, both without the end of line."""
    try:
        do, _, fields = parsed(line)
        return ' '.join(map(str, do(*fields)))
    except Refused as refusal:
        return str(refusal)
    except BadRequest:
        return 'bad-request'


def main():
    for line in sys.stdin.buffer:
        print(answer(line.removesuffix(b'\n').decode('latin-1')))


if __name__ == '__main__':
    main()
