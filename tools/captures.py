#!/usr/bin/env python3
"""Make the captures that the gate runs the reports of tcverdict and tcgaps on, and what each must print of them.

    tools/captures.py

Writes crates/captures/data/*, args and stdout, and stdin and stdout of crates/tcverdict and crates/tcgaps. What is printed comes
from the model (model.py), never from the programs.
"""
import random
from pathlib import Path

import model

CRATES = Path(__file__).resolve().parent.parent / "crates"
P5 = bytes.fromhex("1923C00500062F11010000616D")
P6 = P5[:-1] + b"\x6c"


def packet(data=b"", first=0x19, octet_6=0x2F, service=17, subtype=1, apid=0x23, sequence=0xC005, source=0):
    """A packet with its length and its checksum, whatever its other bits."""
    head = bytes([first, apid]) + model.be16(sequence) + model.be16(11 + len(data) + 2 - 7)
    content = head + bytes([octet_6, service, subtype]) + model.be16(source) + data
    return content + model.be16(model.crc(content))


def printed(name, body, capture):
    """What a program prints of a capture, or of an input that cannot be read where it is None."""
    if capture is None:
        return [f"{name} 1", "cannot be read"]
    return [f"{name} 1", *(["too long"] if len(capture) > 65536 else body(capture))]


def verdicts(capture):
    """The lines of tcverdict behind its first."""
    lines = []
    for word in model.split(capture):
        at, _, rest = word.partition(":")
        if at == "end":
            lines.append(f"end {rest}")
            continue
        length, kind = rest.split(":")
        if kind == "accept":
            octets = capture[int(at):]
            kind = f"accept {octets[7]} {octets[8]}"
        elif kind != "tail":
            kind = f"refuse {kind}"
        lines.append(f"{at} {length} {kind}")
    return lines


def gaps(capture):
    """The lines of tcgaps behind its first: a list of 5,041 places has room for all."""
    answer, *words = map(str, model.gaps(5041, capture))
    many = 3 if answer == "ok" else 1
    rows = [word.replace(":", " ") for word in words[many:] if word != "-"]
    return rows + [" ".join(words[:many]).replace(":", " ") if answer == "ok" else answer.split(":")[1]]


REPORTS = {"tcverdict": verdicts, "tcgaps": gaps}


# A packet for each refusal of the strict verdict, by the name of what is wrong.
REFUSED = {
    "length_below_headers": bytes.fromhex("1923C005000300000000"),
    "no_room_for_checksum": bytes.fromhex("1923C00500042F11010000"),
    "checksum": P6,
    "packet_version_1": packet(first=0x39),
    "telemetry": packet(first=0x09),
    "no_secondary_header": packet(first=0x11),
    "version_1": packet(octet_6=0x1F),
    "idle_apid": packet(first=0x1F, apid=0xFF),
}


def captures():
    chance = random.Random(5)
    full = packet(bytes(chance.randrange(256) for _ in range(65536 - 13)))
    yield "empty", b""
    yield "one_short", P5[:-1]
    yield "five", P5[:5]
    yield "largest", full[:65536]
    yield "exactly", P5 * 5041 + P5[:3]
    yield "over", (P5 * 5042)[:65537]
    for name, refused in REFUSED.items():
        yield name, refused + P5 + refused
    yield "every_refusal", b"".join(refused + P5 for refused in REFUSED.values()) + b"".join(REFUSED.values()) + P5 * 2
    yield "two_faults", packet(first=0x29, octet_6=0x1F) + packet(first=0x01, octet_6=0x0F) + packet(
        first=0x1F, apid=0xFF, octet_6=0x1F
    )
    yield "last_apid", packet(first=0x1F, apid=0xFE)
    yield "every_subtype", b"".join(packet(service=255 - n, subtype=n) for n in range(256))
    yield "every_acknowledgement", b"".join(packet(octet_6=0x20 + n) for n in range(16))
    yield "sequence_control", b"".join(
        packet(sequence=flags * 16384 + count) for flags in range(4) for count in (0, 1, 255, 256, 16383)
    )
    yield "source_ids", b"".join(packet(source=source, service=source % 256) for source in range(0, 65536, 771))
    yield "many", b"".join(
        packet(bytes(chance.randrange(256) for _ in range(n % 23)), service=n % 256, subtype=n % 251) for n in range(400)
    )
    yield "random", bytes(chance.randrange(256) for _ in range(3000))
    yield "random_short_lengths", b"".join(
        bytes(chance.randrange(256) for _ in range(4)) + b"\x00" + bytes(chance.randrange(256) for _ in range(9))
        for _ in range(60)
    )


def both(capture):
    """What the two programs print of a capture, one after the other."""
    return [line for name, body in REPORTS.items() for line in printed(name, body, capture)]


# Pings with counts 5, 6, 8 and 9, one with a wrong checksum among them, and three octets more.
EXAMPLE = P5 + packet(sequence=0xC006) + P6 + packet(sequence=0xC008) + packet(sequence=0xC009) + P5[:3]


def uplinks():
    """Captures with counts that follow and that do not."""

    def commands(*made):
        return b"".join(packet(first=0x18 + apid // 256, apid=apid % 256, sequence=0xC000 + count) for apid, count in made)

    row = [(291, count) for count in range(5, 15)]
    yield "no_gap", commands(*row)
    yield "one_dropped", commands(*row[:4], *row[5:])
    yield "one_dropped_and_a_tail", commands(*row[:4], *row[5:]) + P5[:5]
    yield "wrap_around", commands(*((291, count % 16384) for count in range(16380, 16390)))
    yield "dropped_at_wrap_around", commands((291, 16382), (291, 0), (291, 1))
    yield "same_count_twice", commands((291, 5), (291, 5), (291, 6))
    yield "backwards", commands((291, 6), (291, 5), (291, 4))
    yield "two_apids", commands(*((apid, count) for count in range(5) for apid in (291, 2046)))
    yield "dropped_of_two_apids", commands((291, 0), (292, 9), (291, 1), (292, 11), (291, 3), (292, 12), (291, 4))
    yield "refused_between", commands((291, 5)) + b"".join(REFUSED.values()) + commands((291, 6)) + REFUSED["checksum"] + commands((291, 8))
    once = [(apid, 7) for apid in range(0, 66 * 31, 31)]
    yield "apids_64", commands(*once[:64], (0, 8), (31, 9))
    yield "apids_65", commands(*once[:65], (0, 9))
    yield "gap_before_apids_65", commands(*once[:3], (0, 9), *once[3:66], (31, 9))


def main():
    folder = CRATES / "captures/data"
    folder.mkdir(parents=True, exist_ok=True)
    for old in folder.iterdir():
        old.unlink()
    names, lines = [], []
    for name, capture in (*captures(), *uplinks()):
        names.append(name)
        (folder / name).write_bytes(capture)
        lines += [f"== {name}", *both(capture)]
    # A folder can be opened, and every read of it fails.
    names.append(".")
    lines += ["== .", *both(None)]
    names.append("missing")
    lines += ["== missing", "cannot be opened"]
    (CRATES / "captures/args").write_text("\n".join(names) + "\n")
    (CRATES / "captures/stdout").write_text("\n".join(lines) + "\n")
    for program, example in ("tcverdict", P5 + P6 + P5[:3]), ("tcgaps", EXAMPLE):
        (CRATES / program / "stdin").write_bytes(example)
        (CRATES / program / "stdout").write_text("\n".join(printed(program, REPORTS[program], example)) + "\n")


if __name__ == "__main__":
    main()
