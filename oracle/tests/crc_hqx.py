"""Makes crc_hqx.txt, by Python's own checksum: python3 crc_hqx.py > crc_hqx.txt

A line is a length and the checksum of the message of that length; the message is
made from its length alone, as in checksum.rs."""

import binascii


def message(length):
    state = length + 1
    octets = bytearray()
    for _ in range(length):
        state = (state * 1103515245 + 12345) % 2**31
        octets.append(state >> 16 & 0xFF)
    return bytes(octets)


for length in [*range(301), 4096, 65535, 65536, 65542]:
    print(length, "%04X" % binascii.crc_hqx(message(length), 0xFFFF))
