// The checksum of "123456789", whole and in two parts: 29B1.
#include "checksum.h"

int printf(const char *, ...); // no header of a C library is wanted: the kit's compiler has none

int main(void) {
    const unsigned char *digits = (const unsigned char *)"123456789";
    unsigned short whole = crc_ccitt_false(digits, 9);
    unsigned short parts = crc_ccitt_false_from(crc_ccitt_false_from(0xFFFF, digits, 4), digits + 4, 5);
    printf("%04X\n", whole);
    return whole != parts;
}
