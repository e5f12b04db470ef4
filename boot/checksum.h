/* The packet error control of ECSS-E-ST-70-41C, annex B, for a boot image: generator x^16 + x^12 + x^5 + 1, preset to all ones,
   no reflection and no final inversion. In crates/boot_checksum/out/libboot_checksum.a, for x86-64, which `rt lib` there
   writes: no table, no stack, no call of another library. */
#ifndef BOOT_CHECKSUM_H
#define BOOT_CHECKSUM_H

#ifdef __cplusplus
extern "C" {
#endif

/* The checksum of `length` octets from `data` on. */
unsigned short crc_ccitt_false(const unsigned char *data, unsigned long length);

/* The same of octets that come in parts: 0xFFFF with the first part, then what the call before gave; the last is the checksum. */
unsigned short crc_ccitt_false_from(unsigned short before, const unsigned char *data, unsigned long length);

#ifdef __cplusplus
}
#endif

#endif
