// The Rust crate's algorithms in C. The checksum is that of its crate `crc`: bit steps, a table of 256 entries, sixteen
// tables. The reader, the verdict, the writer and the splitter take the table or the bit steps. Telemetry, for which the crate is
// no measure, is read, judged and written by its layout in the same way.
#include "bench.h"

static u16 tables[16][256];

static u16 bit_steps(u16 r) {
    for (int k = 0; k < 8; k++)
        r = (u16)(r << 1) ^ (u16)((r >> 15 & 1) * 0x1021);
    return r;
}

void crate_start(void) {
    for (int k = 0; k < 256; k++)
        tables[0][k] = bit_steps((u16)(k << 8));
    for (int t = 1; t < 16; t++)
        for (int k = 0; k < 256; k++) {
            u16 r = tables[t - 1][k];
            tables[t][k] = (u16)(r << 8) ^ tables[0][r >> 8];
        }
}

static u16 table_from(u16 r, const u8 *s, usize n) {
    for (usize i = 0; i < n; i++)
        r = (u16)(r << 8) ^ tables[0][(r >> 8) ^ s[i]];
    return r;
}

usize crate_table(const u8 *s, usize n) { return table_from(0xFFFF, s, n); }

usize crate_sixteen(const u8 *s, usize n) {
    u16 r = 0xFFFF;
    for (; n >= 16; s += 16, n -= 16)
        r = tables[0][s[15]] ^ tables[1][s[14]] ^ tables[2][s[13]] ^ tables[3][s[12]] ^ tables[4][s[11]]
            ^ tables[5][s[10]] ^ tables[6][s[9]] ^ tables[7][s[8]] ^ tables[8][s[7]] ^ tables[9][s[6]]
            ^ tables[10][s[5]] ^ tables[11][s[4]] ^ tables[12][s[3]] ^ tables[13][s[2]]
            ^ tables[14][s[1] ^ (r & 255)] ^ tables[15][s[0] ^ (r >> 8)];
    return table_from(r, s, n);
}

usize crate_bits(const u8 *s, usize n) {
    u16 r = 0xFFFF;
    for (usize i = 0; i < n; i++)
        r = bit_steps((u16)(r ^ s[i] << 8));
    return r;
}

// ---- read, and judged

// Where the data start, in a command and in telemetry.
enum { TC_START = 11, TM_TIME = 7, TM_START = 13 + TM_TIME };

struct record {
    u8 version, type, has_second, flags;
    u16 apid, count, length;
    u8 low, service, subtype; // low: the acknowledgement flags, or the status of the time reference
    u16 word, dest, crc;      // word: the source, or the message counter; a command has no destination
    usize total;
};

static u16 word(const u8 *s) { return (u16)(s[0] << 8 | s[1]); }

// Whether the reader takes the octets; its checks in their order, the checksum last.
static inline int read_by(call *checksum, usize start, const u8 *s, usize n, struct record *r) {
    if (n < start)
        return 0;
    u16 id = word(s), psc = word(s + 2);
    r->version = s[0] >> 5;
    r->type = id >> 12 & 1;
    r->has_second = id >> 11 & 1;
    r->apid = id & 0x7FF;
    r->flags = (u8)(psc >> 14);
    r->count = psc & 0x3FFF;
    r->length = word(s + 4);
    r->total = r->length + 7ul;
    if (n < r->total || r->total < start)
        return 0;
    r->low = s[6] & 15;
    r->service = s[7];
    r->subtype = s[8];
    r->word = word(s + 9);
    r->dest = start == TM_START ? word(s + 11) : 0;
    r->crc = word(s + r->total - 2);
    return r->total >= start + 2 && checksum(s, r->total) == 0;
}

// The strict checks behind the reader's.
static inline int judge_by(call *checksum, usize start, const u8 *s, usize n, struct record *r) {
    return read_by(checksum, start, s, n, r) && r->version == 0 && r->type == (start == TC_START) && r->has_second
           && s[6] >> 4 == 2 && r->apid != 0x7FF;
}

// What was read, each field of it.
static usize sum(const struct record *r) {
    u16 id = (u16)(r->type << 12 | r->has_second << 11 | r->apid), psc = (u16)(r->flags << 14 | r->count);
    return (usize)r->version + id + psc + r->length + r->service + r->subtype + r->low + r->word + r->dest + r->crc;
}

#define READ_BY(name, checksum, start)                                                                                 \
    usize name(const u8 *s, usize n) {                                                                                 \
        struct record r;                                                                                               \
        return read_by(checksum, start, s, n, &r) ? sum(&r) : 0;                                                       \
    }
READ_BY(crate_read, crate_table, TC_START)
READ_BY(crate_read_bits, crate_bits, TC_START)
READ_BY(c_tm_read, crate_table, TM_START)
READ_BY(c_tm_read_bits, crate_bits, TM_START)

#define JUDGE_BY(name, checksum, start)                                                                                \
    usize name(const u8 *s, usize n) {                                                                                 \
        struct record r;                                                                                               \
        return judge_by(checksum, start, s, n, &r) ? r.total : 0;                                                      \
    }
JUDGE_BY(crate_judge, crate_table, TC_START)
JUDGE_BY(crate_judge_bits, crate_bits, TC_START)
JUDGE_BY(c_tm_judge, crate_table, TM_START)
JUDGE_BY(c_tm_judge_bits, crate_bits, TM_START)

// ---- split

static inline usize step_by(call *checksum, const u8 *s, usize n, usize at) {
    if (n <= at || n - at < 6)
        return 0;
    usize total = word(s + at + 4) + 7ul;
    struct record r;
    return n - at >= total && judge_by(checksum, TC_START, s + at, total, &r) ? at + total : 0;
}

usize crate_step(const u8 *s, usize n, usize at) { return step_by(crate_table, s, n, at); }

usize crate_step_bits(const u8 *s, usize n, usize at) { return step_by(crate_bits, s, n, at); }

// ---- written

static void put(u8 *buf, u16 w) {
    buf[0] = (u8)(w >> 8);
    buf[1] = (u8)w;
}

// The primary header, and the secondary up to its subtype.
static inline void put_first(u8 *buf, u16 id, u16 psc, usize total, u8 first, u8 service, u8 subtype) {
    put(buf, id);
    put(buf + 2, psc);
    put(buf + 4, (u16)(total - 7));
    buf[6] = first;
    buf[7] = service;
    buf[8] = subtype;
}

static inline usize write_by(call *checksum, u16 id, u16 psc, u8 service, u8 subtype, const u8 *data, usize n, u8 *buf,
                             usize room) {
    usize total = TC_START + n + 2;
    if (room < total)
        return 0;
    put_first(buf, 0x1800 | (id & 0x7FF), psc, total, 2 << 4 | 15, service, subtype);
    put(buf + 9, 0);
    __builtin_memcpy(buf + TC_START, data, n);
    put(buf + total - 2, (u16)checksum(buf, total - 2));
    return total;
}

static inline usize tm_write_by(call *checksum, u16 id, u16 psc, u8 service, u8 subtype, const u8 *time, usize time_len,
                                const u8 *data, usize n, u8 *buf, usize room) {
    usize total = TM_START + n + 2;
    if (time_len != TM_TIME || room < total)
        return 0;
    put_first(buf, 0x0800 | (id & 0x7FF), psc, total, 2 << 4, service, subtype);
    put(buf + 9, 0);
    put(buf + 11, 0);
    __builtin_memcpy(buf + 13, time, TM_TIME);
    __builtin_memcpy(buf + TM_START, data, n);
    put(buf + total - 2, (u16)checksum(buf, total - 2));
    return total;
}

usize crate_write(u16 id, u16 psc, u8 service, u8 subtype, const u8 *data, usize n, u8 *buf, usize room) {
    return write_by(crate_table, id, psc, service, subtype, data, n, buf, room);
}

usize crate_write_bits(u16 id, u16 psc, u8 service, u8 subtype, const u8 *data, usize n, u8 *buf, usize room) {
    return write_by(crate_bits, id, psc, service, subtype, data, n, buf, room);
}

#define TM_WRITE_BY(name, checksum)                                                                                    \
    usize name(u16 id, u16 psc, u8 service, u8 subtype, const u8 *time, usize time_len, const u8 *data, usize n,       \
               u8 *buf, usize room) {                                                                                  \
        return tm_write_by(checksum, id, psc, service, subtype, time, time_len, data, n, buf, room);                   \
    }
TM_WRITE_BY(c_tm_write, crate_table)
TM_WRITE_BY(c_tm_write_bits, crate_bits)
