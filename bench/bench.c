// Times each form in turn, and prints the best of several rounds as ratios to the first.
#include "bench.h"

extern int printf(const char *, ...);
extern int strcmp(const char *, const char *);
struct moment {
    long seconds, nanoseconds;
};
extern int clock_gettime(int, struct moment *);

enum { ROUNDS = 120, FORMS = 9, LENGTHS = 6, LONGEST = 65542, LEAST = 13, TM_LEAST = 22, CAPTURE = 65536, BAR = 60 };

#ifdef CRATE_ITSELF
#define ITSELF(name, of) {name, of},
#else
#define ITSELF(name, of)
#endif

struct form {
    const char *name;
    call *of;
};

struct section {
    const char *name;
    int held;    // whether the processor is held behind each call
    usize least; // the fewest octets that it can prepare
    void (*prepare)(usize);
    struct form forms[FORMS];
    usize lengths[LENGTHS];
};

// What the last form of a section must reach: at which length, to which form, natively and under an emulator.
struct wanted {
    const struct section *of;
    usize length;
    int to;
    double native, emulated;
};

static u8 octets[LONGEST], written[LONGEST];
static const u8 stamp[] = {47, 84, 10, 27, 44, 61, 78};
static volatile usize none; // 0, which the compiler cannot know

// ---- what is timed

static void any_octets(usize n) {
    unsigned x = 12345;
    for (usize i = 0; i < n; i++) {
        x = x * 1664525 + 1013904223;
        octets[i] = (u8)(x >> 24);
    }
}

// A packet of n octets, from its beginning on.
static void put_packet(u8 *s, usize n) {
    any_octets(n - LEAST);
    crate_write(0x1923, 0xC005, 17, 1, octets, n - LEAST, written, LONGEST);
    for (usize i = 0; i < n; i++)
        s[i] = written[i];
}

static void a_packet(usize n) { put_packet(octets, n); }

static void a_report(usize n) {
    any_octets(n - TM_LEAST);
    c_tm_write(0x0923, 0xC005, 17, 2, stamp, sizeof stamp, octets, n - TM_LEAST, written, LONGEST);
    for (usize i = 0; i < n; i++)
        octets[i] = written[i];
}

// Packets of mixed lengths, the last of which ends the capture.
static void a_capture(usize n) {
    static const usize lengths[] = {64, 13, 256, 30, 1024, 100, 4096};
    static u8 capture[CAPTURE];
    usize at = 0;
    for (int k = 0; at < n; k++) {
        usize next = lengths[k % 7];
        if (n - at < next + LEAST)
            next = n - at;
        put_packet(capture + at, next);
        at += next;
    }
    for (usize i = 0; i < n; i++)
        octets[i] = capture[i];
}

static usize write_by(writer *of, const u8 *s, usize n) {
    return of(0x1923, 0xC005, 17, 1, s, n - LEAST, written, LONGEST);
}

static usize tm_write_by(tm_writer *of, const u8 *s, usize n) {
    return of(0x0923, 0xC005, 17, 2, stamp, sizeof stamp, s, n - TM_LEAST, written, LONGEST);
}

// How many packets are accepted, up to the first that is not.
static usize split_by(step *of, const u8 *s, usize n) {
    usize at = 0, packets = 0;
    while ((at = of(s, n, at)))
        packets++;
    return packets;
}

#define AS_CALL(name, by, of)                                                                                          \
    static usize name(const u8 *s, usize n) { return by(of, s, n); }
AS_CALL(write_crate, write_by, crate_write)
AS_CALL(write_crate_bits, write_by, crate_write_bits)
AS_CALL(write_port, write_by, port_write)
AS_CALL(tm_write_c, tm_write_by, c_tm_write)
AS_CALL(tm_write_c_bits, tm_write_by, c_tm_write_bits)
AS_CALL(tm_write_port, tm_write_by, port_tm_write)
AS_CALL(split_crate, split_by, crate_step)
AS_CALL(split_crate_bits, split_by, crate_step_bits)
AS_CALL(split_port, split_by, port_step)
#ifdef CRATE_ITSELF
AS_CALL(write_rust, write_by, rust_write)
#endif

static const struct section checksum = {
    "checksum",
    0,
    0,
    any_octets,
    {{"crate, table of 256", crate_table},
     {"crate, sixteen tables", crate_sixteen},
     {"crate, bit steps", crate_bits},
     ITSELF("itself, table of 256", rust_table)
     ITSELF("itself, sixteen tables", rust_sixteen)
     ITSELF("itself, bit steps", rust_bits)
     {"port, table of 16", port_table},
     {"port, no table", port_no_table}},
    {13, 64, 256, 4096, LONGEST},
};

static const struct section read = {
    "read and compare",
    1,
    LEAST,
    a_packet,
    {{"crate, table of 256", crate_read},
     {"crate, bit steps", crate_read_bits},
     ITSELF("itself, table of 256", rust_read)
     {"port", port_read}},
    {13, 64, 256, 4096, LONGEST},
};

static const struct section verdict = {
    "strict verdict",
    1,
    LEAST,
    a_packet,
    {{"crate, table of 256", crate_judge},
     {"crate, bit steps", crate_judge_bits},
     ITSELF("itself, table of 256", rust_judge)
     {"port", port_judge}},
    {13, 64, 256, 4096, LONGEST},
};

static const struct section writing = {
    "write",
    1,
    LEAST,
    a_packet,
    {{"crate, table of 256", write_crate},
     {"crate, bit steps", write_crate_bits},
     ITSELF("itself, table of 256", write_rust)
     {"port", write_port}},
    {13, 64, 256, 4096, LONGEST},
};

static const struct section splitter = {
    "splitter",
    1,
    LEAST,
    a_capture,
    {{"crate, table of 256", split_crate},
     {"crate, bit steps", split_crate_bits},
     {"port", split_port}},
    {CAPTURE},
};

static const struct section tm_read = {
    "telemetry read",
    1,
    TM_LEAST,
    a_report,
    {{"C, table of 256", c_tm_read}, {"C, bit steps", c_tm_read_bits}, {"port", port_tm_read}},
    {TM_LEAST, 64, 256, 4096, LONGEST},
};

static const struct section tm_verdict = {
    "telemetry verdict",
    1,
    TM_LEAST,
    a_report,
    {{"C, table of 256", c_tm_judge}, {"C, bit steps", c_tm_judge_bits}, {"port", port_tm_judge}},
    {TM_LEAST, 64, 256, 4096, LONGEST},
};

static const struct section tm_writing = {
    "telemetry write",
    1,
    TM_LEAST,
    a_report,
    {{"C, table of 256", tm_write_c}, {"C, bit steps", tm_write_c_bits}, {"port", tm_write_port}},
    {TM_LEAST, 64, 256, 4096, LONGEST},
};

static const struct section *const sections[] = {&checksum, &read,    &verdict,    &writing,
                                                 &splitter, &tm_read, &tm_verdict, &tm_writing};
enum { SECTIONS = sizeof sections / sizeof *sections };

static const struct wanted all_wanted[] = {
    {&checksum, 1, 0, 1.0, 1.0},
    {&checksum, 2, 0, 1.0, 1.0},
    {&checksum, 3, 0, 1.0, 1.0},
    {&checksum, 4, 0, 1.0, 1.0},
    {&checksum, 5, 0, 1.0, 1.0},
    {&checksum, 6, 0, 1.0, 1.0},
    {&checksum, 7, 0, 1.0, 1.0},
    {&checksum, 13, 0, 1.5, 1.5},
    {&checksum, 64, 0, 4.0, 4.0},
    {&checksum, 256, 0, 10.0, 10.0},
    {&checksum, 4096, 0, 30.0, 15.0},
    {&checksum, 4096, 1, 2.5, 2.5},
    {&read, 13, 0, 1.2, 1.2},
    {&read, 4096, 0, 12.0, 12.0},
    {&verdict, 13, 0, 1.2, 1.2},
    {&verdict, 4096, 0, 12.0, 12.0},
    {&writing, 13, 0, 1.0, 1.0},
    {&writing, 64, 0, 1.0, 1.0},
    {&writing, 256, 0, 1.0, 1.0},
    {&writing, 4096, 0, 1.0, 1.0},
    {&writing, LONGEST, 0, 1.0, 1.0},
    {&tm_read, TM_LEAST, 0, 1.2, 1.2},
    {&tm_read, 4096, 0, 12.0, 12.0},
    {&tm_verdict, TM_LEAST, 0, 1.2, 1.2},
    {&tm_verdict, 4096, 0, 12.0, 12.0},
    {&tm_writing, TM_LEAST, 0, 1.0, 1.0},
    {&tm_writing, 64, 0, 1.0, 1.0},
    {&tm_writing, 256, 0, 1.0, 1.0},
    {&tm_writing, 4096, 0, 1.0, 1.0},
    {&tm_writing, LONGEST, 0, 1.0, 1.0},
};

static int forms_of(const struct section *s) {
    int n = 0;
    while (n < FORMS && s->forms[n].of)
        n++;
    return n;
}

// ---- every form gives the answer of the first

// The answer of a form and what it wrote, in one number. Not by the checksum, which is 0 over every sealed packet.
static usize outcome(const struct form *f, usize n) {
    for (usize i = 0; i < n; i++)
        written[i] = 0;
    usize told = f->of(octets, n);
    for (usize i = 0; i < n; i++)
        told = told * 1099511628211 + written[i];
    return told;
}

static int agree(const struct section *s, usize n) {
    usize first = outcome(&s->forms[0], n);
    for (int f = 1; f < forms_of(s); f++)
        if (outcome(&s->forms[f], n) != first) {
            printf("%s, %lu octets: %s differs\n", s->name, n, s->forms[f].name);
            return 0;
        }
    return 1;
}

static int agree_prepared(const struct section *s, usize n) {
    s->prepare(n);
    return agree(s, n);
}

// Also on a packet with any one bit turned, and with one of its first seven octets turned under a checksum that fits.
static void seal(usize n) {
    usize crc = crate_table(octets, n - 2);
    octets[n - 2] = (u8)(crc >> 8);
    octets[n - 1] = (u8)crc;
}

static int agree_turned(const struct section *s, usize n) {
    for (usize k = 0; k < 8 * n; k++) {
        s->prepare(n);
        octets[k / 8] ^= (u8)(1 << k % 8);
        if (!agree(s, n))
            return 0;
        seal(n);
        if (k < 56 && !agree(s, n))
            return 0;
    }
    s->prepare(n);
    octets[0] |= 7;
    octets[1] = 0xFF;
    seal(n);
    return agree(s, n);
}

static int all_agree(void) {
    for (usize n = 0; n <= 1200; n++)
        for (int k = 0; k < SECTIONS; k++)
            if (n >= sections[k]->least && !agree_prepared(sections[k], n))
                return 0;
    for (int k = 0; k < SECTIONS; k++)
        for (int l = 0; l < LENGTHS && sections[k]->lengths[l]; l++)
            if (!agree_prepared(sections[k], sections[k]->lengths[l]))
                return 0;
    return agree_turned(&read, 64) && agree_turned(&verdict, 64) && agree_turned(&tm_read, 64)
           && agree_turned(&tm_verdict, 64);
}

// ---- times

static double now(void) {
    struct moment t;
    clock_gettime(1, &t);
    return t.seconds * 1e9 + t.nanoseconds;
}

// Nanoseconds a call, over so many calls, no two of which overlap: what is timed is one call, from its octets to its answer.
// The place of the octets waits for the answer of the call before. A checksum is known last; other answers are known before
// the checksum is, and then the processor is held until the call has ended.
static double timed(const struct section *s, call *of, usize n, long calls) {
    usize mask = none, last = 0;
    double start = now();
    for (long k = 0; k < calls; k++) {
        last = of(octets + (last & mask), n);
        if (s->held)
            __builtin_ia32_lfence();
    }
    none = last & mask;
    return (now() - start) / calls;
}

static void best(const struct section *s, usize n, double *ns) {
    long calls = 200000 / (n + 20) + 1;
    int forms = forms_of(s);
    s->prepare(n);
    for (int f = 0; f < forms; f++)
        ns[f] = 1e18;
    for (int round = 0; round < ROUNDS; round++)
        for (int f = 0; f < forms; f++) {
            double t = timed(s, s->forms[f].of, n, calls);
            if (t < ns[f])
                ns[f] = t;
        }
}

static void bar(double ratio) {
    for (int k = 0; k < BAR && k + 0.5 < ratio; k++)
        printf("#");
    printf(ratio > BAR ? "+\n" : "\n");
}

static void show(const struct section *s, usize n) {
    double ns[FORMS];
    best(s, n, ns);
    printf("\n%s, %lu octets\n", s->name, n);
    for (int f = 0; f < forms_of(s); f++) {
        printf("  %-22s %10.1f ns %7.2f  ", s->forms[f].name, ns[f], ns[0] / ns[f]);
        bar(ns[0] / ns[f]);
    }
}

static int reached(const struct wanted *w, int emulated) {
    double ns[FORMS], want = emulated ? w->emulated : w->native;
    int last = forms_of(w->of) - 1;
    best(w->of, w->length, ns);
    double ratio = ns[w->to] / ns[last];
    printf("  %-17s %5lu octets: %-14s to %-21s %6.2f of %4.1f  %s\n", w->of->name, w->length, w->of->forms[last].name,
           w->of->forms[w->to].name, ratio, want, ratio >= want ? "reached" : "NOT REACHED");
    return ratio >= want;
}

int main(int words, char **word) {
    int good = 1;
    crate_start();
    if (!all_agree())
        return 1;
    printf("times a call, best of %d rounds; ratio to the crate's table form, a # for each 1\n", ROUNDS);
    for (int k = 0; k < SECTIONS; k++)
        for (int l = 0; l < LENGTHS && sections[k]->lengths[l]; l++)
            show(sections[k], sections[k]->lengths[l]);
    printf("\nwhat must be reached\n");
    for (usize k = 0; k < sizeof all_wanted / sizeof *all_wanted; k++)
        good &= reached(&all_wanted[k], words > 1 && !strcmp(word[1], "emulated"));
    return !good;
}
