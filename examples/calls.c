/* Each call of the library once and more, on worked octets of the source documents 000, 003 and 004: what is read, what it is written back as, and what is
   refused. A line for each call; the end is 1 where one differs. */
#include <stdio.h>
#include <string.h>
#include "hitchbarley.h"

struct octets {
    uint8_t s[96];
    size_t n;
};

static int differs; /* of all calls */
static int wrong;   /* of the call at hand */

/* Octets from two hex digits each. */
static struct octets of(const char *text)
{
    struct octets o = {{0}, 0};
    unsigned v;
    int used;
    for (; sscanf(text, "%2x%n", &v, &used) == 1; text += used) o.s[o.n++] = (uint8_t)v;
    return o;
}

static void want(int good)
{
    if (!good) wrong = 1;
}

static void want_octets(const uint8_t *got, size_t n, struct octets wanted)
{
    want(n == wanted.n && memcmp(got, wanted.s, n) == 0);
}

static void tell(const char *call)
{
    printf("%s: %s\n", call, wrong ? "DIFFERS" : "as the documents have it");
    differs |= wrong;
    wrong = 0;
}

/* ---- a trunk ---- */

static uint8_t state[HB_STATE], area[HB_AREA], report[HB_REPORT];

/* Feeds all of a frame, which has its one report at its last octet, or none. */
static void feed(struct octets frame, const char *reports)
{
    size_t eaten;
    uint8_t reported;
    want(hb_feed(state, HB_STATE, frame.s, frame.n, report, HB_REPORT, area, HB_AREA, &eaten, &reported) == 0);
    want(eaten == frame.n && reported == (reports != NULL));
    if (reports) want_octets(report, HB_REPORT, of(reports));
}

/* A frame around a header's five octets and its data. */
static struct octets framed(const char *head, const char *data)
{
    struct octets h = of(head), d = of(data), f = of("55 FF");
    uint16_t check = hb_data_check(d.s, d.n);
    memcpy(f.s + 2, h.s, 5);
    f.s[7] = hb_header_check(h.s, 5);
    memcpy(f.s + 8, d.s, d.n);
    f.s[8 + d.n] = check & 255;
    f.s[9 + d.n] = check >> 8;
    f.n = 10 + d.n;
    return f;
}

static void trunk(void)
{
    size_t eaten;
    uint8_t reported, piece = 0x55;

    want(hb_fresh(state, HB_STATE, 0) == 0);
    want(hb_fresh(state, HB_STATE - 1, 0) == HB_NO_AREA);
    tell("hb_fresh");

    feed(of("55 FF 01 02 01 00 00 F5"), "01 00 01 02 01 00 00 00 00 00 00 00 00 00 00 00");
    feed(of("55 FF 06 01 03 00 13 39 01 00 30 00 0C 0C 00 00 00 01 19 55 3E 44 42 39 99 9A 3F 36 C6"), "03 00 06 01 03 30 00 00 00 00 00 11 0C 00 00 00");
    feed(of("55 FF 05 03 01 00 0D 98 01 04 02 03 00 0C 0C 00 00 00 01 19 55 02 A8"), "02 03 00 00 00 00 00 00 00 00 00 00 00 00 00 00");
    want(hb_feed(state, HB_STATE, &piece, 1, report, HB_REPORT - 1, area, HB_AREA, &eaten, &reported) == HB_NO_AREA && eaten == 0 && reported == 0);
    want(hb_feed(state, HB_STATE, &piece, 1, report, HB_REPORT, area, HB_AREA - 1, &eaten, &reported) == HB_NO_AREA && eaten == 0 && reported == 0);
    memset(state, 0xFF, HB_STATE);
    want(hb_feed(state, HB_STATE, &piece, 1, report, HB_REPORT, area, HB_AREA, &eaten, &reported) == HB_NO_STATE && eaten == 0 && reported == 0);
    want(hb_silence(state, HB_STATE, report, HB_REPORT, &reported) == HB_NO_STATE && hb_forget(state, HB_STATE, 0) == HB_NO_STATE);
    tell("hb_feed");

    want(hb_fresh(state, HB_STATE, 0) == 0);
    want(hb_silence(state, HB_STATE, report, HB_REPORT, &reported) == 0 && reported == 0);
    feed(of("55 FF 06 FF 01 00 15 8E 01 20 FF FF 00 FF 10 08 15 B6"), NULL);
    want(hb_silence(state, HB_STATE, report, HB_REPORT, &reported) == 0 && reported == 1);
    want_octets(report, HB_REPORT, of("02 04 00 00 00 00 00 00 00 00 00 00 00 00 00 00"));
    want(hb_silence(state, HB_STATE, report, HB_REPORT + 1, &reported) == HB_NO_AREA && reported == 0);
    tell("hb_silence");

    /* the ack of 004 cut in two: its first segment is held in slot 0, then forgotten */
    feed(framed("06 01 03 00 0E", "01 00 3C 00 00 01 0C 0C 00 00 00 01 19 55"), "04 00 06 01 03 3C 00 00 00 00 00 07 0C 00 00 00");
    want(hb_forget(state, HB_STATE, 0) == 0);
    want(hb_forget(state, HB_STATE, 0) == HB_NOT_OPEN && hb_forget(state, HB_STATE, 4) == HB_NOT_OPEN);
    want(hb_forget(state, HB_STATE - 1, 0) == HB_NO_AREA);
    tell("hb_forget");

    /* and both segments: the message stands in slot 0 */
    feed(framed("06 01 03 00 0E", "01 00 3C 00 00 01 0C 0C 00 00 00 01 19 55"), "04 00 06 01 03 3C 00 00 00 00 00 07 0C 00 00 00");
    feed(framed("06 01 03 00 0E", "01 00 38 00 01 01 0C 3E 44 42 39 99 9A 3F"), "05 00 06 01 03 38 00 00 00 00 00 0E 0C 00 00 00");
    want_octets(area, 14, of("0C 00 00 00 01 19 55 3E 44 42 39 99 9A 3F"));
    tell("a message in two segments");
}

/* Two devices behind one router, with one invoke ID: SNET 7, SADR 0B and 0C. Each message has a slot of its own. Then a state whose open slot has SNET 0. */
static void routed(void)
{
    size_t eaten;
    uint8_t reported, piece = 0x55;
    want(hb_fresh(state, HB_STATE, 0) == 0);
    feed(framed("06 21 43 00 0D", "01 08 00 07 01 0B 3C 57 00 04 0E 62 A1"), "04 00 06 21 43 3C 57 00 00 00 00 02 0E 00 00 00");
    feed(framed("06 21 43 00 0D", "01 08 00 07 01 0C 3C 57 00 04 0E 62 B1"), "04 00 06 21 43 3C 57 01 00 00 00 02 0E 00 00 00");
    feed(framed("06 21 43 00 0C", "01 08 00 07 01 0B 38 57 01 04 0E A2"), "05 00 06 21 43 38 57 00 00 00 00 03 0E 00 00 00");
    want_octets(area, 3, of("62 A1 A2"));
    state[511 + 31 + 11] = 0; /* the second slot's SNET: 7 becomes 0 */
    want(hb_feed(state, HB_STATE, &piece, 1, report, HB_REPORT, area, HB_AREA, &eaten, &reported) == HB_NO_STATE && eaten == 0 && reported == 0);
    state[511 + 31 + 11] = 7;
    feed(framed("06 21 43 00 0C", "01 08 00 07 01 0C 38 57 01 04 0E B2"), "05 00 06 21 43 38 57 01 00 00 00 03 0E 00 00 00");
    want_octets(area + HB_SLOT, 3, of("62 B1 B2"));
    tell("two devices behind one router");
}

/* A slot that awaits number 0, as it does behind 255: number 1 is 52, number 0 with another choice 53, and number 0 goes on behind what is held. */
static void behind_255(void)
{
    want(hb_fresh(state, HB_STATE, 0) == 0);
    feed(framed("06 21 43 00 09", "01 00 3C 57 00 04 0E 62 A1"), "04 00 06 21 43 3C 57 00 00 00 00 02 0E 00 00 00");
    state[511 + 5] = 0; /* the first slot's next number: 1 becomes 0 */
    feed(framed("06 21 43 00 08", "01 00 38 57 01 04 0E A2"), "06 34 06 21 43 00 00 00 00 00 00 00 00 00 00 00");
    feed(framed("06 21 43 00 08", "01 00 38 57 00 04 0F A2"), "06 35 06 21 43 00 00 00 00 00 00 00 00 00 00 00");
    feed(framed("06 21 43 00 08", "01 00 38 57 00 04 0E A2"), "05 00 06 21 43 38 57 00 00 00 00 03 0E 00 00 00");
    want_octets(area, 3, of("62 A1 A2"));
    tell("a segment 0 behind number 255");
}

/* A ReadProperty request that accepts 2 segments, on a trunk of an edition, also behind a silence and a forget order: they leave the edition as it is. */
static void request(uint8_t later, const char *reports)
{
    uint8_t reported;
    want(hb_fresh(state, HB_STATE, later) == 0);
    feed(framed("05 03 01 00 0D", "01 04 00 15 01 0C 0C 00 00 00 01 19 55"), reports);
    want(hb_silence(state, HB_STATE, report, HB_REPORT, &reported) == 0 && hb_forget(state, HB_STATE, 0) == HB_NOT_OPEN);
    feed(framed("05 03 01 00 0D", "01 04 00 15 01 0C 0C 00 00 00 01 19 55"), reports);
}

static void editions(void)
{
    size_t eaten;
    uint8_t reported, piece = 0x55;
    request(0, "06 16 05 03 01 00 00 00 00 00 00 00 00 00 00 00");
    request(1, "03 00 05 03 01 00 01 00 00 00 00 0B 0C 00 00 00");
    request(255, "03 00 05 03 01 00 01 00 00 00 00 0B 0C 00 00 00");
    want(state[510] == 1); /* the edition's octet: 0 or 1 */
    state[510] = 2;
    want(hb_feed(state, HB_STATE, &piece, 1, report, HB_REPORT, area, HB_AREA, &eaten, &reported) == HB_NO_STATE && eaten == 0 && reported == 0);
    want(hb_feed(state, 547, &piece, 1, report, HB_REPORT, area, HB_AREA, &eaten, &reported) == HB_NO_AREA && eaten == 0 && reported == 0);
    tell("a trunk of either edition");
}

/* ---- a recorded trunk ---- */

/* One call with so many octets of records: its number, the records eaten, and its report or none. */
static void replayed(const uint8_t *records, size_t n, uint8_t number, size_t records_eaten, const char *reports)
{
    size_t eaten;
    uint8_t reported;
    memset(report, 0xEE, HB_REPORT);
    want(hb_replay(state, HB_STATE, records, n, report, HB_REPORT, area, HB_AREA, &eaten, &reported) == number);
    want(eaten == records_eaten && reported == (reports != NULL));
    want_octets(report, HB_REPORT, of(reports ? reports : "EE EE EE EE EE EE EE EE EE EE EE EE EE EE EE EE"));
}

static void recorded(void)
{
    /* two silences with a forget that is 56 between them, a poll for master of 004, the front of another that a silence cuts off, a bad record */
    static const char *tape = "01000000 02040000 01000000 00550000 00FF0000 00010000 00020000 00010000 00000000 00000000 00F50000"
                              "00550000 00FF0000 00010000 01000000 03000000";
    struct octets r = of(tape);
    uint8_t before[HB_STATE], bad[][HB_RECORD] = {{3, 0, 0, 0}, {255, 0, 0, 0}, {0, 0x55, 1, 0}, {0, 0x55, 0, 1}, {1, 1, 0, 0}, {2, 0, 0, 1}};
    size_t eaten;
    uint8_t reported;

    want(hb_fresh(state, HB_STATE, 0) == 0);
    replayed(r.s, r.n, 0, 11, "01 00 01 02 01 00 00 00 00 00 00 00 00 00 00 00");
    replayed(r.s + 11 * HB_RECORD, r.n - 11 * HB_RECORD, 0, 4, "02 04 00 00 00 00 00 00 00 00 00 00 00 00 00 00");
    replayed(r.s + 15 * HB_RECORD, HB_RECORD, HB_BAD_RECORD, 0, NULL);
    replayed(r.s + 15 * HB_RECORD, HB_RECORD, HB_BAD_RECORD, 0, NULL);
    replayed(r.s, 0, 0, 0, NULL);
    for (size_t i = 0; i < sizeof bad / sizeof *bad; i++) replayed(bad[i], HB_RECORD, HB_BAD_RECORD, 0, NULL);

    /* 68: nothing runs, also where the first records are good */
    memcpy(before, state, HB_STATE);
    for (size_t odd = 1; odd < HB_RECORD; odd++) replayed(r.s, 3 * HB_RECORD + odd, HB_ODD, 0, NULL);
    want(memcmp(before, state, HB_STATE) == 0);

    /* 67: the records before the bad one stand: the header that they begin is cut off by the next silence */
    {
        struct octets cut = of("00550000 00FF0000 01000100");
        replayed(cut.s, cut.n, HB_BAD_RECORD, 2, NULL);
        want(memcmp(before, state, HB_STATE) != 0);
        replayed(r.s, HB_RECORD, 0, 1, "02 04 00 00 00 00 00 00 00 00 00 00 00 00 00 00");
    }

    /* 60, then 59, before 68 and 67 */
    want(hb_replay(state, HB_STATE - 1, r.s, 1, report, HB_REPORT, area, HB_AREA, &eaten, &reported) == HB_NO_AREA && eaten == 0 && reported == 0);
    want(hb_replay(state, HB_STATE, r.s, 1, report, HB_REPORT - 1, area, HB_AREA, &eaten, &reported) == HB_NO_AREA && eaten == 0 && reported == 0);
    want(hb_replay(state, HB_STATE, r.s, 1, report, HB_REPORT, area, HB_AREA - 1, &eaten, &reported) == HB_NO_AREA && eaten == 0 && reported == 0);
    memset(state, 0xFF, HB_STATE);
    replayed(r.s, 1, HB_NO_STATE, 0, NULL);
    replayed(bad[0], HB_RECORD, HB_NO_STATE, 0, NULL);
    tell("hb_replay");
}

/* ---- check sums ---- */

static void sums(void)
{
    static const uint8_t header_trace[] = {0x55, 0xC2, 0xBC, 0x95, 0x73, 0x55};
    static const uint16_t data_trace[] = {0x1E0E, 0xEB70, 0x42EF, 0x0F3A, 0xF0B8};
    struct octets head = of("00 10 05 00 00 8C"), data = of("01 22 30 10 BD");
    uint8_t h = 0xFF;
    uint16_t d = 0xFFFF;

    want(hb_header_check(head.s, 5) == 0x8C);
    tell("hb_header_check");
    want(hb_data_check(data.s, 3) == 0xBD10);
    tell("hb_data_check");
    for (size_t i = 0; i < head.n; i++) want((h = hb_header_run(h, head.s + i, 1)) == header_trace[i]);
    want(hb_header_run(0xFF, head.s, head.n) == 0x55);
    tell("hb_header_run");
    for (size_t i = 0; i < data.n; i++) want((d = hb_data_run(d, data.s + i, 1)) == data_trace[i]);
    want(hb_data_run(0xFFFF, data.s, data.n) == 0xF0B8);
    tell("hb_data_run");
}

/* ---- headers ---- */

typedef uint8_t reader(const uint8_t *, size_t, uint8_t *, size_t, size_t *);
typedef uint8_t writer(const uint8_t *, size_t, uint8_t *, size_t, size_t *);

/* Octets, the place after their header, its record. */
struct header {
    const char *octets;
    size_t next;
    const char *record;
};

static const struct header npdus[] = {
    {"01 00", 2, "00 00 00 00 00 00 00 00 00 00 00 00 00 00 00 00 00 00 00 00 00 00 00 00 00 00 00 00 00"},
    {"01 20 FF FF 00 FF 10 08", 6, "00 01 00 00 00 FF FF 00 00 00 00 00 00 00 00 00 00 00 00 00 00 00 00 00 00 FF 00 00 00"},
    {"01 2C 00 01 01 01 00 02 01 15 FF 02 03 00 0C 0C 00 00 00 01 19 55", 11, "00 01 01 01 00 00 01 01 01 00 00 00 00 00 00 00 02 01 15 00 00 00 00 00 00 FF 00 00 00"},
    {"01 88 00 02 01 15 01 00 02", 7, "01 00 01 00 00 00 00 00 00 00 00 00 00 00 00 00 02 01 15 00 00 00 00 00 00 00 01 00 00"},
};

static const struct header apdus[] = { /* the same by both editions */
    {"02 03 00 0C 0C 00 00 00 01 19 55", 4, "00 00 00 01 00 00 03 00 00 00 0C 00 00"},
    {"10 08", 2, "01 00 00 00 00 00 00 00 00 00 08 00 00"},
    {"20 05 0F", 3, "02 00 00 00 00 00 00 05 00 00 0F 00 00"},
    {"30 00 0C 0C 00 00 00 01 19 55 3E 44 42 39 99 9A 3F", 3, "03 00 00 00 00 00 00 00 00 00 0C 00 00"},
    {"50 05 0F 91 01 91 1F", 3, "05 00 00 00 00 00 00 05 00 00 0F 00 00"},
    {"60 06 04", 3, "06 00 00 00 00 00 00 06 00 00 00 04 00"},
    {"71 06 02", 3, "07 00 00 00 00 01 00 06 00 00 00 02 00"},
};

static const struct header later_apdus[] = { /* 22 by the edition of 1995; codes 1, 7 and, in a segment, 2 */
    {"00 15 01 0C", 4, "00 00 00 00 00 00 05 01 00 00 0C 00 01"},
    {"00 75 01 0C", 4, "00 00 00 00 00 00 05 01 00 00 0C 00 07"},
    {"0C 25 07 00 02 0C", 6, "00 01 01 00 00 00 05 07 00 02 0C 00 02"},
};

/* The calls by either edition. */
static uint8_t read_first(const uint8_t *s, size_t n, uint8_t *fields, size_t size, size_t *next) { return hb_apdu_read(s, n, 0, fields, size, next); }
static uint8_t read_later(const uint8_t *s, size_t n, uint8_t *fields, size_t size, size_t *next) { return hb_apdu_read(s, n, 1, fields, size, next); }
static uint8_t write_first(const uint8_t *s, size_t n, uint8_t *out, size_t size, size_t *wrote) { return hb_apdu_write(s, n, 0, out, size, wrote); }
static uint8_t write_later(const uint8_t *s, size_t n, uint8_t *out, size_t size, size_t *wrote) { return hb_apdu_write(s, n, 1, out, size, wrote); }

static void headers_read(reader *read, const struct header *h, size_t count, const char *bad, uint8_t number)
{
    uint8_t fields[HB_NPDU];
    size_t next;
    struct octets o;
    for (size_t i = 0; i < count; i++) {
        struct octets r = of(h[i].record);
        o = of(h[i].octets);
        want(read(o.s, o.n, fields, r.n, &next) == 0 && next == h[i].next);
        want_octets(fields, r.n, r);
        want(read(o.s, o.n, fields, r.n - 1, &next) == HB_NO_AREA && next == 0);
        want_octets(fields, r.n, r);
    }
    o = of(bad);
    want(read(o.s, o.n, fields, of(h->record).n, &next) == number && next == 0);
}

/* Each back to the octets that were read, into an area just large enough; then with one field that breaks a rule. */
static void headers_written(writer *write, const struct header *h, size_t count, size_t place, uint8_t value, uint8_t number)
{
    uint8_t out[32];
    size_t wrote;
    for (size_t i = 0; i < count; i++) {
        struct octets r = of(h[i].record), o = of(h[i].octets);
        o.n = h[i].next;
        want(write(r.s, r.n, out, o.n - 1, &wrote) == HB_SMALL && wrote == 0);
        want(write(r.s, r.n, out, o.n, &wrote) == 0);
        want_octets(out, wrote, o);
        want(write(r.s, r.n + 1, out, sizeof out, &wrote) == HB_NO_AREA && wrote == 0);
        r.s[place] = value;
        want(write(r.s, r.n, out, sizeof out, &wrote) == number && wrote == 0);
    }
}

/* What the editions answer to the same octets and records: 22 and then 23 within the second octet; a code that the edition lacks. */
static void editions_compared(void)
{
    static const struct { const char *octets; uint8_t first, later; } second[] = {
        {"00 15 01 0C", HB_APDU_BITS, 0}, {"00 16 01 0C", HB_APDU_BITS, HB_APDU_SIZE}, {"00 85 01 0C", HB_APDU_BITS, HB_APDU_BITS},
        {"00 F5 01 0C", HB_APDU_BITS, HB_APDU_BITS}, {"00 06 01 0C", HB_APDU_SIZE, HB_APDU_SIZE}, {"00 05 01 0C", 0, 0}};
    static const struct { uint8_t code, first, later; } codes[] = {
        {0, 0, 0}, {1, HB_APDU_BITS, 0}, {7, HB_APDU_BITS, 0}, {8, HB_APDU_BITS, HB_APDU_BITS}, {255, HB_APDU_BITS, HB_APDU_BITS}};
    uint8_t fields[HB_APDU], out[8];
    size_t n;
    for (size_t i = 0; i < sizeof second / sizeof *second; i++) {
        struct octets o = of(second[i].octets);
        want(read_first(o.s, o.n, fields, HB_APDU, &n) == second[i].first && read_later(o.s, o.n, fields, HB_APDU, &n) == second[i].later);
        want(hb_apdu_read(o.s, o.n, 255, fields, HB_APDU, &n) == second[i].later);
    }
    for (size_t i = 0; i < sizeof codes / sizeof *codes; i++) {
        struct octets r = of(apdus[0].record);
        r.s[12] = codes[i].code;
        want(write_first(r.s, r.n, out, sizeof out, &n) == codes[i].first && write_later(r.s, r.n, out, sizeof out, &n) == codes[i].later);
    }
    tell("hb_apdu_read and hb_apdu_write by both editions");
}

/* ---- tag items: the parameters of the ReadProperty ack of 004 ---- */

/* One call that is lent so many octets of EE: its number, its count, and the records that it writes; all behind them is as it was. */
static void listed(struct octets o, size_t lent, uint8_t number, size_t items, struct octets records)
{
    uint8_t got[sizeof records.s], wanted[sizeof records.s];
    size_t count = 99;
    memset(got, 0xEE, sizeof got);
    memset(wanted, 0xEE, sizeof wanted);
    memcpy(wanted, records.s, records.n);
    want(hb_items_list(o.s, o.n, got, lent, &count) == number && count == items);
    want(memcmp(got, wanted, sizeof got) == 0);
}

static void items(void)
{
    struct octets o = of("0C 00 00 00 01 19 55 3E 44 42 39 99 9A 3F"), none = of(""), last = o;
    struct octets r = of("01 00 00 00 00 00 00 01 00 00 00 04  01 01 00 00 00 00 00 06 00 00 00 01  02 03 00 00 00 00 00 08 00 00 00 00"
                         "00 04 01 00 00 00 00 09 00 00 00 04  03 03 00 00 00 00 00 0E 00 00 00 00");
    static const uint8_t nulls[HB_SLOT + 1]; /* one octet more than 16,384 */
    uint8_t records[5 * HB_ITEM], item[HB_ITEM], out[16];
    size_t count, next, wrote, met = 0;

    /* no octets are lent: 61 says that all tags are good, and how many items there are; then 12 octets are lent for each */
    want(hb_items_list(o.s, o.n, records, 0, &count) == HB_SMALL && count == 5);
    want(hb_items_list(o.s, o.n, records, HB_ITEM * count, &count) == 0 && count == 5);
    want_octets(records, sizeof records, r);
    /* 61: below 12 octets an item; the area need not be a multiple of 12 */
    listed(o, r.n + 11, 0, 5, r);
    listed(o, r.n, 0, 5, r);
    listed(o, r.n - 1, HB_SMALL, 5, none);
    listed(o, 0, HB_SMALL, 5, none);
    /* no items: no octets are needed */
    listed(none, 0, 0, 0, none);
    listed(none, 36, 0, 0, none);
    /* tags first, however short or long the area: an item that ends early, a group left open, the last closing of another number */
    listed(of("3E 44"), 0, HB_ITEM_ENDS, 0, none);
    listed(of("3E"), r.n, HB_ITEM_OPEN, 0, none);
    last.s[o.n - 1] = 0x4F;
    listed(last, 0, HB_ITEM_CLOSING, 0, none);
    listed(last, r.n, HB_ITEM_CLOSING, 0, none);
    /* the most items, one more, one octet more than 16,384 */
    want(hb_items_list(nulls, 2048, out, 0, &count) == HB_SMALL && count == 2048);
    want(hb_items_list(nulls, 2049, out, 0, &count) == HB_ITEM_COUNT && count == 0);
    want(hb_items_list(nulls, sizeof nulls, out, 0, &count) == HB_ITEM_OCTETS && count == 0);
    tell("hb_items_list");

    want(hb_item_next(o.s, o.n, 0, &next) == 0 && next == 5);
    want(hb_item_next(o.s, o.n, 7, &next) == 0 && next == 14);
    want(hb_item_next(o.s, o.n, 14, &next) == HB_ITEM_ENDS && next == 0);
    want(hb_item_next(nulls, sizeof nulls - 1, 0, &next) == 0 && next == 1);
    want(hb_item_next(nulls, sizeof nulls, 0, &next) == HB_ITEM_OCTETS && next == 0);
    tell("hb_item_next");

    /* what stands in no group: the object, the property and the value's group */
    for (size_t at = 0; hb_item_step(o.s, o.n, at, item, HB_ITEM, &next) == 0 && next; at = next) want(memcmp(item, r.s + HB_ITEM * met++, HB_ITEM) == 0);
    want(met == 3 && next == 0);
    want(hb_item_step(o.s, o.n, 13, item, HB_ITEM, &next) == HB_ITEM_CLOSING && next == 0);
    want(hb_item_step(o.s, o.n, 0, item, HB_ITEM - 1, &next) == HB_NO_AREA && next == 0);
    /* 39: after 60, before the end */
    want(hb_item_step(nulls, sizeof nulls, 0, item, HB_ITEM - 1, &next) == HB_NO_AREA && next == 0);
    want(hb_item_step(nulls, sizeof nulls, sizeof nulls, item, HB_ITEM, &next) == HB_ITEM_OCTETS && next == 0);
    tell("hb_item_step");

    want(hb_items_write(r.s, r.n, o.s, o.n, out, o.n, &wrote) == 0);
    want_octets(out, wrote, o);
    want(hb_items_write(r.s, r.n, o.s, o.n, out, o.n - 1, &wrote) == HB_SMALL && wrote == 0);
    want(hb_items_write(r.s, r.n - HB_ITEM, o.s, o.n, out, sizeof out, &wrote) == HB_NO_READING && wrote == 0);
    tell("hb_items_write");
}

/* ---- services: type, choice, parameters, record, and the value's octets ---- */

static const struct service {
    uint8_t kind, choice;
    const char *params, *record, *value;
} services[] = {
    {0, 12, "0C 00 00 00 01 19 55", "00 00 00 00 00 00 00 01 00 00 00 55 00 00 00 00 00 00 00 00 00 00 00 00 00 00", ""},
    {3, 12, "0C 00 00 00 01 19 55 3E 44 42 39 99 9A 3F", "01 00 00 00 00 00 00 01 00 00 00 55 00 00 00 00 00 00 00 08 00 00 00 05 00 00", "44 42 39 99 9A"},
    {0, 15, "0C 01 00 00 01 19 55 3E 91 00 3F 49 07", "02 00 00 04 00 00 00 01 00 00 00 55 00 00 00 00 00 00 00 08 00 00 00 02 01 07", "91 00"},
    {1, 8, "", "03 00 00 00 00 00 00 00 00 00 00 00 00 00 00 00 00 00 00 00 00 00 00 00 00 00", ""},
    {1, 8, "09 03 19 03", "03 01 00 00 00 00 00 03 00 00 00 03 00 00 00 00 00 00 00 00 00 00 00 00 00 00", ""},
    {1, 0, "C4 02 00 00 01 22 01 E0 91 03 22 02 2B", "04 03 02 2B 00 00 00 01 00 00 01 E0 00 00 00 00 00 00 00 00 00 00 00 00 00 00", ""},
    {5, 15, "91 01 91 1F", "05 00 00 00 00 00 00 01 00 00 00 1F 00 00 00 00 00 00 00 00 00 00 00 00 00 00", ""},
};

static void services_tried(void)
{
    uint8_t fields[HB_SERVICE], out[32];
    size_t wrote, count = sizeof services / sizeof *services;

    for (size_t i = 0; i < count; i++) {
        struct octets p = of(services[i].params), r = of(services[i].record);
        want(hb_service_read(services[i].kind, services[i].choice, p.s, p.n, fields, HB_SERVICE) == 0);
        want_octets(fields, HB_SERVICE, r);
        want(hb_service_read(services[i].kind, services[i].choice, p.s, p.n, fields, HB_SERVICE + 1) == HB_NO_AREA);
        want(hb_service_read(4, services[i].choice, p.s, p.n, fields, HB_SERVICE) == HB_SERVICE_CHOICE);
        want_octets(fields, HB_SERVICE, r);
    }
    want(hb_service_read(0, 12, out, 0, fields, HB_SERVICE) == HB_SERVICE_ITEM);
    want(hb_service_read(3, 12, of("3E").s, 1, fields, HB_SERVICE) == HB_ITEM_OPEN);
    tell("hb_service_read");

    for (size_t i = 0; i < count; i++) {
        struct octets p = of(services[i].params), r = of(services[i].record), v = of(services[i].value);
        want(hb_service_write(r.s, r.n, v.s, v.n, out, p.n, &wrote) == 0);
        want_octets(out, wrote, p);
        want(p.n == 0 || (hb_service_write(r.s, r.n, v.s, v.n, out, p.n - 1, &wrote) == HB_SMALL && wrote == 0));
        want(hb_service_write(r.s, r.n - 1, v.s, v.n, out, sizeof out, &wrote) == HB_NO_AREA && wrote == 0);
        r.s[0] = 6;
        want(hb_service_write(r.s, r.n, v.s, v.n, out, sizeof out, &wrote) == HB_SERVICE_CHOICE && wrote == 0);
    }
    {
        struct octets r = of(services[0].record), w = of(services[2].record), v = of("3F 3E");
        r.s[2] = 4; /* object type 1024 */
        want(hb_service_write(r.s, r.n, v.s, 0, out, sizeof out, &wrote) == HB_SERVICE_VALUE && wrote == 0);
        w.s[24] = 0; /* a value that closes its group and opens another */
        want(hb_service_write(w.s, w.n, v.s, v.n, out, sizeof out, &wrote) == HB_SERVICE_OVER && wrote == 0);
    }
    tell("hb_service_write");
}

/* ---- frames written, messages cut ---- */

/* One call that is lent so many octets of EE: its number, and the frame that it writes; all behind it is as it was. */
static void frame_written(const char *frame, size_t lent, uint8_t number)
{
    struct octets f = of(frame);
    uint8_t got[sizeof f.s], wanted[sizeof f.s];
    size_t data = f.n == 8 ? 0 : f.n - 10, wrote = 99;
    memset(got, 0xEE, sizeof got);
    memset(wanted, 0xEE, sizeof wanted);
    if (number == 0) memcpy(wanted, f.s, f.n);
    want(hb_frame_write(f.s[2], f.s[3], f.s[4], f.s + 8, data, got, lent, &wrote) == number && wrote == (number ? 0 : f.n));
    want(memcmp(got, wanted, sizeof got) == 0);
}

/* Frames of 004: a poll, Who-Is, the ReadProperty ack. */
static void frames_written(void)
{
    static const char *frames[] = {"55 FF 01 02 01 00 00 F5", "55 FF 06 FF 01 00 08 85 01 20 FF FF 00 FF 10 08 15 B6",
                                   "55 FF 06 01 03 00 13 39 01 00 30 00 0C 0C 00 00 00 01 19 55 3E 44 42 39 99 9A 3F 36 C6"};
    static uint8_t data[502], out[512];
    size_t wrote;
    for (size_t i = 0; i < sizeof frames / sizeof *frames; i++) {
        size_t n = of(frames[i]).n;
        frame_written(frames[i], n, 0);
        frame_written(frames[i], n + 9, 0);
        frame_written(frames[i], n - 1, HB_SMALL);
        frame_written(frames[i], 0, HB_SMALL);
    }
    /* the most data octets, and one more: 64 before 61 */
    want(hb_frame_write(6, 1, 3, data, 501, out, 511, &wrote) == 0 && wrote == 511 && hb_data_run(0xFFFF, out + 8, 503) == 0xF0B8);
    want(hb_frame_write(6, 1, 3, data, 502, out, 512, &wrote) == HB_RANGE && wrote == 0);
    want(hb_frame_write(6, 1, 3, data, 502, out, 0, &wrote) == HB_RANGE && wrote == 0);
    tell("hb_frame_write");
}

/* What is cut: by an edition, a header's record and the parameters, so many of them to a segment; then its NPDUs end to end. */
struct whole {
    uint8_t later, reply, priority;
    size_t each;
    const char *record, *params;
    size_t segments;
    const char *npdus;
};

static const struct whole wholes[] = {
    /* the ReadProperty ack of 004, in two segments that are full */
    {0, 0, 0, 7, "03 00 00 00 00 00 00 00 00 01 0C 00 00", "0C 00 00 00 01 19 55 3E 44 42 39 99 9A 3F", 2,
     "01 00 3C 00 00 01 0C 0C 00 00 00 01 19 55  01 00 38 00 01 01 0C 3E 44 42 39 99 9A 3F"},
    /* the WriteProperty request of 004, reply expected; SEG, MOR and number of the record are not looked at */
    {0, 1, 0, 5, "00 00 01 01 00 00 03 05 09 04 0F 00 00", "0C 01 00 00 01 19 55 3E 91 00 3F 49 07", 3,
     "01 04 0E 03 05 00 04 0F 0C 01 00 00 01  01 04 0E 03 05 01 04 0F 19 55 3E 91 00  01 04 0A 03 05 02 04 0F 3F 49 07"},
    /* the same by the later edition, from one that accepts more than 64 segments, at priority 3, in one segment */
    {1, 1, 3, 474, "00 00 00 01 00 00 03 05 00 7F 0F 00 07", "0C 01 00 00 01 19 55 3E 91 00 3F 49 07", 1,
     "01 07 0A 73 05 00 7F 0F 0C 01 00 00 01 19 55 3E 91 00 3F 49 07"},
    /* no parameters: one segment */
    {0, 0, 0, 1, "03 00 00 00 00 00 00 07 00 01 0E 00 00", "", 1, "01 00 38 07 00 01 0E"},
};

/* One call that is lent so many octets of EE: its number, its segments and the NPDUs; all behind them is as it was. */
static void cut(struct whole w, struct octets record, struct octets params, size_t lent, uint8_t number)
{
    struct octets o = of(w.npdus);
    uint8_t got[sizeof o.s], wanted[sizeof o.s];
    size_t wrote = 99, segments = 99;
    memset(got, 0xEE, sizeof got);
    memset(wanted, 0xEE, sizeof wanted);
    if (number == 0) memcpy(wanted, o.s, o.n);
    want(hb_cut(record.s, record.n, w.later, w.reply, w.priority, w.each, params.s, params.n, got, lent, &wrote, &segments) == number);
    want(wrote == (number ? 0 : o.n) && segments == (number ? 0 : w.segments));
    want(memcmp(got, wanted, sizeof got) == 0);
}

/* The NPDUs framed by hb_frame_write as type 6 and fed to a fresh state of the edition: each but the last is held, and the last completes the message. */
static void cut_and_fed(struct whole w)
{
    struct octets o = of(w.npdus), p = of(w.params), f;
    size_t head = of(w.record).s[0] ? 7 : 8;
    uint8_t reports[HB_REPORT] = {4, 0, 6, 1, 3};
    want(hb_fresh(state, HB_STATE, w.later) == 0);
    for (size_t k = 0; k < w.segments; k++) {
        size_t at = k * (head + w.each), n = k + 1 < w.segments ? head + w.each : o.n - at, eaten;
        uint8_t reported;
        want(hb_frame_write(6, 1, 3, o.s + at, n, f.s, sizeof f.s, &f.n) == 0);
        want(hb_feed(state, HB_STATE, f.s, f.n, report, HB_REPORT, area, HB_AREA, &eaten, &reported) == 0 && eaten == f.n && reported == 1);
        reports[0] = k + 1 < w.segments ? 4 : 5;
        reports[5] = o.s[at + 2];
        reports[6] = o.s[at + head - 4];
        reports[11] = (uint8_t)(k + 1 < w.segments ? (k + 1) * w.each : p.n);
        reports[12] = o.s[at + head - 1];
        want(memcmp(report, reports, HB_REPORT) == 0);
    }
    want_octets(area, p.n, p);
}

/* What is refused, from all of it to none: each is mended behind its number, so the next one is met. */
static void cut_refused(void)
{
    static const uint8_t nulls[HB_SLOT + 1];
    static uint8_t out[8 * 256 + HB_SLOT];
    uint8_t r[HB_APDU] = {1, 0, 0, 0, 0, 0, 6, 1, 0, 0, 12, 0, 8}, priority = 4;
    size_t fields = HB_APDU - 1, n = sizeof nulls, each = 475, lent = sizeof out - 1, wrote, segments;
    static const uint8_t numbers[] = {HB_NO_AREA, HB_ITEM_OCTETS, HB_RANGE, HB_RANGE, HB_NPDU_CONTROL, HB_APDU_TYPE, HB_APDU_BITS, HB_APDU_SIZE, HB_SEGMENTS, HB_SMALL, 0};
    for (size_t i = 0; i < sizeof numbers; i++) {
        want(hb_cut(r, fields, 1, 0, priority, each, nulls, n, out, lent, &wrote, &segments) == numbers[i]);
        want(wrote == (numbers[i] ? 0 : sizeof out) && segments == (numbers[i] ? 0 : 256));
        switch (i) {
        case 0: fields = HB_APDU; break;
        case 1: n = HB_SLOT; break;
        case 2: each = 63; break; /* 261 segments; by 64 they are 256 */
        case 3: r[9] = 127; break;
        case 4: priority = 3; break;
        case 5: r[0] = 0; break;
        case 6: r[12] = 7; break;
        case 7: r[6] = 5; break;
        case 8: each = 64; break;
        case 9: lent = sizeof out; break;
        }
    }
}

static void messages_cut(void)
{
    for (size_t i = 0; i < sizeof wholes / sizeof *wholes; i++) {
        struct whole w = wholes[i];
        struct octets r = of(w.record), p = of(w.params);
        size_t n = of(w.npdus).n;
        cut(w, r, p, n, 0);
        cut(w, r, p, n + 9, 0);
        cut(w, r, p, n - 1, HB_SMALL);
        cut(w, r, p, 0, HB_SMALL);
        r.n--;
        cut(w, r, p, n, HB_NO_AREA);
        r.n++;
        r.s[9] = 128;
        cut(w, r, p, n, HB_RANGE);
    }
    cut_refused();
    tell("hb_cut");
    for (size_t i = 0; i < sizeof wholes / sizeof *wholes; i++) cut_and_fed(wholes[i]);
    tell("messages cut, framed and fed");
}

int main(void)
{
    trunk();
    routed();
    behind_255();
    editions();
    recorded();
    sums();
    headers_read(hb_npdu_read, npdus, sizeof npdus / sizeof *npdus, "02 00", HB_NPDU_VERSION);
    tell("hb_npdu_read");
    headers_written(hb_npdu_write, npdus, sizeof npdus / sizeof *npdus, 4, 4, HB_NPDU_CONTROL);
    tell("hb_npdu_write");
    headers_read(read_first, apdus, sizeof apdus / sizeof *apdus, "80 00", HB_APDU_TYPE);
    headers_read(read_later, apdus, sizeof apdus / sizeof *apdus, "80 00", HB_APDU_TYPE);
    headers_read(read_later, later_apdus, sizeof later_apdus / sizeof *later_apdus, "00 85", HB_APDU_BITS);
    tell("hb_apdu_read");
    headers_written(write_first, apdus, sizeof apdus / sizeof *apdus, 0, 8, HB_APDU_TYPE);
    headers_written(write_later, apdus, sizeof apdus / sizeof *apdus, 0, 8, HB_APDU_TYPE);
    headers_written(write_later, later_apdus, sizeof later_apdus / sizeof *later_apdus, 12, 8, HB_APDU_BITS);
    tell("hb_apdu_write");
    editions_compared();
    items();
    services_tried();
    frames_written();
    messages_cut();
    return differs;
}
