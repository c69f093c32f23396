/* Makes the recordings that both listeners are run on: recordings [octets | raw] NAME [N] writes one to standard output.
   A recording is records of four octets: kind (0 octet, 1 silence, 2 forget), value, two zeros; with `octets` its octets' records alone, with `raw` its
   octets as they came.

     idle          tokens and polls of eight masters, a second of a trunk (7,680 octets)
     readings      the same masters, and at every second token one reads a chamber's voltage and is answered
     acks          simple acks, frames with five data octets
     noise         tokens with a bad header check and simple acks with a bad data check, in turn: no frame is good
     full          frames with 501 data octets
     segmented     logs on four keys at once, each of five segments
     routed        eight devices behind two routers, four logs at once; the invoke IDs of all are one
     long [N]      one message of N segments of 45 octets, 300 if N is left out; a silence stands before its last segment
     damaged [N]   N-th random mixture of good, damaged, refused and segmented traffic, silences and forget orders
     requests [N]  the same with more confirmed requests, most of them with a code of segments accepted (bits 6 to 4 of their second octet)
     crossed [N]   the same as damaged, but three conversations at a time have one source, type and invoke ID, and mostly a network header that
                   tells them apart: without addresses, from a device, from one to one
     wrapped [N]   the same as crossed, behind so many segments of three conversations that their next numbers are 255 or 0
     flat N        one segmented message of N items side by side; a silence stands before its last segment
     nested N      the same, sixteen deep
     message N     one segmented message of N octets; the same */
#include <stdint.h>
#include <stdio.h>
#include <stdlib.h>
#include <string.h>

static int octets_alone, raw;

static void record(int kind, int value)
{
    if (kind && (octets_alone || raw)) return;
    if (raw) {
        putchar(value);
        return;
    }
    putchar(kind);
    putchar(value);
    putchar(0);
    putchar(0);
}

static void silence(void) { record(1, 0); }
static void forget(int slot) { record(2, slot); }

static uint64_t seed = 1;
static unsigned below(unsigned n) /* a number from 0 to n - 1 */
{
    seed = seed * 6364136223846793005u + 1442695040888963407u;
    return (unsigned)((seed >> 33) % n);
}

/* ---- frames: made here and by no other code, so that the library's writers can be held against them (bench/traffic.h) */

static uint8_t frame[520];
static int frame_length;

/* Both checks a bit at a time: the polynomials x^8 + x^7 + 1 and x^16 + x^12 + x^5 + 1, low bit first. */
static unsigned sum(const uint8_t *s, int n, unsigned start, unsigned polynomial)
{
    unsigned c = start;
    for (int i = 0; i < n; i++) {
        c ^= s[i];
        for (int bit = 0; bit < 8; bit++) c = c & 1 ? c >> 1 ^ polynomial : c >> 1;
    }
    return c;
}

static void make(int type, int to, int from, const uint8_t *data, int n)
{
    uint8_t *f = frame;
    f[0] = 0x55;
    f[1] = 0xFF;
    f[2] = (uint8_t)type;
    f[3] = (uint8_t)to;
    f[4] = (uint8_t)from;
    f[5] = (uint8_t)(n >> 8);
    f[6] = (uint8_t)n;
    f[7] = (uint8_t)~sum(f + 2, 5, 0xFF, 0x81);
    frame_length = 8;
    if (n == 0) return;
    memcpy(f + 8, data, (size_t)n);
    unsigned check = ~sum(data, n, 0xFFFF, 0x8408);
    f[8 + n] = (uint8_t)check;
    f[9 + n] = (uint8_t)(check >> 8);
    frame_length = n + 10;
}

static void put(const uint8_t *s, int n)
{
    for (int i = 0; i < n; i++) record(0, s[i]);
}

static void send(int type, int to, int from, const uint8_t *data, int n)
{
    make(type, to, from, data, n);
    put(frame, frame_length);
}

/* One segment of a complex ack; the octets after it. */
static int ack(uint8_t *data, int invoke, int number, int more, int choice, const uint8_t *octets, int n)
{
    const uint8_t head[5] = {(uint8_t)(more ? 0x3C : 0x38), (uint8_t)invoke, (uint8_t)number, 8, (uint8_t)choice};
    memcpy(data, head, 5);
    memcpy(data + 5, octets, (size_t)n);
    return n + 5;
}

/* The same behind a network header without addresses. */
static int segment(uint8_t *data, int invoke, int number, int more, int choice, const uint8_t *octets, int n)
{
    data[0] = 0x01;
    data[1] = 0x00;
    return 2 + ack(data + 2, invoke, number, more, choice, octets, n);
}

/* ---- items */

static uint8_t text[16384];
static int text_length;
static void item(const uint8_t *s, int n)
{
    memcpy(text + text_length, s, (size_t)n);
    text_length += n;
}

/* One record of a log: date and time in group 0, a real in group 1. */
static void log_record(int i)
{
    const uint8_t r[] = {0x0E, 0xA4, 126, 11, (uint8_t)(1 + i % 28), 1, 0xB4, (uint8_t)(i % 24), (uint8_t)(i % 60), 0, 0, 0x0F,
                         0x1E, 0x44, 0x42, 0x39, (uint8_t)i, 0x9A, 0x1F};
    item(r, sizeof r);
}

static void log_of(int octets)
{
    text_length = 0;
    for (int i = 0; text_length + 19 <= octets; i++) log_record(i);
}

/* ---- the recordings */

static void idle(void)
{
    int sent = 0;
    for (int turn = 0; sent < 960; turn++) {
        int m = turn % 8;
        send(0, (m + 1) % 8, m, NULL, 0);
        sent++;
        if (turn % 5 == 4 && sent < 960) {
            send(1, 8 + turn % 100, m, NULL, 0);
            sent++;
            silence(); /* nobody answers */
        }
    }
}

/* A ReadProperty request for the present value of an analog input, and its ack with a real. */
static void reading(int to, int from, int invoke, int instance, float volts)
{
    union { float real; uint32_t octets; } v = {volts};
    const uint8_t request[] = {0x01, 0x04, 0x02, 0x03, (uint8_t)invoke, 0x0C, 0x0C, 0, 0, (uint8_t)(instance >> 8), (uint8_t)instance, 0x19, 0x55};
    const uint8_t ack[] = {0x01, 0x00, 0x30, (uint8_t)invoke, 0x0C, 0x0C, 0, 0, (uint8_t)(instance >> 8), (uint8_t)instance, 0x19, 0x55, 0x3E, 0x44,
                           (uint8_t)(v.octets >> 24), (uint8_t)(v.octets >> 16), (uint8_t)(v.octets >> 8), (uint8_t)v.octets, 0x3F};
    send(5, to, from, request, sizeof request);
    send(6, from, to, ack, sizeof ack);
}

static void readings(void)
{
    for (int turn = 0; turn < 240; turn++) {
        int m = turn % 8;
        send(0, (m + 1) % 8, m, NULL, 0);
        if (turn % 2) reading(32 + turn % 64, m, turn % 256, turn * 5 % 512, (float)(2500 + below(1700)) / 1000);
        if (turn % 50 == 49) send(1, 8 + turn % 100, m, NULL, 0);
    }
}

static void simple_ack(int invoke)
{
    const uint8_t data[] = {0x01, 0x00, 0x20, (uint8_t)invoke, 0x0F};
    make(6, 1, 3, data, sizeof data);
}

static void acks(void)
{
    for (int i = 0; i < 500; i++) {
        simple_ack(i);
        put(frame, frame_length);
    }
}

/* One of a token's five header octets, and one of an ack's data octets, has one bit turned. */
static void noise(void)
{
    for (int i = 0; i < 330; i++) {
        make(0, i % 8, 1 + i % 7, NULL, 0);
        frame[2 + i % 5] ^= (uint8_t)(1 << i % 8);
        put(frame, frame_length);
        simple_ack(i);
        frame[8 + i % 5] ^= (uint8_t)(1 << i % 8);
        put(frame, frame_length);
    }
}

static void full(void)
{
    uint8_t data[501];
    for (int i = 0; i < 16; i++) {
        const uint8_t head[5] = {0x01, 0x00, 0x30, (uint8_t)i, 0x0C};
        memcpy(data, head, 5);
        text_length = 0;
        if (i % 2) { /* one long octet string */
            const uint8_t tag[4] = {0x65, 0xFE, 492 >> 8, 492 & 255};
            item(tag, 4);
            for (int j = 0; j < 492; j++) text[text_length++] = (uint8_t)(j * 7 + i);
        } else { /* reals, and one null to fill up */
            for (int j = 0; j < 99; j++) {
                const uint8_t real[5] = {0x44, 0x42, (uint8_t)j, (uint8_t)i, 0x9A};
                item(real, 5);
            }
            item((const uint8_t[]){0x00}, 1);
        }
        memcpy(data + 5, text, 496);
        send(6, 1, 3, data, 501);
    }
}

static void segmented(void)
{
    uint8_t data[501];
    log_of(2280);
    for (int number = 0; number < 5; number++)
        for (int key = 0; key < 4; key++) {
            int from = number * 460, n = text_length - from < 460 ? text_length - from : 460;
            int size = segment(data, 10 + key, number, number < 4, 14, text + from, n);
            send(6, 1, 3 + key / 2, data, size);
        }
}

/* Two rounds of four devices each, two behind each router and on one network: behind router 3 with addresses of one octet, behind router 4 of six. */
static void routed(void)
{
    uint8_t data[501];
    log_of(2280);
    for (int round = 0; round < 2; round++)
        for (int number = 0; number < 5; number++)
            for (int i = 0; i < 4; i++) {
                int d = round * 4 + i, far = i / 2, from = number * 460, n = text_length - from < 460 ? text_length - from : 460;
                const uint8_t short_one[6] = {0x01, 0x08, 0, 10, 1, (uint8_t)(d + 1)}, long_one[11] = {0x01, 0x08, 0, 11, 6, 0xC0, 0xA8, 0x01, (uint8_t)(d + 1), 0xBA, 0xC0};
                int at = far ? 11 : 6;
                memcpy(data, far ? long_one : short_one, (size_t)at);
                int size = at + ack(data + at, 10, number, number < 4, 14, text + from, n);
                send(6, 1, 3 + far, data, size);
            }
}

/* One message in segments of so many octets, with a silence before the last. The number after 255 is 0. */
static void one_message(int most)
{
    uint8_t data[501];
    int last = text_length ? (text_length - 1) / most : 0;
    for (int number = 0; number <= last; number++) {
        int from = number * most, n = number < last ? most : text_length - from;
        int size = segment(data, 1, number, number < last, 14, text + from, n);
        if (number == last) silence();
        send(6, 1, 3, data, size);
    }
}

static void flat(int items)
{
    for (int i = 0; i < items; i++) item((const uint8_t[]){0x21, (uint8_t)i}, 2);
    one_message(460);
}

/* Towers of sixteen openings, the items of the rest inside them, sixteen closings. */
static void nested(int items)
{
    while (32 < items) {
        int inside = items < 64 ? items - 32 : 32;
        for (int i = 0; i < 16; i++) item((const uint8_t[]){0x3E}, 1);
        for (int i = 0; i < inside; i++) item((const uint8_t[]){0x21, (uint8_t)i}, 2);
        for (int i = 0; i < 16; i++) item((const uint8_t[]){0x3F}, 1);
        items -= 32 + inside;
    }
    for (int i = 0; i < items; i++) item((const uint8_t[]){0x21, (uint8_t)i}, 2);
    one_message(460);
}

/* Texts of 17 characters, and nulls to fill up: 16,384 octets are 823 items. */
static void message(int octets, int most)
{
    while (text_length + 20 <= octets) item((const uint8_t *)"\x75\x12\0Chamber 12 closed", 20);
    while (text_length < octets) item((const uint8_t[]){0x00}, 1);
    one_message(most);
}

/* ---- damaged traffic */

/* Items that are often good; now and then one with a fault, or a cut. */
static void some_items(void)
{
    static const uint8_t good[][8] = {{2, 0x21, 5}, {5, 0x44, 0x42, 0x39, 0x99, 0x9A}, {1, 0x10}, {1, 0x11}, {1, 0x00}, {3, 0x32, 0xFF, 0x7F},
        {5, 0xC4, 2, 0, 0, 1}, {2, 0x09, 0x55}, {3, 0x72, 0, 0x41}, {3, 0x82, 4, 0}, {2, 0x91, 3}, {7, 0x65, 5, 1, 2, 3, 4, 5}, {4, 0xF9, 0x20, 1, 0x00}};
    static const uint8_t bad[][8] = {{3, 0x22, 0, 5}, {3, 0x32, 0xFF, 0x80}, {2, 0x81, 1}, {1, 0x20}, {1, 0xD1}, {1, 0x15}, {2, 0x65, 4}, {2, 0xF0, 5}, {1, 0x3F},
        {2, 0x71, 6}, {2, 0xF8, 0x0E}, {4, 0x65, 0xFE, 0, 0xFD}, {6, 0x65, 0xFF, 0, 1, 0, 0}, {6, 0x2D, 0xFF, 0, 0, 1, 0}, {1, 0x46}};
    int open[16], depth = 0;
    text_length = 0;
    for (int i = (int)below(40); i; i--) {
        unsigned what = below(100);
        if (what < 12 && depth < 16) {
            open[depth] = (int)below(15);
            text[text_length++] = (uint8_t)(open[depth++] << 4 | 0x0E);
        } else if (what < 24 && depth) {
            text[text_length++] = (uint8_t)(open[--depth] << 4 | 0x0F);
        } else if (what < 25) {
            const uint8_t *x = bad[below(sizeof bad / 8)];
            item(x + 1, x[0]);
        } else {
            const uint8_t *x = good[below(sizeof good / 8)];
            item(x + 1, x[0]);
        }
    }
    while (depth && below(60)) text[text_length++] = (uint8_t)(open[--depth] << 4 | 0x0F);
    if (text_length && below(40) == 0) text_length -= 1 + (int)below((unsigned)text_length);
}

static int some_network(uint8_t *s)
{
    int n = 2;
    unsigned control = below(20) ? below(8) : below(256);
    if (below(4) == 0) control |= 0x20;
    if (below(4) == 0) control |= 0x08;
    if (below(25) == 0) control |= 0x80;
    if (below(20)) control &= 0xAF;
    s[0] = below(60) ? 1 : (uint8_t)below(256);
    s[1] = (uint8_t)control;
    for (int part = 0x20; part; part = part == 0x20 ? 0x08 : 0)
        if (control & (unsigned)part) {
            int length = below(15) ? 1 + (int)below(7) : (int)below(9);
            unsigned net = below(30) ? 1 + below(65534) : below(2) * 65535;
            s[n++] = (uint8_t)(net >> 8);
            s[n++] = (uint8_t)net;
            s[n++] = (uint8_t)length;
            for (int i = 0; i < length; i++) s[n++] = (uint8_t)below(256);
        }
    if (control & 0x20) s[n++] = 255;
    if (control & 0x80) {
        s[n] = (uint8_t)below(256);
        if (s[n++] >= 128) {
            s[n++] = (uint8_t)below(256);
            s[n++] = (uint8_t)below(256);
        }
    }
    return n;
}

static int coded; /* whether requests have codes of segments accepted */

/* A request's second octet: the size code; where requests have codes, most often with one, now and then with bit 7 or another size code. */
static uint8_t second(unsigned size)
{
    if (!coded || below(4) == 0) return (uint8_t)size;
    unsigned code = below(15) ? below(8) : 8 + below(8);
    return (uint8_t)(code << 4 | (below(15) ? size : below(16)));
}

static int some_apdu(uint8_t *s)
{
    unsigned kind = coded && below(2) ? 0 : below(30) ? below(8) : below(16), bits = below(12) ? 0 : below(16);
    int n = 1;
    s[0] = (uint8_t)(kind << 4 | bits);
    if (kind == 0) s[n++] = second(below(20) ? below(6) : below(256));
    if (kind != 1) s[n++] = (uint8_t)below(4);
    if (kind == 0 || kind == 3)
        if (bits & 8) {
            s[n++] = (uint8_t)below(3);
            s[n++] = (uint8_t)(below(10) ? 1 + below(127) : below(256));
        }
    s[n++] = (uint8_t)below(20);
    if (kind == 4) s[n++] = (uint8_t)(1 + below(127));
    if (kind == 0 || kind == 1 || kind == 3 || kind == 5 || below(20) == 0) {
        some_items();
        int length = text_length < 400 ? text_length : 400;
        memcpy(s + n, text, (size_t)length);
        n += length;
    } else if (below(20) == 0)
        n -= (int)below((unsigned)n);
    return n;
}

/* The network header of a conversation: without addresses, from a device behind a router, or from one to one. */
static int own_network(uint8_t *s, int key)
{
    const uint8_t near[2] = {0x01, 0x00}, from[6] = {0x01, 0x08, 0, 7, 1, (uint8_t)key};
    const uint8_t both[13] = {0x01, 0x28, 0, 9, 2, 5, (uint8_t)(key / 5), 0, 7, 2, 5, 0, 255};
    const uint8_t *head = key % 3 == 0 ? near : key % 3 == 1 ? from : both;
    int n = key % 3 == 0 ? 2 : key % 3 == 1 ? 6 : 13;
    memcpy(s, head, (size_t)n);
    s[1] |= (uint8_t)below(8); /* priority and the reply bit take no part in a key */
    return n;
}

/* Six conversations over four slots; some lose a segment, repeat one, change their choice. Crossed, three at a time are told apart by their network headers alone. */
static int next_number[6], crossed;
static int some_segment(uint8_t *s, int key)
{
    int n = crossed && below(12) ? own_network(s, key) : some_network(s);
    int number = below(12) ? next_number[key] : (int)below(4), more = below(5) != 0;
    if (below(200) == 0) number = 255;
    some_items();
    if (below(3) == 0) {
        int whole = (int)below(60);
        text_length = 0;
        for (int i = 0; i < whole; i++) item((const uint8_t[]){0x44, 1, 2, 3, 4}, 5);
    }
    int length = text_length < 400 ? text_length : 400;
    int front = crossed ? key / 3 : key, kind = front % 2 ? 0x30 : 0x00;
    s[n++] = (uint8_t)(kind | 8 | (more ? 4 : 0));
    if (kind == 0) s[n++] = second(5);
    s[n++] = (uint8_t)(front / 2);
    s[n++] = (uint8_t)number;
    s[n++] = (uint8_t)(1 + below(127));
    s[n++] = (uint8_t)(below(30) ? 12 : 15);
    memcpy(s + n, text, (size_t)length);
    next_number[key] = more ? number + 1 : 0;
    return n + length;
}

/* The complex acks among crossed conversations, run up to number 255 or 0, with nothing held, a full slot or something between. At 0 some try another choice. */
static int wrapped;
static void run_up(void)
{
    uint8_t data[501];
    for (int i = 0; i < 4; i++) item((const uint8_t *)"\x75\x0E\0Chamber 12 ok", 16);
    for (int key = 3; key < 6; key++) {
        int segments = 255 + (int)below(3), length = 16 * (int)below(5);
        for (int number = 0; number < segments; number++) {
            int n = own_network(data, key);
            n += ack(data + n, 0, number, 1, number < 256 ? 12 : 15, text, length);
            send(6, 1, 3, data, n);
        }
        next_number[key] = segments == 255 ? 255 : 0;
    }
}

/* A frame that is made good and then, now and then, harmed. */
static void some_frame(void)
{
    uint8_t data[520];
    int n = 0, type = below(4) ? 5 + (int)below(2) : (int)below(256), to = (int)below(256), from = (int)below(256);
    if (type == 5 || type == 6) {
        if (below(3)) {
            int key = (int)below(6);
            to = 1;
            from = 2 + key / 3;
            n = some_segment(data, key);
        } else {
            n = some_network(data);
            if (below(10)) n += some_apdu(data + n);
        }
    } else if (below(2)) {
        n = (int)below(60);
        for (int i = 0; i < n; i++) data[i] = (uint8_t)below(256);
    }
    if (501 < n) n = 501;
    make(type, to, from, data, n);
    switch (below(30)) {
    case 0: frame[below((unsigned)frame_length)] ^= (uint8_t)(1 << below(8)); break;
    case 1: frame_length = (int)below((unsigned)frame_length); break; /* cut short */
    case 2: /* a length that is too long, its check good */
        frame[5] = (uint8_t)(1 + below(4));
        frame[6] = (uint8_t)below(256);
        frame[7] = (uint8_t)~sum(frame + 2, 5, 0xFF, 0x81);
        break;
    }
    put(frame, frame_length);
}

static void damaged(int which)
{
    seed = (uint64_t)which * 977 + 5;
    if (wrapped) run_up();
    for (int i = 0; i < 120; i++) {
        some_frame();
        switch (below(12)) {
        case 0: case 1: case 2: silence(); break;
        case 3: for (int j = (int)below(20); j; j--) record(0, below(3) ? (int)below(256) : 0x55); break;
        case 4: record(0, 0x55); break;
        case 5: if (below(3) == 0) forget((int)below(6)); break;
        }
    }
}

int main(int argc, char **argv)
{
    octets_alone = argc > 1 && !strcmp(argv[1], "octets");
    raw = argc > 1 && !strcmp(argv[1], "raw");
    if (octets_alone || raw) argc--, argv++;
    const char *name = argc < 2 ? "" : argv[1];
    int n = argc < 3 ? 0 : atoi(argv[2]);
    if (!strcmp(name, "idle")) idle();
    else if (!strcmp(name, "readings")) readings();
    else if (!strcmp(name, "acks")) acks();
    else if (!strcmp(name, "noise")) noise();
    else if (!strcmp(name, "full")) full();
    else if (!strcmp(name, "segmented")) segmented();
    else if (!strcmp(name, "routed")) routed();
    else if (!strcmp(name, "long") && n <= 364) message(45 * (n ? n : 300), 45);
    else if (!strcmp(name, "damaged")) damaged(n);
    else if (!strcmp(name, "requests")) coded = 1, damaged(n);
    else if (!strcmp(name, "crossed")) crossed = 1, damaged(n);
    else if (!strcmp(name, "wrapped")) crossed = wrapped = 1, damaged(n);
    else if (!strcmp(name, "flat") && n <= 4096) flat(n);
    else if (!strcmp(name, "nested") && n <= 4096) nested(n);
    else if (!strcmp(name, "message") && n <= 16384) message(n, 460);
    else {
        fputs("usage: recordings [octets | raw] idle | readings | acks | noise | full | segmented | routed | long [N] | damaged [N] | requests [N] | crossed [N] |\n"
              "       wrapped [N] | flat N | nested N | message N\n", stderr);
        return 2;
    }
    return 0;
}
