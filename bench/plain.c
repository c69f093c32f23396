/* The listener of plain.h, from the rules page alone. It judges neither 59 nor 60: its caller owns the state and the areas. */
#include "plain.h"

enum { HUNTING, PREAMBLE, HEADER, DATA };
enum { NOTHING = -1, FRAME = 0 }; /* above 0: damage */
enum { ROOM = 16384 };

/* ---- check sums: with -DTABLES one look-up an octet, else as Annex G works them out, all eight bits of an octet at once */

#ifdef TABLES
#define HEADER_MIX(c) ((c) ^ (c) << 1 ^ (c) << 2 ^ (c) << 3 ^ (c) << 4 ^ (c) << 5 ^ (c) << 6 ^ (c) << 7)
#define HEADER_SUM(c) ((HEADER_MIX(c) & 0xFE) ^ (HEADER_MIX(c) >> 8 & 1))
#define DATA_SUM(low) ((low) << 8 ^ (low) << 3 ^ (low) << 12 ^ (low) >> 4 ^ ((low) & 0x0F) ^ ((low) & 0x0F) << 7)
#define HEADER_ENTRY(c) (uint8_t)HEADER_SUM(c)
#define DATA_ENTRY(c) (uint16_t)DATA_SUM(c)
#define FOUR(entry, c) entry(c), entry((c) + 1), entry((c) + 2), entry((c) + 3)
#define SIXTEEN(entry, c) FOUR(entry, c), FOUR(entry, (c) + 4), FOUR(entry, (c) + 8), FOUR(entry, (c) + 12)
#define SIXTY_FOUR(entry, c) SIXTEEN(entry, c), SIXTEEN(entry, (c) + 16), SIXTEEN(entry, (c) + 32), SIXTEEN(entry, (c) + 48)
#define EVERY(entry) SIXTY_FOUR(entry, 0u), SIXTY_FOUR(entry, 64u), SIXTY_FOUR(entry, 128u), SIXTY_FOUR(entry, 192u)

static const uint8_t header_sums[256] = {EVERY(HEADER_ENTRY)};
static const uint16_t data_sums[256] = {EVERY(DATA_ENTRY)};

static uint8_t header_step(uint8_t sum, uint8_t b)
{
    return header_sums[sum ^ b];
}

static uint16_t data_step(uint16_t sum, uint8_t b)
{
    return (uint16_t)(sum >> 8 ^ data_sums[(sum ^ b) & 0xFF]);
}
#else
static uint8_t header_step(uint8_t sum, uint8_t b)
{
    unsigned c = sum ^ b;
    c = c ^ (c << 1) ^ (c << 2) ^ (c << 3) ^ (c << 4) ^ (c << 5) ^ (c << 6) ^ (c << 7);
    return (uint8_t)((c & 0xFE) ^ ((c >> 8) & 1));
}

static uint16_t data_step(uint16_t sum, uint8_t b)
{
    unsigned low = (sum & 0xFF) ^ b;
    return (uint16_t)((sum >> 8) ^ (low << 8) ^ (low << 3) ^ (low << 12) ^ (low >> 4) ^ (low & 0x0F) ^ ((low & 0x0F) << 7));
}
#endif

uint8_t plain_header_run(uint8_t sum, const uint8_t *s, size_t n)
{
    while (n--) sum = header_step(sum, *s++);
    return sum;
}

uint16_t plain_data_run(uint16_t sum, const uint8_t *s, size_t n)
{
    while (n--) sum = data_step(sum, *s++);
    return sum;
}

/* ---- tag items */

static int fits(unsigned type, uint32_t n)
{
    switch (type) {
    case 0: return n == 0;
    case 2: case 3: case 9: return 1 <= n && n <= 4;
    case 4: case 10: case 11: case 12: return n == 4;
    case 5: return n == 8;
    case 7: case 8: return 1 <= n;
    default: return 1;
    }
}

/* An extended length from `at` on: the place after it, or minus 30 or 32. */
static int extended(const uint8_t *s, size_t n, size_t at, uint32_t *length)
{
    if (n <= at) return -30;
    unsigned first = s[at++], more = first == 255 ? 4 : first == 254 ? 2 : 0;
    uint32_t v = more ? 0 : first;
    for (unsigned i = 0; i < more; i++) {
        if (n <= at) return -30;
        v = v << 8 | s[at++];
    }
    if (v < (more == 4 ? 65536u : more == 2 ? 254u : 5u)) return -32;
    *length = v;
    return (int)at;
}

/* The contents of an application item: 0, 30 or 34. */
static int contents(const uint8_t *s, size_t n, size_t at, unsigned type, uint32_t length)
{
    if (length && n <= at) return 30;
    switch (type) {
    case 2: case 9:
        if (1 < length && s[at] == 0) return 34;
        break;
    case 3:
        if (1 < length) {
            if (n <= at + 1) return 30;
            if ((s[at] == 0 && s[at + 1] < 128) || (s[at] == 255 && 128 <= s[at + 1])) return 34;
        }
        break;
    case 7:
        if (5 < s[at]) return 34;
        break;
    case 8:
        if (7 < s[at] || (length == 1 && s[at] != 0)) return 34;
        break;
    }
    return n < at + length ? 30 : 0;
}

int plain_items(const uint8_t *s, size_t n)
{
    uint8_t open[16];
    int depth = 0, items = 0;
    size_t at = 0;
    if (ROOM < n) return -39;
    while (at < n) {
        unsigned tag = s[at++], number = tag >> 4, low = tag & 7, context = tag & 8, type = number;
        if (items++ == 2048) return -38;
        if (!context && (number == 13 || number == 14)) return -31;
        if (!context && 6 <= low) return -32;
        if (!context && number == 1 && 2 <= low) return -32;
        if (number == 15) {
            if (n <= at) return -30;
            number = s[at++];
            if (!context || number < 15 || number == 255) return -31;
        }
        if (context && low == 7) {
            if (depth == 0 || open[depth - 1] != number) return -35;
            depth--;
            continue;
        }
        if (context && low == 6) {
            if (depth == 16) return -37;
            open[depth++] = (uint8_t)number;
            continue;
        }
        if (!context && number == 1) continue;
        uint32_t length = low;
        if (low == 5) {
            int after = extended(s, n, at, &length);
            if (after < 0) return after;
            at = (size_t)after;
        }
        if (ROOM < length || (!context && !fits(type, length))) return -33;
        int refused = context ? (n < at + length ? 30 : 0) : contents(s, n, at, type, length);
        if (refused) return -refused;
        at += length;
    }
    return depth ? -36 : items;
}

/* ---- headers */

/* The network header: the place after it and whether a network message follows, or minus the refusal number. */
static int network_part(const uint8_t *s, size_t n, size_t at, unsigned least, unsigned most)
{
    if (n < at + 2) return -10;
    unsigned net = (unsigned)s[at] << 8 | s[at + 1];
    if (net == 0 || most < net) return -14;
    if (n < at + 3) return -10;
    unsigned length = s[at + 2];
    if (length < least || 7 < length) return -13;
    if (n < at + 3 + length) return -10;
    return (int)(at + 3 + length);
}

/* The two parts of a network header as they stand in its octets, NULL where one is absent. */
struct route {
    const uint8_t *to, *from;
};

static int network_header(const uint8_t *s, size_t n, int *message, struct route *v)
{
    if (n < 1) return -10;
    if (s[0] != 1) return -11;
    if (n < 2) return -10;
    unsigned control = s[1];
    if (control & 0x50) return -12;
    int at = 2;
    v->to = control & 0x20 ? s + at : NULL;
    if (control & 0x20 && (at = network_part(s, n, (size_t)at, 0, 65535)) < 0) return at;
    v->from = control & 0x08 ? s + at : NULL;
    if (control & 0x08 && (at = network_part(s, n, (size_t)at, 1, 65534)) < 0) return at;
    if (control & 0x20) {
        if (n <= (size_t)at) return -10;
        at++;
    }
    *message = control >> 7;
    if (*message) {
        if (n <= (size_t)at) return -10;
        unsigned type = s[at++];
        if (128 <= type) {
            if (n < (size_t)at + 2) return -10;
            at += 2;
        }
    }
    return at;
}

struct apdu {
    unsigned kind, invoke, choice, seg, mor, number, at; /* at: where the parameters begin */
};

/* Number and window if it is a segment, and the choice. */
static int service_part(const uint8_t *s, size_t n, struct apdu *a)
{
    a->seg = s[0] >> 3 & 1;
    a->mor = s[0] >> 2 & 1;
    if (a->seg) {
        if (n < a->at + 2) return 20;
        a->number = s[a->at];
        if (s[a->at + 1] == 0 || 127 < s[a->at + 1]) return 23;
        a->at += 2;
    }
    if (n <= a->at) return 20;
    a->choice = s[a->at++];
    return 0;
}

/* 0, or the refusal number. By the later edition bits 6 to 4 of a request's second octet are the segments accepted. */
static int apdu_header(const uint8_t *s, size_t n, int later, struct apdu *a)
{
    *a = (struct apdu){0};
    if (n == 0) return 20;
    unsigned bits = s[0] & 15;
    a->kind = s[0] >> 4;
    switch (a->kind) {
    case 0:
        if (bits & 1 || (bits & 12) == 4) return 22;
        if (n < 2) return 20;
        if ((later ? 7 : 0) < s[1] >> 4) return 22;
        if (5 < (s[1] & 15)) return 23;
        if (n < 3) return 20;
        a->invoke = s[2];
        a->at = 3;
        return service_part(s, n, a);
    case 1:
        if (bits) return 22;
        if (n < 2) return 20;
        a->choice = s[1];
        a->at = 2;
        return 0;
    case 3:
        if (bits & 3 || (bits & 12) == 4) return 22;
        if (n < 2) return 20;
        a->invoke = s[1];
        a->at = 2;
        return service_part(s, n, a);
    case 4:
        if (bits & 12) return 22;
        if (n < 4) return 20;
        if (s[3] == 0 || 127 < s[3]) return 23;
        a->invoke = s[1];
        a->at = 4;
        return 4 < n ? 24 : 0;
    case 2: case 5: case 6: case 7:
        if (bits & (a->kind == 7 ? 14 : 15)) return 22;
        if (n < 3) return 20;
        a->invoke = s[1];
        if (a->kind == 2 || a->kind == 5) a->choice = s[2];
        a->at = 3;
        return a->kind != 5 && 3 < n ? 24 : 0;
    default:
        return 21;
    }
}

/* ---- reports */

static void blank(uint8_t *r, unsigned kind, unsigned number)
{
    for (int i = 0; i < 16; i++) r[i] = 0;
    r[0] = (uint8_t)kind;
    r[1] = (uint8_t)number;
}

static void headed(const struct plain *p, uint8_t *r, unsigned kind, unsigned number)
{
    blank(r, kind, number);
    r[2] = p->type;
    r[3] = p->destination;
    r[4] = p->source;
}

static void sized(uint8_t *r, uint32_t length)
{
    r[8] = (uint8_t)(length >> 24);
    r[9] = (uint8_t)(length >> 16);
    r[10] = (uint8_t)(length >> 8);
    r[11] = (uint8_t)length;
}

static void message(const struct plain *p, uint8_t *r, unsigned kind, unsigned first, const struct apdu *a, unsigned slot, uint32_t length)
{
    headed(p, r, kind, 0);
    r[5] = (uint8_t)first;
    r[6] = (uint8_t)a->invoke;
    r[7] = (uint8_t)slot;
    sized(r, length);
    r[12] = (uint8_t)a->choice;
}

/* ---- rebuilding */

/* Whether an address is the one of a header's part: its octets with its length. */
static int same_address(const struct plain_address *a, const uint8_t *part)
{
    if (!part) return !a->here;
    if (!a->here || a->net != (part[0] << 8 | part[1]) || a->length != part[2]) return 0;
    for (int i = 0; i < a->length; i++)
        if (a->octets[i] != part[3 + i]) return 0;
    return 1;
}

static struct plain_address address_of(const uint8_t *part)
{
    struct plain_address a = {0};
    if (!part) return a;
    a.here = 1;
    a.net = (uint16_t)(part[0] << 8 | part[1]);
    a.length = part[2];
    for (int i = 0; i < a.length; i++) a.octets[i] = part[3 + i];
    return a;
}

static struct plain_slot *slot_of(struct plain *p, const struct route *v, const struct apdu *a)
{
    for (int i = 0; i < 4; i++) {
        struct plain_slot *s = &p->slots[i];
        if (s->used && s->source == p->source && s->destination == p->destination && s->kind == a->kind && s->invoke == a->invoke &&
            same_address(&s->from, v->from) && same_address(&s->to, v->to)) return s;
    }
    return NULL;
}

static struct plain_slot *free_slot(struct plain *p)
{
    for (int i = 0; i < 4; i++)
        if (!p->slots[i].used) return &p->slots[i];
    return NULL;
}

/* Whether a segment starts its key's message, or starts it anew: number 0 does, but where the slot that the key has open awaits 0. */
static int starts(const struct plain_slot *s, const struct apdu *a)
{
    return a->number == 0 && (!s || s->next != 0);
}

/* Whether a segment goes on where its key's slot stands: 0, or its refusal number; 54 frees the slot. */
static int goes_on(struct plain_slot *s, const struct apdu *a, size_t n)
{
    if (!s) return 51;
    if (a->number != s->next) return 52;
    if (a->choice != s->choice) return 53;
    if (s->held + n <= ROOM) return 0;
    *s = (struct plain_slot){0};
    return 54;
}

/* A segment: its refusal number, or 0 and the report is made. The number after 255 is 0. */
static int segment(struct plain *p, const struct route *v, unsigned first, const struct apdu *a, const uint8_t *octets, size_t n, uint8_t *r, uint8_t *area)
{
    struct plain_slot *s = slot_of(p, v, a);
    if (!starts(s, a)) {
        int refused = goes_on(s, a, n);
        if (refused) return refused;
    } else {
        if (!s) s = free_slot(p);
        if (!s) return 50;
        *s = (struct plain_slot){1, p->source, p->destination, (uint8_t)a->kind, (uint8_t)a->invoke, 0, (uint8_t)a->choice, 0, address_of(v->from), address_of(v->to)};
    }
    unsigned i = (unsigned)(s - p->slots);
    uint8_t *from = area + (size_t)ROOM * i;
    for (size_t j = 0; j < n; j++) from[s->held + j] = octets[j];
    s->held = (uint16_t)(s->held + n);
    s->next = (uint8_t)(a->number + 1);
    if (a->mor) {
        message(p, r, 4, first, a, i, s->held);
        return 0;
    }
    uint32_t total = s->held;
    *s = (struct plain_slot){0};
    int items = plain_items(from, total);
    if (items < 0) return -items;
    message(p, r, 5, first, a, i, total);
    return 0;
}

/* ---- a good frame */

static int apdu_frame(struct plain *p, const struct route *v, const uint8_t *s, size_t n, uint8_t *r, uint8_t *area)
{
    struct apdu a;
    int refused = apdu_header(s, n, p->later, &a);
    if (refused) return refused;
    if (a.seg) return segment(p, v, s[0], &a, s + a.at, n - a.at, r, area);
    int items = plain_items(s + a.at, n - a.at);
    if (items < 0) return -items;
    message(p, r, 3, s[0], &a, 0, (uint32_t)n);
    return 0;
}

static int bacnet_frame(struct plain *p, uint8_t *r, uint8_t *area)
{
    struct route v;
    int network = 0, at = network_header(p->store, p->length, &network, &v);
    if (at < 0) return -at;
    if (!network) return apdu_frame(p, &v, p->store + at, (size_t)(p->length - at), r, area);
    headed(p, r, 7, 0);
    sized(r, (uint32_t)(p->length - at));
    return 0;
}

static void good_frame(struct plain *p, uint8_t *r, uint8_t *area)
{
    if (p->type == 5 || p->type == 6) {
        int refused = bacnet_frame(p, r, area);
        if (refused) headed(p, r, 6, (unsigned)refused);
        return;
    }
    headed(p, r, 1, 0);
    sized(r, p->length);
}

/* ---- the receiver */

static int header_octet(struct plain *p, uint8_t b)
{
    p->header_sum = header_step(p->header_sum, b);
    switch (p->got++) {
    case 0: p->type = b; return NOTHING;
    case 1: p->destination = b; return NOTHING;
    case 2: p->source = b; return NOTHING;
    case 3: p->length = (uint16_t)(b << 8); return NOTHING;
    case 4: p->length |= b; return NOTHING;
    }
    p->phase = HUNTING;
    if (p->header_sum != 0x55) return 1;
    if (501 < p->length) return 2;
    if (p->length == 0) return FRAME;
    p->phase = DATA;
    p->data_sum = 0xFFFF;
    p->got = 0;
    return NOTHING;
}

static int data_octet(struct plain *p, uint8_t b)
{
    p->data_sum = data_step(p->data_sum, b);
    if (p->got < p->length) p->store[p->got] = b;
    if (p->got++ <= p->length) return NOTHING;
    p->phase = HUNTING;
    return p->data_sum == 0xF0B8 ? FRAME : 3;
}

static int octet(struct plain *p, uint8_t b)
{
    switch (p->phase) {
    case HUNTING:
        if (b == 0x55) p->phase = PREAMBLE;
        return NOTHING;
    case PREAMBLE:
        if (b == 0xFF) {
            p->phase = HEADER;
            p->header_sum = 0xFF;
            p->got = 0;
        } else if (b != 0x55)
            p->phase = HUNTING;
        return NOTHING;
    case HEADER:
        return header_octet(p, b);
    default:
        return data_octet(p, b);
    }
}

void plain_fresh(struct plain *p, int later)
{
    *p = (struct plain){0};
    p->later = later != 0;
}

size_t plain_feed(struct plain *p, const uint8_t *piece, size_t n, uint8_t *report, uint8_t *area, int *reported)
{
    *reported = 0;
    for (size_t i = 0; i < n; i++) {
        int ended = octet(p, piece[i]);
        if (ended == NOTHING) continue;
        *reported = 1;
        if (ended == FRAME)
            good_frame(p, report, area);
        else
            blank(report, 2, (unsigned)ended);
        return i + 1;
    }
    return n;
}

int plain_silence(struct plain *p, uint8_t *report)
{
    int within = p->phase == HEADER || p->phase == DATA;
    p->phase = HUNTING;
    if (within) blank(report, 2, 4);
    return within;
}

int plain_forget(struct plain *p, unsigned slot)
{
    if (3 < slot || !p->slots[slot].used) return 56;
    p->slots[slot] = (struct plain_slot){0};
    return 0;
}

/* ---- frames written, messages cut */

int plain_frame(unsigned type, unsigned destination, unsigned source, const uint8_t *s, size_t n, uint8_t *out, size_t room)
{
    uint16_t sum;
    if (501 < n) return -64;
    if (room < (n ? n + 10 : 8)) return -61;
    out[0] = 0x55;
    out[1] = 0xFF;
    out[2] = (uint8_t)type;
    out[3] = (uint8_t)destination;
    out[4] = (uint8_t)source;
    out[5] = (uint8_t)(n >> 8);
    out[6] = (uint8_t)n;
    out[7] = (uint8_t)~plain_header_run(0xFF, out + 2, 5);
    if (n == 0) return 8;
    for (size_t i = 0; i < n; i++) out[8 + i] = s[i];
    sum = (uint16_t)~plain_data_run(0xFFFF, s, n);
    out[8 + n] = (uint8_t)sum;
    out[9 + n] = (uint8_t)(sum >> 8);
    return (int)n + 10;
}

/* Record octets: 0 type, 3 SA, 6 size code, 7 invoke ID, 9 window, 10 choice, 12 segments accepted. */
int plain_cut(const uint8_t *fields, int later, int reply, unsigned priority, size_t each, const uint8_t *s, size_t n, uint8_t *out, size_t room, size_t *segments)
{
    size_t count, to = 0;
    int request = fields[0] == 0;
    if (ROOM < n) return -39;
    if (each < 1 || 474 < each || fields[9] < 1 || 127 < fields[9]) return -64;
    if (3 < priority) return -12;
    if (!request && fields[0] != 3) return -21;
    if (request && (later ? 7 : 0) < fields[12]) return -22;
    if (request && 5 < fields[6]) return -23;
    count = n ? (n + each - 1) / each : 1;
    if (256 < count) return -63;
    if (room < count * (request ? 8 : 7) + n) return -61;
    for (size_t k = 0; k < count; k++) {
        const uint8_t *part = s + k * each;
        size_t length = k + 1 < count ? each : n - k * each;
        out[to++] = 1;
        out[to++] = (uint8_t)((reply ? 4 : 0) | priority);
        out[to++] = (uint8_t)(fields[0] << 4 | 8 | (k + 1 < count ? 4 : 0) | (request && fields[3] ? 2 : 0));
        if (request) out[to++] = (uint8_t)(fields[12] << 4 | fields[6]);
        out[to++] = fields[7];
        out[to++] = (uint8_t)k;
        out[to++] = fields[9];
        out[to++] = fields[10];
        for (size_t i = 0; i < length; i++) out[to + i] = part[i];
        to += length;
    }
    *segments = count;
    return (int)to;
}
