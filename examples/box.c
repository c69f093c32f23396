/* A listening box's main loop over the library: trunk octets come from standard input in lumps of any size; each report, each completed message and each
   property value that a chamber reports goes to standard output. The firmware would say hb_silence when its timer says that the line fell silent; here
   the end of the input is the only silence.

     box [LUMP [later]]     LUMP: the most octets of a lump, 1 to 4096; 64 if it is left out; `later`: confirmed requests by the later edition

   Build it for x86-64 beside the archive that `sh include/archive` writes:
     cc -O2 -Iinclude examples/box.c target/staticlib/libhitchbarley.a -o box */
#include <stdio.h>
#include <stdlib.h>
#include <string.h>
#include "hitchbarley.h"

static uint8_t state[HB_STATE], area[HB_AREA], report[HB_REPORT];
static uint8_t later; /* the trunk's edition: 0 is 1995 */

static void octets(const uint8_t *s, size_t n)
{
    for (size_t i = 0; i < n; i++) printf(i ? " %02X" : "%02X", s[i]);
    putchar('\n');
}

static unsigned long number(const uint8_t *s, int n) /* high octet first */
{
    unsigned long v = 0;
    while (n--) v = v << 8 | *s++;
    return v;
}

/* One application value by its record: a real, an unsigned or enumerated number, a boolean, or its octets. */
static void value(const uint8_t *item, const uint8_t *params)
{
    const uint8_t *contents = params + number(item + 4, 4);
    size_t length = number(item + 8, 4);
    if (item[0] == 0 && item[1] == 4) {
        uint32_t bits = (uint32_t)number(contents, 4);
        float real;
        memcpy(&real, &bits, sizeof real);
        printf(" real %.9g", real);
    } else if (item[0] == 0 && (item[1] == 2 || item[1] == 9)) {
        printf(item[1] == 2 ? " unsigned %lu" : " enumerated %lu", number(contents, (int)length));
    } else if (item[0] == 0 && item[1] == 1) {
        printf(" boolean %u", item[3]);
    } else {
        printf(" kind %u number %u of %u octets", item[0], item[1], (unsigned)length);
    }
}

/* A ReadProperty ack's parameters: object, property, and each item of the value. */
static void ack(const uint8_t *params, size_t length)
{
    uint8_t fields[HB_SERVICE], item[HB_ITEM];
    size_t at, end, next;
    if (hb_service_read(3, 12, params, length, fields, HB_SERVICE)) return;
    printf("value of object %lu instance %lu property %lu:", number(fields + 2, 2), number(fields + 4, 4), number(fields + 8, 4));
    at = number(fields + 16, 4);
    end = at + number(fields + 20, 4);
    while (at < end && !hb_item_step(params, length, at, item, HB_ITEM, &next) && next) {
        value(item, params);
        at = next;
    }
    putchar('\n');
}

/* An unsegmented APDU's parameters stand in the state area, behind its network header and its own; a completed message's in its slot. */
static void parameters(size_t length)
{
    uint8_t fields[HB_NPDU];
    size_t frame = number(state + HB_HEAD + 3, 2), apdu, params;
    if (report[0] == 5) ack(area + (size_t)HB_SLOT * report[7], length);
    else if (!hb_npdu_read(state + HB_FRAME, frame, fields, HB_NPDU, &apdu)
        && !hb_apdu_read(state + HB_FRAME + apdu, frame - apdu, later, fields, HB_APDU, &params))
        ack(state + HB_FRAME + apdu + params, frame - apdu - params);
}

static void tell(void)
{
    size_t length = number(report + 8, 4);
    printf("report ");
    octets(report, HB_REPORT);
    if (report[0] == 5) { /* complete: the octets are in the slot's part of the message area until the next call */
        printf("message ");
        octets(area + (size_t)HB_SLOT * report[7], length);
    }
    if ((report[0] == 3 || report[0] == 5) && report[5] >> 4 == 3 && report[12] == 12) parameters(length);
}

static int refused(uint8_t number)
{
    if (number) fprintf(stderr, "box: the library refuses the call, %u\n", number);
    return number;
}

/* A call stops after a report, and what it did not eat is offered again. */
static int lump(const uint8_t *s, size_t n)
{
    while (n) {
        size_t eaten;
        uint8_t reported;
        if (refused(hb_feed(state, HB_STATE, s, n, report, HB_REPORT, area, HB_AREA, &eaten, &reported))) return 1;
        if (reported) tell();
        s += eaten;
        n -= eaten;
    }
    return 0;
}

int main(int argc, char **argv)
{
    static uint8_t buffer[4096];
    size_t most = argc < 2 ? 64 : (size_t)atoi(argv[1]), n;
    uint8_t reported;
    later = argc == 3 && !strcmp(argv[2], "later");
    if (2 + later < argc || most < 1 || sizeof buffer < most) {
        fputs("usage: box [LUMP [later]] <CAPTURE, LUMP from 1 to 4096\n", stderr);
        return 2;
    }
    if (refused(hb_fresh(state, HB_STATE, later))) return 1;
    while ((n = fread(buffer, 1, most, stdin)) > 0)
        if (lump(buffer, n)) return 1;
    if (ferror(stdin)) {
        perror("box: standard input");
        return 1;
    }
    if (refused(hb_silence(state, HB_STATE, report, HB_REPORT, &reported))) return 1;
    if (reported) tell();
    return 0;
}
