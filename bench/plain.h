/* A plain C listener for the comparison: the same frames, the same reports, the same message area as the proved one,
   written the usual way. The state stands behind a pointer and is stepped an octet at a time, with running check sums,
   by tables where it is built with -DTABLES. */
#ifndef PLAIN_H
#define PLAIN_H
#include <stddef.h>
#include <stdint.h>

/* Where a message comes from or goes, behind a router: whether the network header says it, the network, and an address of as many octets as its length. */
struct plain_address {
    uint8_t here, length;
    uint16_t net;
    uint8_t octets[7];
};

struct plain_slot {
    uint8_t used, source, destination, kind, invoke, next, choice;
    uint16_t held;
    struct plain_address from, to;
};

struct plain {
    uint8_t phase, header_sum, type, destination, source, later; /* later: the edition, 0 is 1995 */
    uint16_t data_sum, length, got;
    uint8_t store[501];
    struct plain_slot slots[4];
};

void plain_fresh(struct plain *p, int later);

/* Eats the piece through the first octet that causes a report, else all of it. Answers the octets eaten; `reported` says
   whether the 16 octets of `report` were written. `area` is 65,536 octets. */
size_t plain_feed(struct plain *p, const uint8_t *piece, size_t n, uint8_t *report, uint8_t *area, int *reported);

/* The line fell silent. Answers whether the report was written. */
int plain_silence(struct plain *p, uint8_t *report);

/* Frees a slot: 0, or 56 where it is not open. */
int plain_forget(struct plain *p, unsigned slot);

/* The registers of the two check sums after a run of octets. */
uint8_t plain_header_run(uint8_t sum, const uint8_t *s, size_t n);
uint16_t plain_data_run(uint16_t sum, const uint8_t *s, size_t n);

/* How many tag items these octets are, or minus the refusal number. */
int plain_items(const uint8_t *s, size_t n);

/* A frame around these data: its octets, or minus the refusal number. */
int plain_frame(unsigned type, unsigned destination, unsigned source, const uint8_t *s, size_t n, uint8_t *out, size_t room);

/* A message cut, by the record that the proved library has of an APDU header: its octets, or minus the refusal number. */
int plain_cut(const uint8_t *fields, int later, int reply, unsigned priority, size_t each, const uint8_t *s, size_t n, uint8_t *out, size_t room, size_t *segments);

#endif
