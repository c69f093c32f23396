/* Hitchbarley: a BACnet listener for MS/TP trunks. This header is all that a program needs to know.

   Link with target/staticlib/libhitchbarley.a, which `sh include/archive` writes (x86-64 Linux; of the C library it uses memcpy and memset alone).

   Areas. A slice is a pointer and then its length. Every area is lent for the call alone; no two areas of a call overlap. Nothing is kept between calls and
   nothing is allocated, so calls for several trunks may be made at once, each with areas of its own. A length of 0 with any pointer is fine, but the pointer
   is not null by the language's rules: pass the address of any octet. (A null pointer with length 0 was tried in each call and did no harm; nothing promises it.)

   Numbers. Every call but the check sums answers 0 or the number of a refusal. On a refusal no area changes, and every number given back is 0, with the two
   exceptions below. So after 59, 60 and 68 *eaten is 0, and so it is after a 67 that is offered again: a loop that offers the rest of its piece must look at
   the answer, or it never ends.
   60 is a mistake in the program, an area of another size: also a state that an older version left, of 547 octets or 546. 59 is a state area that was not made by
   hb_fresh or was written by somebody else: make it anew by hb_fresh; what was half received is lost, and only that.
   Exceptions. hb_replay's 67: the records before the bad one were eaten, state and message area are as after them, *eaten is their number; the report area is
   as it was and *reported is 0. hb_items_list's 61: *count is the count needed, 1 to 2,048, and no area changes; so look at the answer before you read *count
   records. Every other call's 61 gives 0 back.

   Editions. Confirmed requests are read and written by the edition of 1995, or by the later one, which uses bits 6 to 4 of their second octet for the
   segments that the sender accepts (the table at hb_apdu_read); by that of 1995 these bits are zero bits, and 22 where they are not. The argument `later`
   chooses: 0 is 1995, any other number the later edition. A trunk's edition is chosen at hb_fresh and kept in its state; no call changes it. Read a header
   that stands in the state area by the edition that the trunk has. The editions differ in those three bits and nowhere else.

   Stack. Measured, in octets: hb_replay 5,032; hb_feed 3,864; hb_service_read 3,480; hb_items_list 3,176; hb_item_step 3,048; hb_item_next 3,000;
   hb_service_write 1,240; hb_forget 862; hb_frame_write 680; hb_data_check and hb_data_run 568; every other call below 500
   (docs/PERFORMANCE.md).

   What each call promises is proved; its statement stands in crates/hitchbarley/src, with the definitions in specs. */
#ifndef HITCHBARLEY_H
#define HITCHBARLEY_H
#include <stddef.h>
#include <stdint.h>

#define HB_VERSION "1.7"
#define HB_KIT "rattle-kit-5" /* the release that this version is proved and compiled with */

#ifdef __cplusplus
extern "C" {
#endif

enum {
    HB_STATE = 635,  /* octets of a trunk's state; its layout is below */
    HB_REPORT = 16,  /* octets of a report */
    HB_AREA = 65536, /* octets of the message area: four slots */
    HB_SLOT = 16384, /* octets of a slot in it: slot s stands from HB_SLOT * s on */
    HB_NPDU = 29,    /* octets of a network header's record */
    HB_APDU = 13,    /* octets of an APDU header's record */
    HB_ITEM = 12,    /* octets of an item's record */
    HB_SERVICE = 26, /* octets of a service's record */
    HB_RECORD = 4,   /* octets of a recorded trunk's record */

    /* where the last frame stands in the state area, after a report of kind 1 or 3 to 7 and until the next hb_feed or
       hb_replay */
    HB_HEAD = 3, /* its type, destination, source, and the length of its data (2 octets, high first) at HB_HEAD + 3 */
    HB_FRAME = 9 /* its data: in a frame of type 5 or 6 the network header, and behind that the APDU */
};

/* A state, octet by octet. Keep it as it is between calls; this is for looking.
     0 - 8      phase (0 hunting, 1 preamble, 2 header, 3 data), octets of it that came (2), the frame's head (5: HB_HEAD), the first check octet of its data
     9 - 509    the frame's data (HB_FRAME)
     510        the edition: 0 is 1995, 1 the later one
     511 - 634  four slots of 31 octets: used (0 or 1), MS/TP source, MS/TP destination, PDU type, invoke ID, next number, service choice, octets held (2);
                the network source: present (0 or 1), SNET (2), SLEN, SADR (7); the network destination: present, DNET (2), DLEN, DADR (7). A free one is all zero.
   Two octets are a number, the high octet first. */

/* The numbers of refusals. */
enum {
    /* damage, in octet 1 of a report of kind 2 */
    HB_DAMAGE_HEADER = 1,  /* bad header check */
    HB_DAMAGE_LENGTH = 2,  /* length above 501 */
    HB_DAMAGE_DATA = 3,    /* bad data check */
    HB_DAMAGE_SILENCE = 4, /* silence within header or data */

    /* network header */
    HB_NPDU_ENDS = 10,    /* ends early */
    HB_NPDU_VERSION = 11, /* version not 1 */
    HB_NPDU_CONTROL = 12, /* bit 6 or 4 set; to write, a priority above 3 */
    HB_NPDU_ADDRESS = 13, /* DLEN above 7, SLEN 0 or above 7 */
    HB_NPDU_NETWORK = 14, /* DNET 0, SNET 0 or 65535 */

    /* APDU header */
    HB_APDU_ENDS = 20, /* ends early */
    HB_APDU_TYPE = 21, /* type 8 to 15; to write, above 7; to cut, another than 0 and 3 */
    HB_APDU_BITS = 22, /* zero bit set, or MOR without SEG; to write, a code of segments accepted above 7, by 1995 above 0 */
    HB_APDU_SIZE = 23, /* size code above 5, or window not 1 to 127 (to cut, such a window is 64) */
    HB_APDU_OVER = 24, /* octets left over */

    /* tag items */
    HB_ITEM_ENDS = 30,     /* item ends early */
    HB_ITEM_NUMBER = 31,   /* extended number below 15 or 255; application number above 12 */
    HB_ITEM_FORM = 32,     /* not shortest; application 6 or 7; boolean 2 to 5 */
    HB_ITEM_LENGTH = 33,   /* contents length wrong for its type, or over 16,384 */
    HB_ITEM_CONTENTS = 34, /* contents rule broken */
    HB_ITEM_CLOSING = 35,  /* closing tag without the same number innermost */
    HB_ITEM_OPEN = 36,     /* end with a group open */
    HB_ITEM_DEPTH = 37,    /* opening with 16 open */
    HB_ITEM_COUNT = 38,    /* a 2,049th item begins */
    HB_ITEM_OCTETS = 39,   /* over 16,384 parameter octets: judged first */

    /* services */
    HB_SERVICE_ITEM = 40,   /* next item missing, or of another kind or number */
    HB_SERVICE_VALUE = 41,  /* wrong length, a longer form than needed, or out of range; to write, a field too wide */
    HB_SERVICE_OVER = 42,   /* an item after the last */
    HB_SERVICE_CHOICE = 43, /* choice not built for that PDU */

    /* rebuilding, in octet 1 of a report of kind 6. A message's key has eight parts: MS/TP source and destination, PDU type, invoke ID, and the network header's
       SNET, SADR, DNET and DADR, each there or not; an address is its octets with its length. Hop count, priority and frame type are not in it.
       Behind number 255 comes 0: a segment of number 0 continues an open key whose next number is 0, otherwise it starts or restarts. A new
       message that begins just there is judged as the old one's next segment and, where that is taken, joined to it: nothing in the segment
       tells them apart. */
    HB_NO_SLOT = 50,   /* number 0, key not open, no slot free */
    HB_NOT_BEGUN = 51, /* number not 0 and key not open */
    HB_NOT_NEXT = 52,  /* key open: number not 0 and not the next */
    HB_CHOICE = 53,    /* key open, not starting: choice differs */
    HB_TOO_LONG = 54,  /* would pass 16,384 octets; frees the slot */
    HB_NOT_OPEN = 56,  /* forgetting a slot that is not open, or above 3 */

    /* what is lent */
    HB_NO_STATE = 59,  /* octets that are no state's; a state in header or data with nothing left to come, or in data with a length of 0 or above 501; a slot
                          holding over 16,384; two open slots of one key; an open slot whose network addresses no network header gives */
    HB_NO_AREA = 60,   /* a state, report, message or record area of another size */
    HB_SMALL = 61,     /* output area smaller than the result; hb_items_list gives the count needed with it */
    HB_NO_READING = 62, /* records that are the reading of no octets */

    /* frames written, messages cut */
    HB_SEGMENTS = 63, /* more than 256 segments */
    HB_RANGE = 64,    /* more than 501 data octets of a frame; parameter octets of a segment not 1 to 474; to cut, a window not 1 to 127 */

    /* recorded trunks */
    HB_BAD_RECORD = 67, /* kind above 2, third or fourth octet not 0, silence with a value */
    HB_ODD = 68         /* records that are no multiple of four octets */
};

/* ---- a trunk ---- */

/* Makes a fresh state of an edition, which it keeps: 0 or 60. */
uint8_t hb_fresh(uint8_t *state, size_t state_len, uint8_t later);

/* Eats a piece's octets through the first that causes a report, else all: 0, 60 or 59. *eaten octets were eaten; *reported is 1 where a report was
   written. Offer the rest of the piece again. A report, where what a kind does not fill is 0:
     octet     0     1       2           3            4       5           6          7     8 - 11                        12       13 - 15
               kind  number  frame type  destination  source  first APDU  invoke ID  slot  length, high octet first      service  zero
                                                              octet                                                      choice
     kind 1    1             x           x            x                                    octets of the frame's data
          2    2     damage
          3    3             x           x            x       x           x                octets of the whole APDU      x
          4    4             x           x            x       x           x          x     octets held so far            x
          5    5             x           x            x       x           x          x     octets of the message         x
          6    6     refusal x           x            x
          7    7             x           x            x                                    octets behind the message type (and vendor)
   Kinds: 1 frame of another type than 5 and 6; 2 damage; 3 unsegmented APDU; 4 segment with MOR taken; 5 message complete; 6 refused; 7 network message.
   A completed message, its parameters alone and no header, stands in the message area from HB_SLOT * slot on until the next call. The parameters of an
   unsegmented APDU stand in the state area: hb_npdu_read at HB_FRAME gives the place of the APDU, hb_apdu_read there, by the trunk's edition, the place of
   its parameters. Either goes to hb_service_read with report[5] >> 4 as its kind and report[12] as its choice. examples/box.c does both.
   The worst single call is the one whose octet completes a message of 2,048 items (docs/PERFORMANCE.md). */
uint8_t hb_feed(uint8_t *state, size_t state_len, const uint8_t *piece, size_t piece_len, uint8_t *report, size_t report_len, uint8_t *area, size_t area_len,
    size_t *eaten, uint8_t *reported);

/* The line fell silent: 0, 60 or 59. Call it when no octet came for 60 bit times (Tframe_abort of clause 9: 781 microseconds at 76,800 bit/s; up to 100
   milliseconds is allowed), once for each silence. Without it a frame that was cut off takes the octets of the good frames behind it for its own. */
uint8_t hb_silence(uint8_t *state, size_t state_len, uint8_t *report, size_t report_len, uint8_t *reported);

/* Frees a slot: 0, 60, 59 or 56. */
uint8_t hb_forget(uint8_t *state, size_t state_len, uint8_t slot);

/* Replays a recorded trunk: records of four octets, kind (0 octet, 1 silence, 2 forget), value (a silence's is 0), two zeros. Eats records through the first
   that causes a report, else up to a bad one, else all: 0, 60, 59, 68 or 67. *eaten counts records, not octets; *reported is 1 where a report was written.
   Offer the rest again, from HB_RECORD * *eaten on. A piece that is no multiple of four octets is 68, before any of it runs. A bad record is 67 when it is
   reached, and again where it is offered again. A forget record that hb_forget would answer 56 is eaten, and the replay goes on. A run may be fed and
   replayed by turns: both are ways of making the same calls. */
uint8_t hb_replay(uint8_t *state, size_t state_len, const uint8_t *records, size_t records_len, uint8_t *report, size_t report_len, uint8_t *area, size_t area_len,
    size_t *eaten, uint8_t *reported);

/* ---- check sums ---- */

/* The check octet of a header's five octets; the check of data octets, sent low octet first. */
uint8_t hb_header_check(const uint8_t *head, size_t head_len);
uint16_t hb_data_check(const uint8_t *payload, size_t payload_len);

/* The same in parts: the register after these octets. A header's begins with FF hex, data's with FFFF; after a good header with its check octet it is 55,
   after good data with both check octets F0B8. The check is the complement of the register. */
uint8_t hb_header_run(uint8_t reg, const uint8_t *part, size_t part_len);
uint16_t hb_data_run(uint16_t reg, const uint8_t *part, size_t part_len);

/* ---- headers ---- */

/* The network header at the front of these octets: 0, 60 or 10 to 14; *next is the place after it. Its record, where flags are 1 or 0 and numbers of
   two octets have the high one first:
     0  network message     1  destination present     2  source present     3  reply expected     4  priority
     5 - 6  DNET     7  DLEN     8 - 14  DADR     15 - 16  SNET     17  SLEN     18 - 24  SADR
     25  hop count     26  message type     27 - 28  vendor
   Fields of an absent part, and address octets past the length, are read as 0. */
uint8_t hb_npdu_read(const uint8_t *octets, size_t octets_len, uint8_t *fields, size_t fields_len, size_t *next);

/* The octets of the header that a record is: 0, 60, 12, 14, 13 (the first field in octet order that breaks a rule) or 61; *wrote octets were written.
   Any flag but 0 is set; fields of an absent part are not looked at. */
uint8_t hb_npdu_write(const uint8_t *fields, size_t fields_len, uint8_t *out, size_t out_len, size_t *wrote);

/* The header of an APDU, by an edition: 0, 60 or 20 to 24; *next is the place where its parameters begin. Its record:
     0  PDU type, 0 to 7     1  SEG     2  MOR     3  SA     4  NAK     5  SRV (1 or 0 each)
     6  size code     7  invoke ID     8  number     9  window     10  service choice     11  reason
     12  segments accepted, a code: 0 unspecified, 1 for 2, 2 for 4, 3 for 8, 4 for 16, 5 for 32, 6 for 64, 7 for more than 64; by 1995 always 0
   What the kind of PDU lacks is read as 0; a size code and a code of segments accepted are a confirmed request's alone. Types: 0 confirmed request,
   1 unconfirmed request, 2 simple ack, 3 complex ack, 4 segment ack, 5 error, 6 reject, 7 abort. */
uint8_t hb_apdu_read(const uint8_t *octets, size_t octets_len, uint8_t later, uint8_t *fields, size_t fields_len, size_t *next);

/* The octets of the header that a record is, by an edition: 0, 60, 21, 22, 23 or 61; *wrote octets were written. What the kind of PDU lacks is not looked
   at. A code above 7 is 22, and by 1995 every code but 0. */
uint8_t hb_apdu_write(const uint8_t *fields, size_t fields_len, uint8_t later, uint8_t *out, size_t out_len, size_t *wrote);

/* ---- tag items ---- */

/* The items' records, one after the other, and their count: 0, 30 to 39 or 61.
     0         *count items; their records stand at the front of the area, HB_ITEM octets each, and what lies behind them is as it was
     30 to 39  tags refused, judged first, however short the area is: *count is 0 and nothing is written
     61        all tags are good and the area is shorter than HB_ITEM octets an item: *count is the count needed, 1 to 2,048, and nothing is written
   No items are 0 with *count 0, whatever the area. So to count items, or only to judge them, lend no octets (a pointer that is not null, and the length 0):
   0 says that there are no items, 61 that all tags are good. The area need not be a multiple of 12; one of 24,576 octets is never too short. A record:
     0  kind (0 application, 1 context, 2 opening, 3 closing)     1  number     2  depth     3  boolean value, else 0
     4 - 7  place of the contents, the octet after the tag     8 - 11  their length, high octet first both */
uint8_t hb_items_list(const uint8_t *octets, size_t octets_len, uint8_t *listed, size_t listed_len, size_t *count);

/* Walking items: from place 0 hb_item_next or hb_item_step gives the place after one item, and after the whole group where it opens one, until the end. Both
   judge 39 first, at the end too (hb_item_step after 60). At or past the end hb_item_next is 30 and hb_item_step is 0 with *next 0. A closing tag at the place is 35. To go into a group,
   step on from the place in its opening's record (octets 4 to 7) until 35: that is its closing. 36 to 38 are of the one item with its group, depth and count
   beginning at the step's own place; hb_items_list, lent no octets, judges all items together. */

/* The place after the item at a place, and after its whole group where it opens one: 0 or 30 to 39. */
uint8_t hb_item_next(const uint8_t *octets, size_t octets_len, size_t at, size_t *next);

/* The reader's step, one item with its whole group: the record, at depth 0, of the item or the group's opening at a place, and the place after it: 0, 60
   or 30 to 39. At the end, and past it, 0 with *next 0 and no record: no step else answers a place of 0. */
uint8_t hb_item_step(const uint8_t *octets, size_t octets_len, size_t at, uint8_t *item, size_t item_len, size_t *next);

/* The octets of the items that records name in a source: 0, 62 or 61; *wrote octets were written. The place of a record with length 0 is not looked at. */
uint8_t hb_items_write(const uint8_t *listed, size_t listed_len, const uint8_t *source, size_t source_len, uint8_t *out, size_t out_len, size_t *wrote);

/* ---- services ---- */

/* The parameters of a PDU of this type and service choice: 0, 60, 30 to 39, 43 or 40 to 42. The record, high octets first:
     octets    ReadProperty, its ack, WriteProperty    Who-Is            I-Am            Error
     0         0, 1, 2                                 3                 4               5
     1         index present (1 or 0)                  limits present    segmentation
     2 -  3    object type                                               vendor
     4 -  7    instance                                low               instance        class
     8 - 11    property                                high              longest         code
    12 - 15    index
    16 - 19    place of the value in the parameters, without its group's tags: the ack and WriteProperty
    20 - 23    length of the value: the same
    24         priority present (1 or 0): WriteProperty
    25         priority: WriteProperty
   Type and choice: ReadProperty 0 and 12, its ack 3 and 12, WriteProperty 0 and 15, Who-Is 1 and 8, I-Am 1 and 0, Error 5 and 12 or 15. What a service
   lacks is read as 0. */
uint8_t hb_service_read(uint8_t kind, uint8_t choice, const uint8_t *params, size_t params_len, uint8_t *fields, size_t fields_len);

/* The parameters of the service that a record is, with the value's octets between the tags of its group: 0, 60, 43 for a first octet above 5, 41 for a
   field too wide, else the number that reading the output gives, or 61; *wrote octets were written. What a service lacks, and the place and length of the
   value, are not looked at. */
uint8_t hb_service_write(const uint8_t *fields, size_t fields_len, const uint8_t *value, size_t value_len, uint8_t *out, size_t out_len, size_t *wrote);

/* ---- frames written, messages cut ---- */

/* A frame of any type, destination and source around 0 to 501 data octets, with both its checks: 0, 64 for more data, or 61; *wrote octets were written, 8
   without data, else 10 more than the data have. Neither destination and source nor the data are judged. */
uint8_t hb_frame_write(uint8_t kind, uint8_t destination, uint8_t source, const uint8_t *payload, size_t payload_len, uint8_t *out, size_t out_len,
    size_t *wrote);

/* Cuts a confirmed request or a complex ack into segments, each behind a network header without addresses: 0, 60, 39, 64, 12, 21, 22, 23, 63 or 61, the first
   of these that holds.
     fields           an APDU header's record (60 where it has not 13 octets): type 0 or 3 (else 21), the window at its place (1 to 127, else 64), in a request
                      a code of segments accepted by the edition (else 22) and a size code (above 5: 23). SEG, MOR and number, and what the kind of PDU
                      lacks, are not looked at
     reply, priority  of the network header: any number but 0 is reply expected; a priority above 3 is 12
     each             parameter octets of a segment, 1 to 474 (else 64); the last segment has the rest
     params           0 to 16,384 octets (else 39), which are not judged. Without any there is one segment
   More than 256 segments are 63. The NPDUs stand end to end: *wrote octets, *segments of them, the k-th, from 0 on, at k * (head + each) with head 8 in a
   request and 7 in a complex ack; all but the last have head + each octets. Their numbers are 0, 1, 2 .., and MOR is set in all but the last.
   An area of 18,432 octets is never too short.
   Frame each by hb_frame_write as type 5 or 6, all with one destination and one source. Fed in this order to a fresh state of the edition, without silences,
   the last of them is reported as kind 5, with exactly these parameters in the message area, if their tags are good (else as kind 6). */
uint8_t hb_cut(const uint8_t *fields, size_t fields_len, uint8_t later, uint8_t reply, uint8_t priority, size_t each, const uint8_t *params, size_t params_len,
    uint8_t *out, size_t out_len, size_t *wrote, size_t *segments);

#ifdef __cplusplus
}
#endif
#endif
