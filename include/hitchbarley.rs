//! Hitchbarley for Rust: the declarations of hitchbarley.h, which has a comment for each call, record and number. A slice is a pointer, which is not null,
//! and then its length (`s.as_ptr(), s.len()`); no two areas of a call overlap. Link with target/staticlib/libhitchbarley.a (x86-64):
//!
//!     #[path = "include/hitchbarley.rs"]
//!     mod hitchbarley;
//!
//!     rustc -L target/staticlib -l static=hitchbarley
#![allow(dead_code)]

pub const HB_VERSION: &str = "1.7";
/// the release that this version is proved and compiled with
pub const HB_KIT: &str = "rattle-kit-5";

/// octets of a trunk's state; hitchbarley.h has the layout
pub const HB_STATE: usize = 635;
/// octets of a report
pub const HB_REPORT: usize = 16;
/// octets of the message area: four slots of 16,384
pub const HB_AREA: usize = 65536;
/// octets of a slot in it: slot s stands from HB_SLOT * s on
pub const HB_SLOT: usize = 16384;
/// octets of a network header's record
pub const HB_NPDU: usize = 29;
/// octets of an APDU header's record
pub const HB_APDU: usize = 13;
/// octets of an item's record
pub const HB_ITEM: usize = 12;
/// octets of a service's record
pub const HB_SERVICE: usize = 26;
/// octets of a recorded trunk's record
pub const HB_RECORD: usize = 4;
/// where the last frame's type, destination, source and data length stand in the state area, after a report of kind 1 or 3 to 7
pub const HB_HEAD: usize = 3;
/// where its data stand
pub const HB_FRAME: usize = 9;

// damage, in octet 1 of a report of kind 2
/// bad header check
pub const HB_DAMAGE_HEADER: u8 = 1;
/// length above 501
pub const HB_DAMAGE_LENGTH: u8 = 2;
/// bad data check
pub const HB_DAMAGE_DATA: u8 = 3;
/// silence within header or data
pub const HB_DAMAGE_SILENCE: u8 = 4;

// network header
/// ends early
pub const HB_NPDU_ENDS: u8 = 10;
/// version not 1
pub const HB_NPDU_VERSION: u8 = 11;
/// bit 6 or 4 set; to write, a priority above 3
pub const HB_NPDU_CONTROL: u8 = 12;
/// DLEN above 7, SLEN 0 or above 7
pub const HB_NPDU_ADDRESS: u8 = 13;
/// DNET 0, SNET 0 or 65535
pub const HB_NPDU_NETWORK: u8 = 14;

// APDU header
/// ends early
pub const HB_APDU_ENDS: u8 = 20;
/// type 8 to 15; to write, above 7; to cut, another than 0 and 3
pub const HB_APDU_TYPE: u8 = 21;
/// zero bit set, or MOR without SEG; to write, a code of segments accepted above 7, by 1995 above 0
pub const HB_APDU_BITS: u8 = 22;
/// size code above 5, or window not 1 to 127 (to cut, such a window is 64)
pub const HB_APDU_SIZE: u8 = 23;
/// octets left over
pub const HB_APDU_OVER: u8 = 24;

// tag items
/// item ends early
pub const HB_ITEM_ENDS: u8 = 30;
/// extended number below 15 or 255; application number above 12
pub const HB_ITEM_NUMBER: u8 = 31;
/// not shortest; application 6 or 7; boolean 2 to 5
pub const HB_ITEM_FORM: u8 = 32;
/// contents length wrong for its type, or over 16,384
pub const HB_ITEM_LENGTH: u8 = 33;
/// contents rule broken
pub const HB_ITEM_CONTENTS: u8 = 34;
/// closing tag without the same number innermost
pub const HB_ITEM_CLOSING: u8 = 35;
/// end with a group open
pub const HB_ITEM_OPEN: u8 = 36;
/// opening with 16 open
pub const HB_ITEM_DEPTH: u8 = 37;
/// a 2,049th item begins
pub const HB_ITEM_COUNT: u8 = 38;
/// over 16,384 parameter octets: judged first, by hb_item_next and hb_item_step too
pub const HB_ITEM_OCTETS: u8 = 39;

// services
/// next item missing, or of another kind or number
pub const HB_SERVICE_ITEM: u8 = 40;
/// wrong length, a longer form than needed, or out of range; to write, a field too wide
pub const HB_SERVICE_VALUE: u8 = 41;
/// an item after the last
pub const HB_SERVICE_OVER: u8 = 42;
/// choice not built for that PDU
pub const HB_SERVICE_CHOICE: u8 = 43;

// rebuilding, in octet 1 of a report of kind 6; a key has eight parts: MS/TP source and destination, PDU type, invoke ID, SNET, SADR, DNET, DADR;
// number 0 continues an open key whose next number is 0 (behind 255), otherwise it starts or restarts; a new message that begins
// just there is judged as the old one's next segment
/// number 0, key not open, no slot free
pub const HB_NO_SLOT: u8 = 50;
/// number not 0 and key not open
pub const HB_NOT_BEGUN: u8 = 51;
/// key open: number not 0 and not the next
pub const HB_NOT_NEXT: u8 = 52;
/// key open, not starting: choice differs
pub const HB_CHOICE: u8 = 53;
/// would pass 16,384 octets; frees the slot
pub const HB_TOO_LONG: u8 = 54;
/// forgetting a slot that is not open, or above 3
pub const HB_NOT_OPEN: u8 = 56;

// what is lent
/// octets that are no state's; a state in header or data with nothing left to come, or in data with a length of 0 or above 501; a slot holding over
/// 16,384; two open slots of one key; an open slot whose network addresses no network header gives
pub const HB_NO_STATE: u8 = 59;
/// a state, report, message or record area of another size
pub const HB_NO_AREA: u8 = 60;
/// output area smaller than the result; hb_items_list gives the count needed with it: to count or to judge items, lend it no octets
pub const HB_SMALL: u8 = 61;
/// records that are the reading of no octets
pub const HB_NO_READING: u8 = 62;

// frames written, messages cut
/// more than 256 segments
pub const HB_SEGMENTS: u8 = 63;
/// more than 501 data octets of a frame; parameter octets of a segment not 1 to 474; to cut, a window not 1 to 127
pub const HB_RANGE: u8 = 64;

// recorded trunks
/// kind above 2, third or fourth octet not 0, silence with a value; the one refusal that changes something: the records before it are eaten and stand
pub const HB_BAD_RECORD: u8 = 67;
/// records that are no multiple of four octets
pub const HB_ODD: u8 = 68;

unsafe extern "C" {
    pub fn hb_fresh(state: *mut u8, state_len: usize, later: u8) -> u8;
    pub fn hb_feed(
        state: *mut u8,
        state_len: usize,
        piece: *const u8,
        piece_len: usize,
        report: *mut u8,
        report_len: usize,
        area: *mut u8,
        area_len: usize,
        eaten: *mut usize,
        reported: *mut u8,
    ) -> u8;
    pub fn hb_silence(state: *mut u8, state_len: usize, report: *mut u8, report_len: usize, reported: *mut u8) -> u8;
    pub fn hb_forget(state: *mut u8, state_len: usize, slot: u8) -> u8;
    pub fn hb_replay(
        state: *mut u8,
        state_len: usize,
        records: *const u8,
        records_len: usize,
        report: *mut u8,
        report_len: usize,
        area: *mut u8,
        area_len: usize,
        eaten: *mut usize,
        reported: *mut u8,
    ) -> u8;
    pub fn hb_header_check(head: *const u8, head_len: usize) -> u8;
    pub fn hb_data_check(payload: *const u8, payload_len: usize) -> u16;
    pub fn hb_header_run(reg: u8, part: *const u8, part_len: usize) -> u8;
    pub fn hb_data_run(reg: u16, part: *const u8, part_len: usize) -> u16;
    pub fn hb_npdu_read(octets: *const u8, octets_len: usize, fields: *mut u8, fields_len: usize, next: *mut usize) -> u8;
    pub fn hb_npdu_write(fields: *const u8, fields_len: usize, out: *mut u8, out_len: usize, wrote: *mut usize) -> u8;
    pub fn hb_apdu_read(octets: *const u8, octets_len: usize, later: u8, fields: *mut u8, fields_len: usize, next: *mut usize) -> u8;
    pub fn hb_apdu_write(fields: *const u8, fields_len: usize, later: u8, out: *mut u8, out_len: usize, wrote: *mut usize) -> u8;
    pub fn hb_items_list(octets: *const u8, octets_len: usize, listed: *mut u8, listed_len: usize, count: *mut usize) -> u8;
    pub fn hb_item_next(octets: *const u8, octets_len: usize, at: usize, next: *mut usize) -> u8;
    pub fn hb_item_step(octets: *const u8, octets_len: usize, at: usize, item: *mut u8, item_len: usize, next: *mut usize) -> u8;
    pub fn hb_items_write(
        listed: *const u8,
        listed_len: usize,
        source: *const u8,
        source_len: usize,
        out: *mut u8,
        out_len: usize,
        wrote: *mut usize,
    ) -> u8;
    pub fn hb_service_read(kind: u8, choice: u8, params: *const u8, params_len: usize, fields: *mut u8, fields_len: usize) -> u8;
    pub fn hb_service_write(
        fields: *const u8,
        fields_len: usize,
        value: *const u8,
        value_len: usize,
        out: *mut u8,
        out_len: usize,
        wrote: *mut usize,
    ) -> u8;
    pub fn hb_frame_write(
        kind: u8,
        destination: u8,
        source: u8,
        payload: *const u8,
        payload_len: usize,
        out: *mut u8,
        out_len: usize,
        wrote: *mut usize,
    ) -> u8;
    pub fn hb_cut(
        fields: *const u8,
        fields_len: usize,
        later: u8,
        reply: u8,
        priority: u8,
        each: usize,
        params: *const u8,
        params_len: usize,
        out: *mut u8,
        out_len: usize,
        wrote: *mut usize,
        segments: *mut usize,
    ) -> u8;
}
