// Each call once through the Rust declarations, on worked octets of the source documents. The end is 1 where one differs.
#[allow(dead_code)]
#[path = "../include/hitchbarley.rs"]
mod hitchbarley;
use hitchbarley::*;

// Octets from two hex digits each.
fn of(text: &str) -> Vec<u8> {
    text.split(' ').map(|o| u8::from_str_radix(o, 16).unwrap()).collect()
}

fn trunk() -> bool {
    let (mut state, mut area, mut report) = ([0u8; HB_STATE], vec![0u8; HB_AREA], [0u8; HB_REPORT]);
    let frame = of("55 FF 01 02 01 00 00 F5");
    let (mut eaten, mut reported, mut spoke) = (0, 0, 1);
    unsafe {
        hb_fresh(state.as_mut_ptr(), state.len(), 0) == 0
            && hb_feed(
                state.as_mut_ptr(),
                state.len(),
                frame.as_ptr(),
                frame.len(),
                report.as_mut_ptr(),
                report.len(),
                area.as_mut_ptr(),
                area.len(),
                &mut eaten,
                &mut reported,
            ) == 0
            && (eaten, reported) == (8, 1)
            && report[..] == of("01 00 01 02 01 00 00 00 00 00 00 00 00 00 00 00")[..]
            && hb_silence(state.as_mut_ptr(), state.len(), report.as_mut_ptr(), report.len(), &mut spoke) == 0
            && spoke == 0
            && hb_forget(state.as_mut_ptr(), state.len(), 0) == HB_NOT_OPEN
    }
}

// One call with records: its number, the records eaten, whether it reported.
fn replay(state: &mut [u8], area: &mut [u8], report: &mut [u8], records: &[u8]) -> (u8, usize, u8) {
    let (mut eaten, mut reported) = (99, 99);
    let number = unsafe {
        hb_replay(
            state.as_mut_ptr(),
            state.len(),
            records.as_ptr(),
            records.len(),
            report.as_mut_ptr(),
            report.len(),
            area.as_mut_ptr(),
            area.len(),
            &mut eaten,
            &mut reported,
        )
    };
    (number, eaten, reported)
}

// A recorded poll for master behind a forget that is 56, then a bad record: a report in the middle, the rest offered again; each refusal.
fn recorded() -> bool {
    let (mut state, mut area, mut report) = ([0u8; HB_STATE], vec![0u8; HB_AREA], [0u8; HB_REPORT]);
    let frame = of("55 FF 01 02 01 00 00 F5");
    let mut tape = vec![2, 4, 0, 0];
    tape.extend(frame.iter().flat_map(|x| [0, *x, 0, 0]));
    tape.extend([1, 0, 0, 0, 3, 0, 0, 0]);
    let fresh = unsafe { hb_fresh(state.as_mut_ptr(), state.len(), 0) };
    fresh == 0
        && replay(&mut state, &mut area, &mut report, &tape) == (0, 9, 1)
        && report[..] == of("01 00 01 02 01 00 00 00 00 00 00 00 00 00 00 00")[..]
        && replay(&mut state, &mut area, &mut report, &tape[9 * HB_RECORD..]) == (HB_BAD_RECORD, 1, 0)
        && replay(&mut state, &mut area, &mut report, &tape[..HB_RECORD + 1]) == (HB_ODD, 0, 0)
        && replay(&mut state, &mut area, &mut report[1..], &tape) == (HB_NO_AREA, 0, 0)
        && replay(&mut [0xFF; HB_STATE], &mut area, &mut report, &tape) == (HB_NO_STATE, 0, 0)
}

// A slot that awaits number 0, as it does behind 255: a segment 0 goes on there, its octet behind the two that are held.
fn behind_255() -> bool {
    let (mut state, mut area, mut report) = ([0u8; HB_STATE], vec![0u8; HB_AREA], [0u8; HB_REPORT]);
    let frame = of("55 FF 06 01 03 00 08 30 01 00 38 01 00 01 0E 00 CC 2F");
    let tape: Vec<u8> = frame.iter().flat_map(|x| [0, *x, 0, 0]).collect();
    let fresh = unsafe { hb_fresh(state.as_mut_ptr(), state.len(), 0) };
    state[511..520].copy_from_slice(&of("01 03 01 03 01 00 0E 00 02"));
    area[..2].copy_from_slice(&of("11 10"));
    fresh == 0
        && replay(&mut state, &mut area, &mut report, &tape) == (0, 18, 1)
        && report[..] == of("05 00 06 01 03 38 01 00 00 00 00 03 0E 00 00 00")[..]
        && area[..3] == of("11 10 00")[..]
}

fn sums() -> bool {
    let (head, data) = (of("00 10 05 00 00 8C"), of("01 22 30 10 BD"));
    unsafe {
        hb_header_check(head.as_ptr(), 5) == 0x8C
            && hb_data_check(data.as_ptr(), 3) == 0xBD10
            && hb_header_run(0xFF, head.as_ptr(), 6) == 0x55
            && hb_data_run(0xFFFF, data.as_ptr(), 5) == 0xF0B8
    }
}

type Read = unsafe extern "C" fn(*const u8, usize, *mut u8, usize, *mut usize) -> u8;

// A header read and written back.
fn header(read: Read, write: Read, octets: &str, next: usize, record: &str) -> bool {
    let (o, wanted) = (of(octets), of(record));
    let (mut fields, mut out, mut reached, mut wrote) = (vec![0u8; wanted.len()], [0u8; 32], 0, 0);
    let answered = unsafe {
        read(o.as_ptr(), o.len(), fields.as_mut_ptr(), fields.len(), &mut reached) == 0
            && write(fields.as_ptr(), fields.len(), out.as_mut_ptr(), out.len(), &mut wrote) == 0
    };
    answered && (reached, wrote) == (next, next) && fields == wanted && out[..next] == o[..next]
}

// A confirmed request that accepts 2 segments: 22 by the edition of 1995; by the later one a header, written back.
fn editions() -> bool {
    let (o, wanted) = (of("00 15 01 0C"), of("00 00 00 00 00 00 05 01 00 00 0C 00 01"));
    let (mut fields, mut out, mut next, mut wrote) = ([0u8; HB_APDU], [0u8; 4], 0, 0);
    unsafe {
        hb_apdu_read(o.as_ptr(), o.len(), 0, fields.as_mut_ptr(), fields.len(), &mut next) == HB_APDU_BITS
            && next == 0
            && hb_apdu_read(o.as_ptr(), o.len(), 1, fields.as_mut_ptr(), fields.len(), &mut next) == 0
            && next == 4
            && fields[..] == wanted[..]
            && hb_apdu_write(fields.as_ptr(), fields.len(), 0, out.as_mut_ptr(), out.len(), &mut wrote) == HB_APDU_BITS
            && wrote == 0
            && hb_apdu_write(fields.as_ptr(), fields.len(), 1, out.as_mut_ptr(), out.len(), &mut wrote) == 0
            && out[..wrote] == o[..]
    }
}

// The APDU calls by the edition of 1995.
unsafe extern "C" fn apdu_read(s: *const u8, n: usize, fields: *mut u8, size: usize, next: *mut usize) -> u8 {
    unsafe { hb_apdu_read(s, n, 0, fields, size, next) }
}

unsafe extern "C" fn apdu_write(s: *const u8, n: usize, out: *mut u8, size: usize, wrote: *mut usize) -> u8 {
    unsafe { hb_apdu_write(s, n, 0, out, size, wrote) }
}

// One call that lists items: its number and its count.
fn list(octets: &[u8], area: &mut [u8]) -> (u8, usize) {
    let mut count = 99;
    let number = unsafe { hb_items_list(octets.as_ptr(), octets.len(), area.as_mut_ptr(), area.len(), &mut count) };
    (number, count)
}

// The items of a ReadProperty ack. No octets are lent: 61 with the count needed. Then 12 octets an item: an octet too few, tags refused, and all of them.
fn items() -> bool {
    let (o, first) = (of("0C 00 00 00 01 19 55 3E 44 42 39 99 9A 3F"), of("01 00 00 00 00 00 00 01 00 00 00 04"));
    let (number, count) = list(&o, &mut []);
    let mut area = vec![0xEEu8; HB_ITEM * count];
    (number, count) == (HB_SMALL, 5)
        && list(&o, &mut area[1..]) == (HB_SMALL, 5)
        && list(&of("3E 4F"), &mut area) == (HB_ITEM_CLOSING, 0)
        && list(&of("3E 44"), &mut []) == (HB_ITEM_ENDS, 0)
        && list(&[], &mut []) == (0, 0)
        && list(&[], &mut area) == (0, 0)
        && area.iter().all(|x| *x == 0xEE)
        && list(&o, &mut area) == (0, 5)
        && area[..HB_ITEM] == first[..]
}

// The same by steps and written back, and the service.
fn params() -> bool {
    let o = of("0C 00 00 00 01 19 55 3E 44 42 39 99 9A 3F");
    let wanted = of("01 00 00 00 00 00 00 01 00 00 00 55 00 00 00 00 00 00 00 08 00 00 00 05 00 00");
    let (mut listed, mut item, mut fields, mut out) = ([0u8; 5 * HB_ITEM], [0u8; HB_ITEM], [0u8; HB_SERVICE], [0u8; 16]);
    let (mut next, mut to, mut wrote, mut again) = (0, 0, 0, 0);
    unsafe {
        list(&o, &mut listed) == (0, 5)
            && hb_item_next(o.as_ptr(), o.len(), 7, &mut next) == 0
            && hb_item_step(o.as_ptr(), o.len(), 7, item.as_mut_ptr(), item.len(), &mut to) == 0
            && (next, to) == (14, 14)
            && item[..] == listed[2 * HB_ITEM..3 * HB_ITEM]
            && hb_items_write(listed.as_ptr(), listed.len(), o.as_ptr(), o.len(), out.as_mut_ptr(), out.len(), &mut wrote) == 0
            && out[..wrote] == o[..]
            && hb_service_read(3, 12, o.as_ptr(), o.len(), fields.as_mut_ptr(), fields.len()) == 0
            && fields[..] == wanted[..]
            && hb_service_write(fields.as_ptr(), fields.len(), o[8..].as_ptr(), 5, out.as_mut_ptr(), out.len(), &mut again) == 0
            && out[..again] == o[..]
    }
}

// One call that writes a frame: its number and the octets.
fn frame(kind: u8, destination: u8, source: u8, payload: &[u8], area: &mut [u8]) -> (u8, usize) {
    let mut wrote = 99;
    let number = unsafe {
        hb_frame_write(
            kind,
            destination,
            source,
            payload.as_ptr(),
            payload.len(),
            area.as_mut_ptr(),
            area.len(),
            &mut wrote,
        )
    };
    (number, wrote)
}

// One call that cuts a message by the edition of 1995: its number, the octets and the segments.
fn cut(fields: &[u8], each: usize, params: &[u8], area: &mut [u8]) -> (u8, usize, usize) {
    let (mut wrote, mut segments) = (99, 99);
    let number = unsafe {
        hb_cut(
            fields.as_ptr(),
            fields.len(),
            0,
            0,
            0,
            each,
            params.as_ptr(),
            params.len(),
            area.as_mut_ptr(),
            area.len(),
            &mut wrote,
            &mut segments,
        )
    };
    (number, wrote, segments)
}

// A poll and the ReadProperty ack of 004 as frames; then the ack in two segments, framed, and the message that they are fed as.
fn written() -> bool {
    let (poll, ack) = (of("55 FF 01 02 01 00 00 F5"), of("55 FF 06 01 03 00 13 39 01 00 30 00 0C 0C 00 00 00 01 19 55 3E 44 42 39 99 9A 3F 36 C6"));
    let (record, params) = (of("03 00 00 00 00 00 00 00 00 01 0C 00 00"), of("0C 00 00 00 01 19 55 3E 44 42 39 99 9A 3F"));
    let npdus = of("01 00 3C 00 00 01 0C 0C 00 00 00 01 19 55 01 00 38 00 01 01 0C 3E 44 42 39 99 9A 3F");
    let (mut one, mut two, mut out, mut frames) = ([0xEEu8; 8], [0xEEu8; 29], [0xEEu8; 28], [0u8; 48]);
    let good = frame(1, 2, 1, &[], &mut one[1..]) == (HB_SMALL, 0)
        && frame(1, 2, 1, &[0; 502], &mut one) == (HB_RANGE, 0)
        && one == [0xEE; 8]
        && frame(1, 2, 1, &[], &mut one) == (0, 8)
        && one[..] == poll[..]
        && frame(6, 1, 3, &ack[8..27], &mut two) == (0, 29)
        && two[..] == ack[..]
        && cut(&record[1..], 7, &params, &mut out) == (HB_NO_AREA, 0, 0)
        && cut(&record, 475, &params, &mut out) == (HB_RANGE, 0, 0)
        && cut(&record, 1, &[0; 257], &mut out) == (HB_SEGMENTS, 0, 0)
        && cut(&record, 7, &params, &mut out[1..]) == (HB_SMALL, 0, 0)
        && out == [0xEE; 28]
        && cut(&record, 7, &params, &mut out) == (0, 28, 2)
        && out[..] == npdus[..]
        && frame(6, 1, 3, &out[..14], &mut frames[..24]) == (0, 24)
        && frame(6, 1, 3, &out[14..], &mut frames[24..]) == (0, 24);
    let (mut state, mut area, mut report) = ([0u8; HB_STATE], vec![0u8; HB_AREA], [0u8; HB_REPORT]);
    let tape: Vec<u8> = frames.iter().flat_map(|x| [0, *x, 0, 0]).collect();
    good && unsafe { hb_fresh(state.as_mut_ptr(), state.len(), 0) } == 0
        && replay(&mut state, &mut area, &mut report, &tape) == (0, 24, 1)
        && report[..] == of("04 00 06 01 03 3C 00 00 00 00 00 07 0C 00 00 00")[..]
        && replay(&mut state, &mut area, &mut report, &tape[24 * HB_RECORD..]) == (0, 24, 1)
        && report[..] == of("05 00 06 01 03 38 00 00 00 00 00 0E 0C 00 00 00")[..]
        && area[..params.len()] == params[..]
}

fn main() {
    let npdu = "00 01 00 00 00 FF FF 00 00 00 00 00 00 00 00 00 00 00 00 00 00 00 00 00 00 FF 00 00 00";
    let good = trunk()
        && recorded()
        && behind_255()
        && sums()
        && header(hb_npdu_read, hb_npdu_write, "01 20 FF FF 00 FF 10 08", 6, npdu)
        && header(apdu_read, apdu_write, "02 03 00 0C 0C 00 00 00 01 19 55", 4, "00 00 00 01 00 00 03 00 00 00 0C 00 00")
        && editions()
        && items()
        && params()
        && written();
    std::process::exit(!good as i32);
}
