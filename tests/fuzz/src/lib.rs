//! One input of the fuzzer: the C, the second implementation and the archive are asked the
//! same, and a difference aborts, which the fuzzer takes for a crash.
//!
//! The first byte of an input says what the rest is and which buffers are lent:
//!     bits 0-1   0 a capture, 1 a capture spelled in few bytes,
//!                2 words of settings and requests, 3 those spelled in few bytes
//!     bits 2-3   the length of the lent buffer, around what is needed
//!     bits 4-7   of words, how many of them are settings, 0 for 14;
//!                of a spelled capture, bit 4 0 for 14 settings, 1 for 16, and bit 5 the
//!                edition;
//!                of spelled requests, the row policy, which is 0 for words

mod spelled;

use std::cell::RefCell;
use std::fmt::Debug;
use std::process::abort;
use std::slice;

use second::archive::Archive;
use second::capture::{SETTINGS, SLEEP_SETTINGS};
use second::schedule::OPEN_ROWS;
use second::{blank, c, cells, judge, judge_recording, packed, schedule};

const FENCE: usize = 8;
const UNTOUCHED: u32 = 0xa5c3_965a;
const MOST_CELLS: usize = 16 * 8_000;
const MOST_BYTES: usize = 64_088;

thread_local! {
    static ARCHIVE: RefCell<Archive> = RefCell::new(Archive::start("quick").expect("the archive"));
}

/// # Safety
/// `input` points to `len` bytes.
#[no_mangle]
pub unsafe extern "C" fn compare(input: *const u8, len: usize) {
    let input = if len == 0 {
        &[]
    } else {
        slice::from_raw_parts(input, len)
    };
    ARCHIVE.with_borrow_mut(|archive| compare_input(archive, input));
}

fn compare_input(archive: &mut Archive, input: &[u8]) {
    let Some((&how, rest)) = input.split_first() else {
        return;
    };
    let room = usize::from(how >> 2 & 3);
    match how & 3 {
        0 => compare_captures(archive, rest, room),
        1 => {
            let settings = [SETTINGS, SLEEP_SETTINGS][usize::from(how >> 4 & 1)];
            let edition = u32::from(how >> 5 & 1);
            compare_captures(archive, &spelled::capture(rest, settings, edition), room);
        }
        2 => {
            let words: Vec<u32> = spelled::words(rest).collect();
            let count = match how >> 4 {
                0 => SETTINGS,
                count => usize::from(count),
            };
            let (settings, requests) = words.split_at(count.min(words.len()));
            compare_schedules(archive, settings, requests, OPEN_ROWS, room);
        }
        _ => {
            let (settings, requests) = spelled::requests(rest);
            compare_schedules(archive, &settings, &requests, u32::from(how >> 4), room);
        }
    }
}

fn compare_captures(archive: &mut Archive, capture: &[u8], room: usize) {
    let expected = packed::of_answer(judge(capture));
    same("judge, C", &expected, &c::judge(capture));
    let found = archive.judge(capture).expect("the archive");
    same("judge, archive", &expected, &found);

    // The C has no recordings.
    let expected = packed::of_answer(judge_recording(capture));
    let found = archive.recording(capture).expect("the archive");
    same("recording, archive", &expected, &found);

    let needed = cells(capture, &mut vec![0; MOST_CELLS]).ok();
    let lent = length(needed, room);
    let mut buffers = [(); 3].map(|()| vec![UNTOUCHED; lent + FENCE]);
    let [of_second, of_c, of_archive] = &mut buffers;
    let expected = packed::of_count(cells(capture, &mut of_second[..lent]));
    let found = c::cells(capture, &mut of_c[..lent]);
    same("cells, C", &expected, &found);
    same("cells, C", of_second, of_c);
    let found = archive
        .cells(capture, of_archive, lent)
        .expect("the archive");
    same("cells, archive", &expected, &found);
    same("cells, archive", of_second, of_archive);
    compare_blanks(archive, capture, room);
}

/// The C does not blank.
fn compare_blanks(archive: &mut Archive, capture: &[u8], room: usize) {
    let needed = blank(capture, &mut vec![0; MOST_BYTES]).ok();
    let lent = length(needed, room);
    let mut buffers = [(); 2].map(|()| vec![UNTOUCHED as u8; lent + FENCE]);
    let [of_second, of_archive] = &mut buffers;
    let expected = packed::of_count(blank(capture, &mut of_second[..lent]));
    let found = archive
        .blank(capture, of_archive, lent)
        .expect("the archive");
    same("blank, archive", &expected, &found);
    same("blank, archive", of_second, of_archive);
}

fn compare_schedules(
    archive: &mut Archive,
    settings: &[u32],
    requests: &[u32],
    policy: u32,
    room: usize,
) {
    let needed = schedule(settings, requests, policy, &mut vec![0; MOST_BYTES]).ok();
    let lent = length(needed, room);
    let mut buffers = [(); 3].map(|()| vec![UNTOUCHED as u8; lent + FENCE]);
    let [of_second, of_c, of_archive] = &mut buffers;
    let expected = packed::of_count(schedule(settings, requests, policy, &mut of_second[..lent]));
    let found = c::schedule(settings, requests, policy, &mut of_c[..lent]);
    same("schedule, C", &expected, &found);
    same("schedule, C", of_second, of_c);
    let found = archive
        .schedule(settings, requests, policy, of_archive, lent)
        .expect("the archive");
    same("schedule, archive", &expected, &found);
    same("schedule, archive", of_second, of_archive);
}

/// The length of a lent buffer; a refused call gets some small one.
fn length(needed: Option<u32>, room: usize) -> usize {
    let needed = needed.unwrap_or(2) as usize;
    [needed + 3, needed, needed.saturating_sub(1), 0][room]
}

fn same<T: PartialEq + Debug>(what: &str, expected: &T, found: &T) {
    if expected != found {
        eprintln!("{what}: expected {expected:x?}, found {found:x?}");
        abort();
    }
}
