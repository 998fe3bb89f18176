//! Captures and request lists spelled in few bytes. Whatever the bytes are, the settings are
//! in range, tRC is at most tRAS + tRP and cycles rise, so that the fuzzer gets past the
//! refusals.

use second::capture::{bytes_of_edition, Event, SETTINGS, SLEEP_SETTINGS};

/// So many settings, then four bytes an event: three of pins, and one of cycles since the
/// event before.
pub fn capture(bytes: &[u8], count: usize, edition: u32) -> Vec<u8> {
    let (settings, rest) = settings(bytes, count);
    let pins = if count == SLEEP_SETTINGS {
        0x1f_ffff
    } else {
        0xf_ffff
    };
    let mut next = 0;
    let events: Vec<Event> = words(rest)
        .map(|word| {
            let cycle = next + (word >> 24);
            next = cycle + 1;
            Event {
                cycle,
                pins: word & pins,
            }
        })
        .collect();
    bytes_of_edition(edition, &settings, &events)
}

/// Settings, then a word each request, of a cell that the part has.
pub fn requests(bytes: &[u8]) -> (Vec<u32>, Vec<u32>) {
    let (settings, rest) = settings(bytes, SETTINGS);
    let cells = 4 << (settings[1] + settings[2]);
    let requests = words(rest).map(|word| (word & 1 << 31) | (word % cells));
    (settings, requests.collect())
}

pub fn words(bytes: &[u8]) -> impl Iterator<Item = u32> + '_ {
    bytes
        .chunks_exact(4)
        .map(|word| u32::from_le_bytes(word.try_into().expect("four bytes")))
}

/// A byte spells each setting, and one more tREFI.
fn settings(bytes: &[u8], count: usize) -> (Vec<u32>, &[u8]) {
    let (spelled, rest) = bytes.split_at(bytes.len().min(count + 1));
    let byte = |place: usize| spelled.get(place).map_or(0, |&byte| u32::from(byte));
    let mut settings = vec![0; count];
    settings[0] = 1 + byte(0) % 2;
    settings[1] = 12 + byte(1) % 3;
    settings[2] = 8 + byte(2) % 4;
    // A burst length of 2 to 16, the order, a latency of 2 or 3.
    settings[3] = (1 + byte(3) % 4) | (byte(3) >> 2 & 1) << 3 | (2 + (byte(3) >> 3 & 1)) << 4;
    for (place, time) in (4..).zip(&mut settings[4..13]) {
        *time = 1 + byte(place);
    }
    settings[7] = settings[7].min(settings[5] + settings[6]);
    settings[13] = 1 + byte(13) + 256 * byte(14);
    for (place, time) in (15..).zip(&mut settings[14..]) {
        *time = 1 + byte(place);
    }
    (settings, rest)
}
