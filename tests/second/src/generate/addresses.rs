//! Captures that differ from one only in addresses.

use super::Dice;
use crate::blank::{hidden, with_pins};
use crate::capture::Capture;

/// Other columns and rows at random, among rows that the part has; most events behind the
/// first few keep theirs, so that open rows and columns go together in some of them.
pub fn other_addresses(dice: &mut Dice, bytes: &[u8], capture: &Capture) -> Vec<u8> {
    let kept = dice.pick(&[0, 0, 50, 90]);
    with_pins(bytes, capture, |event| {
        let may_change = hidden(&capture.settings, event.pins);
        if dice.percent(kept) {
            return event.pins;
        }
        let address = dice.word() & may_change;
        let others = event.pins & !may_change;
        let rolled = others | address;
        // A row that the part lacks is no row that may take another's place.
        if hidden(&capture.settings, rolled) == may_change {
            rolled
        } else {
            others | address & (capture.settings.rows() - 1)
        }
    })
}
