//! Seeded inputs: captures that are clean or break a chosen kind of rule, captures that are
//! damaged, and settings with request lists.

mod addresses;
mod captures;
mod damage;
mod dice;
mod export_tally;
mod exports;
mod plays;
mod requests;
mod settings;
mod tally;

pub use addresses::other_addresses;
pub use captures::{busy_capture, guided_capture, long_recording};
pub use damage::damaged_capture;
pub use dice::Dice;
pub use export_tally::{ExportTally, Shown};
pub use exports::{export, far_capture, settings_of, Export};
pub use plays::{play_of, Play, PlayShown, PlayTally};
pub use requests::{request_list, row_policy};
pub use tally::{Tally, MOST_CELLS, NO_RULE};

#[derive(Clone, Debug)]
pub enum Input {
    Capture(Vec<u8>),
    Requests {
        settings: Vec<u32>,
        requests: Vec<u32>,
        policy: u32,
    },
}

/// The next input: more than half guided captures, the rest damaged ones and requests.
pub fn input(dice: &mut Dice) -> Input {
    match dice.below(20) {
        0..=10 => Input::Capture(guided_capture(dice)),
        11..=14 => Input::Capture(damaged_capture(dice)),
        _ => {
            let (settings, requests) = request_list(dice);
            let policy = row_policy(dice);
            Input::Requests {
                settings,
                requests,
                policy,
            }
        }
    }
}
