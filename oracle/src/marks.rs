//! W-201: the whole clock of the last frame heard on each bus, beside the source's marks of 32 bits.

use core_interface::MAX_CAN_BUSES;
use core_interface::oracle::can_probe;

const AWAKE_MS: i128 = 1_000;
const TWO_TO_32: i128 = 1 << 32;

/// For each bus the moment of the last frame heard; none before the first.
#[derive(Clone, Copy, Debug, Default, PartialEq, Eq)]
pub struct Marks([Option<u64>; MAX_CAN_BUSES]);

impl Marks {
    /// A bus above 3 is not noted.
    pub fn hear(&mut self, bus: u8, now: u64) {
        if let Some(mark) = self.0.get_mut(usize::from(bus)) {
            *mark = Some(now);
        }
    }

    pub fn of(&self, bus: u8) -> Option<u64> {
        *self.0.get(usize::from(bus))?
    }

    /// Whether the source takes the bus for awake where W-201 does not, or the other way round.
    pub fn rules_differ(&self, bus: u8, now: u64) -> bool {
        let Some(mark) = self.of(bus) else {
            return false;
        };
        let since = i128::from(now) - i128::from(mark);
        let awake = (0..=AWAKE_MS).contains(&since);
        // The source's mark of this moment is 0, which is its "never".
        let never = i128::from(mark) % TWO_TO_32 == TWO_TO_32 - 1;
        let around = since.rem_euclid(TWO_TO_32) <= AWAKE_MS;
        if awake { never } else { around && !never }
    }

    /// The ms of each bus, or `never`, after a look that the source noted the same frames.
    pub fn show(&self) -> String {
        let source = self.0.map(|mark| match mark {
            Some(mark) => (mark as u32).wrapping_add(1),
            None => 0,
        });
        assert_eq!(source, can_probe::marks(), "the source's marks");
        let shown = self.0.map(|mark| match mark {
            Some(mark) => mark.to_string(),
            None => "never".to_string(),
        });
        shown.join(",")
    }
}
