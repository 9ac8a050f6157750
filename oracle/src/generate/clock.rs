//! Which moment a call is made at.

use super::Generator;
use core_interface::oracle::{can_probe, validation};
use core_interface::{PROBE_WINDOW_MS, VALIDATION_RESULT_KEEP_MS, VALIDATION_SESSION_MS};

pub(super) const TWO_TO_32: u64 = 1 << 32;

impl Generator {
    /// Where a new gate's clock begins.
    pub(super) fn first_moment(&mut self) -> u64 {
        let far = self.random.next();
        self.random.pick(&[
            0,
            0,
            1,
            1_000,
            1_000,
            50_000,
            5_000_000,
            TWO_TO_32 - 500,
            TWO_TO_32 - 1,
            TWO_TO_32,
            3 * TWO_TO_32 - 2_000,
            u64::MAX - 100_000,
            u64::MAX - VALIDATION_SESSION_MS,
            far,
        ])
    }

    /// The moment of the next call. The clock mostly stands or goes on a little, now and then it goes to a moment at which
    /// something lapses, and sometimes it jumps, also backwards, for one call or for good.
    pub(super) fn moment(&mut self) -> u64 {
        let chosen = match self.random.below(100) {
            0..=59 => return self.now,
            60..=79 => self.now.saturating_add(self.small_step()),
            80..=91 => self.turning_point(),
            92..=95 => self.now.saturating_sub(self.small_step()),
            _ => self.first_moment(),
        };
        let small = chosen >= self.now && chosen - self.now < 10_000;
        if small || self.random.chance(1, 4) {
            self.now = chosen;
        }
        chosen
    }

    fn small_step(&mut self) -> u64 {
        self.random
            .pick(&[1, 1, 2, 10, 50, 500, 999, 1_000, 1_001, 2_500, 5_999, 6_000])
    }

    /// A moment at which something of the state changes its meaning, or one beside it.
    fn turning_point(&mut self) -> u64 {
        let mut points = vec![validation::cooldown_until_ms()];
        if let Some(session) = validation::session() {
            points.push(session.deadline_ms);
            points.push(
                session
                    .ended_at_ms
                    .saturating_add(VALIDATION_RESULT_KEEP_MS),
            );
        }
        if let Some(window) = can_probe::window() {
            points.push(window.opened_at_ms);
            points.push(window.opened_at_ms.saturating_add(PROBE_WINDOW_MS));
        }
        let point = self.random.pick(&points);
        self.beside(point)
    }

    /// A moment near a point: the point itself, 1 ms or a whole second away.
    pub(super) fn beside(&mut self, point: u64) -> u64 {
        let step = self.random.pick(&[0, 0, 1, 1, 1_000, 1_001, 999]);
        if self.random.flip() {
            point.saturating_add(step)
        } else {
            point.saturating_sub(step)
        }
    }

    /// The clock goes to the moment.
    pub(super) fn go_to(&mut self, moment: u64) {
        self.now = moment;
    }
}
