//! Walks of any bytes, as no call leaves them (RULES 16.6), and offers to each
//! until it ends.

use super::feeds::{draw_address, draw_asked, draw_offer, spoil};
use super::hold::hold_late;
use super::tally::Origin;
use super::{second_offer, Trial, MOST_OFFERS};
use crate::boundary::{CStepwise, Spelling, Stepper};
use crate::geometry::PHYSICAL_LIMIT;
use crate::random::Random;
use crate::reference::{output_limit, Regime};

const WALKS: u64 = 36_000;

/// The address that a walk wants: any, and mostly one that a call may leave.
fn draw_entry(random: &mut Random, regime: &Regime) -> u64 {
    match random.below(6) {
        0 => random.bits(),
        1 => random.pick(&[0, 1, 7, PHYSICAL_LIMIT, u64::MAX - 7, u64::MAX]),
        _ => random.below(output_limit(regime.output_code)) & !7,
    }
}

/// All that has a say is drawn so that the walk may go on; the rest is noise.
fn draw_struct(random: &mut Random) -> CStepwise {
    let any_address = random.once_in(8);
    let (mut regime, mut access) = draw_asked(random, |random, regime| match any_address {
        true => random.bits(),
        false => draw_address(random, regime),
    });
    let entry = draw_entry(random, &regime);
    for range in &mut regime.ranges {
        range.disabled |= random.once_in(8);
    }
    if random.once_in(4) {
        spoil(random, &mut regime, &mut access);
    }
    let spelling = Spelling::draw(random);
    CStepwise {
        regime: spelling.regime(&regime),
        access: spelling.access(&access),
        address: entry,
        ended: random.pick(&[0, 0, 0, 0, 0, 0, 0, 0, 0, 1, 2, 0x80, 0xFF]),
        left: random.pick(&[0, 0, 0, 1, 1, 2, 2, 3, 3, 4, 5, 0x7F, 0x80, 0xFC, 0xFF]),
        tables: match random.below(4) {
            0 => random.bits() as u8 & 0xF0,
            1 => random.bits() as u8 & 0xF0 | 1 << random.below(4),
            2 => 0,
            _ => random.bits() as u8,
        },
        ..CStepwise::scribbled(random.bits())
    }
}

/// What may stand where a walk of any bytes asks, or is not reachable.
fn draw_answer(random: &mut Random, walk: &CStepwise) -> Option<u64> {
    if random.once_in(8) {
        return None;
    }
    let regime = Regime {
        output_code: walk.regime.output.min(5),
        ..walk.regime.read()
    };
    draw_offer(random, &regime)
}

impl<S: Stepper> Trial<S> {
    pub(super) fn run_foreign(&mut self, trace: bool) -> Result<(), String> {
        for number in 1..=WALKS {
            let origin = self.random.pick(&[
                Origin::AnyBytes,
                Origin::LeftByCalls,
                Origin::Drawn,
                Origin::Drawn,
                Origin::Drawn,
            ]);
            let walk = self.draw_walk(origin);
            if trace {
                eprintln!("walk {number} of any bytes: {walk:x?}");
            }
            self.play(origin, walk)
                .map_err(|why| format!("DIFFERENCE in walk {number} of any bytes: {why}"))?;
        }
        Ok(())
    }

    fn draw_walk(&mut self, origin: Origin) -> CStepwise {
        let random = &mut self.random;
        match origin {
            Origin::Drawn => draw_struct(random),
            Origin::AnyBytes => {
                let mut walk = CStepwise::scribbled(random.bits());
                if !random.once_in(4) {
                    walk.ended = 0;
                }
                walk
            }
            Origin::LeftByCalls => self.draw_disturbed(),
        }
    }

    /// A walk as calls leave it, with a few bytes changed.
    fn draw_disturbed(&mut self) -> CStepwise {
        let random = &mut self.random;
        let (regime, access) = draw_asked(random, draw_address);
        let spelling = Spelling::draw(random);
        let mut walk = self.stepper.begin(&regime, &access, spelling);
        for _ in 0..random.below(4) {
            self.stepper.offer(&mut walk, draw_offer(random, &regime));
        }
        let count = random.between(1, 3);
        walk.disturb(random, count);
        if random.coin() {
            walk.ended = 0;
        }
        walk
    }

    /// Offers until the walk ends, which it must in time; each leaves what the
    /// reference reads in the bytes. Then offers after the end.
    fn play(&mut self, origin: Origin, mut walk: CStepwise) -> Result<(), String> {
        if walk.ended != 0 {
            self.tally.note_foreign_ended(origin, &walk);
        }
        let mut offers = 0;
        while walk.ended == 0 {
            if offers == MOST_OFFERS {
                return Err(format!("it goes on after {MOST_OFFERS} offers: {walk:x?}"));
            }
            offers += 1;
            let before = walk;
            let offered = draw_answer(&mut self.random, &walk);
            self.offer(&mut walk, offered)
                .map_err(|why| format!("{offered:x?} was offered to {before:x?}: {why}"))?;
            self.tally
                .note_foreign(origin, &before, offered, &walk, offers);
        }
        let late = self.random.bits();
        hold_late(&self.stepper, &walk, late).map_err(|why| format!("{walk:x?}: {why}"))
    }

    /// One offer, to a walk that has not ended, and to the reference.
    fn offer(&self, walk: &mut CStepwise, offered: Option<u64>) -> Result<(), String> {
        let mut wanted = *walk;
        second_offer(&mut wanted, offered);
        match (self.stepper.offer(walk, offered), walk.difference(&wanted)) {
            (0, None) => Ok(()),
            (0, Some(words)) => Err(words),
            (returned, _) => Err(format!("it returns {returned}")),
        }
    }
}
