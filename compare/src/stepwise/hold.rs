//! Holds a walk that is tried against the plain walk over the same values:
//! each byte of its struct after each call, and each number that it returns.

use super::{states, MOST_OFFERS, WALK_ENDED};
use crate::boundary::{CStepwise, Spelling, Stepper};
use crate::random::Random;
use crate::reference::{
    offset_in_memory, read_descriptor, write_descriptor, Access, Course, Pool, Regime,
};
use std::fmt::Write;

/// A walk, what is offered to it, and how the plain walk over that goes.
#[derive(Clone, Copy)]
pub struct Asked<'a> {
    pub regime: &'a Regime,
    pub access: &'a Access,
    pub spelling: Spelling,
    pub course: &'a Course,
    pub fed: &'a [Option<u64>],
}

impl Asked<'_> {
    /// What the struct has to be from the start to the end.
    fn structs(&self) -> Vec<CStepwise> {
        let states = states(self.regime, self.access, self.course, self.fed);
        let regime = self.spelling.regime(self.regime);
        let access = self.spelling.access(self.access);
        let each = states.iter();
        each.map(|state| CStepwise::of(&regime, &access, state))
            .collect()
    }

    /// Everything there is to know about a walk that failed.
    fn tell(&self, why: &str) -> String {
        let mut told = format!(
            "{why}\n  regime: {:x?}\n",
            self.spelling.regime(self.regime)
        );
        let access = self.spelling.access(self.access);
        let answer = &self.course.answer;
        writeln!(told, "  access: {access:x?}").expect("a string takes it");
        for (address, read) in self.course.visited.iter().zip(self.fed) {
            writeln!(told, "  at {address:#x}: {read:x?}").expect("a string takes it");
        }
        write!(told, "  the plain walk: {answer:x?}").expect("a string takes it");
        told
    }
}

/// Walks to the end and beyond it; gives the struct at the end.
///
/// # Errors
///
/// What is wrong, in words.
pub fn hold<S: Stepper>(stepper: &S, asked: &Asked) -> Result<CStepwise, String> {
    walk_through(stepper, asked).map_err(|why| asked.tell(&why))
}

fn walk_through<S: Stepper>(stepper: &S, asked: &Asked) -> Result<CStepwise, String> {
    let wanted = asked.structs();
    if wanted.len() > MOST_OFFERS + 1 || wanted.len() != asked.fed.len() + 1 {
        return Err("the plain walk has more steps than offers".to_string());
    }
    let mut walk = stepper.begin(asked.regime, asked.access, asked.spelling);
    same(&walk, &wanted[0], "the start")?;
    for (number, &offered) in (1..).zip(asked.fed) {
        let returned = stepper.offer(&mut walk, offered);
        let after = format!("offer {number}, {offered:x?}");
        if returned != 0 {
            return Err(format!("{after} returns {returned}"));
        }
        same(&walk, &wanted[number], &after)?;
    }
    let like_before = asked.fed.last().copied().flatten();
    hold_late(stepper, &walk, like_before.unwrap_or(asked.spelling.noise))?;
    Ok(walk)
}

fn same(walk: &CStepwise, wanted: &CStepwise, after: &str) -> Result<(), String> {
    match walk.difference(wanted) {
        None => Ok(()),
        Some(words) => Err(format!("after {after} {words}")),
    }
}

/// Offers of both sorts to a walk that has ended: each is refused, and every
/// byte stays.
///
/// # Errors
///
/// What is wrong, in words.
pub fn hold_late<S: Stepper>(stepper: &S, walk: &CStepwise, value: u64) -> Result<(), String> {
    for offered in [Some(value), None] {
        let mut late = *walk;
        let returned = stepper.offer(&mut late, offered);
        let after = format!("{offered:x?}, offered after the end,");
        if returned != WALK_ENDED {
            return Err(format!("{after} returns {returned}"));
        }
        same(&late, walk, &after)?;
    }
    Ok(())
}

/// RULES 16.5 (d): the value expected is what stands in the memory, and with
/// the new one it is as the plain walk left it. The memory is put back.
///
/// # Errors
///
/// What is wrong, in words.
pub fn hold_update(
    regime: &Regime,
    end: &CStepwise,
    memory: &mut [u8],
    left: &[u8],
) -> Result<(), String> {
    let unlike = || "with its update the memory is not as the plain walk leaves it".to_string();
    if end.update == 0 {
        return if memory == left {
            Ok(())
        } else {
            Err(unlike())
        };
    }
    let Some(offset) = offset_in_memory(&regime.pool, end.address) else {
        return Err("an update outside the pool".to_string());
    };
    let stands = read_descriptor(memory, offset, regime.ee);
    if stands != end.expected {
        return Err(format!("{stands:#x} stands where it expects another value"));
    }
    write_descriptor(memory, offset, end.value, regime.ee);
    let alike = memory == left;
    write_descriptor(memory, offset, stands, regime.ee);
    if alike {
        Ok(())
    } else {
        Err(unlike())
    }
}

/// The same regime with any other pool, and EE turned over.
pub fn with_other_pool(random: &mut Random, regime: &Regime) -> Regime {
    let mut number = |old: u64| match random.below(8) {
        0 => 0,
        1 => u64::MAX,
        2 => old ^ 1 << random.below(64),
        _ => random.bits(),
    };
    let pool = Pool {
        start: number(regime.pool.start as u64) as usize,
        length: number(regime.pool.length as u64) as usize,
        address: number(regime.pool.address),
    };
    Regime {
        pool,
        ee: !regime.ee,
        ..*regime
    }
}
