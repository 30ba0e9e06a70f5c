//! Walks over readers that are no pools: functions of the address, with tables
//! anywhere; and feeds that say something else each time. Each is then cut
//! short by "not reachable" at every step in turn. And starts that are refused.

use super::hold::{hold, Asked};
use super::tally::Source;
use super::{recorded, Trial};
use crate::boundary::{Spelling, Stepper};
use crate::cases::scene::{
    draw_access, draw_attributes, draw_clean_leaf, draw_leaf, draw_t, draw_table, draw_updates,
    HD_ALONE,
};
use crate::geometry::{Granule, LAST_LEVEL, PHYSICAL_LIMIT};
use crate::random::Random;
use crate::reference::{output_limit, Access, Kind, Pool, Range, Regime};
use crate::refusals::STEPWISE;

const FUNCTIONS: u64 = 12_000;
const CHANGING: u64 = 12_000;
const REFUSED: u64 = 3_000;

/// A regime that no row of this walk refuses; its pool is any.
pub fn draw_regime(random: &mut Random) -> Regime {
    let granule = random.pick(&Granule::ALL);
    let output_code = random.below(6) as u8;
    let (ha, hd) = draw_updates(random, 3);
    Regime {
        pool: Pool {
            start: random.bits() as usize,
            length: random.bits() as usize,
            address: random.bits(),
        },
        ranges: [(); 2].map(|()| draw_range(random, granule, output_code)),
        output_code,
        ha,
        hd,
        wxn: random.coin(),
        ee: random.coin(),
        granule,
        attributes: draw_attributes(random),
    }
}

fn draw_range(random: &mut Random, granule: Granule, output_code: u8) -> Range {
    let limit = match random.below(24) {
        0 => PHYSICAL_LIMIT,
        _ => output_limit(output_code),
    };
    Range {
        root: granule.floor(random.below(limit)),
        t: draw_t(random),
        disabled: random.once_in(24),
        hpd: random.once_in(4),
    }
}

/// An address of one of the ranges, or seldom of none.
pub fn draw_address(random: &mut Random, regime: &Regime) -> u64 {
    let any = random.bits();
    let [lower, upper] = regime.ranges.map(|range| 64 - u32::from(range.t));
    match random.below(24) {
        0 => any,
        1..=12 => any & ((1 << lower) - 1),
        _ => any | u64::MAX << upper,
    }
}

/// Makes a row apply, in one of its ways.
fn break_row(random: &mut Random, row: u8, regime: &mut Regime, access: &mut Access) {
    let range = &mut regime.ranges[random.below(2) as usize];
    match row {
        3 if random.coin() => regime.output_code = random.pick(&[6, 7, 8, 0x85, 0xFF]),
        3 => range.t = random.pick(&[0, 1, 15, 40, 63, 64, 0x90, 0xFF]),
        4 if random.coin() => range.root |= 1 << random.between(48, 63),
        4 => range.root |= 1 << random.below(u64::from(regime.granule.page_bits())),
        5 => regime.attributes[random.below(8) as usize] = random.pick(&[0x01, 0x40, 0xF0]),
        13 => (regime.ha, regime.hd) = HD_ALONE,
        6 => access.size = random.pick(&[0, 3, 17, 32, u64::MAX]),
        7 => {
            access.kind = random.pick(&[Kind::Read, Kind::Write, Kind::Update]);
            access.address |= regime.granule.bytes() - 1;
            access.size = random.pick(&[2, 4, 8, 16]);
        }
        _ => panic!("there is no row {row} to spoil"),
    }
}

/// Makes one to three rows apply.
pub fn spoil(random: &mut Random, regime: &mut Regime, access: &mut Access) {
    for _ in 0..random.between(1, 3) {
        let row = random.pick(STEPWISE);
        break_row(random, row, regime, access);
    }
}

/// What may stand anywhere: mostly a table, which is a page at the last level.
pub fn draw_offer(random: &mut Random, regime: &Regime) -> Option<u64> {
    let granule = regime.granule;
    let within = random.below(output_limit(regime.output_code));
    let last = usize::from(LAST_LEVEL);
    Some(match random.below(24) {
        0 => return None,
        1 => random.bits(),
        2 => random.bits() & !1,
        3 => {
            let any = random.below(PHYSICAL_LIMIT);
            draw_table(random, granule, any)
        }
        4 => draw_leaf(random, granule, 2, within),
        5 | 6 => draw_leaf(random, granule, 1, within),
        7..=9 => draw_clean_leaf(random, granule, last, within),
        10 | 11 => draw_leaf(random, granule, last, within),
        _ => draw_table(random, granule, within),
    })
}

/// A reader: the same at the same address.
fn function(seed: u64, regime: &Regime) -> impl Fn(u64) -> Option<u64> + '_ {
    move |address| {
        let mut random = Random::new(seed ^ Random::new(address).bits());
        draw_offer(&mut random, regime)
    }
}

/// An address that picks the same index at each level, so that a table which
/// points to itself names one descriptor again and again.
fn draw_repeating(random: &mut Random, regime: &Regime) -> u64 {
    let number = random.below(2) as usize;
    let t = regime.ranges[number].t;
    let granule = regime.granule;
    let levels = granule.first_level(t)..=LAST_LEVEL;
    let bits = levels.clone().map(|level| granule.index_bits(t, level));
    let index = random.below(1 << bits.min().unwrap_or(0));
    let repeated = levels.map(|level| index << granule.lowest_index_bit(level));
    let address = repeated.fold(0, |sum, part| sum | part);
    match number {
        0 => address,
        _ => address | u64::MAX << (64 - u32::from(t)),
    }
}

/// A feed that says something else each time; mostly that the table points to
/// itself.
fn changing(seed: u64, regime: &Regime) -> impl FnMut(u64) -> Option<u64> + '_ {
    let mut random = Random::new(seed);
    move |address| match random.below(3) {
        0 => draw_offer(&mut random, regime),
        _ => Some(draw_table(&mut random, regime.granule, address)),
    }
}

/// A regime, and an access at an address that is drawn for it.
pub fn draw_asked(
    random: &mut Random,
    address: impl Fn(&mut Random, &Regime) -> u64,
) -> (Regime, Access) {
    let regime = draw_regime(random);
    let address = address(random, &regime);
    let access = draw_access(random, regime.granule, address);
    (regime, access)
}

/// Makes one walk and holds it.
type Feed<S> = fn(&mut Trial<S>, bool) -> Result<(), String>;

impl<S: Stepper> Trial<S> {
    pub(super) fn run_feeds(&mut self, trace: bool) -> Result<(), String> {
        let feeds: [(&str, u64, Feed<S>); 3] = [
            ("function", FUNCTIONS, Self::feed_function),
            ("changing feed", CHANGING, Self::feed_changing),
            ("refused start", REFUSED, Self::feed_refused),
        ];
        for (name, count, feed) in feeds {
            for number in 1..=count {
                let told = |why| format!("DIFFERENCE in {name} {number}: {why}");
                feed(self, trace).map_err(told)?;
            }
        }
        Ok(())
    }

    fn feed_function(&mut self, trace: bool) -> Result<(), String> {
        let (regime, access) = draw_asked(&mut self.random, draw_address);
        let reader = function(self.random.bits(), &regime);
        let (_, fed) = recorded(reader, &regime, &access);
        self.feed(Source::Function, &regime, &access, &fed, trace)
    }

    fn feed_changing(&mut self, trace: bool) -> Result<(), String> {
        let (regime, access) = draw_asked(&mut self.random, draw_repeating);
        let reader = changing(self.random.bits(), &regime);
        let (_, fed) = recorded(reader, &regime, &access);
        self.feed(Source::Changing, &regime, &access, &fed, trace)
    }

    fn feed_refused(&mut self, trace: bool) -> Result<(), String> {
        let (mut regime, mut access) = draw_asked(&mut self.random, draw_address);
        spoil(&mut self.random, &mut regime, &mut access);
        self.feed(Source::Function, &regime, &access, &[], trace)
    }

    /// A feed; then the same cut short at each step, and under another pool.
    fn feed(
        &mut self,
        source: Source,
        regime: &Regime,
        access: &Access,
        fed: &[Option<u64>],
        trace: bool,
    ) -> Result<(), String> {
        let spelling = Spelling::draw(&mut self.random);
        for reachable in 0..=fed.len() {
            if trace {
                eprintln!("{reachable} of {fed:x?}: {regime:x?}, {access:x?}");
            }
            let mut offers = fed.iter().copied().take(reachable);
            let (course, fed) = recorded(|_| offers.next().flatten(), regime, access);
            let asked = Asked {
                regime,
                access,
                spelling,
                course: &course,
                fed: &fed,
            };
            let end = hold(&self.stepper, &asked)?;
            self.tally.note(source, &asked, &end);
            self.again(&asked)?;
        }
        Ok(())
    }
}
