//! The first calls of a script in a world made for the end of its pool: each
//! call that row 1 is for, over as much memory as is lent as a rule, over one
//! byte less and over all there is.

use super::world::{Ends, World};
use crate::cases::scene::{draw_access, draw_marking_access};
use crate::harvest::draw_near;
use crate::random::Random;
use crate::reference::Regime;
use crate::session::{page_of, Call};

/// The calls, each with the length that it is lent.
pub fn draw(random: &mut Random, world: &World, ends: &Ends) -> Vec<(Call, usize)> {
    let (usual, all) = (world.length, world.memory.len());
    let home = world.regimes[0];
    let end = home.pool.address + home.pool.length as u64;
    let granule = home.granule;
    let access = Call::Access(draw_marking_access(random, granule, ends.last));
    let again = Call::Access(draw_access(random, granule, ends.last));
    let behind = Call::Access(draw_access(random, granule, ends.behind));
    let store = store_at(random, end - 8);
    let store_behind = store_at(random, end);
    let harvest = harvest_of(random, &home, ends.last);
    let harvest_behind = harvest_of(random, &home, ends.behind);
    vec![
        (access, all),
        (store, all),
        (Call::SetRegime(home), all),
        (Call::SetRegime(home), usual - 1),
        (Call::SetRegime(longer(home)), usual),
        (Call::SetRegime(later(home)), usual),
        (Call::SetRegime(home), usual),
        (access, usual),
        (again, usual),
        (again, usual - 1),
        (again, all),
        (harvest, usual - 1),
        (harvest, all),
        (harvest, usual),
        (access, usual),
        (harvest_behind, usual),
        (store, usual),
        (store, usual - 1),
        (store, all),
        (store_behind, usual),
        (behind, usual),
    ]
}

/// A few pages with one among them.
fn harvest_of(random: &mut Random, regime: &Regime, page: u64) -> Call {
    let number = page_of(regime.granule, page);
    Call::Harvest(draw_near(random, regime, number))
}

fn store_at(random: &mut Random, address: u64) -> Call {
    let value = random.bits();
    Call::Store { address, value }
}

/// The pool ends a granule later.
fn longer(mut regime: Regime) -> Regime {
    regime.pool.length += regime.granule.length();
    regime
}

/// The pool lies a granule further up.
fn later(mut regime: Regime) -> Regime {
    regime.pool.start += regime.granule.length();
    regime
}
