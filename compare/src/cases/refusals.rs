//! The refusals of a plain walk: each row (RULES 5.1) at its limit, one past
//! it, and in pairs, where the row that is looked at first must be given.

use super::scene::{draw_granule_size, draw_leaf, Scene, Sketch, HD_ALONE, UPDATES};
use super::Maker;
use crate::geometry::{Granule, PHYSICAL_LIMIT};
use crate::promises::Expect;
use crate::random::Random;
use crate::reference::{Access, Kind, Regime, MEMORY_LIMIT, POOL_LIMIT};
use crate::refusals::{is_before, WALK};

const FAMILY: &str = "refusals";

/// How often each change comes alone, by granule; and of those that make long
/// memories.
const ALONE: [(Granule, u32, u32); 3] = [
    (Granule::Kib4, 20, 3),
    (Granule::Kib16, 10, 1),
    (Granule::Kib64, 20, 1),
];

/// What a case starts from: accepted, until something is changed in it.
struct Question<'a> {
    scene: &'a mut Scene,
    access: Access,
}

impl Question<'_> {
    fn regime(&mut self) -> &mut Regime {
        &mut self.scene.regime
    }

    fn granule(&self) -> u64 {
        self.scene.granule_size()
    }

    /// The same, for lengths and offsets.
    fn page(&self) -> usize {
        self.scene.regime.granule.length()
    }

    /// The highest multiple of the granule that a number can hold.
    fn highest(&self) -> u64 {
        u64::MAX - (self.granule() - 1)
    }

    /// Makes it an access that moves so many bytes at an address.
    fn move_to(&mut self, random: &mut Random, address: u64, size: u64) {
        self.access.kind = random.pick(&[Kind::Read, Kind::Write, Kind::Update]);
        self.access.size = size;
        self.access.address = address;
    }
}

/// Numbers that are no multiple of a granule; some are one of a smaller
/// granule.
const OFF: [fn(u64) -> u64; 6] = [
    |_| 1,
    |_| 8,
    |granule| granule / 16,
    |granule| granule / 4,
    |granule| granule / 2,
    |granule| granule - 1,
];

/// A change to a question. Those in `past` break their row whatever the
/// question was; those in `limits` break none.
type Change = Box<dyn Fn(&mut Question, &mut Random)>;

#[derive(Default)]
struct Changes {
    past: Vec<(u8, Change)>,
    limits: Vec<Change>,
}

impl Changes {
    fn past(&mut self, row: u8, change: impl Fn(&mut Question, &mut Random) + 'static) {
        self.past.push((row, Box::new(change)));
    }

    fn limit(&mut self, change: impl Fn(&mut Question, &mut Random) + 'static) {
        self.limits.push(Box::new(change));
    }

    /// One that breaks a row.
    fn draw_past(&self, random: &mut Random, row: u8) -> &Change {
        let of_row = self.past.iter().filter(|past| past.0 == row);
        let all: Vec<&Change> = of_row.map(|(_, change)| change).collect();
        random.pick(&all)
    }
}

pub fn run(maker: &mut Maker) {
    let mut changes = Changes::default();
    memory_and_pool(&mut changes);
    pool_address(&mut changes);
    sizes_and_code(&mut changes);
    roots_and_attributes(&mut changes);
    updates(&mut changes);
    access_size(&mut changes);
    page_crossing(&mut changes);
    let mut long = Changes::default();
    lengths(&mut long);
    for (granule, times, times_long) in ALONE {
        each_alone(maker, granule, &changes, times);
        each_alone(maker, granule, &long, times_long);
    }
    in_pairs(maker, &changes);
    with_each_row(maker, &long, &changes);
    every_attribute_byte(maker);
}

fn each_alone(maker: &mut Maker, granule: Granule, changes: &Changes, times: u32) {
    for _ in 0..times {
        for (row, change) in &changes.past {
            ask_under(maker, granule, &[change], Expect::Refused(*row));
        }
        for change in &changes.limits {
            ask_under(maker, granule, &[change], Expect::Walked);
        }
    }
}

fn in_pairs(maker: &mut Maker, changes: &Changes) {
    for (row, change) in &changes.past {
        for (other_row, other) in &changes.past {
            if is_before(WALK, *row, *other_row) {
                // The first row last, so that its reason surely stands.
                ask(maker, &[other, change], Expect::Refused(*row));
            }
        }
        // A limit elsewhere saves nothing; it may undo the change, though.
        for limit in &changes.limits {
            ask(maker, &[limit, change], Expect::Refused(*row));
            ask(maker, &[change, limit], Expect::Anything);
        }
    }
}

/// The same for changes that make long memories, with one change of each row.
fn with_each_row(maker: &mut Maker, long: &Changes, changes: &Changes) {
    for (row, change) in &long.past {
        for &other_row in WALK.iter().filter(|&&other| is_before(WALK, *row, other)) {
            let other = changes.draw_past(&mut maker.random, other_row);
            ask(maker, &[other, change], Expect::Refused(*row));
        }
    }
    for limit in &long.limits {
        for &row in WALK {
            let change = changes.draw_past(&mut maker.random, row);
            ask(maker, &[limit, change], Expect::Refused(row));
            ask(maker, &[change, limit], Expect::Anything);
        }
    }
}

/// A question that is accepted, its changes, and the call.
fn ask(maker: &mut Maker, changes: &[&Change], expect: Expect) {
    let granule = draw_granule_size(&mut maker.random);
    ask_under(maker, granule, changes, expect);
}

/// The same under one granule.
fn ask_under(maker: &mut Maker, granule: Granule, changes: &[&Change], expect: Expect) {
    let random = &mut maker.random;
    let scene = &mut maker.scene;
    let sketch = Sketch::inside(random, granule);
    scene.draw(random, sketch);
    let access = lay_and_draw(random, scene);
    let mut question = Question { scene, access };
    for change in changes {
        change(&mut question, random);
    }
    let access = question.access;
    maker.ask(FAMILY, &access, expect);
}

/// A path, and an access of what it leads to.
fn lay_and_draw(random: &mut Random, scene: &mut Scene) -> Access {
    let range = random.below(2) as usize;
    let leaf_level = scene.draw_leaf_level(random, range);
    let path = scene.draw_path(random, range, leaf_level);
    let output = scene.draw_output(random);
    let leaf = draw_leaf(random, scene.regime.granule, leaf_level, output);
    scene.lay(random, &path, leaf);
    let kind = random.pick(&Kind::ALL);
    let size = match kind {
        Kind::Fetch => 4,
        Kind::ProbeRead | Kind::ProbeWrite => 1,
        _ => 1 << random.below(5),
    };
    Access {
        address: scene.address(random, &path) & !(size - 1),
        size,
        el0: random.coin(),
        kind,
    }
}

/// Row 1.
fn memory_and_pool(changes: &mut Changes) {
    // Memory too short for any pool.
    for length in [|_| 0, |_| 1, |_| 8, |page: usize| page - 1] {
        changes.past(1, move |question, _| {
            let length = length(question.page());
            question.scene.memory.resize(length, 0)
        });
    }
    // Memory and pool as short as they may be.
    changes.limit(|question, _| {
        let page = question.page();
        question.scene.memory.resize(page, 0);
        question.regime().pool.start = 0;
        question.regime().pool.length = page;
    });
    end_of_memory(changes);
    off_the_granule(changes);
    no_length(changes);
    sums_that_wrap(changes);
}

/// Row 1: the pool's end against the end of memory.
fn end_of_memory(changes: &mut Changes) {
    changes.limit(|question, _| {
        let pool = question.regime().pool;
        let end = pool.start.saturating_add(pool.length);
        if end <= MEMORY_LIMIT {
            question.scene.memory.resize(end, 0);
        }
    });
    for short in [|_| 1, |_| 8, |page: usize| page] {
        changes.past(1, move |question, _| {
            let page = question.page();
            let pool = &mut question.regime().pool;
            (pool.start, pool.length) = (2 * page, 2 * page);
            question.scene.memory.resize(4 * page - short(page), 0);
        });
    }
    changes.past(1, |question, _| {
        let page = question.page();
        question.scene.memory.resize(3 * page, 0);
        question.regime().pool.start = 3 * page;
    });
}

/// Row 1: start or length off the granule, and a memory that is long enough.
fn off_the_granule(changes: &mut Changes) {
    for off in OFF {
        changes.past(1, move |question, _| {
            let (page, off) = (question.page(), off(question.granule()) as usize);
            question.scene.memory.resize(4 * page, 0);
            question.regime().pool.start = page + off;
            question.regime().pool.length = page;
        });
        changes.past(1, move |question, _| {
            let (page, off) = (question.page(), off(question.granule()) as usize);
            question.scene.memory.resize(4 * page, 0);
            question.regime().pool.start = page;
            question.regime().pool.length = page + off;
        });
        changes.past(1, move |question, _| {
            question.regime().pool.length = off(question.granule()) as usize;
        });
    }
}

/// Row 1: length 0.
fn no_length(changes: &mut Changes) {
    changes.past(1, |question, _| question.regime().pool.length = 0);
    changes.past(1, |question, _| {
        let page = question.page();
        let start = question.scene.memory.len() / page * page;
        let pool = &mut question.regime().pool;
        (pool.start, pool.length) = (start, 0);
    });
}

/// Row 1: numbers whose sum would wrap, and others that are far too large.
fn sums_that_wrap(changes: &mut Changes) {
    let any: [fn(usize) -> usize; 6] = [
        |page| usize::MAX - (page - 1),
        |_| usize::MAX,
        |_| 1 << 63,
        |_| 1 << 32,
        |page| (1 << 32) + page,
        |_| MEMORY_LIMIT,
    ];
    for number in any {
        changes.past(1, move |question, _| {
            question.regime().pool.start = number(question.page());
        });
        changes.past(1, move |question, _| {
            question.regime().pool.length = number(question.page());
        });
    }
    changes.past(1, |question, _| {
        let pool = &mut question.regime().pool;
        pool.start = 0usize.wrapping_sub(pool.length);
    });
    changes.past(1, |question, _| {
        let page = question.page();
        let pool = &mut question.regime().pool;
        pool.length = 0usize.wrapping_sub(pool.start.max(page));
    });
    changes.past(1, |question, _| {
        let pool = &mut question.regime().pool;
        (pool.start, pool.length) = (1 << 63, 1 << 63);
    });
}

/// Row 1 again: memory and pool as long as they may be, and longer.
fn lengths(changes: &mut Changes) {
    changes.limit(|question, _| question.scene.memory.resize(MEMORY_LIMIT, 0));
    changes.past(1, |question, _| {
        question.scene.memory.resize(MEMORY_LIMIT + 1, 0)
    });
    changes.limit(|question, _| {
        let page = question.page();
        let pool = &mut question.regime().pool;
        pool.length = POOL_LIMIT;
        // Row 2 still holds.
        pool.address = pool.address.min(PHYSICAL_LIMIT - POOL_LIMIT as u64);
        pool.start = pool.start.min(2 * page);
        question.scene.memory.resize(2 * page + POOL_LIMIT, 0);
    });
    for more in [|_| 1, |_| 8, |page: usize| page, |_| POOL_LIMIT] {
        changes.past(1, move |question, _| {
            let length = POOL_LIMIT + more(question.page());
            question.regime().pool.start = 0;
            question.regime().pool.length = length;
            question.scene.memory.resize(length, 0);
        });
    }
}

/// Row 2.
fn pool_address(changes: &mut Changes) {
    for off in OFF {
        changes.past(2, move |question, _| {
            let granule = question.granule();
            question.regime().pool.address = granule + off(granule);
        });
    }
    changes.limit(|question, _| question.regime().pool.address = 0);
    changes.limit(|question, _| {
        let pool = &mut question.regime().pool;
        pool.address = PHYSICAL_LIMIT.wrapping_sub(pool.length as u64);
    });
    changes.past(2, |question, _| {
        let granule = question.granule();
        let pool = &mut question.regime().pool;
        pool.address = PHYSICAL_LIMIT - pool.length as u64 + granule;
    });
    changes.past(2, |question, _| {
        question.regime().pool.address = PHYSICAL_LIMIT + question.granule();
    });
    changes.past(2, |question, _| {
        question.regime().pool.address = question.highest();
    });
    for address in [PHYSICAL_LIMIT, 1 << 52, 1 << 63, u64::MAX] {
        changes.past(2, move |question, _| {
            question.regime().pool.address = address
        });
    }
    // The sum would wrap to 0, or to less than the pool's length.
    changes.past(2, |question, _| {
        let pool = &mut question.regime().pool;
        pool.address = 0u64.wrapping_sub(pool.length as u64) | 1 << 63;
    });
}

/// Row 3, for both ranges, disabled or not.
fn sizes_and_code(changes: &mut Changes) {
    for range in 0..2 {
        for t in [0, 1, 15, 40, 41, 63, 64, 128 + 16, 255] {
            changes.past(3, move |question, random| {
                question.regime().ranges[range].t = t;
                question.regime().ranges[range].disabled = random.coin();
            });
        }
        for t in [16, 39] {
            changes.limit(move |question, random| {
                question.regime().ranges[range].t = t;
                question.regime().ranges[range].disabled = random.coin();
            });
        }
    }
    for code in [6, 7, 8, 13, 128, 255] {
        changes.past(3, move |question, _| question.regime().output_code = code);
    }
    for code in [0, 5] {
        changes.limit(move |question, _| question.regime().output_code = code);
    }
}

/// Row 4, for both ranges, disabled or not; then row 5.
fn roots_and_attributes(changes: &mut Changes) {
    let beyond: [fn(u64) -> u64; 6] = [
        |_| PHYSICAL_LIMIT - 1,
        |_| PHYSICAL_LIMIT,
        |granule| PHYSICAL_LIMIT + granule,
        |_| 1 << 63,
        |granule| u64::MAX - (granule - 1),
        |_| u64::MAX,
    ];
    for range in 0..2 {
        for root in OFF.into_iter().chain(beyond) {
            changes.past(4, move |question, random| {
                let root = root(question.granule());
                question.regime().ranges[range].root = root;
                question.regime().ranges[range].disabled = random.coin();
            });
        }
        // A good root with one bit off.
        changes.past(4, move |question, random| {
            let bits = u64::from(question.regime().granule.page_bits());
            question.regime().ranges[range].root |= 1 << random.below(bits);
        });
        changes.past(4, move |question, random| {
            question.regime().ranges[range].root |= 1 << random.between(48, 63);
        });
        let least: fn(u64) -> u64 = |_| 0;
        for root in [least, |granule| PHYSICAL_LIMIT - granule] {
            changes.limit(move |question, random| {
                let root = root(question.granule());
                question.regime().ranges[range].root = root;
                question.regime().ranges[range].disabled = random.coin();
            });
        }
    }
    attributes(changes);
}

/// Row 5.
fn attributes(changes: &mut Changes) {
    // Some bytes; `every_attribute_byte` has them all.
    for byte in [0x01, 0x02, 0x05, 0x0F, 0x10, 0x40, 0x80, 0xF0] {
        changes.past(5, move |question, random| {
            question.regime().attributes[random.below(8) as usize] = byte;
        });
    }
    for byte in [0x00, 0x04, 0x08, 0x0C, 0x11, 0xFF] {
        changes.limit(move |question, random| {
            question.regime().attributes[random.below(8) as usize] = byte;
        });
    }
}

/// Row 13.
fn updates(changes: &mut Changes) {
    let set = |question: &mut Question, updates| {
        let regime = &mut question.scene.regime;
        (regime.ha, regime.hd) = updates;
    };
    changes.past(13, move |question, _| set(question, HD_ALONE));
    for updates in UPDATES {
        changes.limit(move |question, _| set(question, updates));
    }
}

/// Row 6.
fn access_size(changes: &mut Changes) {
    for size in [
        0,
        3,
        5,
        6,
        7,
        9,
        12,
        15,
        17,
        24,
        32,
        256 + 4,
        1 << 32,
        (1 << 32) + 1,
        1 << 63,
        u64::MAX,
    ] {
        changes.past(6, move |question, _| question.access.size = size);
    }
    for size in [1, 2, 8, 16] {
        changes.past(6, move |question, _| {
            question.access.kind = Kind::Fetch;
            question.access.size = size;
        });
    }
    for off in [1, 2, 3] {
        changes.past(6, move |question, _| {
            question.access.kind = Kind::Fetch;
            question.access.size = 4;
            question.access.address = question.access.address & !3 | off;
        });
    }
    for kind in [Kind::ProbeRead, Kind::ProbeWrite] {
        for size in [0, 2, 4, 8, 16] {
            changes.past(6, move |question, _| {
                question.access.kind = kind;
                question.access.size = size;
            });
        }
        changes.limit(move |question, _| {
            question.access.kind = kind;
            question.access.size = 1;
        });
    }
    changes.limit(|question, _| {
        question.access.kind = Kind::Fetch;
        question.access.size = 4;
        question.access.address &= !3;
    });
}

/// Row 7.
fn page_crossing(changes: &mut Changes) {
    for size in [2, 4, 8, 16] {
        // The first and the last start that cross, and one between.
        changes.past(7, move |question, random| {
            let over = random.pick(&[1, size / 2, size - 1]);
            let last = question.access.address | (question.granule() - 1);
            question.move_to(random, last - (size - 1) + over, size);
        });
        // The highest start that does not.
        changes.limit(move |question, random| {
            let last = question.access.address | (question.granule() - 1);
            question.move_to(random, last - (size - 1), size);
        });
        // Across the end of a smaller page; where there is none, the first start.
        changes.limit(move |question, random| {
            let smaller = Granule::Kib4.bytes();
            let over = random.pick(&[1, size / 2, size - 1]);
            let page = question.regime().granule.floor(question.access.address);
            let address = match random.below(question.granule() / smaller) {
                0 => page,
                border => page + border * smaller - over,
            };
            question.move_to(random, address, size);
        });
        // Across the end of the address space, and just up to it.
        changes.past(7, move |question, random| {
            let address = u64::MAX - (size - 2) + random.below(size - 1);
            question.move_to(random, address, size);
        });
        changes.limit(move |question, random| {
            question.move_to(random, u64::MAX - (size - 1), size);
        });
    }
    changes.limit(|question, _| {
        question.access.kind = Kind::ProbeRead;
        question.access.size = 1;
        question.access.address = u64::MAX;
    });
}

/// Row 5: all 256 values in each of the eight places.
fn every_attribute_byte(maker: &mut Maker) {
    for place in 0..8 {
        for byte in 0..=255u8 {
            let device = [0x00, 0x04, 0x08, 0x0C].contains(&byte);
            let normal = byte >= 0x10 && byte % 16 != 0;
            let expect = if device || normal {
                Expect::Walked
            } else {
                Expect::Refused(5)
            };
            let change: Change =
                Box::new(move |question, _| question.regime().attributes[place] = byte);
            ask(maker, &[&change], expect);
        }
    }
}
