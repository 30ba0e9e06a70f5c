//! A memory with a pool in it, a regime that speaks of the pool, and paths
//! of descriptors laid through it, in the byte order that the regime has then.

use crate::geometry::{Granule, GREATEST_T, LAST_LEVEL, LEAST_T, PHYSICAL_LIMIT};
use crate::random::Random;
use crate::reference::{
    descriptor_bytes, output_limit, read_descriptor, write_descriptor, Access, Kind, Pool, Range,
    Regime, AF, AP1, AP2, DBM, TAKING, TAKING_FIELD,
};

/// The output size code for which any address is within the output size.
pub const WHOLE: u8 = 5;

/// HA and HD as they may stand together (RULES 5.1, row 13).
pub const UPDATES: [(bool, bool); 3] = [(false, false), (true, false), (true, true)];
/// HA and HD as they may not.
pub const HD_ALONE: (bool, bool) = (false, true);

/// Where the pool lies against the first address beyond the output size.
#[derive(Clone, Copy, Debug, PartialEq, Eq)]
pub enum Placement {
    /// At physical address 0.
    Zero,
    /// With at least a granule free on both sides.
    Inside,
    /// Its last byte is the last one within the output size.
    EndsAtLimit,
    /// At least one granule on each side of the limit.
    Straddles,
    /// Its first byte is the first one beyond the output size.
    StartsAtLimit,
    /// It ends at 2^48.
    Top,
    /// Where its granules, in `EITHER_WAY` bytes at most, have the same
    /// addresses in either byte order; the output size must be `WHOLE`.
    EitherWay,
}

/// The longest pool whose granules can have the same addresses in either order.
const EITHER_WAY: u64 = 65_536;

/// What a scene is drawn for.
#[derive(Clone, Copy, Debug)]
pub struct Sketch {
    pub granule: Granule,
    pub code: u8,
    pub placement: Placement,
    /// Granules of the pool.
    pub granules: u64,
}

impl Sketch {
    /// A pool of a few granules that lies within the output size, which is any.
    pub fn inside(random: &mut Random, granule: Granule) -> Sketch {
        let most = if granule == Granule::Kib64 { 2 } else { 3 };
        Sketch {
            granule,
            code: random.below(6) as u8,
            placement: Placement::Inside,
            granules: random.between(1, most),
        }
    }
}

/// Descriptors that are drawn for a memory; a longer one repeats them. It is a
/// prime number, so that one index finds other descriptors in other tables.
const DRAWN: usize = 509;

/// Goes on with what the first `DRAWN` descriptors of a memory are.
fn repeat(memory: &mut [u8]) {
    let mut filled = 8 * DRAWN;
    while filled < memory.len() {
        let more = filled.min(memory.len() - filled);
        memory.copy_within(..more, filled);
        filled += more;
    }
}

/// The bytes that are drawn.
fn drawn(memory: &mut [u8]) -> impl Iterator<Item = &mut [u8]> {
    let length = memory.len().min(8 * DRAWN);
    memory[..length].chunks_mut(8)
}

pub struct Scene {
    pub memory: Vec<u8>,
    pub regime: Regime,
    /// The descriptors that are put lead to the same granule in either order.
    pub either_way: bool,
}

/// A way down from a root: one table and one index for each level.
#[derive(Clone, Copy, Debug)]
pub struct Path {
    pub range: usize,
    pub first: usize,
    pub leaf_level: usize,
    pub tables: [u64; 4],
    pub indices: [u64; 4],
}

impl Path {
    /// Physical address of the descriptor read at a level.
    pub fn entry(&self, level: usize) -> u64 {
        self.tables[level] + 8 * self.indices[level]
    }
}

/// Bytes 0x00, 0x04, 0x08, 0x0C.
pub fn draw_device(random: &mut Random) -> u8 {
    4 * random.below(4) as u8
}

/// A byte with both halves nonzero.
pub fn draw_normal(random: &mut Random) -> u8 {
    (random.between(1, 15) << 4 | random.between(1, 15)) as u8
}

/// Eight bytes that row 5 does not refuse.
pub fn draw_attributes(random: &mut Random) -> [u8; 8] {
    [(); 8].map(|()| {
        if random.once_in(3) {
            draw_device(random)
        } else {
            draw_normal(random)
        }
    })
}

/// HA, off once in so many times; and HD, which asks for HA and is then off
/// as often.
pub fn draw_updates(random: &mut Random, off_once_in: u64) -> (bool, bool) {
    let ha = !random.once_in(off_once_in);
    let hd = !random.once_in(off_once_in);
    (ha, ha && hd)
}

fn draw_size(random: &mut Random, kind: Kind) -> u64 {
    match kind {
        Kind::Fetch => 4,
        Kind::ProbeRead | Kind::ProbeWrite => 1,
        _ => 1 << random.below(5),
    }
}

/// An access of any kind somewhere in the page of `address`, never refused.
pub fn draw_access(random: &mut Random, granule: Granule, address: u64) -> Access {
    let kind = random.pick(&Kind::ALL);
    draw_access_of(random, granule, address, kind)
}

/// The same, of one kind.
pub fn draw_access_of(random: &mut Random, granule: Granule, address: u64, kind: Kind) -> Access {
    let size = draw_size(random, kind);
    let room = granule.bytes() - size;
    let offset = match random.below(5) {
        0 => room,
        1 => 0,
        2 => random.below(room + 1),
        3 => draw_across(random, granule, size),
        _ => random.below(room + 1) & !(size - 1),
    };
    let offset = if kind == Kind::Fetch {
        offset & !3
    } else {
        offset
    };
    Access {
        address: granule.floor(address) + offset,
        size,
        el0: random.coin(),
        kind,
    }
}

/// An offset in a page from which some bytes cross a border of smaller pages;
/// a multiple of their number, where there is no such border.
fn draw_across(random: &mut Random, granule: Granule, size: u64) -> u64 {
    let smaller = Granule::Kib4.bytes();
    let borders = granule.bytes() / smaller - 1;
    if borders == 0 {
        return random.below(granule.bytes() / size) * size;
    }
    let border = smaller * random.between(1, borders);
    border - random.below(size)
}

/// Any bits beside a leaf's address and type; half of the time with the
/// fields set so that most accesses pass.
pub fn draw_leaf(random: &mut Random, granule: Granule, level: usize, output: u64) -> u64 {
    let field = granule.leaf_field(level as u8);
    let mut leaf = (random.bits() & !field & !3) | (output & field);
    if random.coin() {
        leaf |= 1 << AF | 1 << AP1;
        leaf &= !(1 << AP2);
    }
    leaf | leaf_type(level)
}

/// Bits 1..0 of a leaf.
pub fn leaf_type(level: usize) -> u64 {
    if level == usize::from(LAST_LEVEL) {
        3
    } else {
        1
    }
}

/// A leaf that a write from EL1 marks accessed and dirty, where HA and HD are
/// on and no table takes the writing away.
pub fn draw_clean_leaf(random: &mut Random, granule: Granule, level: usize, output: u64) -> u64 {
    let leaf = draw_leaf(random, granule, level, output);
    leaf & !(1 << AF) | 1 << AP2 | 1 << DBM
}

/// A write or update from EL1 in the page of `address`, at a multiple of its
/// size.
pub fn draw_marking_access(random: &mut Random, granule: Granule, address: u64) -> Access {
    let kind = random.pick(&[Kind::Write, Kind::Update]);
    let access = draw_access_of(random, granule, address, kind);
    Access {
        address: access.address & !(access.size - 1),
        el0: false,
        ..access
    }
}

/// Any bits beside a table's address and type. Of those that take something
/// away there are often none, so that much is left below a few tables.
pub fn draw_table(random: &mut Random, granule: Granule, address: u64) -> u64 {
    let any = random.bits();
    let field = granule.table_field();
    let taking = match random.below(8) {
        0..=4 => 0,
        5 | 6 => 1 << random.pick(&TAKING),
        _ => any & TAKING_FIELD,
    };
    (any & !field & !TAKING_FIELD) | taking | (address & field) | 3
}

/// An address whose bytes are the same in either order; all but bytes 5 to 2
/// are 0.
fn draw_either_way(random: &mut Random) -> u64 {
    let (outer, inner) = (random.below(256), random.below(256));
    outer << 40 | inner << 32 | inner << 24 | outer << 16
}

/// A descriptor with bits 1..0 in bits 57..56 too, and bits 15..12 in bits
/// 55..52: with an address as above it has, in either order, one type and leads
/// to one granule.
fn made_either_way(descriptor: u64) -> u64 {
    let (sort, granule) = (descriptor & 3, descriptor >> 12 & 0xF);
    descriptor & !(0x3F << 52) | sort << 56 | granule << 52
}

impl Scene {
    /// An empty memory.
    pub fn new() -> Self {
        let range = Range {
            root: 0,
            t: 16,
            disabled: false,
            hpd: false,
        };
        let granule = Granule::Kib4;
        Scene {
            memory: Vec::new(),
            regime: Regime {
                pool: Pool {
                    start: 0,
                    length: granule.length(),
                    address: 0,
                },
                ranges: [range; 2],
                output_code: 0,
                ha: false,
                hd: false,
                wxn: false,
                ee: false,
                granule,
                attributes: [0xFF; 8],
            },
            either_way: false,
        }
    }

    pub fn granule_size(&self) -> u64 {
        self.regime.granule.bytes()
    }

    pub fn limit(&self) -> u64 {
        output_limit(self.regime.output_code)
    }

    pub fn pool_end(&self) -> u64 {
        self.regime.pool.address + self.regime.pool.length as u64
    }

    pub fn granules(&self) -> u64 {
        self.regime.pool.length as u64 / self.granule_size()
    }

    /// Physical address of one of the pool's granules.
    pub fn granule(&self, number: u64) -> u64 {
        self.regime.pool.address + self.granule_size() * number
    }

    /// Granules of the pool within the output size; all, if none is.
    fn usable(&self) -> u64 {
        let below = self.limit().saturating_sub(self.regime.pool.address) / self.granule_size();
        match below.min(self.granules()) {
            0 => self.granules(),
            some => some,
        }
    }

    pub fn draw_granule(&self, random: &mut Random) -> u64 {
        self.granule(random.below(self.usable()))
    }

    /// A new pool, a legal regime with nothing fixed but the granule and the
    /// output code, and memory full of likely descriptors, also around the
    /// pool.
    pub fn draw(&mut self, random: &mut Random, sketch: Sketch) {
        let before = draw_before(random, sketch.granule);
        let behind = random.pick(&[0, 1, 8, 4095, 4096, 4096, 4096, 4100, 8192]);
        self.draw_within(random, sketch, before, behind);
    }

    /// The same, with the memory before and behind the pool given in bytes.
    pub fn draw_within(
        &mut self,
        random: &mut Random,
        sketch: Sketch,
        before: usize,
        behind: usize,
    ) {
        self.either_way = sketch.placement == Placement::EitherWay;
        self.regime.pool = draw_pool(random, sketch, before);
        self.regime.granule = sketch.granule;
        self.regime.output_code = sketch.code;
        self.draw_controls(random);
        self.memory.clear();
        let length = before + self.regime.pool.length + behind;
        self.memory.resize(length, 0);
        self.fill_likely(random);
    }

    /// All of the regime but its pool and its output code.
    fn draw_controls(&mut self, random: &mut Random) {
        (self.regime.ha, self.regime.hd) = draw_updates(random, 2);
        self.regime.wxn = random.coin();
        self.regime.ee = random.coin();
        self.regime.attributes = draw_attributes(random);
        for range in 0..2 {
            self.regime.ranges[range] = Range {
                root: self.draw_root(random),
                t: draw_t(random),
                disabled: random.once_in(8),
                // In the other order any bit of a table may take something away.
                hpd: random.once_in(4) || self.either_way && random.coin(),
            };
        }
    }

    /// Any root that is not refused; mostly one in the pool.
    fn draw_root(&self, random: &mut Random) -> u64 {
        match random.below(8) {
            0 => self.regime.granule.floor(random.below(PHYSICAL_LIMIT)),
            1 => self.regime.granule.floor(random.below(self.limit())),
            _ => self.draw_granule(random),
        }
    }

    /// Fills the whole memory with descriptors that look valid, mostly
    /// tables and pages in the pool, so that a stray read goes on.
    pub fn fill_likely(&mut self, random: &mut Random) {
        let limit = self.limit();
        let (address, granules) = (self.regime.pool.address, self.usable());
        let (ee, granule) = (self.regime.ee, self.granule_size());
        let field = self.regime.granule.table_field();
        for bytes in drawn(&mut self.memory) {
            let noise = random.bits();
            let other = random.bits();
            let rest = noise & !field & !3;
            // As for `draw_table`.
            let table = if other >> 61 < 5 {
                rest & !TAKING_FIELD
            } else {
                rest
            };
            let descriptor = match noise >> 12 & 15 {
                0 => noise & !1,
                1 => noise,
                2..=5 => rest | (other & (limit - 1) & field) | 1,
                6 | 7 => table | (other & (limit - 1) & field) | 3,
                _ => table | (address + granule * (other % granules)) | 3,
            };
            bytes.copy_from_slice(&descriptor_bytes(descriptor, ee)[..bytes.len()]);
        }
        repeat(&mut self.memory);
    }

    /// Fills the whole memory with bytes that follow no plan.
    pub fn fill_random(&mut self, random: &mut Random) {
        for bytes in drawn(&mut self.memory) {
            bytes.copy_from_slice(&random.bits().to_le_bytes()[..bytes.len()]);
        }
        repeat(&mut self.memory);
    }

    /// Offset in memory for a physical address, in the pool or around it.
    fn offset(&self, address: u64) -> Option<usize> {
        let pool = &self.regime.pool;
        let offset = pool.start as i128 + i128::from(address) - i128::from(pool.address);
        if offset >= 0 && offset + 8 <= self.memory.len() as i128 {
            Some(offset as usize)
        } else {
            None
        }
    }

    /// Writes a descriptor, also beside the pool; where there is no memory
    /// for it, it is left out.
    pub fn put(&mut self, address: u64, descriptor: u64) {
        let descriptor = if self.either_way {
            made_either_way(descriptor)
        } else {
            descriptor
        };
        if let Some(offset) = self.offset(address) {
            write_descriptor(&mut self.memory, offset, descriptor, self.regime.ee);
        }
    }

    /// Turns the bytes of the descriptor at an address round.
    pub fn reverse(&mut self, address: u64) {
        if let Some(offset) = self.offset(address) {
            self.memory[offset..offset + 8].reverse();
        }
    }

    /// Gives the descriptor at an address other type bits, 1..0.
    pub fn retype(&mut self, address: u64, bits: u64) {
        if let Some(offset) = self.offset(address) {
            let old = read_descriptor(&self.memory, offset, self.regime.ee);
            self.put(address, old & !3 | bits);
        }
    }

    /// A path through the pool in which no descriptor stands for two levels
    /// if that can be had.
    pub fn draw_path(&self, random: &mut Random, range: usize, leaf_level: usize) -> Path {
        let t = self.regime.ranges[range].t;
        let first = usize::from(self.regime.granule.first_level(t));
        let mut path = Path {
            range,
            first,
            leaf_level,
            tables: [0; 4],
            indices: [0; 4],
        };
        for level in first..=leaf_level {
            for _ in 0..8 {
                path.tables[level] = self.draw_granule(random);
                path.indices[level] = self.draw_index(random, range, level);
                if (first..level).all(|above| path.entry(above) != path.entry(level)) {
                    break;
                }
            }
        }
        path
    }

    /// Any address of a range.
    pub fn draw_address(&self, random: &mut Random, range: usize) -> u64 {
        let span = 64 - u32::from(self.regime.ranges[range].t);
        let address = random.bits() & ((1 << span) - 1);
        match range {
            0 => address,
            _ => address | u64::MAX << span,
        }
    }

    /// Gives a path the indices of an address.
    pub fn lead_to(&self, path: &mut Path, address: u64) {
        let t = self.regime.ranges[path.range].t;
        for level in path.first..=path.leaf_level {
            path.indices[level] = self.regime.granule.index(t, level as u8, address);
        }
    }

    /// A leaf level that a range can reach.
    pub fn draw_leaf_level(&self, random: &mut Random, range: usize) -> usize {
        let granule = self.regime.granule;
        let first = granule.first_level(self.regime.ranges[range].t);
        let levels = granule.leaf_levels().filter(|level| *level >= first);
        usize::from(random.pick(&levels.collect::<Vec<u8>>()))
    }

    /// A path to a page whose leaf is the pool's last descriptor, which serves
    /// no other level. The range must have tables above its pages, which can
    /// then have any index.
    pub fn draw_path_to_end(&self, random: &mut Random, range: usize) -> Path {
        loop {
            let mut path = self.draw_path(random, range, 3);
            path.tables[3] = self.granule(self.granules() - 1);
            path.indices[3] = self.entries(range, 3) - 1;
            if (path.first..3).all(|above| path.entry(above) != path.entry(3)) {
                return path;
            }
        }
    }

    /// An index that can be reached at a level; the ends more often.
    pub fn draw_index(&self, random: &mut Random, range: usize, level: usize) -> u64 {
        let entries = self.entries(range, level);
        match random.below(8) {
            0 => 0,
            1 => entries - 1,
            _ => random.below(entries),
        }
    }

    /// Number of entries that can be reached at a level.
    pub fn entries(&self, range: usize, level: usize) -> u64 {
        let t = self.regime.ranges[range].t;
        1 << self.regime.granule.index_bits(t, level as u8)
    }

    /// Sets the root and writes the path's descriptors, the leaf last.
    pub fn lay(&mut self, random: &mut Random, path: &Path, leaf: u64) {
        self.regime.ranges[path.range].root = path.tables[path.first];
        for level in path.first..path.leaf_level {
            self.lead(random, path, level, path.tables[level + 1]);
        }
        self.put(path.entry(path.leaf_level), leaf);
    }

    /// Makes the descriptor of a path at a level one for a table.
    pub fn lead(&mut self, random: &mut Random, path: &Path, level: usize, table: u64) {
        let descriptor = draw_table(random, self.regime.granule, table);
        self.put(path.entry(level), descriptor);
    }

    /// The address that the path translates, its lower bits free.
    pub fn address(&self, random: &mut Random, path: &Path) -> u64 {
        let span = 64 - u32::from(self.regime.ranges[path.range].t);
        let granule = self.regime.granule;
        let mut address = random.bits() & granule.span_mask(path.leaf_level as u8);
        for level in path.first..=path.leaf_level {
            address |= path.indices[level] << granule.lowest_index_bit(level as u8);
        }
        if path.range == 1 {
            address |= u64::MAX << span;
        }
        address
    }

    /// An output address within the output size.
    pub fn draw_output(&self, random: &mut Random) -> u64 {
        random.below(self.limit())
    }
}

impl Default for Scene {
    fn default() -> Self {
        Scene::new()
    }
}

/// The most granules of a pool where its length does not matter, and how many
/// it mostly has.
pub fn short_pool(granule: Granule) -> (u64, u64) {
    match granule {
        Granule::Kib4 => (16, 4),
        Granule::Kib16 => (8, 3),
        Granule::Kib64 => (4, 2),
    }
}

/// Pool lengths where they do not matter: mostly a few granules.
pub fn draw_granules(random: &mut Random, granule: Granule, least: u64) -> u64 {
    let (most, few) = short_pool(granule);
    match random.below(16) {
        0 => most,
        1 => random.between(least, most),
        _ => random.between(least, few.max(least)),
    }
}

/// Bytes before a pool: some granules, of the largest seldom one.
pub fn draw_before(random: &mut Random, granule: Granule) -> usize {
    let granules = match granule {
        Granule::Kib64 => random.pick(&[0, 0, 0, 1]),
        _ => random.pick(&[0, 1, 1, 2]),
    };
    granules * granule.length()
}

/// A pool as it is wanted, behind so many bytes of memory.
fn draw_pool(random: &mut Random, sketch: Sketch, before: usize) -> Pool {
    let Sketch {
        code, placement, ..
    } = sketch;
    let granule = sketch.granule.bytes();
    let granules = match placement {
        Placement::EitherWay => sketch.granules.min(EITHER_WAY / granule),
        _ => sketch.granules,
    };
    let (limit, length) = (output_limit(code), granules * granule);
    let address = match placement {
        Placement::Zero => 0,
        Placement::Inside => random.between(1, limit / granule - granules - 1) * granule,
        Placement::EndsAtLimit => limit - length,
        Placement::Straddles => limit - granule * random.between(1, granules - 1),
        Placement::StartsAtLimit => limit,
        Placement::Top => PHYSICAL_LIMIT - length,
        Placement::EitherWay => draw_either_way(random),
    };
    Pool {
        start: before,
        length: length as usize,
        address,
    }
}

/// Any size field.
pub fn draw_t(random: &mut Random) -> u8 {
    random.between(u64::from(LEAST_T), u64::from(GREATEST_T)) as u8
}

/// A size field whose first level is above the pages.
pub fn draw_t_with_tables(random: &mut Random, granule: Granule) -> u8 {
    loop {
        let t = draw_t(random);
        if granule.first_level(t) < LAST_LEVEL {
            return t;
        }
    }
}

/// A granule: 4 KiB two times out of three, and 64 KiB once in nine.
pub fn draw_granule_size(random: &mut Random) -> Granule {
    match random.below(9) {
        0..=5 => Granule::Kib4,
        6 | 7 => Granule::Kib16,
        _ => Granule::Kib64,
    }
}
