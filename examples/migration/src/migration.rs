//! Migration: copies the pages that a harvest reports.

use std::collections::BTreeSet;

use vmsa::{Access, Granule, Pages, Stop, VirtPage};

use crate::host::{Host, AF, AP2, DBM, RAM};

/// The pages that are asked for: all that the guest maps, and behind them those
/// whose table would be the neighbour's first.
pub const ASKED: Pages = Pages::new(VirtPage(0x400), 0x600);

/// Whether a leaf is marked dirty: AP[2] clear, DBM and the Access flag set.
pub fn is_dirty(leaf: u64) -> bool {
    leaf & 3 == 3 && leaf & (AP2 | DBM | AF) == DBM | AF
}

/// Whether a leaf is writable-clean.
pub fn is_clean(leaf: u64) -> bool {
    leaf & 3 == 3 && leaf & (AP2 | DBM) == AP2 | DBM
}

/// The other side's copy of the guest's RAM.
#[derive(Clone)]
pub struct Migration {
    copy: Vec<u8>,
}

impl Migration {
    /// Copies everything once, while every leaf is clean.
    pub fn start(host: &Host) -> Self {
        Self {
            copy: host.ram.clone(),
        }
    }

    /// The copy as it stands.
    pub fn copy(&self) -> &[u8] {
        &self.copy
    }

    /// Harvests, and then copies; gives the pages of RAM. In this order a write
    /// that comes in between is marked again, and copied twice at worst.
    pub fn round(&mut self, host: &mut Host) -> Result<BTreeSet<usize>, Stop> {
        let mut map = vec![0; ASKED.map_length()];
        host.session.harvest(&mut host.tables, ASKED, &mut map)?;
        self.copy_pages(host, &map)
    }

    /// Copies the pages of a map, and gives them as pages of RAM.
    pub fn copy_pages(&mut self, host: &mut Host, map: &[u8]) -> Result<BTreeSet<usize>, Stop> {
        let mut pages = BTreeSet::new();
        for page in ASKED.dirty(map) {
            let page = ram_page(host, page)?;
            let bytes = page << 12..(page + 1) << 12;
            self.copy[bytes.clone()].copy_from_slice(&host.ram[bytes]);
            pages.insert(page);
        }
        Ok(pages)
    }
}

/// The page of RAM that a page of the guest leads to. A probe marks nothing.
fn ram_page(host: &mut Host, page: VirtPage) -> Result<usize, Stop> {
    let probe = Access::probe_read(page.address(Granule::Kib4));
    let found = host.session.access(&mut host.tables, &probe)?;
    Ok((found.output.0 - RAM.0) as usize >> 12)
}
