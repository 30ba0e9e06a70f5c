//! An emulated device that reads and writes the guest's memory.

use std::collections::BTreeSet;

use vmsa::{Access, Stop, VirtAddr};

use crate::host::{Host, RAM};

/// The device, and what it knows of its own accesses.
#[derive(Default)]
pub struct Device {
    /// Accesses that succeeded, and how many of them were walked.
    pub answered: usize,
    pub walks: usize,
    written: BTreeSet<usize>,
}

impl Device {
    /// Writes bytes at a guest address, in aligned pieces of up to 16. What
    /// stops one piece stops the rest.
    pub fn write(
        &mut self,
        host: &mut Host,
        address: VirtAddr,
        mut bytes: &[u8],
    ) -> Result<(), Stop> {
        let mut address = address.0;
        while !bytes.is_empty() {
            let (piece, rest) = bytes.split_at(piece(address, bytes.len()));
            let access = Access::write(VirtAddr(address), piece.len() as u64);
            let offset = self.access(host, &access)?;
            host.ram[offset..offset + piece.len()].copy_from_slice(piece);
            self.written.insert(offset >> 12);
            address = address.wrapping_add(piece.len() as u64);
            bytes = rest;
        }
        Ok(())
    }

    /// Reads one byte.
    pub fn read(&mut self, host: &mut Host, address: VirtAddr) -> Result<u8, Stop> {
        let offset = self.access(host, &Access::read(address, 1))?;
        Ok(host.ram[offset])
    }

    /// The pages written since the last call.
    pub fn take_written(&mut self) -> BTreeSet<usize> {
        std::mem::take(&mut self.written)
    }

    /// Where in RAM an access goes.
    fn access(&mut self, host: &mut Host, access: &Access) -> Result<usize, Stop> {
        let found = host.session.access(&mut host.tables, access)?;
        self.answered += 1;
        self.walks += usize::from(found.reads > 0);
        Ok((found.output.0 - RAM.0) as usize)
    }
}

/// The largest size an access can have at an address.
fn piece(address: u64, length: usize) -> usize {
    [16, 8, 4, 2]
        .into_iter()
        .find(|&size| size <= length && address % size as u64 == 0)
        .unwrap_or(1)
}
