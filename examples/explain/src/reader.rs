//! The tables of a description: what stands where, and what can be read.

use std::collections::BTreeMap;

use vmsa::PhysAddr;

/// Descriptors by their addresses, and areas in which all others are 0.
#[derive(Debug, Default, PartialEq)]
pub struct Tables {
    descriptors: BTreeMap<u64, u64>,
    areas: Vec<(u64, u64)>,
}

impl Tables {
    /// Puts a descriptor. Gives the one that stood there, if any.
    pub fn put(&mut self, address: u64, descriptor: u64) -> Option<u64> {
        self.descriptors.insert(address, descriptor)
    }

    /// Adds an area of so many bytes.
    pub fn area(&mut self, address: u64, length: u64) {
        self.areas.push((address, length));
    }

    /// The descriptor at an address, or `None` where it cannot be read.
    pub fn read(&self, address: PhysAddr) -> Option<u64> {
        let inside = |&(start, length): &(u64, u64)| {
            let offset = address.0.checked_sub(start);
            offset.is_some_and(|offset| offset < length && length - offset >= 8)
        };
        let described = self.descriptors.get(&address.0).copied();
        described.or_else(|| self.areas.iter().any(inside).then_some(0))
    }
}

#[cfg(test)]
mod tests {
    use super::*;

    #[test]
    fn what_can_be_read() {
        let mut tables = Tables::default();
        tables.area(0x1000, 0x20);
        tables.area(u64::MAX - 15, 16);
        assert_eq!(tables.put(0x1008, 5), None);
        assert_eq!(tables.put(0x9000, 7), None);
        assert_eq!(tables.put(0x9000, 8), Some(7));
        for (address, expected) in [
            (0x0ff8, None),
            (0x1000, Some(0)),
            (0x1008, Some(5)),
            (0x1018, Some(0)),
            (0x1020, None),
            (0x9000, Some(8)),
            (0x9008, None),
            (u64::MAX - 7, Some(0)),
        ] {
            assert_eq!(tables.read(PhysAddr(address)), expected, "{address:#x}");
        }
    }
}
