//! A device writes guest pages through a session, and migration copies the
//! pages that a harvest reports. Every line of the report is asserted.
//!
//! The library is found as the crate `vmsa` says: in the folder `VMSA_LIB`.

mod device;
mod host;
mod migration;

use std::error::Error;

use device::Device;
use host::{Host, GUEST, LAST_PAGE, NEIGHBOUR, PAGES, PAST_THE_POOL, READ_ONLY, UNMAPPED};
use migration::{Migration, ASKED};
use vmsa::{Access, FaultKind, Pages, PhysAddr, Range, Session, VirtAddr, VirtPage};

fn main() -> Result<(), Box<dyn Error>> {
    let mut host = Host::new()?;
    let mut device = Device::default();
    let mut migration = Migration::start(&host);
    println!(
        "guest: tables at offsets {} to {}; neighbour: at {} to {}",
        GUEST.start,
        GUEST.start + GUEST.length - 1,
        NEIGHBOUR.start,
        NEIGHBOUR.start + NEIGHBOUR.length - 1,
    );

    rounds(&mut host, &mut device, &mut migration)?;
    faults(&mut host, &mut device, &mut migration)?;
    plain_harvest(&mut host.clone(), &mut migration.clone())?;
    end_of_the_pool(&mut host, &mut device, &mut migration)?;
    neighbour(&mut host, &mut migration)?;

    println!(
        "ok: no written page lost, no other copied, nothing of the neighbour touched by the guest"
    );
    Ok(())
}

/// Rounds of writes and copies; the last has no writes.
fn rounds(
    host: &mut Host,
    device: &mut Device,
    migration: &mut Migration,
) -> Result<(), Box<dyn Error>> {
    let mut state: u64 = 1;
    for (round, writes) in [50, 20, 5, 0].into_iter().enumerate() {
        let walks = device.walks;
        let answered = device.answered;
        for _ in 0..writes {
            // Somewhere in the first pages, often across a boundary.
            state = state
                .wrapping_mul(6_364_136_223_846_793_005)
                .wrapping_add(1);
            let address = host::page(0).0 + (state >> 33) % (10 << 12);
            let length = (state >> 20) as usize % 200;
            let bytes: Vec<u8> = (0..length).map(|i| (state >> (i % 56)) as u8).collect();
            device.write(host, VirtAddr(address), &bytes)?;

            // A read sets the Access flag alone, and so is not copied.
            device.read(host, host::page(11))?;
        }
        let copied = migration.round(host)?;
        assert_eq!(
            copied,
            device.take_written(),
            "reported is what was written"
        );
        assert!(migration.copy() == host.ram, "no written page is lost");
        assert!(
            migration.round(host)?.is_empty(),
            "every leaf is clean again"
        );
        println!(
            "round {}: {writes} writes, {} accesses ({} walked), {} pages reported and copied",
            round + 1,
            device.answered - answered,
            device.walks - walks,
            copied.len(),
        );
    }
    Ok(())
}

/// Writes that the guest's tables do not let through mark nothing.
fn faults(
    host: &mut Host,
    device: &mut Device,
    migration: &mut Migration,
) -> Result<(), Box<dyn Error>> {
    for (name, page, kind) in [
        ("read-only", READ_ONLY, FaultKind::Permission),
        ("unmapped", UNMAPPED, FaultKind::Translation),
    ] {
        let before = host.clone();
        let stop = device
            .write(host, host::page(page), b"lost?")
            .expect_err("the write faults");
        assert_eq!(stop.fault().map(|fault| fault.kind), Some(kind));
        assert!(host.tables == before.tables && host.ram == before.ram);
        println!("write to the {name} page: {stop}; nothing marked");
    }
    assert!(migration.round(host)?.is_empty());
    Ok(())
}

/// Why the harvest is the session's: after a plain one the entry of a page that
/// was dirty answers the next write, and no mark is made. Over a copy of the
/// host.
fn plain_harvest(host: &mut Host, migration: &mut Migration) -> Result<(), Box<dyn Error>> {
    let mut device = Device::default();
    let mut map = vec![0; ASKED.map_length()];
    device.write(host, host::page(0), b"first")?;
    vmsa::harvest(&mut host.tables, &host::regime(), ASKED, &mut map)?;
    assert_eq!(ASKED.dirty(&map).len(), 1);
    device.write(host, host::page(0), b"second")?;
    migration.copy_pages(host, &map)?;
    assert!(migration.copy() == host.ram);

    device.write(host, host::page(0), b"third")?;
    vmsa::harvest(&mut host.tables, &host::regime(), ASKED, &mut map)?;
    assert_eq!(ASKED.dirty(&map).len(), 0);
    assert!(migration.copy() != host.ram);
    println!("a plain harvest: the next write is not marked, its page would be lost");

    // The session's harvest empties the entries, too late for that write; the
    // next one is marked.
    assert!(migration.round(host)?.is_empty());
    device.write(host, host::page(0), b"fourth")?;
    assert_eq!(migration.round(host)?.len(), 1);
    assert!(migration.copy() == host.ram);
    Ok(())
}

/// One write that runs from the page of the pool's last descriptor into the
/// next page, whose descriptor would be the neighbour's first.
fn end_of_the_pool(
    host: &mut Host,
    device: &mut Device,
    migration: &mut Migration,
) -> Result<(), Box<dyn Error>> {
    let neighbour = host.tables[NEIGHBOUR.start..].to_vec();
    let last = NEIGHBOUR.start - 8;
    assert!(migration::is_clean(host.descriptor(last)));
    assert!(migration::is_clean(host.descriptor(NEIGHBOUR.start)));

    // A plain walk of the next page.
    let write = Access::write(PAST_THE_POOL, 16);
    let plain = vmsa::walk(&mut host.tables, &host::regime(), &write);
    assert!(host.tables[NEIGHBOUR.start..] == neighbour);
    let stop = plain.expect_err("its table is past the pool");
    let fault = stop.fault().ok_or("not a fault")?;
    assert_eq!((fault.kind, fault.level), (FaultKind::ExternalAbort, 3));
    assert_eq!((fault.code, fault.reads), (23, 4));

    // The device writes 32 bytes: the first 16 arrive, and their page is
    // marked; the rest gets the same abort.
    let start = VirtAddr(PAST_THE_POOL.0 - 16);
    assert_eq!(device.write(host, start, &[0xa5; 32]), Err(stop));
    assert!(host.tables[NEIGHBOUR.start..] == neighbour);
    assert_eq!(host.ram[(PAGES << 12) - 16..], [0xa5; 16]);
    assert!(migration::is_dirty(host.descriptor(last)));
    assert_eq!(migration.round(host)?, device.take_written());
    assert!(migration::is_clean(host.descriptor(last)));
    assert!(host.tables[NEIGHBOUR.start..] == neighbour);
    assert!(migration.copy() == host.ram);
    println!("offset {last}: written and marked, page {LAST_PAGE} reported and copied");
    println!(
        "offset {}: {fault}; the neighbour's {} bytes are unchanged",
        NEIGHBOUR.start,
        neighbour.len(),
    );
    Ok(())
}

/// The neighbour's own walk does reach that descriptor, and marks it; and only
/// its own harvest reports the page.
fn neighbour(host: &mut Host, migration: &mut Migration) -> Result<(), Box<dyn Error>> {
    let guest = host.tables[..NEIGHBOUR.start].to_vec();
    let regime = host::regime()
        .pool(NEIGHBOUR)
        .range0(Range::new(host::NEIGHBOUR_ROOT, 16));
    let mut session = Session::new();
    session.set_regime(&host.tables, &regime)?;
    let found = session.access(&mut host.tables, &Access::write(VirtAddr(0x10), 8))?;
    assert_eq!(found.output, PhysAddr(host::NEIGHBOUR_RAM.0 + 0x10));
    assert!(found.dirtied);
    assert!(migration::is_dirty(host.descriptor(NEIGHBOUR.start)));
    assert!(host.tables[..NEIGHBOUR.start] == guest);
    println!(
        "offset {}: marked by the neighbour's own write; the guest's bytes are unchanged",
        NEIGHBOUR.start
    );

    assert!(migration.round(host)?.is_empty());
    assert!(migration::is_dirty(host.descriptor(NEIGHBOUR.start)));
    let first = Pages::new(VirtPage(0), 1);
    let mut map = [0];
    session.harvest(&mut host.tables, first, &mut map)?;
    assert!(first.dirty(&map).eq([first.first]));
    assert!(migration::is_clean(host.descriptor(NEIGHBOUR.start)));
    assert!(host.tables[..NEIGHBOUR.start] == guest);
    println!(
        "offset {}: reported by the neighbour's own harvest, and not by the guest's",
        NEIGHBOUR.start
    );
    Ok(())
}
