//! Desks and their readers in Rust: refusals, versions, closing in any order, and readers in threads
//! beside a writer. Not proved.

use numaplan::{Desk, Options, Reader, Refused};
use std::sync::atomic::{AtomicBool, AtomicU64, Ordering};
use std::thread;

const FIRST: u64 = 16;
const PAGES: u64 = 64;

fn open(readers: u32) -> Result<Desk, Refused> {
    Desk::open("0-1", &[0, 0], &[10, 20, 20, 10], readers, Options::default())
}

fn bind(desk: &mut Desk, turn: u64) -> Result<u64, Refused> {
    desk.mbind(FIRST * 4096, PAGES * 4096, if turn % 2 == 1 { "bind:1" } else { "bind:0" })?;
    desk.publish()
}

fn answers() -> Result<(), Refused> {
    assert_eq!(open(0).err(), Some(Refused::BAD_READERS));
    let mut desk = open(1)?;
    let mut reader = desk.reader()?;
    assert_eq!(desk.reader().err(), Some(Refused::NO_PLACE));
    desk.map(FIRST * 4096, PAGES * 4096, FIRST)?;
    assert_eq!(desk.map(FIRST * 4096, 4096, FIRST), Err(Refused::OVERLAP));
    desk.set_task(1, "bind:1")?;
    desk.inherit(2, 1)?;
    desk.set_weight(1, 2)?;
    desk.mbind(FIRST * 4096, 4096, "many:0-1")?;
    desk.set_home(FIRST * 4096, 4096, 1)?;
    desk.mbind_by(FIRST * 4096, 4096, 5, &[0, 1])?; // (MPOL_PREFERRED_MANY)
    desk.set_task_by(1, 2, &[1])?;
    desk.home_by(FIRST * 4096, 4096, 1, 0)?;
    assert_eq!(desk.home_by(FIRST * 4096, 4096, 1, 1), Err(Refused::FLAGS_FORBIDDEN));
    desk.unmap((FIRST + 1) * 4096, 4096)?;
    desk.set_mems("0-1")?;
    assert_eq!((desk.versions(), reader.enter(0)?, desk.publish()?), ((11, 0), 0, 11));
    assert_eq!(reader.enter(12), Err(Refused::NOT_YET));
    assert_eq!((reader.version(), reader.enter(11)?), (0, 11));
    assert_eq!(reader.choice(1, FIRST, 0)?, [1, 0]);
    assert_eq!(reader.choice(1, FIRST + 1, 0), Err(Refused::UNMAPPED));
    let mut nodes = [9; 2];
    reader.fill(1, 0, FIRST + 2, &mut nodes)?;
    assert_eq!((nodes, reader.counts(1, 0, FIRST + 2, 2)?[1]), ([1, 1], 2));
    drop(desk);
    assert_eq!(reader.enter(0), Err(Refused::ENDED));
    assert_eq!(reader.choice(1, FIRST, 0)?, [1, 0]);
    Ok(())
}

/// Version k + 2 binds all pages to the node of k's lowest bit: the number of changes that were seen.
fn look(reader: &mut Reader, told: &AtomicU64, over: &AtomicBool) -> Result<u64, Refused> {
    let (mut seen, mut changes, mut nodes) = (0, 0, [9; PAGES as usize]);
    loop {
        let (last, least) = (over.load(Ordering::SeqCst), told.load(Ordering::SeqCst));
        let version = match reader.enter(least) {
            Err(Refused::NOT_YET) => continue,
            answer => answer?,
        };
        assert!(version >= least && version >= seen);
        reader.fill(1, 0, FIRST, &mut nodes)?;
        assert!(nodes.iter().all(|node| u64::from(*node) == version % 2));
        changes += u64::from(version != seen);
        seen = version;
        if last {
            return Ok(changes);
        }
    }
}

fn main() -> Result<(), Refused> {
    answers()?;
    let mut desk = open(4)?;
    desk.map(FIRST * 4096, PAGES * 4096, FIRST)?;
    let (told, over) = (AtomicU64::new(bind(&mut desk, 0)?), AtomicBool::new(false));
    thread::scope(|scope| {
        let mut readers = Vec::new();
        for _ in 0..4 {
            let mut reader = desk.reader()?;
            let (told, over) = (&told, &over);
            readers.push(scope.spawn(move || look(&mut reader, told, over)));
        }
        for turn in 1..1000 {
            told.store(bind(&mut desk, turn)?, Ordering::SeqCst);
        }
        over.store(true, Ordering::SeqCst);
        for reader in readers {
            assert!(reader.join().unwrap()? > 0);
        }
        Ok(())
    })
}
