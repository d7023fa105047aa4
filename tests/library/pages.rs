//! Cores with their pages by the Rust wrapper: the rules of cpusets(7), migrate_pages(2), move_pages(2),
//! mbind(2) and madvise(2), by hand. Not proved.
use numaplan::{Arrived, Bound, Core, Flow, Moved, PageRun, Pages, Refused};

const FLAT: [u8; 16] = [10, 20, 20, 20, 20, 10, 20, 20, 20, 20, 10, 20, 20, 20, 20, 10];
const BASE: u64 = 0x10000;

/// The node of each of the six pages.
fn nodes(pages: &mut Pages) -> Result<Vec<Option<u8>>, Refused> {
    (0..6).map(|k| pages.node_of(BASE + k * 4096)).collect()
}

/// First touches of six pages, of which one is there, where node 0 takes two more.
fn touch(pages: &mut Pages) -> Result<(), Refused> {
    let told = |placed, exhausted, counts: [u64; 4]| {
        let mut nodes = [0; 256];
        nodes[..4].copy_from_slice(&counts);
        Arrived { placed, exhausted, nodes }
    };
    pages.set_task(1, "interleave:0-1")?;
    pages.place(BASE + 0x1000, 0x1000, 3)?;
    pages.set_room(0, Some(2))?;
    assert_eq!(pages.populate(BASE, 0x6000, 1, 0)?, told(5, 0, [2, 3, 0, 0]));
    assert_eq!(nodes(pages)?, [0, 3, 0, 1, 1, 1].map(Some));
    assert_eq!((pages.room(0)?, pages.room(1)?), (Some(0), None));
    assert_eq!(pages.populate(BASE, 0x6000, 1, 0)?, told(0, 0, [0; 4]));
    assert_eq!(pages.place(BASE + 0x1000, 0x1000, 0), Err(Refused::NODE_FULL));
    // an unmapped page gives its room back; a page that finds none stays nowhere
    pages.unmap(BASE, 0x1000)?;
    assert_eq!(pages.room(0)?, Some(1));
    assert_eq!(pages.populate(BASE, 0x6000, 1, 0), Err(Refused::SPAN_UNMAPPED));
    pages.map(BASE, 0x1000, 0x10)?;
    pages.mbind(BASE, 0x1000, "bind:2")?;
    pages.set_room(2, Some(0))?;
    assert_eq!(pages.populate(BASE, 0x1000, 1, 4), Err(Refused::NO_SUCH_CPU));
    assert_eq!(pages.populate(BASE, 0x1000, 1, 3)?, told(0, 1, [0; 4]));
    pages.set_room(2, Some(1))?;
    assert_eq!(pages.populate(BASE, 0x1000, 1, 3)?, told(1, 0, [0, 0, 1, 0]));
    assert_eq!(pages.populate(BASE + 1, 0x1000, 1, 0), Err(Refused::UNALIGNED));
    Ok(())
}

fn main() -> Result<(), Refused> {
    let mut core = Core::open("0-3", &[0; 4], &FLAT, 1)?;
    core.map(BASE, 0x6000, 0x10)?;
    touch(&mut Pages::open(&mut core)?)?;
    let mut pages = Pages::open(&mut core)?;
    assert_eq!(pages.runs()?, []);
    pages.set_mems("0-2")?;
    pages.place(BASE, 0x2000, 0)?;
    pages.place(BASE + 0x2000, 0x2000, 1)?;
    pages.place(BASE + 0x4000, 0x1000, 2)?;
    let run = |first, pages, node| PageRun { first, pages, node };
    assert_eq!(pages.runs()?, [run(16, 2, 0), run(18, 2, 1), run(20, 1, 2)]);
    let mut copy = pages.copy()?;
    // as many nodes: each page to the node of the same place
    let flow = |from, to, pages| Flow { from, to, pages };
    let flows = vec![flow(0, 1, 2), flow(1, 2, 2), flow(2, 3, 1)];
    assert_eq!(pages.move_mems("1-3")?, Moved { moved: 5, left: 0, flows });
    assert_eq!(nodes(&mut pages)?, [Some(1), Some(1), Some(2), Some(2), Some(3), None]);
    let mut each = [9; 4];
    assert_eq!(pages.nodes(&[21, 16], &mut each, 255), Err(Refused::NO_ROOM));
    pages.nodes(&[21, 16, 20, 19], &mut each, 255)?;
    assert_eq!(each, [255, 1, 3, 2]);
    assert_eq!((pages.version(), copy.version()), (3, 2));
    assert_eq!(copy.counts()[..4], [2, 2, 1, 0]);
    // room for one page of three
    copy.set_room(2, Some(1))?;
    assert_eq!((copy.room(2)?, copy.room(1)?), (Some(1), None));
    let flows = vec![flow(0, 2, 1)];
    assert_eq!(copy.migrate("0-1", "2")?, Moved { moved: 1, left: 3, flows });
    assert_eq!(copy.move_page(BASE + 0x1000, 2), Err(Refused::NODE_FULL));
    copy.set_room(2, None)?;
    copy.move_page(BASE + 0x1000, 2)?;
    assert_eq!(copy.move_page(BASE, 3), Err(Refused::TARGET_NOT_ALLOWED));
    assert_eq!(copy.move_page(BASE, 4), Err(Refused::NO_SUCH_TARGET));
    assert_eq!(copy.move_page(0, 1), Err(Refused::PAGE_UNMAPPED));
    assert_eq!(copy.move_page(BASE + 0x5000, 1), Err(Refused::NOT_PLACED));
    assert_eq!(copy.mbind_strictly(BASE, 0x3000, "bind:2"), Err(Refused::ASTRAY));
    copy.mbind_strictly(BASE, 0x2000, "bind:2")?;
    copy.set_room(1, Some(1))?;
    let bound = copy.mbind_moving(BASE, 0x2000, "bind:1", true, 0, 0)?;
    assert_eq!(bound, Bound { moved: 1, left: 1, errno: 5 });
    assert_eq!(copy.mbind_moving(BASE, 0x7000, "bind:1", true, 0, 0), Err(Refused::HOLE));
    copy.mbind(BASE, 0x3000, "bind:0")?;
    copy.set_home(BASE, 0x1000, 1)?;
    copy.set_task(1, "bind:1")?;
    copy.inherit(2, 1)?;
    copy.set_weight(1, 7)?;
    assert_eq!(copy.core()?.task_policy(2).map(|it| it.nodes), Some(vec![1]));
    // of an unmapped page nothing is stated any more; the core was left as it was
    pages.unmap(BASE, 0x1000)?;
    pages.map(BASE, 0x1000, 0x10)?;
    assert_eq!(pages.node_of(BASE)?, None);
    assert_eq!(core.versions(), (1, 0));
    // many runs, which need a larger room; and another thread
    pages.map(0x1000_0000, 0x100_0000, 0)?;
    for k in 0..2048 {
        pages.place(0x1000_0000 + k * 0x2000, 0x1000, 1 + (k % 2) as u32)?;
    }
    let runs = std::thread::spawn(move || pages.runs()).join().unwrap()?;
    assert_eq!((runs.len(), runs[2050]), (2051, run(0x10000 + 2 * 2047, 1, 2)));
    Ok(())
}
