//! Hosts by the Rust wrapper: the lines of docs/SCRIPT.md. Not proved.
use numaplan::{Bound, Flow, Group, Host, Options, Orders, PageRun, Process, Refused, Rules};

const FLAT: [u8; 16] = [10, 20, 20, 20, 20, 10, 20, 20, 20, 20, 10, 20, 20, 20, 20, 10];

fn main() -> Result<(), Refused> {
    let mut host = Host::open("0-3", &[0; 4], &FLAT, Options::default())?;
    host.new_group(5, 0)?;
    host.set_group_mems(5, "1-2")?;
    host.new_process(1, 5)?;
    host.map(1, 0x10000, 0x1000, 0x10)?;
    host.set_task(1, 7, "bind:2")?;
    host.fork(1, 2, 7, 9)?;
    host.set_group_mems(5, "2-3")?;
    assert_eq!(host.choice(1, 7, 16, 0)?, [3]);
    host.attach(2, 0)?;
    assert_eq!(host.choice(2, 9, 16, 0)?, [1]);
    assert_eq!(host.groups()?, [Group { group: 5, parent: 0, mems: Some(vec![2, 3]) }]);
    assert_eq!((host.group_nodes(0)?, host.group_nodes(5)?), (vec![0, 1, 2, 3], vec![2, 3]));
    let of = |process, group| Process { process, group };
    assert_eq!(host.processes().collect::<Vec<_>>(), [of(1, 5), of(2, 0)]);
    assert_eq!((host.version(), host.process_count()), (8, 2));
    assert_eq!(host.unset_group_mems(5), Err(Refused::POPULATED));
    let mut copy = host.copy()?;
    copy.exit(1)?;
    copy.unset_group_mems(5)?;
    assert_eq!((copy.version(), copy.groups()?[0].mems.clone()), (10, None));
    host.set_weight(1, 2)?;
    host.map(1, 0x20000, 0x2000, 0x20)?;
    host.mbind(1, 0x20000, 0x2000, "bind:2")?;
    host.set_home(1, 0x20000, 0x1000, 3)?;
    let ranges = host.ranges(1)?;
    let words: Vec<_> = ranges.iter().map(|range| range.policy.as_deref()).collect();
    assert_eq!(words, [None, Some("bind:2"), Some("bind:2")]);
    host.inherit(1, 8, 7)?;
    assert_eq!(host.task_policy(1, 8)?.map(|it| (it.mode, it.nodes)), Some((2, vec![3])));
    assert_eq!(host.task_policy(1, 9)?, None);
    // pages: the lines of docs/SCRIPT.md, on a copy
    let mut there = host.copy()?;
    assert_eq!(there.populate(1, 0x10000, 0x1000, 7, 0)?.nodes[3], 1);
    assert_eq!(there.populate(2, 0x10000, 0x1000, 9, 0)?.nodes[1], 1);
    there.set_group_mems(5, "0-1")?;
    let told = there.moves(1)?;
    assert_eq!((told.moved, told.left), (1, 0));
    assert_eq!(told.flows, [Flow { from: 3, to: 1, pages: 1 }]);
    assert_eq!(there.moves_of_all()?.flows, told.flows);
    assert_eq!(there.map_huge(1, 0x1000, 1, 0), Err(Refused::UNALIGNED));
    assert_eq!((there.node_of(1, 0x10000)?, there.node_of(2, 0x10000)?), (Some(1), Some(1)));
    assert_eq!((there.counts(1)?[1], host.counts(1)?[1]), (1, 0));
    there.set_room(0, Some(1))?;
    there.place(1, 0x20000, 0x1000, 0)?;
    assert_eq!(there.place(1, 0x21000, 0x1000, 0), Err(Refused::NODE_FULL));
    assert_eq!((there.room(0)?, there.room(1)?), (Some(0), None));
    assert_eq!(there.move_page(1, 0x10000, 3), Err(Refused::TARGET_NOT_ALLOWED));
    assert_eq!(there.mbind_strictly(1, 0x20000, 0x1000, "bind:1"), Err(Refused::ASTRAY));
    let bound = there.mbind_moving(1, 0x20000, 0x1000, "bind:1", false, 7, 0)?;
    assert_eq!(bound, Bound { moved: 1, left: 0, errno: 0 });
    assert_eq!(there.migrate(1, "1", "0")?.left, 1);
    let run = |first, node| PageRun { first, pages: 1, node };
    assert_eq!(there.runs(1)?, [run(16, 0), run(32, 1)]);
    let mut nodes = [0; 3];
    there.nodes(1, &[32, 17, 16], &mut nodes, 9)?;
    assert_eq!(nodes, [1, 9, 0]);
    // by the system calls' own words: 2 is MPOL_BIND
    assert_eq!(there.mbind_by(1, 0x20000, 0x1000, 2, &[]), Err(Refused::NODES_MISSING));
    there.mbind_by(1, 0x20000, 0x1000, 2, &[0])?;
    assert_eq!(there.mbind_strictly_by(1, 0x20000, 0x1000, 2, &[0]), Err(Refused::ASTRAY));
    there.set_room(0, Some(1))?;
    let bound = there.mbind_moving_by(1, 0x20000, 0x1000, 2, &[0], true, 7, 0)?;
    assert_eq!(bound, Bound { moved: 1, left: 0, errno: 0 });
    there.home_by(1, 0x20000, 0x1000, 0, 0)?;
    assert_eq!(there.home_by(1, 0x20000, 0x1000, 0, 1), Err(Refused::FLAGS_FORBIDDEN));
    there.set_task_by(1, 9, 1, &[1])?;
    assert_eq!(there.task_policy(1, 9)?.map(|it| (it.mode, it.nodes)), Some((1, vec![1])));
    there.set_follows(false);
    there.attach(1, 0)?;
    there.exit(1)?;
    assert_eq!((there.room(0)?, there.runs(1)), (Some(2), Err(Refused::NO_SUCH_PROCESS)));
    // a plan goes to another thread, and so does a host
    let plan = host.compile(1)?;
    let first = std::thread::spawn(move || plan.choice(8, 16, 0)).join().unwrap()?;
    assert_eq!(first, [3]);
    host.unmap(1, 0x10000, 0x1000)?;
    let refused = std::thread::spawn(move || host.choice(1, 8, 16, 0)).join().unwrap();
    assert_eq!(refused, Err(Refused::UNMAPPED));
    assert_eq!(copy.choice(1, 7, 16, 0), Err(Refused::NO_SUCH_PROCESS));
    pooled()
}

/// Pools that two processes share: rows that two kernels answered (tests/worked/hosts), and behind them sizes
/// of pools as the host and as a process writes them.
fn pooled() -> Result<(), Refused> {
    const AT: u64 = 0x2_4000_0000;
    const TWO: u64 = 1 << 21;
    let far = [10, 12, 20, 22, 12, 10, 20, 21, 20, 20, 10, 13, 22, 21, 13, 10];
    let options = Options { rules: Rules::Linux, orders: Orders::Kernel { cpus: None } };
    let mut host = Host::open("0-3", &[0; 4], &far, options)?;
    for (node, count) in [(0, 3), (1, 2), (3, 4)] {
        host.resize_pool(node, count)?;
    }
    host.new_process(1, 0)?;
    host.new_process(2, 0)?;
    host.set_task(1, 1, "bind:0")?;
    assert_eq!(host.map_huge_for(1, AT, 4 * TWO, 0, 1, true), Err(Refused::NO_HUGE_PAGES));
    host.map_huge_for(1, AT, 3 * TWO, 0, 1, true)?;
    host.set_task(1, 1, "default")?;
    assert_eq!((host.fault(1, 1, AT, 3)?, host.fault(1, 1, AT + TWO, 3)?), (3, 3));
    let pools = host.pools();
    assert_eq!((&pools.total[..4], &pools.free[..4]), (&[3, 2, 0, 4][..], &[3, 2, 0, 2][..]));
    assert_eq!((pools.surplus, pools.reserved), ([0; 256], 1));
    assert_eq!((host.counts(1)?[3], host.node_of(1, AT + TWO - 1)?), (1024, Some(3)));
    assert_eq!(host.runs(1)?, [PageRun { first: AT / 4096, pages: 1024, node: 3 }]);
    assert_eq!(host.map_huge_for(2, AT, 7 * TWO, 0, 1, true), Err(Refused::NO_HUGE_PAGES));
    host.map_huge_for(2, AT, 6 * TWO, 0, 1, true)?;
    host.new_group(5, 0)?;
    host.set_group_mems(5, "2")?;
    host.attach(2, 5)?;
    host.resize_pools_in(2, 12)?;
    assert_eq!(host.pools().total[..4], [3, 2, 3, 4]);
    host.resize_pool_in(2, 0, 4)?;
    assert_eq!(host.pools().total[..4], [3, 2, 3, 4]);
    host.resize_pool(0, 4)?;
    assert_eq!(host.pools().total[..4], [4, 2, 3, 4]);
    host.resize_pools(14);
    assert_eq!(host.pools().total.iter().sum::<u64>(), 14);
    assert_eq!(host.resize_pools_for(2, 9, 1, 4), Err(Refused::NO_SUCH_CPU));
    host.exit(1)?;
    assert_eq!((host.pools().free.iter().sum::<u64>(), host.pools().reserved), (14, 6));
    assert_eq!(host.resize_pools_in(1, 9), Err(Refused::NO_SUCH_PROCESS));
    Ok(())
}
