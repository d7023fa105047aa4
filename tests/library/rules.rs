//! Cores and scripts by both kinds of rules, a kernel's orders, policies as they stand, and the range of an
//! address, by the Rust wrapper: the values of rules.c. Not proved.
use numaplan::{rebind, rebind_by, Core, Options, Orders, Policy, Refused, Rules, Script};

const FLAT: [u8; 16] = [10, 20, 20, 20, 20, 10, 20, 20, 20, 20, 10, 20, 20, 20, 20, 10];

/// A core of four nodes, with four mapped pages.
fn open_by(rules: Rules) -> Result<Core, Refused> {
    let options = Options { rules, ..Options::default() };
    let mut core = Core::open_by("0-3", &[8; 4], &FLAT, 1, options)?;
    core.map(0x10000, 0x4000, 16)?;
    Ok(core)
}

fn policy(mode: u32, home: Option<u8>, asked: &[u8], nodes: &[u8]) -> Option<Policy> {
    let (asked, nodes) = (asked.to_vec(), nodes.to_vec());
    Some(Policy { mode, home, asked, nodes })
}

/// The order of each node, as the list of a page without a policy.
fn orders(distances: &[u8], nodes: u32, orders: Orders<'_>) -> Result<Vec<Vec<u8>>, Refused> {
    let frames = vec![8; usize::try_from(nodes).unwrap()];
    let options = Options { orders, ..Options::default() };
    let mut core = Core::open_by(&format!("0-{}", nodes - 1), &frames, distances, 1, options)?;
    core.map(0x10000, 0x1000, 16)?;
    let plan = core.compile()?;
    (0..nodes).map(|node| plan.choice(1, 16, node)).collect()
}

/// Two sockets of four nodes, 12 apart in a socket and 21 across.
fn sockets() -> Vec<u8> {
    let far = |a: u8, b: u8| if a == b { 10 } else if a / 4 == b / 4 { 12 } else { 21 };
    (0..8).flat_map(|a| (0..8).map(move |b| far(a, b))).collect()
}

fn main() -> Result<(), Refused> {
    let kernel = Orders::Kernel { cpus: None };
    assert_eq!(orders(&sockets(), 8, kernel)?[1], [1, 2, 3, 0, 5, 6, 7, 4]);
    let one = orders(&FLAT, 4, Orders::Kernel { cpus: Some("1") })?;
    assert_eq!(one, [[0, 2, 3, 1], [1, 3, 2, 0], [2, 3, 0, 1], [3, 0, 2, 1]]);
    assert_eq!(orders(&FLAT, 4, Orders::Nearest)?[2], [2, 0, 1, 3]);
    let other = orders(&FLAT, 4, Orders::Kernel { cpus: Some("4") });
    assert_eq!(other, Err(Refused::BAD_NODE_COUNT));
    for (rules, placed) in [(Rules::Document, "v3: 3 2\n"), (Rules::Linux, "v3: 2 3\n")] {
        let mut script = Script::open_by(rules)?;
        for line in ["machine 4 0-3 8 flat", "map 0x10000 0x1000 0x10", "task 1 prefer:1", "mems 2-3"] {
            script.line(line)?;
        }
        assert_eq!(script.line("place 1 0x10000 0")?, placed.as_bytes());
    }
    for (rules, nodes, first) in [(Rules::Document, [3], 3), (Rules::Linux, [1], 2)] {
        let mut core = open_by(rules)?;
        core.set_task(5, "prefer:1")?;
        core.mbind(0x10000, 0x1000, "prefer:1")?;
        core.set_mems("2-3")?;
        assert_eq!(core.task_policy(5), policy(1, None, &[1], &nodes));
        assert_eq!(core.policy_at(0x10fff), policy(1, None, &[1], &nodes));
        assert_eq!((core.policy_at(0x11000), core.policy_at(0x20000)), (None, None));
        assert_eq!(core.copy()?.compile()?.choice(5, 17, 0)?[0], first);
        assert_eq!(rebind_by(rules, "prefer:1", "0-3", "2-3")?, nodes);
    }
    assert_eq!(rebind("prefer:1", "0-3", "2-3")?, [3]);
    let mut core = open_by(Rules::default())?;
    core.mbind(0x11000, 0x1000, "bind=static:1-2")?;
    core.set_home(0x11000, 0x1000, 3)?;
    core.set_mems("0-1")?;
    let found = core.range_at(0x11fff).expect("it is mapped");
    assert_eq!((found.start, found.length, found.offset), (0x11000, 0x1000, 17));
    assert_eq!((core.range_at(0), core.range_at(u64::MAX)), (None, None));
    let starts = |core: &mut Core, from| core.ranges_from(from).map(|one| one.start).collect::<Vec<_>>();
    assert_eq!(starts(&mut core, 0), [0x10000, 0x11000, 0x12000]);
    assert_eq!(starts(&mut core, 0x11fff), [0x11000, 0x12000]);
    assert!(starts(&mut core, 0x14000).is_empty());
    assert_eq!(core.policy_at(0x11000), policy(0x8002, Some(3), &[1, 2], &[1]));
    assert_eq!(core.task_policy(5), None);
    let home = open_by(Rules::Linux)?.set_home(0x10000, 0x1000, 0);
    assert_eq!(home, Err(Refused::NO_POLICY_THERE));
    let last = open_by(Rules::Linux)?.unmap((1 << 47) - 0x1000, 0x1000);
    assert_eq!(last, Err(Refused::BAD_SPAN));
    Ok(())
}
