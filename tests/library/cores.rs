//! Copies, ranges, listings and the steps of a worker by the Rust wrapper: the values of cores.c. Not
//! proved.
use numaplan::{Core, PlanRun, Range, Refused};

const LISTED: &str = "00010000 default\n\
    00011000 interleave:0-1 anon=2 N0=1 N1=1 kernelpagesize_kB=4\n\
    00013000 default\n00020000 default\n";

fn range(start: u64, length: u64, offset: u64, policy: Option<&str>) -> Range {
    let policy = policy.map(str::to_owned);
    Range { start, length, offset, policy }
}

fn main() -> Result<(), Refused> {
    let mut wanted = [
        range(0x10000, 0x1000, 16, None),
        range(0x11000, 0x2000, 17, Some("interleave:0-1")),
        range(0x13000, 0x1000, 19, None),
        range(0x20000, 0x2000, 32, None),
    ];
    let mut core = Core::open("0-1", &[2, 1], &[10, 20, 20, 10], 2)?;
    core.map(0x10000, 0x4000, 16)?;
    core.map(0x20000, 0x2000, 32)?;
    core.mbind(0x11000, 0x2000, "interleave:0-1")?;
    let mut copy = core.copy()?;
    copy.mbind_by(0x20000, 0x2000, 2 | 0x8000, &[1])?;
    copy.set_task_by(1, 1, &[1])?;
    assert_eq!(copy.task_policy(1).map(|policy| (policy.mode, policy.asked)), Some((1, vec![1])));
    assert_eq!(copy.set_task_by(1, 2, &[]), Err(Refused::NODES_MISSING));
    copy.home_by(0x20000, 0x2000, 0, 0)?;
    assert_eq!(copy.home_by(0x20000, 0x2000, 0, 1), Err(Refused::FLAGS_FORBIDDEN));
    assert_eq!(core.ranges()?, wanted);
    wanted[3].policy = Some("bind=static:1".to_owned());
    assert_eq!(copy.ranges()?, wanted);
    assert_eq!((core.versions(), copy.versions()), ((3, 0), (6, 0)));
    // more lines than the first room for a text has
    for k in 0..300 {
        copy.map(0x1000000 + k * 0x2000, 0x1000, 5)?;
    }
    assert_eq!(copy.maps(1, &[])?.lines().count(), 304);
    core.publish()?;
    let plan = core.published_plan()?;
    core.mbind(0x20000, 0x1000, "bind:1")?;
    assert_eq!((plan.version(), plan.choice(1, 32, 0)?), (3, vec![0, 1]));
    core.mbind(0x20000, 0x1000, "default")?;
    // pages 17 and 18 in turns, the others on the CPU's node, those that aren't mapped marked
    let (mut span, mut each) = ([9; 6], [9; 4]);
    plan.fill_marked(1, 0, 15, &mut span, 255)?;
    plan.nodes(1, 0, &[33, 17, 5, 16], &mut each, 255)?;
    assert_eq!((span, each), ([255, 0, 1, 0, 0, 255], [0, 1, 255, 0]));
    let run = |first, pages, nodes: &[u8]| PlanRun { first, pages, nodes: nodes.to_vec() };
    let runs = [run(16, 1, &[1]), run(17, 2, &[1, 0]), run(19, 1, &[1]), run(32, 2, &[1])];
    assert_eq!(plan.runs(1, 1)?, runs);
    assert_eq!(plan.runs(1, 2), Err(Refused::BAD_CPU));
    assert_eq!(plan.nodes(1, 0, &[33, 17, 5], &mut each, 255), Err(Refused::NO_ROOM));
    assert_eq!(plan.nodes(1, 2, &[33], &mut each[..1], 255), Err(Refused::BAD_CPU));
    assert_eq!((plan.fill_marked(1, 2, 15, &mut span, 9), each[0]), (Err(Refused::BAD_CPU), 0));
    let placed = [core.touch(0, 1, 17, 0)?, core.touch(1, 1, 18, 0)?];
    assert_eq!(core.maps(1, &placed)?, LISTED);
    assert_eq!(core.maps(1, &[placed[0], placed[0]]), Err(Refused(38)));
    core.begin(0, 1, 16, 0)?;
    assert_eq!(core.try_frame(0, 0, 0)?, None);
    core.look(0, 0)?;
    assert_eq!(core.try_frame(0, 0, 1)?.map(|one| (one.node, one.frame)), Some((0, 1)));
    core.begin(0, 1, 16, 0)?;
    core.look(0, 0)?;
    assert_eq!(core.look(0, 0), Err(Refused::EXHAUSTED));
    assert_eq!(core.give(0, 0, 0), Err(Refused(34)));
    core.give(1, 0, 0)
}
