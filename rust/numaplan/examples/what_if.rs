//! What if memory may be placed on fewer nodes? For each task of a set: how many of its pages would
//! go to each node, now and then. The core goes on with the change only where it is made there.

use numaplan::{Core, Plan, Refused};

const PAGES: u64 = 1_000;
const FIRST: u64 = 16;

/// Four nodes in two packages, each with 64 frames.
fn core() -> Result<Core, Refused> {
    let distances = [
        10, 12, 20, 20, //
        12, 10, 20, 20, //
        20, 20, 10, 12, //
        20, 20, 12, 10, //
    ];
    let mut core = Core::open("0-3", &[64; 4], &distances, 1)?;
    core.map(FIRST * 4096, PAGES * 4096, FIRST)?;
    core.set_task(1, "interleave:0-3")?;
    core.set_task(2, "bind:2-3")?;
    core.set_task(3, "interleave=relative:0-1")?;
    Ok(core)
}

/// How many pages of each task have each of the four nodes first.
fn spread(plan: &Plan) -> Result<Vec<Vec<u64>>, Refused> {
    (1..=3)
        .map(|task| Ok(plan.counts(task, 0, FIRST, PAGES)?[..4].to_vec()))
        .collect()
}

fn main() -> Result<(), Refused> {
    let mut core = core()?;
    let before = core.compile()?;
    core.set_mems("1,3")?;
    let after = core.compile()?;
    // (both plans stand: a plan never changes, and threads ask it at once)
    let ask = |plan| move || spread(plan);
    let (before, after) = std::thread::scope(|scope| {
        let threads = [&before, &after].map(|plan| scope.spawn(ask(plan)));
        let [before, after] = threads.map(|thread| thread.join().unwrap());
        Ok::<_, Refused>((before?, after?))
    })?;
    for (task, (now, then)) in before.iter().zip(after).enumerate() {
        println!("task {}: {now:?} becomes {then:?}", task + 1);
    }
    println!("{}", core.map(1, 4096, 0).unwrap_err());
    Ok(())
}
