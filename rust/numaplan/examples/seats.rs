//! Four threads share the frames of two nodes, each by a seat of its own: every frame is taken once,
//! and at the end one seat holds them all and gives them back.

use numaplan::{Frame, Refused, Seat};
use std::thread;

const FRAMES: [u32; 2] = [1_000, 600];

/// Takes frames of node 1, then of node 0, until none is left.
fn take_all(mut seat: Seat) -> Result<(Seat, Vec<Frame>), Refused> {
    let mut frames = Vec::new();
    loop {
        match seat.take(&[1, 0]) {
            Ok((frame, rank)) => {
                assert_eq!(usize::from(frame.node), 1 - rank);
                frames.push(frame);
            }
            Err(Refused::ALL_TAKEN) => return Ok((seat, frames)),
            Err(refused) => return Err(refused),
        }
    }
}

fn main() -> Result<(), Refused> {
    let mut first = Seat::open("0-1", &FRAMES, &[10, 20, 20, 10])?;
    let mut workers = Vec::new();
    for _ in 0..4 {
        let seat = first.split()?;
        workers.push(thread::spawn(move || take_all(seat)));
    }
    let mut taken = Vec::new();
    for worker in workers {
        let (seat, frames) = worker.join().unwrap()?;
        first.join(seat).expect("a seat at the same pools");
        taken.extend(frames);
    }
    taken.sort_by_key(|frame| (frame.node, frame.number));
    taken.dedup();
    let on_one = taken.iter().filter(|frame| frame.node == 1).count();
    println!(
        "{} frames of node 0, {on_one} of node 1",
        taken.len() - on_one
    );
    let other = Seat::open("0-1", &FRAMES, &[10, 20, 20, 10])?;
    println!("joined to other pools: {}", first.join(other).is_ok());
    for frame in taken {
        first.give(frame)?;
    }
    println!("{}", first.give(Frame { node: 1, number: 0 }).unwrap_err());
    let (frame, _) = first.take(&[0])?;
    let moved = first.migrate(frame, 1)?;
    println!("moved from node {} to node {}", frame.node, moved.node);
    Ok(())
}
