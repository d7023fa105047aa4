//! A replay without proofs, beside which that of the program is measured: plain Rust of the standard
//! library alone. It does what `numaplan replay --free 0=1T` does of one process in which task 1 has
//! `interleave:0-3` and the others none, on four nodes equally far from each other.
//!
//!     rustc -O --edition 2021 replay.rs && ./replay TRACE

use std::collections::hash_map::Entry;
use std::collections::{BTreeMap, HashMap};
use std::fs::File;
use std::io::{BufRead, BufReader, Write};

const NODES: u32 = 4;
// The pages that are mapped.
const START: u64 = 0x10000;
const PAGES: u64 = 0x4000;

#[derive(Clone, Copy)]
struct Access {
    task: u32,
    page: u64,
    cpu: u32,
    count: u32,
}

#[derive(Clone, Copy, Default)]
struct Counts {
    accesses: u64,
    placed: u64,
    exhausted: u64,
}

/// A number, decimal or with `0x`.
fn number(word: &[u8]) -> Option<u64> {
    let (digits, base) = match word {
        [b'0', b'x', rest @ ..] => (rest, 16),
        _ => (word, 10),
    };
    if digits.is_empty() {
        return None;
    }
    let mut value = 0u64;
    for digit in digits {
        let digit = (*digit as char).to_digit(base)?;
        value = value.checked_mul(base as u64)?.checked_add(digit as u64)?;
    }
    Some(value)
}

fn small(word: &[u8]) -> Option<u32> {
    u32::try_from(number(word)?).ok()
}

/// What a line says; nothing where it is empty or a comment.
fn access_of(line: &[u8]) -> Result<Option<Access>, &'static str> {
    if line.is_empty() || line[0] == b'#' {
        return Ok(None);
    }
    let mut words = line.split(|byte| *byte == b' ');
    let (Some(task), Some(address), Some(cpu)) = (words.next(), words.next(), words.next()) else {
        return Err("bad words");
    };
    let count = words.next().unwrap_or(b"1");
    if words.next().is_some() {
        return Err("bad words");
    }
    Ok(Some(Access {
        task: small(task).ok_or("TASK")?,
        page: number(address).ok_or("ADDRESS")? / 4096,
        cpu: small(cpu).ok_or("CPU")?,
        count: small(count).ok_or("COUNT")?,
    }))
}

struct Replay {
    room: [u64; NODES as usize],
    places: HashMap<u64, u8>,
    counts: HashMap<(u32, u32, Option<u8>), Counts>,
}

impl Replay {
    /// The node on which a page is placed: the first of its list that has room.
    fn place(room: &mut [u64; NODES as usize], access: Access) -> Option<u8> {
        let first = match access.task {
            1 => (access.page - START) as u32 % NODES,
            _ => access.cpu,
        };
        let list = (0..NODES).map(|step| (first + step) % NODES);
        for node in list {
            if room[node as usize] > 0 {
                room[node as usize] -= 1;
                return Some(node as u8);
            }
        }
        None
    }

    fn take(&mut self, access: Access) -> Result<(), &'static str> {
        if access.cpu >= NODES {
            return Err("BadCpu");
        }
        if access.page < START || access.page - START >= PAGES {
            return Err("Unmapped");
        }
        let (node, is_fault) = match self.places.entry(access.page) {
            Entry::Occupied(found) => (Some(*found.get()), false),
            Entry::Vacant(free) => {
                let node = Self::place(&mut self.room, access);
                if let Some(node) = node {
                    free.insert(node);
                }
                (node, true)
            }
        };
        let counts = self.counts.entry((access.task, access.cpu, node)).or_default();
        counts.accesses = counts.accesses.checked_add(access.count as u64).ok_or("TooMany")?;
        counts.placed += (is_fault && node.is_some()) as u64;
        counts.exhausted += (is_fault && node.is_none()) as u64;
        Ok(())
    }
}

/// A line: the accesses, those by node and by distance, and the faults.
fn line(head: &str, routes: &[((u32, u32, Option<u8>), Counts)]) -> String {
    let (mut all, mut unserved) = (Counts::default(), 0);
    let (mut nodes, mut distances) = (BTreeMap::new(), BTreeMap::new());
    for ((_, cpu, node), counts) in routes {
        all.accesses += counts.accesses;
        all.placed += counts.placed;
        all.exhausted += counts.exhausted;
        match node {
            Some(node) => {
                *nodes.entry(*node).or_insert(0) += counts.accesses;
                let distance = if *cpu == *node as u32 { 10 } else { 20 };
                *distances.entry(distance).or_insert(0) += counts.accesses;
            }
            None => unserved += counts.accesses,
        }
    }
    let mut text = format!("{head} accesses={}", all.accesses);
    for (node, accesses) in nodes {
        text += &format!(" N{node}={accesses}");
    }
    for (distance, accesses) in distances {
        text += &format!(" D{distance}={accesses}");
    }
    text + &format!(" placed={} exhausted={} unserved={unserved}\n", all.placed, all.exhausted)
}

fn main() -> Result<(), Box<dyn std::error::Error>> {
    let words: Vec<String> = std::env::args().collect();
    let mut replay = Replay {
        room: [1 << 28; NODES as usize],
        places: HashMap::new(),
        counts: HashMap::new(),
    };
    let mut input = BufReader::new(File::open(&words[1])?);
    let (mut bytes, mut place) = (Vec::new(), 0);
    while input.read_until(b'\n', &mut bytes)? > 0 {
        place += 1;
        if bytes.last() == Some(&b'\n') {
            bytes.pop();
        }
        let taken = match access_of(&bytes) {
            Ok(Some(access)) => replay.take(access),
            Ok(None) => Ok(()),
            Err(why) => Err(why),
        };
        taken.map_err(|why| format!("{}:{place}: {why}", words[1]))?;
        bytes.clear();
    }
    let mut routes: Vec<_> = replay.counts.into_iter().collect();
    routes.sort_by_key(|(route, _)| *route);
    let mut text = String::new();
    for of_task in routes.chunk_by(|one, next| one.0.0 == next.0.0) {
        text += &line(&format!("task {}", of_task[0].0.0), of_task);
    }
    text += &line("total", &routes);
    std::io::stdout().write_all(text.as_bytes())?;
    Ok(())
}
