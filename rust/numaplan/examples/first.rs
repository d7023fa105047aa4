//! A first program: to which nodes do the pages of an interleaved mapping go?

use numaplan::{Core, Refused};

fn main() -> Result<(), Refused> {
    let mut core = Core::open("0-1", &[8, 8], &[10, 20, 20, 10], 1)?;
    core.map(0x10000, 0x4000, 0x10)?; // private anonymous memory: the offset is START / 4096
    core.set_task(1, "interleave:0-1")?;
    let mut nodes = [0; 4];
    core.compile()?.fill(1, 0, 0x10, &mut nodes)?;
    for (page, node) in (0x10..).zip(nodes) {
        println!("page {page}: node {node}");
    }
    Ok(())
}
