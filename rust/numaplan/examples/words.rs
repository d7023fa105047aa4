//! Sets of nodes, policy words and a script. Each value is in set_mempolicy(2) or docs/SCRIPT.md.

use numaplan::{effective, nodes, nodes_text, policy_text, rebind, Refused, Script};

fn main() -> Result<(), Refused> {
    assert_eq!(nodes("0-2,5")?, [0, 1, 2, 5]);
    // (5 modulo 4 allowed nodes is 1, and the second of 1 to 4 is 2)
    assert_eq!(effective("bind=relative:5", "1-4")?, [2]);
    assert_eq!(nodes_text(&[5, 0, 1, 2])?, "0-2,5");
    assert_eq!(rebind("interleave:0-3", "0-3", "1,3")?, [1, 3]);
    assert_eq!(policy_text("many=static:0", "0-1")?, "prefer (many)=static:0");
    let refused = effective("bind:1", "0").unwrap_err();
    assert_eq!(refused.name(), "NodesNotAllowed");
    let mut script = Script::open()?;
    assert_eq!(script.line("machine 2 0-1 8 flat")?, b"ready\n");
    assert_eq!(script.line("# a comment")?, b"");
    assert_eq!(script.line("map 0x10000 0x1000 0x10")?, b"ok 1\n");
    assert_eq!(script.line("place 1 0x10000 1")?, b"v1: 1 0\n");
    assert_eq!(Script::run("machine 2 0-1 8 flat\n# a comment\npublish\n")?, "ready\npublished 0\n");
    Ok(())
}
