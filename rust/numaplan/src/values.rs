//! Sets of nodes and policy words. Each call of the library is as `calls` says.

use crate::calls::{done, written};
use crate::raw::{self, Nodes};
use crate::{Refused, Rules};

/// The members of a set.
pub(crate) fn members(nodes: &Nodes) -> Vec<u8> {
    let has = |node: &u8| nodes.words[usize::from(*node) / 64] >> (*node % 64) & 1 == 1;
    (0..=255).filter(has).collect()
}

/// The set of a list.
pub(crate) fn read(text: &str) -> Result<Nodes, Refused> {
    let mut nodes = Nodes { words: [0; 4] };
    done(unsafe { raw::np_nodes_read(text.as_ptr(), text.len(), &mut nodes) })?;
    Ok(nodes)
}

/// The nodes of a list, as "0-2,5".
///
/// # Errors
/// `LIST_EMPTY` to `LIST_TOO_HIGH` for a faulty list.
pub fn nodes(text: &str) -> Result<Vec<u8>, Refused> {
    read(text).map(|nodes| members(&nodes))
}

/// The nodes that a policy has once it is set where these are allowed.
///
/// # Errors
/// `LIST_EMPTY` to `LIST_TOO_HIGH` and `UNKNOWN_MODE` to `NODES_MISSING` for a faulty word or list;
/// `NO_POLICY`, `NODES_NOT_ALLOWED`.
pub fn effective(policy: &str, allowed: &str) -> Result<Vec<u8>, Refused> {
    let mut nodes = Nodes { words: [0; 4] };
    done(unsafe {
        raw::np_policy_effective(
            policy.as_ptr(),
            policy.len(),
            allowed.as_ptr(),
            allowed.len(),
            &mut nodes,
        )
    })?;
    Ok(members(&nodes))
}

/// The set of these nodes.
pub(crate) fn set_of(numbers: &[u8]) -> Nodes {
    let mut nodes = Nodes { words: [0; 4] };
    for &node in numbers {
        nodes.words[usize::from(node) / 64] |= 1 << (node % 64);
    }
    nodes
}

/// Nodes as a list: 0, 1, 2 and 5 are "0-2,5".
///
/// # Errors
/// None.
pub fn nodes_text(numbers: &[u8]) -> Result<String, Refused> {
    let nodes = set_of(numbers);
    written(1_024, |text, length| unsafe {
        raw::np_nodes_write(&nodes, text.as_mut_ptr(), text.len(), length)
    })
}

/// The nodes that a policy has once the allowed nodes have changed from `old` to `new`, by the rules of
/// the documents.
///
/// # Errors
/// As [`effective`], of the word and both lists.
pub fn rebind(policy: &str, old: &str, new: &str) -> Result<Vec<u8>, Refused> {
    rebind_by(Rules::Document, policy, old, new)
}

/// The same by these rules.
///
/// # Errors
/// As [`effective`], of the word and both lists.
pub fn rebind_by(rules: Rules, policy: &str, old: &str, new: &str) -> Result<Vec<u8>, Refused> {
    let mut nodes = Nodes { words: [0; 4] };
    done(unsafe {
        raw::np_policy_rebind_by(
            rules.number(),
            policy.as_ptr(),
            policy.len(),
            old.as_ptr(),
            old.len(),
            new.as_ptr(),
            new.len(),
            &mut nodes,
        )
    })?;
    Ok(members(&nodes))
}

/// A policy as numa_maps shows it once it is set where these nodes are allowed.
///
/// # Errors
/// As [`effective`].
pub fn policy_text(policy: &str, allowed: &str) -> Result<String, Refused> {
    written(1_024, |text, length| unsafe {
        raw::np_policy_text(
            policy.as_ptr(),
            policy.len(),
            allowed.as_ptr(),
            allowed.len(),
            text.as_mut_ptr(),
            text.len(),
            length,
        )
    })
}
