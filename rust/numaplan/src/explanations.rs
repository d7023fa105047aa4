//! Where all pages of a core would go, and why one goes where it goes. Each call of the library is as
//! `calls` says.

use crate::calls::done;
use crate::cores::untold;
use crate::raw::{self, Counts, ToldExplanation};
use crate::{Core, Policy, Refused};

/// Whose policy serves a page: that of its range, of the task, or none, which is local allocation.
#[derive(Clone, Copy, Debug, PartialEq, Eq)]
pub enum Scope {
    Range,
    Task,
    System,
}

/// What puts the nodes of a page in order. All but two put the allowed nodes in the order of a node.
#[derive(Clone, Copy, Debug, PartialEq, Eq)]
pub enum OrderRule {
    /// In the order of the faulting node.
    Local,
    /// In the order of the lowest node of the policy.
    Preferred,
    /// The policy's nodes alone, in the order of the home or else the faulting node.
    Bind,
    /// The same, and after them the other allowed nodes.
    PreferredMany,
    /// In the order of the node whose turn it is.
    Interleave,
    /// In the order of the node whose turn it is by weight.
    WeightedInterleave,
}

/// Why a page would go where it goes.
#[derive(Clone, Debug, PartialEq, Eq)]
pub struct Explanation {
    pub scope: Scope,
    /// The policy that serves the page; none is local allocation.
    pub policy: Option<Policy>,
    pub rule: OrderRule,
    /// The node in whose order the nodes are.
    pub node: u32,
    /// The page's index, in pages, by which nodes take turns.
    pub index: u64,
    /// The place of its turn among how many, where nodes take turns.
    pub turn: Option<(u64, u64)>,
}

impl Core {
    /// How many mapped pages would go to each node by all accepted commands, if the task touched each
    /// of them now on a CPU of node `cpu`.
    ///
    /// ```
    /// # let mut core = numaplan::Core::open("0-1", &[8, 8], &[10, 20, 20, 10], 1)?;
    /// core.map(0x10000, 0x4000, 0x10)?;
    /// core.set_task(1, "bind:1")?;
    /// assert_eq!(core.predict(1, 0)?[..2], [0, 4]);
    /// let mut free = [1 << 35; 256];
    /// free[1] = 3;
    /// assert_eq!(core.fill(1, 0, &free)?[1], 0); // and one page goes nowhere
    /// assert_eq!(core.explain(1, 0x10, 0)?.scope, numaplan::Scope::Task);
    /// # Ok::<(), numaplan::Refused>(())
    /// ```
    ///
    /// # Errors
    /// `BAD_CPU`, `NO_MEMORY`.
    pub fn predict(&mut self, task: u32, cpu: u32) -> Result<[u64; 256], Refused> {
        let mut counts = Counts { pages: [0; 256] };
        done(unsafe { raw::np_core_predict(&mut self.0, task, cpu, &mut counts) })?;
        Ok(counts.pages)
    }

    /// What remains of so many free pages of each node, if the task touched all mapped pages so, in
    /// order of address: a page takes a free page of the first node of its list that has one, or goes
    /// nowhere.
    ///
    /// # Errors
    /// `BAD_CPU`, `NO_MEMORY`.
    pub fn fill(&mut self, task: u32, cpu: u32, free: &[u64; 256]) -> Result<[u64; 256], Refused> {
        let mut left = Counts { pages: *free };
        done(unsafe { raw::np_core_fill(&mut self.0, task, cpu, &mut left) })?;
        Ok(left.pages)
    }

    /// Why the page of a number (address / 4096) would go where it goes, if the task touched it now on
    /// a CPU of node `cpu`.
    ///
    /// # Errors
    /// `BAD_CPU`, `UNMAPPED`, `NO_MEMORY`.
    pub fn explain(&mut self, task: u32, page: u64, cpu: u32) -> Result<Explanation, Refused> {
        let mut told = ToldExplanation {
            policy: untold(),
            index: 0,
            place: 0,
            places: 0,
            scope: 0,
            rule: 0,
            node: 0,
        };
        done(unsafe { raw::np_core_explain(&mut self.0, task, page, cpu, &mut told) })?;
        Ok(Explanation {
            scope: match told.scope {
                0 => Scope::Range,
                1 => Scope::Task,
                _ => Scope::System,
            },
            policy: told.policy.told(),
            rule: match told.rule {
                0 => OrderRule::Local,
                1 => OrderRule::Preferred,
                2 => OrderRule::Bind,
                3 => OrderRule::PreferredMany,
                4 => OrderRule::Interleave,
                _ => OrderRule::WeightedInterleave,
            },
            node: told.node,
            index: told.index,
            turn: (told.places > 0).then_some((told.place, told.places)),
        })
    }
}
