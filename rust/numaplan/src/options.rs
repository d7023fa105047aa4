//! What a machine is opened by.

use crate::raw::{Nodes, Options as Raw};
use crate::values::read;
use crate::Refused;

/// Whose rules count where Linux's documents and its kernel differ.
#[derive(Clone, Copy, Debug, Default, PartialEq, Eq, Hash)]
pub enum Rules {
    /// Those of the manual pages and the administration guide.
    #[default]
    Document,
    /// Those of the running kernel, 6.1 to 6.12.
    Linux,
}

impl Rules {
    /// The number of these rules in numaplan.h.
    pub(crate) fn number(self) -> u32 {
        match self {
            Rules::Document => 0,
            Rules::Linux => 1,
        }
    }
}

/// In which order the nodes with memory are looked at from a node.
#[derive(Clone, Copy, Debug, Default, PartialEq, Eq, Hash)]
pub enum Orders<'a> {
    /// The nearest first, of equal distances the lower number.
    #[default]
    Nearest,
    /// As the kernel makes its zone lists, 6.1 to 6.12, where the nodes of a list, as "0-1", have CPUs,
    /// or all.
    Kernel { cpus: Option<&'a str> },
}

/// What a machine is opened by; `Options::default()` is what `Core::open` goes by.
///
/// ```
/// use numaplan::{Core, Options, Refused, Rules};
///
/// for (rules, node) in [(Rules::Document, 0), (Rules::Linux, 1)] {
///     let options = Options { rules, ..Options::default() };
///     let mut core = Core::open_by("0-1", &[8, 8], &[10, 20, 20, 10], 1, options)?;
///     core.set_task(1, "prefer:1")?;
///     core.set_mems("0")?;
///     assert_eq!(core.task_policy(1).unwrap().nodes, [node]);
/// }
/// # Ok::<(), Refused>(())
/// ```
#[derive(Clone, Copy, Debug, Default, PartialEq, Eq)]
pub struct Options<'a> {
    pub rules: Rules,
    pub orders: Orders<'a>,
}

impl Options<'_> {
    /// These options as the library takes them.
    pub(crate) fn raw(&self) -> Result<Raw, Refused> {
        let (orders, cpus) = match self.orders {
            Orders::Nearest => (0, None),
            Orders::Kernel { cpus } => (1, cpus),
        };
        Ok(Raw {
            rules: self.rules.number(),
            orders,
            cpus: cpus.map_or(Ok(Nodes { words: [0; 4] }), read)?,
        })
    }
}
