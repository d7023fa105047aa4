//! The placement planner of numaplan, safe over its C library. Addresses and lengths are in bytes;
//! pages are numbered by address / 4096. A refused call has changed nothing. The calls are proved;
//! this wrapper, and that its declarations are those of numaplan.h, is not.
//!
//! ```
//! use numaplan::{Core, Refused};
//!
//! let mut core = Core::open("0-1", &[8, 8], &[10, 20, 20, 10], 1)?;
//! core.map(0x10000, 0x4000, 0x10)?;
//! core.set_task(1, "interleave:0-1")?;
//! let mut nodes = [0; 4];
//! core.compile()?.fill(1, 0, 0x10, &mut nodes)?;
//! assert_eq!(nodes, [0, 1, 0, 1]);
//!
//! // a refusal is an error, in words
//! let refused = core.map(0x10000, 0x1000, 0x10).unwrap_err();
//! assert_eq!(refused, Refused::OVERLAP);
//! assert_eq!(refused.words(), "a page of the span is mapped already; unmap it first");
//! # Ok::<(), Refused>(())
//! ```

mod calls;
mod causes;
mod core_reports;
mod cores;
mod desks;
mod explanations;
mod host_pages;
mod hosts;
mod huge_pages;
mod options;
mod pages;
mod plans;
mod raw;
mod reports;
mod scripts;
mod seats;
mod values;

pub use causes::Refused;
pub use core_reports::{Route, Unreplayed};
pub use cores::{Core, Policy, Range, Ranges};
pub use desks::{Desk, Reader};
pub use explanations::{Explanation, OrderRule, Scope};
pub use hosts::{Group, Host, Processes};
pub use huge_pages::HugePools;
pub use options::{Options, Orders, Rules};
pub use pages::{Arrived, Bound, Flow, Moved, Pages};
pub use plans::{Plan, PlanRun};
pub use raw::{Access, Frame, Move, PageRun, Placement, Process};
pub use reports::{Format, Question, Report, Unanswered};
pub use scripts::Script;
pub use seats::Seat;
pub use values::{effective, nodes, nodes_text, policy_text, rebind, rebind_by};

/// The version of this crate, and of the library that it is made for.
pub const VERSION: &str = "0.10.0";

/// The version of the library as one number, as 10000 for 0.10.0; 2^31 more where it was compiled
/// without a proof.
#[must_use]
pub fn version() -> u32 {
    unsafe { raw::np_version() }
}
