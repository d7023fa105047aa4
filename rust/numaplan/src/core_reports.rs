//! What cores answer to questions for reports: differences and traces, as values and as texts. Each
//! call of the library is as `calls` says.

use std::error::Error;
use std::fmt;

use crate::calls::done;
use crate::raw::{self, AskedReport, FreePages, ToldRoute};
use crate::reports::told;
use crate::{Access, Core, Format, Move, Refused, Report, Unanswered};

/// How many accesses of a task on CPUs of node `cpu` went to pages on `node`, if these found a frame,
/// and how many of the accesses were faults, which placed the page.
#[derive(Clone, Copy, Debug, PartialEq, Eq)]
pub struct Route {
    pub task: u32,
    pub cpu: u32,
    pub node: Option<u8>,
    pub accesses: u64,
    pub faults: u64,
}

/// Why a trace can't be replayed, and the place of the access, from 0, if it is one that can't.
#[derive(Clone, Copy, Debug, PartialEq, Eq)]
pub struct Unreplayed {
    pub cause: Refused,
    pub place: Option<usize>,
}

impl fmt::Display for Unreplayed {
    fn fmt(&self, f: &mut fmt::Formatter<'_>) -> fmt::Result {
        match self.place {
            Some(place) => write!(f, "access {place}: {}", self.cause),
            None => write!(f, "{}", self.cause),
        }
    }
}

impl Error for Unreplayed {}

/// The structs that a call writes into a room: at first of 256, then of as many as it needs; and the
/// number that it told.
fn listed<T: Copy + Default>(
    mut call: impl FnMut(&mut [T], &mut usize) -> u32,
) -> (Result<Vec<T>, Refused>, usize) {
    let (mut room, mut count) = (vec![T::default(); 256], 0);
    let mut answer = done(call(&mut room, &mut count));
    if answer == Err(Refused::NO_ROOM) {
        room.resize(count, T::default());
        answer = done(call(&mut room, &mut count));
    }
    let listed = answer.map(|()| {
        room.truncate(count);
        room
    });
    (listed, count)
}

/// A question about a core, which has rules of its own.
fn asked(task: u32, cpu: u32, format: Format) -> AskedReport {
    AskedReport {
        task,
        cpu,
        rules: 0,
        format: format.number(),
    }
}

impl Core {
    /// Which pages would go to another node in the core `after`, as a copy of this one with more
    /// commands, than in this one, if the task touched each of them now on a CPU of node `cpu`: for
    /// each span of pages that are mapped in both, how many go from which node to which other.
    ///
    /// ```
    /// # let mut core = numaplan::Core::open("0-1", &[8, 8], &[10, 20, 20, 10], 1)?;
    /// core.map(0x10000, 0x4000, 0x10)?;
    /// core.set_task(1, "interleave:0-1")?;
    /// let mut after = core.copy()?;
    /// after.set_mems("0")?;
    /// let moves = core.diff(&mut after, 1, 0)?;
    /// assert_eq!((moves[0].from, moves[0].to, moves[0].moved), (1, 0, 2));
    /// # Ok::<(), numaplan::Refused>(())
    /// ```
    ///
    /// # Errors
    /// `BAD_CPU` where one of the machines lacks the node; `NO_MEMORY`.
    pub fn diff(&mut self, after: &mut Core, task: u32, cpu: u32) -> Result<Vec<Move>, Refused> {
        let (moves, _) = listed(|room: &mut [Move], count| unsafe {
            raw::np_core_diff(
                &mut self.0,
                &mut after.0,
                task,
                cpu,
                room.as_mut_ptr(),
                room.len(),
                count,
            )
        });
        moves
    }

    /// What a trace meets if no page is placed before it: the routes of its accesses, in order of task,
    /// of `cpu` and of node.
    ///
    /// ```
    /// # let mut core = numaplan::Core::open("0-1", &[1, 1], &[10, 20, 20, 10], 1)?;
    /// core.map(0x10000, 0x4000, 0x10)?;
    /// let access = numaplan::Access { task: 1, page: 0x10, cpu: 0, count: 5 };
    /// let routes = core.replay(&[access, numaplan::Access { cpu: 1, ..access }])?;
    /// assert_eq!((routes[0].node, routes[0].accesses, routes[0].faults), (Some(0), 5, 1));
    /// assert_eq!((routes[1].cpu, routes[1].node), (1, Some(0)));
    /// let fault = core.replay(&[access, numaplan::Access { page: 9, ..access }]);
    /// assert_eq!(fault.unwrap_err().place, Some(1));
    /// # Ok::<(), Box<dyn std::error::Error>>(())
    /// ```
    ///
    /// # Errors
    /// `BAD_ACCESS`, with the access's place; `NO_MEMORY`.
    pub fn replay(&mut self, trace: &[Access]) -> Result<Vec<Route>, Unreplayed> {
        let (routes, told) = listed(|room: &mut [ToldRoute], count| unsafe {
            raw::np_core_replay(
                &mut self.0,
                trace.as_ptr(),
                trace.len(),
                room.as_mut_ptr(),
                room.len(),
                count,
            )
        });
        let routes = routes.map_err(|cause| Unreplayed {
            cause,
            place: (cause == Refused::BAD_ACCESS).then_some(told),
        })?;
        Ok(routes.iter().map(ToldRoute::told).collect())
    }

    /// Where all mapped pages would go, where nodes (the first of each pair) have so many free pages;
    /// others never run out: as `numaplan predict` prints it.
    ///
    /// # Errors
    /// `NO_MEMORY`, `NO_SUCH_NODE`, `BAD_CPU`.
    pub fn predict_text(
        &mut self,
        task: u32,
        cpu: u32,
        format: Format,
        free: &[(u8, u64)],
    ) -> Result<Report, Unanswered> {
        let (asked, free) = (asked(task, cpu, format), free.iter());
        let free: Vec<_> = free.map(|&(node, pages)| FreePages { pages, node }).collect();
        told(|text, report| unsafe {
            raw::np_core_predict_text(
                &mut self.0,
                &asked,
                free.as_ptr(),
                free.len(),
                text.as_mut_ptr(),
                text.len(),
                report,
            )
        })
    }

    /// Which pages would go to another node in the core `after` than in this one: as `numaplan diff`
    /// prints it.
    ///
    /// ```
    /// # let mut core = numaplan::Core::open("0-1", &[8, 8], &[10, 20, 20, 10], 1)?;
    /// core.map(0x10000, 0x4000, 0x10)?;
    /// let mut after = core.copy()?;
    /// after.set_task(1, "bind:1")?;
    /// let report = core.diff_text(&mut after, 1, 0, numaplan::Format::Text)?;
    /// assert_eq!(report.text.lines().last(), Some("total differs=4 N0->N1=4"));
    /// # Ok::<(), Box<dyn std::error::Error>>(())
    /// ```
    ///
    /// # Errors
    /// `NO_MEMORY`, `BAD_CPU`.
    pub fn diff_text(
        &mut self,
        after: &mut Core,
        task: u32,
        cpu: u32,
        format: Format,
    ) -> Result<Report, Unanswered> {
        let asked = asked(task, cpu, format);
        told(|text, report| unsafe {
            raw::np_core_diff_text(
                &mut self.0,
                &mut after.0,
                &asked,
                text.as_mut_ptr(),
                text.len(),
                report,
            )
        })
    }

    /// Why the page of a number (address / 4096) would go where it goes: as `numaplan explain` prints
    /// it.
    ///
    /// # Errors
    /// `NO_MEMORY`, `BAD_CPU`, `UNMAPPED`.
    pub fn explain_text(
        &mut self,
        page: u64,
        task: u32,
        cpu: u32,
        format: Format,
    ) -> Result<Report, Unanswered> {
        let asked = asked(task, cpu, format);
        told(|text, report| unsafe {
            raw::np_core_explain_text(
                &mut self.0,
                &asked,
                page,
                text.as_mut_ptr(),
                text.len(),
                report,
            )
        })
    }

    /// What a trace of accesses, `TASK ADDRESS CPU [COUNT]` a line, meets where no page is placed: as
    /// `numaplan replay` prints it.
    ///
    /// # Errors
    /// `NO_MEMORY`, `BAD_ACCESS`.
    pub fn replay_text(&mut self, trace: &str, format: Format) -> Result<Report, Unanswered> {
        let asked = asked(0, 0, format);
        told(|text, report| unsafe {
            raw::np_core_replay_text(
                &mut self.0,
                trace.as_ptr(),
                trace.len(),
                &asked,
                text.as_mut_ptr(),
                text.len(),
                report,
            )
        })
    }
}

impl ToldRoute {
    /// The route, with its node if it has one (NP_NO_FRAME is no byte).
    fn told(&self) -> Route {
        Route {
            task: self.task,
            cpu: self.cpu,
            node: u8::try_from(self.node).ok(),
            accesses: self.accesses,
            faults: self.faults,
        }
    }
}
