//! Plans. Each call of the library is as `calls` says.

use crate::calls::done;
use crate::raw::{self, Counts, Handle, ToldRun};
use crate::Refused;

/// Mapped pages in a row: the number of the first, how many they are, and the nodes that their lists
/// begin with, in turns: that of page `first + k` with `nodes[k % nodes.len()]`.
#[derive(Clone, Debug, PartialEq, Eq)]
pub struct PlanRun {
    pub first: u64,
    pub pages: u64,
    pub nodes: Vec<u8>,
}

/// A plan, which never changes: the list of nodes of each page. Threads ask it at once, by `&Plan`,
/// an `Arc<Plan>`, or each by its own (`try_clone`).
///
/// ```
/// use numaplan::{Core, Refused};
/// use std::thread;
///
/// let mut core = Core::open("0-1", &[8, 8], &[10, 20, 20, 10], 1)?;
/// core.map(0x10000, 0x4000, 0x10)?;
/// let plan = core.compile()?;
/// let firsts = thread::scope(|scope| {
///     let ask = |node| plan.choice(1, 0x10, node).map(|nodes| nodes[0]);
///     let threads = [0, 1].map(|node| scope.spawn(move || ask(node)));
///     threads.map(|thread| thread.join().unwrap())
/// });
/// assert_eq!(firsts, [Ok(0), Ok(1)]);
/// # Ok::<(), Refused>(())
/// ```
#[derive(Debug)]
#[must_use]
pub struct Plan(pub(crate) Handle);

// SAFETY: as for a core.
unsafe impl Send for Plan {}
// SAFETY: the library's calls only look at a plan, whose handle they take `const`; any number of
// threads may do so at once (numaplan.h).
unsafe impl Sync for Plan {}

impl Plan {
    /// The same plan once more: it is freed with the last one of it.
    ///
    /// # Errors
    /// `NO_MEMORY`.
    pub fn try_clone(&self) -> Result<Plan, Refused> {
        let mut other = Plan(Handle::closed());
        done(unsafe { raw::np_plan_share(&self.0, &mut other.0) })?;
        Ok(other)
    }

    /// How many commands it was made of.
    #[must_use]
    pub fn version(&self) -> u64 {
        let mut version = 0;
        unsafe { raw::np_plan_version(&self.0, &mut version) };
        version
    }

    /// The nodes on which memory for a page is looked for, the first first.
    ///
    /// # Errors
    /// `BAD_CPU`, `UNMAPPED`.
    pub fn choice(&self, task: u32, page: u64, cpu: u32) -> Result<Vec<u8>, Refused> {
        let (mut nodes, mut count) = ([0; 256], 0);
        done(unsafe {
            raw::np_plan_choice(&self.0, task, page, cpu, nodes.as_mut_ptr(), 256, &mut count)
        })?;
        Ok(nodes[..count].to_vec())
    }

    /// Writes the first node of each page's list, for as many pages as there are places.
    ///
    /// # Errors
    /// `BAD_CPU`, `UNMAPPED`; then nothing was written.
    pub fn fill(&self, task: u32, cpu: u32, first: u64, out: &mut [u8]) -> Result<(), Refused> {
        done(unsafe {
            raw::np_plan_fill(&self.0, task, cpu, first, out.as_mut_ptr(), out.len())
        })
    }

    /// The same, with the mark `unmapped` for each page that isn't mapped.
    ///
    /// # Errors
    /// `BAD_CPU`; then nothing was written.
    pub fn fill_marked(
        &self,
        task: u32,
        cpu: u32,
        first: u64,
        out: &mut [u8],
        unmapped: u8,
    ) -> Result<(), Refused> {
        let (nodes, pages) = (out.as_mut_ptr(), out.len());
        done(unsafe {
            raw::np_plan_fill_marked(&self.0, task, cpu, first, nodes, pages, unmapped)
        })
    }

    /// Writes the first node of the list of each of these pages, in whatever order they are, and the
    /// mark `unmapped` for those that aren't mapped.
    ///
    /// # Errors
    /// `NO_ROOM` where there aren't as many places as pages, `BAD_CPU`.
    pub fn nodes(
        &self,
        task: u32,
        cpu: u32,
        pages: &[u64],
        out: &mut [u8],
        unmapped: u8,
    ) -> Result<(), Refused> {
        let (first, count) = (pages.as_ptr(), pages.len());
        let (nodes, places) = (out.as_mut_ptr(), out.len());
        done(unsafe {
            raw::np_plan_nodes(&self.0, task, cpu, first, count, nodes, places, unmapped)
        })
    }

    /// The runs of mapped pages, in order of address, with the nodes that their lists begin with; pages
    /// between them aren't mapped.
    ///
    /// # Errors
    /// `BAD_CPU`.
    pub fn runs(&self, task: u32, cpu: u32) -> Result<Vec<PlanRun>, Refused> {
        self.counts(task, cpu, 0, 0)?; // (judges the CPU, also where there are no runs)
        let (mut told, mut count) = (vec![ToldRun::default(); 64], 0);
        loop {
            let (at, room) = (told.as_mut_ptr(), told.len());
            match done(unsafe { raw::np_plan_runs(&self.0, task, at, room, &mut count) }) {
                Err(Refused::NO_ROOM) => told.resize(count, ToldRun::default()),
                answer => break answer?,
            }
        }
        let whole = |run: &ToldRun| -> Result<PlanRun, Refused> {
            let mut nodes = vec![0; usize::try_from(run.cycle).unwrap_or(usize::MAX)];
            self.fill(task, cpu, run.first, &mut nodes)?;
            let (first, pages) = (run.first, run.pages);
            Ok(PlanRun { first, pages, nodes })
        };
        told[..count].iter().map(whole).collect()
    }

    /// How many pages of a span have each node first.
    ///
    /// # Errors
    /// `BAD_CPU`, `UNMAPPED`.
    pub fn counts(
        &self,
        task: u32,
        cpu: u32,
        first: u64,
        pages: u64,
    ) -> Result<[u64; 256], Refused> {
        let mut counts = Counts { pages: [0; 256] };
        done(unsafe {
            raw::np_plan_counts(&self.0, task, cpu, first, pages, &mut counts)
        })?;
        Ok(counts.pages)
    }
}

impl Drop for Plan {
    fn drop(&mut self) {
        unsafe { raw::np_plan_close(&mut self.0) }
    }
}
