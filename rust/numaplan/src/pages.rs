//! Cores whose pages are there. Each call of the library is as `calls` says.

use crate::calls::done;
use crate::raw::{self, Counts, Handle, ToldArrived, ToldBound, ToldMoves};
use crate::values::set_of;
use crate::{Core, PageRun, Refused};

/// The room of a node that never fills (NP_ENDLESS).
pub(crate) const ENDLESS: u64 = u64::MAX;

/// Pages that went from one node to another.
#[derive(Clone, Copy, Debug, PartialEq, Eq, Hash)]
pub struct Flow {
    pub from: u8,
    pub to: u8,
    pub pages: u64,
}

/// What a move did: how many pages went to another node, how many had a node to go to and stayed, since a
/// node was full, and how many went from which node to which, the lowest first. Each page counts once,
/// whatever its size.
#[derive(Clone, Debug, PartialEq, Eq)]
pub struct Moved {
    pub moved: u64,
    pub left: u64,
    pub flows: Vec<Flow>,
}

impl Moved {
    fn told(told: &ToldMoves) -> Moved {
        let flows = (0..=u8::MAX).zip(told.from.iter().zip(&told.to));
        let flows = flows.filter(|(_, (&pages, _))| pages > 0);
        let flows = flows.map(|(from, (&pages, &to))| Flow { from, to, pages });
        Moved { moved: told.moved, left: told.left, flows: flows.collect() }
    }
}

/// What a task's first touches of the pages of a span did: how many went to a node, how many found no node
/// with room, and how many went to each node. Each page counts once, whatever its size.
#[derive(Clone, Debug, PartialEq, Eq)]
pub struct Arrived {
    pub placed: u64,
    pub exhausted: u64,
    pub nodes: [u64; 256],
}

/// What a policy did to the pages of its span: how many went to another node, how many had to go and found no
/// node with room, and the error number that mbind(2) answers all the same, 5 (EIO) or 0.
#[derive(Clone, Copy, Debug, PartialEq, Eq)]
pub struct Bound {
    pub moved: u64,
    pub left: u64,
    pub errno: u32,
}

/// A core together with where its pages lie: as it is stated, or a task touches them first, and then where
/// Linux moves them. It has a copy of the core, and each command of that is given here; a page that is
/// unmapped lies nowhere any more. Frames that workers take are apart.
///
/// ```
/// use numaplan::{Core, Pages, Refused};
///
/// let mut core = Core::open("0-2", &[8; 3], &[10, 20, 20, 20, 10, 20, 20, 20, 10], 1)?;
/// core.map(0x10000, 0x4000, 0x10)?;
/// let mut pages = Pages::open(&mut core)?;
/// pages.place(0x10000, 0x3000, 1)?;
/// pages.place(0x13000, 0x1000, 2)?;
/// // node 1 is taken away: its pages go to the second of the nodes that are left
/// let moved = pages.move_mems("0,2")?;
/// assert_eq!((moved.moved, pages.counts()[2]), (3, 4));
/// assert_eq!(pages.move_page(0x10000, 1), Err(Refused::TARGET_NOT_ALLOWED));
/// // an unmapped page lies nowhere any more, until a task touches it
/// pages.unmap(0x10000, 0x1000)?;
/// pages.map(0x10000, 0x1000, 0x10)?;
/// assert_eq!(pages.node_of(0x10000)?, None);
/// pages.set_task(7, "bind:0")?;
/// assert_eq!(pages.populate(0x10000, 0x4000, 7, 1)?.placed, 1);
/// assert_eq!(pages.node_of(0x10000)?, Some(0));
/// # Ok::<(), Refused>(())
/// ```
#[derive(Debug)]
#[must_use]
pub struct Pages(pub(crate) Handle);

// SAFETY: as for a core.
unsafe impl Send for Pages {}

impl Pages {
    /// A copy of a core: its pages lie nowhere yet, and no node ever fills.
    ///
    /// # Errors
    /// `NO_MEMORY`.
    pub fn open(core: &mut Core) -> Result<Pages, Refused> {
        let mut pages = Pages(Handle::closed());
        done(unsafe { raw::np_pages_open(&mut pages.0, &mut core.0) })?;
        Ok(pages)
    }

    /// The same once more, to be asked "what if": what is done to one of the two doesn't change the other.
    ///
    /// # Errors
    /// `NO_MEMORY`.
    pub fn copy(&mut self) -> Result<Pages, Refused> {
        let mut other = Pages(Handle::closed());
        done(unsafe { raw::np_pages_copy(&mut self.0, &mut other.0) })?;
        Ok(other)
    }

    /// A copy of the core, for plans, ranges, reports and all else that a core is asked.
    ///
    /// # Errors
    /// `NO_MEMORY`.
    pub fn core(&mut self) -> Result<Core, Refused> {
        let mut core = Core(Handle::closed());
        done(unsafe { raw::np_pages_core(&mut self.0, &mut core.0) })?;
        Ok(core)
    }

    /// How many commands are accepted.
    #[must_use]
    pub fn version(&mut self) -> u64 {
        let mut version = 0;
        unsafe { raw::np_pages_version(&mut self.0, &mut version) };
        version
    }

    /// Maps a span of unmapped pages; the first has the index `offset`.
    ///
    /// # Errors
    /// As [`Core::map`].
    pub fn map(&mut self, start: u64, length: u64, offset: u64) -> Result<(), Refused> {
        done(unsafe { raw::np_pages_map(&mut self.0, start, length, offset) })
    }

    /// Unmaps the pages of a span; then they lie nowhere, and give back the room that they took.
    ///
    /// # Errors
    /// `TOO_MANY_RUNS` first, else as [`Core::unmap`].
    pub fn unmap(&mut self, start: u64, length: u64) -> Result<(), Refused> {
        done(unsafe { raw::np_pages_unmap(&mut self.0, start, length) })
    }

    /// Gives the pages of a span a policy of their own, as "bind:0-1", wherever they lie.
    ///
    /// # Errors
    /// As [`Core::mbind`].
    pub fn mbind(&mut self, start: u64, length: u64, policy: &str) -> Result<(), Refused> {
        let text = policy.as_bytes();
        done(unsafe {
            raw::np_pages_mbind(&mut self.0, start, length, text.as_ptr(), text.len())
        })
    }

    /// The same, refused as [`Refused::ASTRAY`] where one of the pages lies on a node that isn't in the
    /// policy's list as it is written (MPOL_MF_STRICT).
    ///
    /// # Errors
    /// `ASTRAY`, else as [`Core::mbind`].
    pub fn mbind_strictly(&mut self, start: u64, length: u64, policy: &str) -> Result<(), Refused> {
        let text = policy.as_bytes();
        done(unsafe {
            raw::np_pages_mbind_strictly(&mut self.0, start, length, text.as_ptr(), text.len())
        })
    }

    /// `mbind` by mbind(2)'s own words, as [`Core::mbind_by`] takes them.
    ///
    /// # Errors
    /// As [`Core::mbind_by`].
    pub fn mbind_by(
        &mut self,
        start: u64,
        length: u64,
        mode: u32,
        nodes: &[u8],
    ) -> Result<(), Refused> {
        let nodes = set_of(nodes);
        done(unsafe { raw::np_pages_mbind_by(&mut self.0, start, length, mode, &nodes) })
    }

    /// `mbind_strictly` by mbind(2)'s own words, as [`Core::mbind_by`] takes them.
    ///
    /// # Errors
    /// `ASTRAY`, else as [`Core::mbind_by`].
    pub fn mbind_strictly_by(
        &mut self,
        start: u64,
        length: u64,
        mode: u32,
        nodes: &[u8],
    ) -> Result<(), Refused> {
        let nodes = set_of(nodes);
        done(unsafe { raw::np_pages_mbind_strictly_by(&mut self.0, start, length, mode, &nodes) })
    }

    /// Gives a task its policy.
    ///
    /// # Errors
    /// As [`Core::set_task`].
    pub fn set_task(&mut self, task: u32, policy: &str) -> Result<(), Refused> {
        let text = policy.as_bytes();
        done(unsafe { raw::np_pages_set_task(&mut self.0, task, text.as_ptr(), text.len()) })
    }

    /// The same by set_mempolicy(2)'s own words, as [`Core::mbind_by`] takes them.
    ///
    /// # Errors
    /// As [`Core::set_task_by`].
    pub fn set_task_by(&mut self, task: u32, mode: u32, nodes: &[u8]) -> Result<(), Refused> {
        let nodes = set_of(nodes);
        done(unsafe { raw::np_pages_set_task_by(&mut self.0, task, mode, &nodes) })
    }

    /// Gives a task the policy that another has, or none, as a new thread has its maker's.
    ///
    /// # Errors
    /// As [`Core::inherit`].
    pub fn inherit(&mut self, task: u32, from: u32) -> Result<(), Refused> {
        done(unsafe { raw::np_pages_inherit(&mut self.0, task, from) })
    }

    /// Gives the policies of the pages of a span a home node.
    ///
    /// # Errors
    /// As [`Core::set_home`].
    pub fn set_home(&mut self, start: u64, length: u64, node: u32) -> Result<(), Refused> {
        done(unsafe { raw::np_pages_set_home(&mut self.0, start, length, node) })
    }

    /// The same by set_mempolicy_home_node(2)'s own words.
    ///
    /// # Errors
    /// As [`Core::home_by`].
    pub fn home_by(
        &mut self,
        start: u64,
        length: u64,
        node: u64,
        flags: u64,
    ) -> Result<(), Refused> {
        done(unsafe { raw::np_pages_home_by(&mut self.0, start, length, node, flags) })
    }

    /// Gives a node its weight for weighted interleaving.
    ///
    /// # Errors
    /// As [`Core::set_weight`].
    pub fn set_weight(&mut self, node: u32, weight: u32) -> Result<(), Refused> {
        done(unsafe { raw::np_pages_set_weight(&mut self.0, node, weight) })
    }

    /// Changes the nodes on which memory may be placed, as "0-1". The pages stay where they lie.
    ///
    /// # Errors
    /// As [`Core::set_mems`].
    pub fn set_mems(&mut self, nodes: &str) -> Result<(), Refused> {
        done(unsafe { raw::np_pages_set_mems(&mut self.0, nodes.as_ptr(), nodes.len()) })
    }

    /// States that the mapped pages of a span lie on a node; a later statement counts. Refused as
    /// [`Refused::NODE_FULL`] where more come to the node than it takes.
    ///
    /// # Errors
    /// `NOT_SUPPORTED` where one has 2 MiB; `UNALIGNED`, `OUT_OF_SPACE`, `NO_SUCH_NODE`, `NODE_FULL`,
    /// `TOO_MANY_RUNS`, `NO_MEMORY`.
    pub fn place(&mut self, start: u64, length: u64, node: u32) -> Result<(), Refused> {
        done(unsafe { raw::np_pages_place(&mut self.0, start, length, node) })
    }

    /// Touches each page of a span for the first time, as a task on a CPU of node `cpu` does that writes to
    /// it (madvise(2), MADV_POPULATE_WRITE): the lowest first, each that lies nowhere goes to the first node
    /// of its list that has room by then. Pages that lie somewhere are passed over; one that finds no room
    /// stays nowhere, and the next go on. Refused as [`Refused::SPAN_UNMAPPED`] where one isn't mapped.
    ///
    /// # Errors
    /// `UNALIGNED`, `OUT_OF_SPACE`, `NO_SUCH_CPU`, `SPAN_UNMAPPED`, `TOO_MANY_RUNS`, `NO_MEMORY`.
    pub fn populate(
        &mut self,
        start: u64,
        length: u64,
        task: u32,
        cpu: u32,
    ) -> Result<Arrived, Refused> {
        let mut told = ToldArrived { placed: 0, exhausted: 0, nodes: [0; 256] };
        done(unsafe {
            raw::np_pages_populate(&mut self.0, start, length, task, cpu, &mut told)
        })?;
        Ok(Arrived { placed: told.placed, exhausted: told.exhausted, nodes: told.nodes })
    }

    /// Says how many more pages of 4 KiB a node takes from now on: each page that comes to it (by `place`,
    /// `populate` or a move) takes one, and each that leaves it (by a later `place`, a move or `unmap`) gives
    /// one back. `None`, as at first: it never fills.
    ///
    /// # Errors
    /// `NO_SUCH_NODE`, also for a node without memory.
    pub fn set_room(&mut self, node: u32, pages: Option<u64>) -> Result<(), Refused> {
        done(unsafe { raw::np_pages_set_room(&mut self.0, node, pages.unwrap_or(ENDLESS)) })
    }

    /// How many more pages a node takes; `None` where it never fills.
    ///
    /// # Errors
    /// `NO_SUCH_NODE`, also for a node without memory.
    pub fn room(&mut self, node: u32) -> Result<Option<u64>, Refused> {
        let mut room = 0;
        done(unsafe { raw::np_pages_room(&mut self.0, node, &mut room) })?;
        Ok((room != ENDLESS).then_some(room))
    }

    /// The node on which the page of an address lies, if it lies on one.
    ///
    /// # Errors
    /// None: that the page lies nowhere is no error.
    pub fn node_of(&mut self, address: u64) -> Result<Option<u8>, Refused> {
        let mut node = 0;
        match done(unsafe { raw::np_pages_node(&mut self.0, address, &mut node) }) {
            Err(Refused::NOT_PLACED) => Ok(None),
            answer => answer.map(|()| u8::try_from(node).ok()),
        }
    }

    /// Writes the node on which each of these pages (by their numbers, address / 4096) lies, and the
    /// mark `nowhere` for those that lie nowhere.
    ///
    /// # Errors
    /// `NO_ROOM` where there aren't as many places as pages.
    pub fn nodes(&mut self, pages: &[u64], out: &mut [u8], nowhere: u8) -> Result<(), Refused> {
        let (numbers, count) = (pages.as_ptr(), pages.len());
        let (nodes, places) = (out.as_mut_ptr(), out.len());
        done(unsafe {
            raw::np_pages_nodes(&mut self.0, numbers, count, nodes, places, nowhere)
        })
    }

    /// How many pages of 4 KiB lie on each node, of which one of 2 MiB is 512.
    #[must_use]
    pub fn counts(&mut self) -> [u64; 256] {
        let mut counts = Counts { pages: [0; 256] };
        unsafe { raw::np_pages_counts(&mut self.0, &mut counts) };
        counts.pages
    }

    /// The runs of pages of 4 KiB that lie on one node, in order of address and as long as they can be; one of
    /// 2 MiB is 512 of them.
    ///
    /// # Errors
    /// `NO_MEMORY`.
    pub fn runs(&mut self) -> Result<Vec<PageRun>, Refused> {
        let (mut runs, mut count) = (vec![PageRun::default(); 64], 0);
        loop {
            let (at, room) = (runs.as_mut_ptr(), runs.len());
            match done(unsafe { raw::np_pages_runs(&mut self.0, at, room, &mut count) }) {
                Err(Refused::NO_ROOM) => runs.resize(count, PageRun::default()),
                answer => {
                    runs.truncate(count);
                    return answer.map(|()| runs);
                }
            }
        }
    }

    /// Changes the nodes on which memory may be placed, as "0-1", and moves the pages along, as far as there
    /// is room: as in a cpuset of cgroup v2, or of v1 with memory_migrate.
    ///
    /// # Errors
    /// As [`Core::set_mems`]; `TOO_MANY_RUNS`, `NO_MEMORY`.
    pub fn move_mems(&mut self, nodes: &str) -> Result<Moved, Refused> {
        let mut told = ToldMoves::none();
        done(unsafe {
            raw::np_pages_move_mems(&mut self.0, nodes.as_ptr(), nodes.len(), &mut told)
        })?;
        Ok(Moved::told(&told))
    }

    /// Moves pages from the nodes of one list to the allowed nodes of another, as far as there is room
    /// (migrate_pages(2)).
    ///
    /// # Errors
    /// `LIST_EMPTY` to `LIST_TOO_HIGH` for a faulty list; `NODES_NOT_ALLOWED`, `TOO_MANY_RUNS`,
    /// `NO_MEMORY`.
    pub fn migrate(&mut self, old: &str, new: &str) -> Result<Moved, Refused> {
        let mut told = ToldMoves::none();
        done(unsafe {
            raw::np_pages_migrate(
                &mut self.0,
                old.as_ptr(),
                old.len(),
                new.as_ptr(),
                new.len(),
                &mut told,
            )
        })?;
        Ok(Moved::told(&told))
    }

    /// Gives pages a policy as `mbind`, and moves those that lie on nodes that aren't in the policy's list as
    /// it is written (MPOL_MF_MOVE): the lowest first, each to the first node with room of its list, as a
    /// fault of the task on the node `cpu` would put it; all of them stay where the machine has no such node.
    /// If `strict`, that pages stayed is answered by EIO (MPOL_MF_STRICT too; "default" drops it).
    ///
    /// # Errors
    /// As [`Core::mbind`]; `TOO_MANY_RUNS`.
    pub fn mbind_moving(
        &mut self,
        start: u64,
        length: u64,
        policy: &str,
        strict: bool,
        task: u32,
        cpu: u32,
    ) -> Result<Bound, Refused> {
        let mut told = ToldBound::default();
        let text = policy.as_bytes();
        done(unsafe {
            raw::np_pages_mbind_moving(
                &mut self.0,
                start,
                length,
                text.as_ptr(),
                text.len(),
                strict,
                task,
                cpu,
                &mut told,
            )
        })?;
        Ok(Bound { moved: told.moved, left: told.left, errno: told.error })
    }

    /// `mbind_moving` by mbind(2)'s own words, as [`Core::mbind_by`] takes them.
    ///
    /// # Errors
    /// As [`Core::mbind_by`]; `TOO_MANY_RUNS`.
    #[allow(clippy::too_many_arguments)]
    pub fn mbind_moving_by(
        &mut self,
        start: u64,
        length: u64,
        mode: u32,
        nodes: &[u8],
        strict: bool,
        task: u32,
        cpu: u32,
    ) -> Result<Bound, Refused> {
        let (mut told, nodes) = (ToldBound::default(), set_of(nodes));
        done(unsafe {
            raw::np_pages_mbind_moving_by(
                &mut self.0,
                start,
                length,
                mode,
                &nodes,
                strict,
                task,
                cpu,
                &mut told,
            )
        })?;
        Ok(Bound { moved: told.moved, left: told.left, errno: told.error })
    }

    /// Moves the page of an address to a node (move_pages(2)); a page that lies there stays.
    ///
    /// # Errors
    /// `NO_SUCH_TARGET`, `TARGET_NOT_ALLOWED`, `PAGE_UNMAPPED`, `NOT_PLACED`, `NODE_FULL`,
    /// `TOO_MANY_RUNS`, `NO_MEMORY`.
    pub fn move_page(&mut self, address: u64, node: u32) -> Result<(), Refused> {
        done(unsafe { raw::np_pages_move(&mut self.0, address, node) })
    }
}

impl Drop for Pages {
    fn drop(&mut self) {
        unsafe { raw::np_pages_close(&mut self.0) }
    }
}
