//! Cores. Each call of the library is as `calls` says.

use crate::calls::{done, is_still, text_of, written};
use crate::raw::{self, Handle, Limits, Nodes, Span, StandingPolicy};
use crate::values::{members, set_of};
use crate::{Options, Placement, Plan, Refused};

/// A range of pages: its address and length in bytes, the index of its first page, and the policy of
/// its own as a word, if it has one.
#[derive(Clone, Debug, PartialEq, Eq)]
pub struct Range {
    pub start: u64,
    pub length: u64,
    pub offset: u64,
    pub policy: Option<String>,
}

/// A policy as it stands: its mode with its flag, as get_mempolicy(2) gives it, its home node if it was
/// given one, the nodes that were asked for, and those that it has at present.
#[derive(Clone, Debug, PartialEq, Eq)]
pub struct Policy {
    pub mode: u32,
    pub home: Option<u8>,
    pub asked: Vec<u8>,
    pub nodes: Vec<u8>,
}

/// A policy before it is told: none.
pub(crate) fn untold() -> StandingPolicy {
    StandingPolicy {
        mode: 0,
        home: 256,
        asked: Nodes { words: [0; 4] },
        nodes: Nodes { words: [0; 4] },
    }
}

impl StandingPolicy {
    /// The policy, where it is one.
    pub(crate) fn told(&self) -> Option<Policy> {
        (self.mode != 0).then(|| Policy {
            mode: self.mode,
            home: u8::try_from(self.home).ok(),
            asked: members(&self.asked),
            nodes: members(&self.nodes),
        })
    }
}

/// The ranges of a core in order of address, each as it is asked for.
#[derive(Debug)]
#[must_use]
pub struct Ranges<'a> {
    core: &'a mut Core,
    place: usize,
}

impl Iterator for Ranges<'_> {
    type Item = Range;

    fn next(&mut self) -> Option<Range> {
        // (a core is open, so it is refused where there is no range at the place alone)
        let range = self.core.range(self.place).ok()?;
        self.place += 1;
        Some(range)
    }
}

/// A core: commands, published versions, and workers that look for frames.
#[derive(Debug)]
#[must_use]
pub struct Core(pub(crate) Handle);

// SAFETY: what a handle keeps is proved `Send` (numaplan_handles, `Held`), and `&mut` gives it to one call
// at a time.
unsafe impl Send for Core {}

impl Core {
    /// A core of a machine: the nodes with memory as a list ("0-1"), the frames of each node, the
    /// distances row by row, and so many workers. The rules are those of the documents.
    ///
    /// # Errors
    /// `LIST_EMPTY` to `LIST_TOO_HIGH` for a faulty list; `BAD_NODE_COUNT` to `BAD_WORKERS`;
    /// `NO_MEMORY`.
    pub fn open(
        memory: &str,
        frames: &[u32],
        distances: &[u8],
        workers: u32,
    ) -> Result<Core, Refused> {
        Core::open_by(memory, frames, distances, workers, Options::default())
    }

    /// The same by these options.
    ///
    /// # Errors
    /// As [`Core::open`]; `BAD_NODE_COUNT` also where a node of the options' CPUs is none of the
    /// machine's.
    pub fn open_by(
        memory: &str,
        frames: &[u32],
        distances: &[u8],
        workers: u32,
        options: Options<'_>,
    ) -> Result<Core, Refused> {
        let options = options.raw()?;
        let limits = Limits {
            max_ranges: 65_536,
            max_tasks: 1_024,
            max_commands: u32::MAX,
        };
        let mut core = Core(Handle::closed());
        done(unsafe {
            raw::np_core_open_by(
                &mut core.0,
                memory.as_ptr(),
                memory.len(),
                frames.as_ptr(),
                frames.len(),
                distances.as_ptr(),
                distances.len(),
                &limits,
                workers,
                &options,
            )
        })?;
        Ok(core)
    }

    /// A core that stands as this one does, to be asked "what if": what is done to one of the two
    /// doesn't change the other.
    ///
    /// # Errors
    /// `NO_MEMORY`.
    pub fn copy(&mut self) -> Result<Core, Refused> {
        let mut other = Core(Handle::closed());
        done(unsafe { raw::np_core_copy(&mut self.0, &mut other.0) })?;
        Ok(other)
    }

    /// Maps a span of unmapped pages; the first has the index `offset`.
    ///
    /// # Errors
    /// `COMMANDS_SPENT`, `UNALIGNED`, `OUT_OF_SPACE`, `EMPTY_LENGTH`, `BAD_OFFSET`, `OVERLAP`,
    /// `TOO_MANY_RANGES`, `NO_MEMORY`.
    pub fn map(&mut self, start: u64, length: u64, offset: u64) -> Result<(), Refused> {
        done(unsafe { raw::np_core_map(&mut self.0, start, length, offset) })
    }

    /// Maps a span of unmapped pages as pages of 2 MiB, as many as the length takes, from a start and
    /// an offset, in pages of 4 KiB, that are such a page's. All else but [`Core::maps`] counts each
    /// as 512 pages of 4 KiB; there are no pools, and where pages are placed each 4 KiB goes by
    /// itself, as in no kernel.
    ///
    /// # Errors
    /// As [`Core::map`].
    pub fn map_huge(&mut self, start: u64, length: u64, offset: u64) -> Result<(), Refused> {
        done(unsafe { raw::np_core_map_huge(&mut self.0, start, length, offset) })
    }

    /// Unmaps the pages of a span.
    ///
    /// # Errors
    /// `COMMANDS_SPENT`, `UNALIGNED`, `OUT_OF_SPACE`, `TOO_MANY_RANGES`, `NO_MEMORY`; by the
    /// kernel's rules `BAD_SPAN` and `EMPTY_LENGTH`.
    pub fn unmap(&mut self, start: u64, length: u64) -> Result<(), Refused> {
        done(unsafe { raw::np_core_unmap(&mut self.0, start, length) })
    }

    /// Gives the pages of a span a policy of their own, as "bind:0-1".
    ///
    /// # Errors
    /// `LIST_EMPTY` to `LIST_TOO_HIGH` and `UNKNOWN_MODE` to `NODES_MISSING` for a faulty word;
    /// `COMMANDS_SPENT`, `UNALIGNED`, `OUT_OF_SPACE`, `HOLE`, `NODES_NOT_ALLOWED`,
    /// `TOO_MANY_RANGES`, `NO_MEMORY`; by the kernel's rules `BAD_SPAN`, and no bytes are bound before
    /// `NODES_FORBIDDEN` to `NODES_MISSING` are looked for.
    pub fn mbind(&mut self, start: u64, length: u64, policy: &str) -> Result<(), Refused> {
        let text = policy.as_bytes();
        done(unsafe {
            raw::np_core_mbind(&mut self.0, start, length, text.as_ptr(), text.len())
        })
    }

    /// The same by mbind(2)'s own words: a mode with its flag in it, and nodes, as a [`Policy`] has both.
    ///
    /// # Errors
    /// As [`Core::mbind`], but that no list can be faulty.
    pub fn mbind_by(
        &mut self,
        start: u64,
        length: u64,
        mode: u32,
        nodes: &[u8],
    ) -> Result<(), Refused> {
        let nodes = set_of(nodes);
        done(unsafe { raw::np_core_mbind_by(&mut self.0, start, length, mode, &nodes) })
    }

    /// Gives a task its policy.
    ///
    /// # Errors
    /// `LIST_EMPTY` to `LIST_TOO_HIGH` and `UNKNOWN_MODE` to `NODES_MISSING` for a faulty word;
    /// `COMMANDS_SPENT`, `NODES_NOT_ALLOWED`, `TOO_MANY_TASKS`, `NO_MEMORY`.
    pub fn set_task(&mut self, task: u32, policy: &str) -> Result<(), Refused> {
        let text = policy.as_bytes();
        done(unsafe { raw::np_core_set_task(&mut self.0, task, text.as_ptr(), text.len()) })
    }

    /// The same by set_mempolicy(2)'s own words, as [`Core::mbind_by`] takes them.
    ///
    /// # Errors
    /// As [`Core::set_task`], but that no list can be faulty.
    pub fn set_task_by(&mut self, task: u32, mode: u32, nodes: &[u8]) -> Result<(), Refused> {
        let nodes = set_of(nodes);
        done(unsafe { raw::np_core_set_task_by(&mut self.0, task, mode, &nodes) })
    }

    /// Changes the nodes on which memory may be placed, a list as "0-1".
    ///
    /// # Errors
    /// `LIST_EMPTY` to `LIST_TOO_HIGH` for a faulty list; `COMMANDS_SPENT`, `NO_SUCH_NODE`,
    /// `NODES_NOT_ALLOWED`; by the kernel's rules `NO_NODES`.
    pub fn set_mems(&mut self, nodes: &str) -> Result<(), Refused> {
        done(unsafe { raw::np_core_set_mems(&mut self.0, nodes.as_ptr(), nodes.len()) })
    }

    /// Gives a node its weight for weighted interleaving.
    ///
    /// # Errors
    /// `COMMANDS_SPENT`, `NO_SUCH_NODE`, `BAD_WEIGHT`.
    pub fn set_weight(&mut self, node: u32, weight: u32) -> Result<(), Refused> {
        done(unsafe { raw::np_core_set_weight(&mut self.0, node, weight) })
    }

    /// Gives a task the policy that another has, or none, as a new thread has its maker's.
    ///
    /// # Errors
    /// `COMMANDS_SPENT`, `TOO_MANY_TASKS`, `NO_MEMORY`.
    pub fn inherit(&mut self, task: u32, from: u32) -> Result<(), Refused> {
        done(unsafe { raw::np_core_inherit(&mut self.0, task, from) })
    }

    /// Gives the policies of a span's pages a home node.
    ///
    /// # Errors
    /// `COMMANDS_SPENT`, `UNALIGNED`, `OUT_OF_SPACE`, `NO_SUCH_NODE`, `NOT_SUPPORTED`,
    /// `TOO_MANY_RANGES`, `NO_MEMORY`; by the kernel's rules `BAD_SPAN` and `NO_POLICY_THERE`.
    pub fn set_home(&mut self, start: u64, length: u64, node: u32) -> Result<(), Refused> {
        done(unsafe { raw::np_core_set_home(&mut self.0, start, length, node) })
    }

    /// The same by set_mempolicy_home_node(2)'s own words.
    ///
    /// # Errors
    /// `FLAGS_FORBIDDEN` where `flags` isn't 0, else as [`Core::set_home`].
    pub fn home_by(
        &mut self,
        start: u64,
        length: u64,
        node: u64,
        flags: u64,
    ) -> Result<(), Refused> {
        done(unsafe { raw::np_core_home_by(&mut self.0, start, length, node, flags) })
    }

    /// Publishes all accepted commands.
    ///
    /// # Errors
    /// `NO_MEMORY`.
    pub fn publish(&mut self) -> Result<(), Refused> {
        done(unsafe { raw::np_core_publish(&mut self.0) })
    }

    /// How many commands are accepted, and how many of them are published.
    #[must_use]
    pub fn versions(&mut self) -> (u64, u64) {
        let (mut accepted, mut published) = (0, 0);
        unsafe { raw::np_core_versions(&mut self.0, &mut accepted, &mut published) };
        (accepted, published)
    }

    /// The range at a place, from 0, in order of address.
    fn range(&mut self, place: usize) -> Result<Range, Refused> {
        let (mut policy, mut length) = ([0; 1024], 0);
        let mut found = Span::default();
        done(unsafe {
            raw::np_core_range(
                &mut self.0,
                place,
                &mut found,
                policy.as_mut_ptr(),
                policy.len(),
                &mut length,
            )
        })?;
        Ok(Range {
            start: found.start,
            length: found.length,
            offset: found.offset,
            policy: (length > 0).then(|| text_of(&policy[..length])),
        })
    }

    /// The ranges of pages by all accepted commands, in order of address.
    ///
    /// # Errors
    /// None: a core is open as long as it is there.
    pub fn ranges(&mut self) -> Result<Vec<Range>, Refused> {
        let mut count = 0;
        done(unsafe { raw::np_core_ranges(&mut self.0, &mut count) })?;
        (0..count).map(|place| self.range(place)).collect()
    }

    /// The ranges from an address on, in order: the first is that which has the address, if it is mapped,
    /// and is found by one search.
    pub fn ranges_from(&mut self, address: u64) -> Ranges<'_> {
        let place = self.place_of(address);
        Ranges { core: self, place }
    }

    /// The place of the range that has an address, or else of the next one.
    fn place_of(&mut self, address: u64) -> usize {
        let mut place = 0;
        unsafe { raw::np_core_range_at(&mut self.0, address, &mut place) };
        place
    }

    /// The range that has an address, in one search, if the address is mapped.
    pub fn range_at(&mut self, address: u64) -> Option<Range> {
        self.ranges_from(address).next().filter(|range| range.start <= address)
    }

    /// The policy of its own that the range of an address has, if the address is mapped and it has one.
    pub fn policy_at(&mut self, address: u64) -> Option<Policy> {
        self.range_at(address)?;
        let (place, mut policy) = (self.place_of(address), untold());
        unsafe { raw::np_core_range_policy(&mut self.0, place, &mut policy) };
        policy.told()
    }

    /// The policy of a task, if it has one.
    pub fn task_policy(&mut self, task: u32) -> Option<Policy> {
        let mut policy = untold();
        unsafe { raw::np_core_task_policy(&mut self.0, task, &mut policy) };
        policy.told()
    }

    /// The ranges as /proc/PID/numa_maps shows them, with the policy by which a fault of this task is
    /// served, and with the pages of these placements. A page of 2 MiB counts as one, on the node of
    /// the lowest of its parts that have placements.
    ///
    /// # Errors
    /// `PLACED_TWICE`, `NO_MEMORY`.
    pub fn maps(&mut self, task: u32, placements: &[Placement]) -> Result<String, Refused> {
        written(4_096, |text, length| unsafe {
            raw::np_core_maps(
                &mut self.0,
                task,
                placements.as_ptr(),
                placements.len(),
                text.as_mut_ptr(),
                text.len(),
                length,
            )
        })
    }

    /// A worker places a page that a task touched on the node `cpu`.
    ///
    /// # Errors
    /// `EXHAUSTED` where no node of the page's list has a free frame; `NO_SUCH_WORKER`, `BUSY`,
    /// `BAD_CPU`, `UNMAPPED`.
    pub fn touch(
        &mut self,
        worker: u32,
        task: u32,
        page: u64,
        cpu: u32,
    ) -> Result<Placement, Refused> {
        let mut placed = Placement::default();
        done(unsafe { raw::np_core_touch(&mut self.0, worker, task, page, cpu, &mut placed) })?;
        Ok(placed)
    }

    /// An idle worker begins to look for a frame for a page; `EXHAUSTED` where no node of its list
    /// has a frame.
    ///
    /// # Errors
    /// `EXHAUSTED`, `NO_SUCH_WORKER`, `BUSY`, `BAD_CPU`, `UNMAPPED`.
    pub fn begin(&mut self, worker: u32, task: u32, page: u64, cpu: u32) -> Result<(), Refused> {
        is_still(unsafe { raw::np_core_begin(&mut self.0, worker, task, page, cpu) }).map(|_| ())
    }

    /// A worker looks at the 64 frames of a word of its current node, and meets those that are taken;
    /// `EXHAUSTED` where it has then met each frame of each listed node.
    ///
    /// # Errors
    /// `EXHAUSTED`, `NO_SUCH_WORKER`, `IDLE`, `BAD_TRY`.
    pub fn look(&mut self, worker: u32, word: u32) -> Result<(), Refused> {
        is_still(unsafe { raw::np_core_look(&mut self.0, worker, word) }).map(|_| ())
    }

    /// A worker tries a frame of its current node: None where it is taken, and the worker goes on;
    /// `EXHAUSTED` as for `look`.
    ///
    /// # Errors
    /// `EXHAUSTED`, `NO_SUCH_WORKER`, `IDLE`, `BAD_TRY`.
    pub fn try_frame(
        &mut self,
        worker: u32,
        node: u8,
        frame: u16,
    ) -> Result<Option<Placement>, Refused> {
        let mut placed = Placement::default();
        let code = unsafe { raw::np_core_try(&mut self.0, worker, node, frame, &mut placed) };
        Ok(if is_still(code)? { None } else { Some(placed) })
    }

    /// A worker gives one of its frames back.
    ///
    /// # Errors
    /// `NO_SUCH_WORKER`, `BUSY`, `NOT_OWNED`.
    pub fn give(&mut self, worker: u32, node: u8, frame: u16) -> Result<(), Refused> {
        done(unsafe { raw::np_core_give(&mut self.0, worker, node, frame) })
    }

    /// The plan of all accepted commands.
    ///
    /// # Errors
    /// `NO_MEMORY`.
    pub fn compile(&mut self) -> Result<Plan, Refused> {
        let mut plan = Plan(Handle::closed());
        done(unsafe { raw::np_core_compile(&mut self.0, &mut plan.0) })?;
        Ok(plan)
    }

    /// The plan of the published commands, by which workers place pages.
    ///
    /// # Errors
    /// `NO_MEMORY`.
    pub fn published_plan(&mut self) -> Result<Plan, Refused> {
        let mut plan = Plan(Handle::closed());
        done(unsafe { raw::np_core_plan(&mut self.0, &mut plan.0) })?;
        Ok(plan)
    }
}

impl Drop for Core {
    fn drop(&mut self) {
        unsafe { raw::np_core_close(&mut self.0) }
    }
}
