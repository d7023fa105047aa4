//! Hosts: processes in control groups. Each call of the library is as `calls` says.

use crate::calls::{done, text_of};
use crate::cores::untold;
use crate::raw::{self, Handle, Limits, Nodes, Process, Span, ToldGroup};
use crate::values::{members, set_of};
use crate::{Options, Plan, Policy, Range, Refused};

/// A control group below the root: its number, its parent's (the root is 0), and the nodes of a list of
/// its own, if it has one.
#[derive(Clone, Debug, PartialEq, Eq)]
pub struct Group {
    pub group: u32,
    pub parent: u32,
    pub mems: Option<Vec<u8>>,
}

/// The processes of a host, the first born first, each as it is asked for.
#[derive(Debug)]
#[must_use]
pub struct Processes<'a> {
    host: &'a mut Host,
    place: usize,
}

impl Iterator for Processes<'_> {
    type Item = Process;

    fn next(&mut self) -> Option<Process> {
        // (a host is open, so it is refused where there is no process at the place alone)
        let mut found = Process::default();
        done(unsafe { raw::np_host_process(&mut self.host.0, self.place, &mut found) }).ok()?;
        self.place += 1;
        Some(found)
    }
}

/// A host: processes in a tree of control groups, on one machine. A process answers as a core does that is
/// given the commands which the process has accepted: its own, its parent's up to the fork, each weight,
/// and a change of the allowed nodes whenever those of its group have changed. Its pages lie where it is
/// stated, or a task of it touches them first, and follow the allowed nodes; all processes take the same rooms
/// of nodes.
///
/// ```
/// use numaplan::{Host, Options, Refused};
///
/// let mut host = Host::open("0-3", &[8; 4], &[10, 20, 20, 20, 20, 10, 20, 20, 20, 20, 10, 20, 20,
///     20, 20, 10], Options::default())?;
/// host.new_group(5, 0)?;
/// host.set_group_mems(5, "1-2")?;
/// host.new_process(1, 5)?;
/// host.map(1, 0x10000, 0x1000, 0x10)?;
/// host.set_task(1, 7, "bind:2")?;
/// host.fork(1, 2, 7, 9)?;
/// host.set_group_mems(5, "2-3")?;
/// assert_eq!(host.choice(1, 7, 0x10, 0)?, [3]); // the second of 1 to 2, now of 2 to 3
/// assert_eq!(host.populate(1, 0x10000, 0x1000, 7, 0)?.placed, 1);
/// host.set_group_mems(5, "0-1")?;
/// assert_eq!((host.node_of(1, 0x10000)?, host.moves(1)?.moved), (Some(1), 1)); // and now of 0 to 1
/// assert_eq!(host.new_process(1, 0), Err(Refused::PROCESS_EXISTS));
/// # Ok::<(), Refused>(())
/// ```
#[derive(Debug)]
#[must_use]
pub struct Host(pub(crate) Handle);

// SAFETY: as for a core.
unsafe impl Send for Host {}

impl Host {
    /// A host of a machine, described as for a core by options, without a group below the root and without
    /// a process.
    ///
    /// # Errors
    /// `LIST_EMPTY` to `LIST_TOO_HIGH` for a faulty list; `BAD_NODE_COUNT` to `TOO_MANY_FRAMES`;
    /// `NO_MEMORY`.
    pub fn open(
        memory: &str,
        frames: &[u32],
        distances: &[u8],
        options: Options<'_>,
    ) -> Result<Host, Refused> {
        let options = options.raw()?;
        let limits = Limits {
            max_ranges: 65_536,
            max_tasks: 1_024,
            max_commands: u32::MAX,
        };
        let mut host = Host(Handle::closed());
        done(unsafe {
            raw::np_host_open(
                &mut host.0,
                memory.as_ptr(),
                memory.len(),
                frames.as_ptr(),
                frames.len(),
                distances.as_ptr(),
                distances.len(),
                &limits,
                &options,
            )
        })?;
        Ok(host)
    }

    /// A host that stands as this one does, to be asked "what if": what is done to one of the two doesn't
    /// change the other.
    ///
    /// # Errors
    /// `NO_MEMORY`.
    pub fn copy(&mut self) -> Result<Host, Refused> {
        let mut other = Host(Handle::closed());
        done(unsafe { raw::np_host_copy(&mut self.0, &mut other.0) })?;
        Ok(other)
    }

    /// How many commands are accepted.
    #[must_use]
    pub fn version(&mut self) -> u64 {
        let mut version = 0;
        unsafe { raw::np_host_version(&mut self.0, &mut version) };
        version
    }

    /// Makes a group below another, without a list of its own; the root is 0.
    ///
    /// # Errors
    /// `COMMANDS_SPENT`, `GROUP_EXISTS`, `NO_SUCH_GROUP`, `TOO_MANY_GROUPS`, `NO_MEMORY`.
    pub fn new_group(&mut self, group: u32, parent: u32) -> Result<(), Refused> {
        done(unsafe { raw::np_host_new_group(&mut self.0, group, parent) })
    }

    /// Gives a group a list of its own, as "0-1" (cpuset.mems). The policies of each process whose
    /// allowed nodes change follow, in all of them or in none, and its pages as far as there is room
    /// ([`Host::moves`]).
    ///
    /// # Errors
    /// `LIST_EMPTY` to `LIST_TOO_HIGH` for a faulty list; `COMMANDS_SPENT`, `NO_SUCH_GROUP`,
    /// `ROOT_GROUP`, `NO_SUCH_NODE`.
    pub fn set_group_mems(&mut self, group: u32, nodes: &str) -> Result<(), Refused> {
        done(unsafe {
            raw::np_host_set_group_mems(&mut self.0, group, nodes.as_ptr(), nodes.len())
        })
    }

    /// Takes a group's own list away.
    ///
    /// # Errors
    /// `COMMANDS_SPENT`, `NO_SUCH_GROUP`, `ROOT_GROUP`, `POPULATED`.
    pub fn unset_group_mems(&mut self, group: u32) -> Result<(), Refused> {
        done(unsafe { raw::np_host_unset_group_mems(&mut self.0, group) })
    }

    /// The effective nodes of a group (cpuset.mems.effective), which its processes are allowed.
    ///
    /// # Errors
    /// `NO_SUCH_GROUP`.
    pub fn group_nodes(&mut self, group: u32) -> Result<Vec<u8>, Refused> {
        let mut nodes = Nodes { words: [0; 4] };
        done(unsafe { raw::np_host_group_nodes(&mut self.0, group, &mut nodes) })?;
        Ok(members(&nodes))
    }

    /// The groups below the root, the newest first.
    ///
    /// # Errors
    /// None: a host is open as long as it is there.
    pub fn groups(&mut self) -> Result<Vec<Group>, Refused> {
        let mut count = 0;
        done(unsafe { raw::np_host_groups(&mut self.0, &mut count) })?;
        (0..count).map(|place| self.group(place)).collect()
    }

    fn group(&mut self, place: usize) -> Result<Group, Refused> {
        let mems = Nodes { words: [0; 4] };
        let mut told = ToldGroup { group: 0, parent: 0, has_mems: 0, mems };
        done(unsafe { raw::np_host_group(&mut self.0, place, &mut told) })?;
        Ok(Group {
            group: told.group,
            parent: told.parent,
            mems: (told.has_mems != 0).then(|| members(&told.mems)),
        })
    }

    /// Makes a process in a group: nothing is mapped, no task has a policy.
    ///
    /// # Errors
    /// `COMMANDS_SPENT`, `PROCESS_EXISTS`, `NO_SUCH_GROUP`, `TOO_MANY_PROCESSES`, `NO_MEMORY`.
    pub fn new_process(&mut self, process: u32, group: u32) -> Result<(), Refused> {
        done(unsafe { raw::np_host_new_process(&mut self.0, process, group) })
    }

    /// Makes a copy of a process, in its group, whose task `task` has the policy that `from` has in the
    /// parent (fork(2)). It keeps the policies of all tasks.
    ///
    /// # Errors
    /// `COMMANDS_SPENT`, `PROCESS_EXISTS`, `NO_SUCH_PROCESS`, `TOO_MANY_PROCESSES`,
    /// `TOO_MANY_TASKS`, `NO_MEMORY`.
    pub fn fork(&mut self, parent: u32, child: u32, from: u32, task: u32) -> Result<(), Refused> {
        done(unsafe { raw::np_host_fork(&mut self.0, parent, child, from, task) })
    }

    /// Moves a process to another group (cgroup.procs); its policies and its pages follow.
    ///
    /// # Errors
    /// `COMMANDS_SPENT`, `NO_SUCH_PROCESS`, `NO_SUCH_GROUP`.
    pub fn attach(&mut self, process: u32, group: u32) -> Result<(), Refused> {
        done(unsafe { raw::np_host_attach(&mut self.0, process, group) })
    }

    /// Ends a process; its number is free, and its pages give their room back.
    ///
    /// # Errors
    /// `COMMANDS_SPENT`, `NO_SUCH_PROCESS`.
    pub fn exit(&mut self, process: u32) -> Result<(), Refused> {
        done(unsafe { raw::np_host_exit(&mut self.0, process) })
    }

    /// The processes, the first born first.
    pub fn processes(&mut self) -> Processes<'_> {
        Processes { host: self, place: 0 }
    }

    /// How many processes there are.
    #[must_use]
    pub fn process_count(&mut self) -> usize {
        let mut count = 0;
        unsafe { raw::np_host_processes(&mut self.0, &mut count) };
        count
    }

    /// Gives a node its weight for weighted interleaving, for every process.
    ///
    /// # Errors
    /// `COMMANDS_SPENT`, `NO_SUCH_NODE`, `BAD_WEIGHT`.
    pub fn set_weight(&mut self, node: u32, weight: u32) -> Result<(), Refused> {
        done(unsafe { raw::np_host_set_weight(&mut self.0, node, weight) })
    }

    /// Maps a span of unmapped pages of a process; the first has the index `offset`.
    ///
    /// # Errors
    /// As [`Core::map`](crate::Core::map), and `NO_SUCH_PROCESS`.
    pub fn map(
        &mut self,
        process: u32,
        start: u64,
        length: u64,
        offset: u64,
    ) -> Result<(), Refused> {
        done(unsafe { raw::np_host_map(&mut self.0, process, start, length, offset) })
    }

    /// Maps a span of unmapped pages of a process as pages of 2 MiB that come from no pool; as
    /// [`Core::map_huge`](crate::Core::map_huge).
    ///
    /// # Errors
    /// As [`Host::map`].
    pub fn map_huge(
        &mut self,
        process: u32,
        start: u64,
        length: u64,
        offset: u64,
    ) -> Result<(), Refused> {
        done(unsafe { raw::np_host_map_huge(&mut self.0, process, start, length, offset) })
    }

    /// Unmaps the pages of a process's span; then they lie nowhere, and give back the room that they took.
    ///
    /// # Errors
    /// `TOO_MANY_RUNS` first, else as [`Core::unmap`](crate::Core::unmap), and `NO_SUCH_PROCESS`.
    pub fn unmap(&mut self, process: u32, start: u64, length: u64) -> Result<(), Refused> {
        done(unsafe { raw::np_host_unmap(&mut self.0, process, start, length) })
    }

    /// Gives the pages of a process's span a policy of their own, as "bind:0-1".
    ///
    /// # Errors
    /// As [`Core::mbind`](crate::Core::mbind), and `NO_SUCH_PROCESS`.
    pub fn mbind(
        &mut self,
        process: u32,
        start: u64,
        length: u64,
        policy: &str,
    ) -> Result<(), Refused> {
        let text = policy.as_bytes();
        done(unsafe {
            raw::np_host_mbind(&mut self.0, process, start, length, text.as_ptr(), text.len())
        })
    }

    /// `mbind` by mbind(2)'s own words, as [`Core::mbind_by`](crate::Core::mbind_by) takes them.
    ///
    /// # Errors
    /// As [`Core::mbind_by`](crate::Core::mbind_by), and `NO_SUCH_PROCESS`.
    pub fn mbind_by(
        &mut self,
        process: u32,
        start: u64,
        length: u64,
        mode: u32,
        nodes: &[u8],
    ) -> Result<(), Refused> {
        let nodes = set_of(nodes);
        done(unsafe { raw::np_host_mbind_by(&mut self.0, process, start, length, mode, &nodes) })
    }

    /// Gives a task of a process its policy.
    ///
    /// # Errors
    /// As [`Core::set_task`](crate::Core::set_task), and `NO_SUCH_PROCESS`.
    pub fn set_task(&mut self, process: u32, task: u32, policy: &str) -> Result<(), Refused> {
        let text = policy.as_bytes();
        done(unsafe {
            raw::np_host_set_task(&mut self.0, process, task, text.as_ptr(), text.len())
        })
    }

    /// The same by set_mempolicy(2)'s own words, as [`Core::mbind_by`](crate::Core::mbind_by) takes them.
    ///
    /// # Errors
    /// As [`Core::set_task_by`](crate::Core::set_task_by), and `NO_SUCH_PROCESS`.
    pub fn set_task_by(
        &mut self,
        process: u32,
        task: u32,
        mode: u32,
        nodes: &[u8],
    ) -> Result<(), Refused> {
        let nodes = set_of(nodes);
        done(unsafe { raw::np_host_set_task_by(&mut self.0, process, task, mode, &nodes) })
    }

    /// Gives a task of a process the policy that another has, or none, as a new thread has its maker's.
    ///
    /// # Errors
    /// As [`Core::inherit`](crate::Core::inherit), and `NO_SUCH_PROCESS`.
    pub fn inherit(&mut self, process: u32, task: u32, from: u32) -> Result<(), Refused> {
        done(unsafe { raw::np_host_inherit(&mut self.0, process, task, from) })
    }

    /// Gives the policies of the pages of a process's span a home node.
    ///
    /// # Errors
    /// As [`Core::set_home`](crate::Core::set_home), and `NO_SUCH_PROCESS`.
    pub fn set_home(
        &mut self,
        process: u32,
        start: u64,
        length: u64,
        node: u32,
    ) -> Result<(), Refused> {
        done(unsafe { raw::np_host_set_home(&mut self.0, process, start, length, node) })
    }

    /// The same by set_mempolicy_home_node(2)'s own words.
    ///
    /// # Errors
    /// As [`Core::home_by`](crate::Core::home_by), and `NO_SUCH_PROCESS`.
    pub fn home_by(
        &mut self,
        process: u32,
        start: u64,
        length: u64,
        node: u64,
        flags: u64,
    ) -> Result<(), Refused> {
        done(unsafe { raw::np_host_home_by(&mut self.0, process, start, length, node, flags) })
    }

    /// The nodes on which memory for a page of a process is looked for, the first first.
    ///
    /// # Errors
    /// `NO_SUCH_PROCESS`, `BAD_CPU`, `UNMAPPED`.
    pub fn choice(
        &mut self,
        process: u32,
        task: u32,
        page: u64,
        cpu: u32,
    ) -> Result<Vec<u8>, Refused> {
        let (mut nodes, mut count) = ([0; 256], 0);
        let room = nodes.len();
        done(unsafe {
            raw::np_host_choice(
                &mut self.0,
                process,
                task,
                page,
                cpu,
                nodes.as_mut_ptr(),
                room,
                &mut count,
            )
        })?;
        Ok(nodes[..count].to_vec())
    }

    /// The plan of all that a process has accepted, which answers as a core's does.
    ///
    /// # Errors
    /// `NO_SUCH_PROCESS`, `NO_MEMORY`.
    pub fn compile(&mut self, process: u32) -> Result<Plan, Refused> {
        let mut plan = Plan(Handle::closed());
        done(unsafe { raw::np_host_compile(&mut self.0, process, &mut plan.0) })?;
        Ok(plan)
    }

    /// The ranges of pages of a process, in order of address.
    ///
    /// # Errors
    /// `NO_SUCH_PROCESS`.
    pub fn ranges(&mut self, process: u32) -> Result<Vec<Range>, Refused> {
        let mut count = 0;
        done(unsafe { raw::np_host_ranges(&mut self.0, process, &mut count) })?;
        (0..count).map(|place| self.range(process, place)).collect()
    }

    /// The range of a process at a place, from 0, in order of address.
    fn range(&mut self, process: u32, place: usize) -> Result<Range, Refused> {
        let (mut policy, mut length) = ([0; 1024], 0);
        let mut found = Span::default();
        done(unsafe {
            raw::np_host_range(
                &mut self.0,
                process,
                place,
                &mut found,
                policy.as_mut_ptr(),
                policy.len(),
                &mut length,
            )
        })?;
        Ok(Range {
            start: found.start,
            length: found.length,
            offset: found.offset,
            policy: (length > 0).then(|| text_of(&policy[..length])),
        })
    }

    /// The policy of a task of a process, if it has one.
    ///
    /// # Errors
    /// `NO_SUCH_PROCESS`.
    pub fn task_policy(&mut self, process: u32, task: u32) -> Result<Option<Policy>, Refused> {
        let mut policy = untold();
        done(unsafe { raw::np_host_task_policy(&mut self.0, process, task, &mut policy) })?;
        Ok(policy.told())
    }
}

impl Drop for Host {
    fn drop(&mut self) {
        unsafe { raw::np_host_close(&mut self.0) }
    }
}
