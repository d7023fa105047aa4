//! Where pages of a host's processes lie, and where they go. Each call of the library is as `calls` says.

use crate::calls::done;
use crate::pages::ENDLESS;
use crate::raw::{self, Counts, ToldArrived, ToldBound, ToldFlow};
use crate::values::set_of;
use crate::{Arrived, Bound, Flow, Host, Moved, PageRun, Refused};

impl Host {
    /// Says how many more pages a node takes from now on, whichever process they are of; as
    /// [`Pages::set_room`](crate::Pages::set_room). `None`, as at first: it never fills.
    ///
    /// # Errors
    /// `NO_SUCH_NODE`, also for a node without memory.
    pub fn set_room(&mut self, node: u32, pages: Option<u64>) -> Result<(), Refused> {
        done(unsafe { raw::np_host_set_room(&mut self.0, node, pages.unwrap_or(ENDLESS)) })
    }

    /// How many more pages a node takes; `None` where it never fills.
    ///
    /// # Errors
    /// `NO_SUCH_NODE`, also for a node without memory.
    pub fn room(&mut self, node: u32) -> Result<Option<u64>, Refused> {
        let mut room = 0;
        done(unsafe { raw::np_host_room(&mut self.0, node, &mut room) })?;
        Ok((room != ENDLESS).then_some(room))
    }

    /// Says whether pages follow the nodes that their process is allowed: at first they do; where not, as in
    /// cgroup v1 without memory_migrate, they stay where they lie.
    pub fn set_follows(&mut self, follows: bool) {
        unsafe { raw::np_host_set_follows(&mut self.0, follows) };
    }

    /// States that the mapped pages of a span of a process lie on a node; a later statement counts.
    ///
    /// # Errors
    /// As [`Pages::place`](crate::Pages::place), and first `NO_SUCH_PROCESS`.
    pub fn place(
        &mut self,
        process: u32,
        start: u64,
        length: u64,
        node: u32,
    ) -> Result<(), Refused> {
        done(unsafe { raw::np_host_place(&mut self.0, process, start, length, node) })
    }

    /// Touches each page of a span of a process for the first time, as a task on a CPU of node `cpu` does
    /// that writes to it; as [`Pages::populate`](crate::Pages::populate).
    ///
    /// # Errors
    /// As [`Pages::populate`](crate::Pages::populate), and first `NO_SUCH_PROCESS`.
    pub fn populate(
        &mut self,
        process: u32,
        start: u64,
        length: u64,
        task: u32,
        cpu: u32,
    ) -> Result<Arrived, Refused> {
        let mut told = ToldArrived { placed: 0, exhausted: 0, nodes: [0; 256] };
        done(unsafe {
            raw::np_host_populate(&mut self.0, process, start, length, task, cpu, &mut told)
        })?;
        Ok(Arrived { placed: told.placed, exhausted: told.exhausted, nodes: told.nodes })
    }

    /// Moves pages of a process from the nodes of one list to the allowed nodes of another
    /// (migrate_pages(2)).
    ///
    /// # Errors
    /// As [`Pages::migrate`](crate::Pages::migrate), and `NO_SUCH_PROCESS` behind a faulty list.
    pub fn migrate(&mut self, process: u32, from: &str, to: &str) -> Result<Moved, Refused> {
        let mut told = ToldBound::default();
        done(unsafe {
            raw::np_host_migrate(
                &mut self.0,
                process,
                from.as_ptr(),
                from.len(),
                to.as_ptr(),
                to.len(),
                &mut told,
            )
        })?;
        self.moves(process)
    }

    /// Moves the page of an address of a process to a node (move_pages(2)); a page that lies there stays.
    ///
    /// # Errors
    /// As [`Pages::move_page`](crate::Pages::move_page), and first `NO_SUCH_PROCESS`.
    pub fn move_page(&mut self, process: u32, address: u64, node: u32) -> Result<(), Refused> {
        done(unsafe { raw::np_host_move(&mut self.0, process, address, node) })
    }

    /// Gives the pages of a process's span a policy as [`Host::mbind`], refused as [`Refused::ASTRAY`] where
    /// one of them lies on a node that isn't in the policy's list as it is written (MPOL_MF_STRICT).
    ///
    /// # Errors
    /// `ASTRAY`, else as [`Host::mbind`].
    pub fn mbind_strictly(
        &mut self,
        process: u32,
        start: u64,
        length: u64,
        policy: &str,
    ) -> Result<(), Refused> {
        let text = policy.as_bytes();
        done(unsafe {
            raw::np_host_mbind_strictly(
                &mut self.0,
                process,
                start,
                length,
                text.as_ptr(),
                text.len(),
            )
        })
    }

    /// `mbind_strictly` by mbind(2)'s own words, as [`Core::mbind_by`](crate::Core::mbind_by) takes them.
    ///
    /// # Errors
    /// `ASTRAY`, else as [`Host::mbind_by`].
    pub fn mbind_strictly_by(
        &mut self,
        process: u32,
        start: u64,
        length: u64,
        mode: u32,
        nodes: &[u8],
    ) -> Result<(), Refused> {
        let nodes = set_of(nodes);
        done(unsafe {
            raw::np_host_mbind_strictly_by(&mut self.0, process, start, length, mode, &nodes)
        })
    }

    /// Gives the pages of a process's span a policy as [`Host::mbind`], and moves those that lie on nodes
    /// that aren't in the policy's list as it is written (MPOL_MF_MOVE); as
    /// [`Pages::mbind_moving`](crate::Pages::mbind_moving).
    ///
    /// # Errors
    /// As [`Host::mbind`], and `TOO_MANY_RUNS`.
    #[allow(clippy::too_many_arguments)]
    pub fn mbind_moving(
        &mut self,
        process: u32,
        start: u64,
        length: u64,
        policy: &str,
        strict: bool,
        task: u32,
        cpu: u32,
    ) -> Result<Bound, Refused> {
        let (text, mut told) = (policy.as_bytes(), ToldBound::default());
        done(unsafe {
            raw::np_host_mbind_moving(
                &mut self.0,
                process,
                start,
                length,
                text.as_ptr(),
                text.len(),
                strict,
                task,
                cpu,
                &mut told,
            )
        })?;
        Ok(Bound { moved: told.moved, left: told.left, errno: told.error })
    }

    /// `mbind_moving` by mbind(2)'s own words, as [`Core::mbind_by`](crate::Core::mbind_by) takes them.
    ///
    /// # Errors
    /// As [`Host::mbind_by`], and `TOO_MANY_RUNS`.
    #[allow(clippy::too_many_arguments)]
    pub fn mbind_moving_by(
        &mut self,
        process: u32,
        start: u64,
        length: u64,
        mode: u32,
        nodes: &[u8],
        strict: bool,
        task: u32,
        cpu: u32,
    ) -> Result<Bound, Refused> {
        let (mut told, nodes) = (ToldBound::default(), set_of(nodes));
        done(unsafe {
            raw::np_host_mbind_moving_by(
                &mut self.0,
                process,
                start,
                length,
                mode,
                &nodes,
                strict,
                task,
                cpu,
                &mut told,
            )
        })?;
        Ok(Bound { moved: told.moved, left: told.left, errno: told.error })
    }

    /// The node on which the page of an address of a process lies, if it lies on one.
    ///
    /// # Errors
    /// `NO_SUCH_PROCESS`; that the page lies nowhere is no error.
    pub fn node_of(&mut self, process: u32, address: u64) -> Result<Option<u8>, Refused> {
        let mut node = 0;
        match done(unsafe { raw::np_host_node(&mut self.0, process, address, &mut node) }) {
            Err(Refused::NOT_PLACED) => Ok(None),
            answer => answer.map(|()| u8::try_from(node).ok()),
        }
    }

    /// Writes the node on which each of these pages (by their numbers, address / 4096) of a process lies, and
    /// the mark `nowhere` for those that lie nowhere.
    ///
    /// # Errors
    /// `NO_SUCH_PROCESS`, `NO_ROOM` where there aren't as many places as pages.
    pub fn nodes(
        &mut self,
        process: u32,
        pages: &[u64],
        out: &mut [u8],
        nowhere: u8,
    ) -> Result<(), Refused> {
        let (numbers, count) = (pages.as_ptr(), pages.len());
        let (nodes, places) = (out.as_mut_ptr(), out.len());
        done(unsafe {
            raw::np_host_nodes(&mut self.0, process, numbers, count, nodes, places, nowhere)
        })
    }

    /// How many pages of 4 KiB of a process lie on each node, of which one of 2 MiB is 512.
    ///
    /// # Errors
    /// `NO_SUCH_PROCESS`.
    pub fn counts(&mut self, process: u32) -> Result<[u64; 256], Refused> {
        let mut counts = Counts { pages: [0; 256] };
        done(unsafe { raw::np_host_counts(&mut self.0, process, &mut counts) })?;
        Ok(counts.pages)
    }

    /// The runs of pages of 4 KiB of a process that lie on one node, in order of address and as long as they
    /// can be; one of 2 MiB is 512 of them.
    ///
    /// # Errors
    /// `NO_SUCH_PROCESS`, `NO_MEMORY`.
    pub fn runs(&mut self, process: u32) -> Result<Vec<PageRun>, Refused> {
        let (mut runs, mut count) = (vec![PageRun::default(); 64], 0);
        loop {
            let (at, room) = (runs.as_mut_ptr(), runs.len());
            match done(unsafe { raw::np_host_runs(&mut self.0, process, at, room, &mut count) }) {
                Err(Refused::NO_ROOM) => runs.resize(count, PageRun::default()),
                answer => {
                    runs.truncate(count);
                    return answer.map(|()| runs);
                }
            }
        }
    }

    /// What the last move of a process did: [`Host::migrate`], [`Host::move_page`], [`Host::mbind_moving`], or
    /// a change of its allowed nodes by [`Host::set_group_mems`], [`Host::unset_group_mems`] or
    /// [`Host::attach`].
    ///
    /// # Errors
    /// `NO_SUCH_PROCESS`, `NO_MEMORY`.
    pub fn moves(&mut self, process: u32) -> Result<Moved, Refused> {
        told_moves(|flows, room, count, told| unsafe {
            raw::np_host_moves(&mut self.0, process, flows, room, count, told)
        })
    }

    /// What the last of these did in the host, all processes together that went along and are still there.
    ///
    /// # Errors
    /// `NO_MEMORY`.
    pub fn moves_of_all(&mut self) -> Result<Moved, Refused> {
        told_moves(|flows, room, count, told| unsafe {
            raw::np_host_moves_of_all(&mut self.0, flows, room, count, told)
        })
    }
}

/// What a call tells of a move, asked again with room for all flows where there wasn't enough.
fn told_moves(
    mut ask: impl FnMut(*mut ToldFlow, usize, &mut usize, &mut ToldBound) -> u32,
) -> Result<Moved, Refused> {
    let (mut flows, mut count) = (vec![ToldFlow::default(); 64], 0);
    let mut told = ToldBound::default();
    loop {
        let (at, room) = (flows.as_mut_ptr(), flows.len());
        match done(ask(at, room, &mut count, &mut told)) {
            Err(Refused::NO_ROOM) => flows.resize(count, ToldFlow::default()),
            answer => {
                answer?;
                let flows = flows[..count].iter();
                let flows = flows.map(|it| Flow { from: it.from, to: it.to, pages: it.pages });
                return Ok(Moved {
                    moved: told.moved,
                    left: told.left,
                    flows: flows.collect(),
                });
            }
        }
    }
}
