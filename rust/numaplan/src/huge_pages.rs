//! Pages of 2 MiB of a core whose pages are there and of a host, and the pools that they come from.

use crate::calls::done;
use crate::raw::{self, ToldPools};
use crate::{Host, Pages, Refused};

/// The pools of pages of 2 MiB (hugetlb), by node: how many pages there are, how many of these are free, and
/// how many surplus (as many end when they become free); and how many free ones are reserved, on all nodes
/// together.
#[derive(Clone, Debug, PartialEq, Eq)]
pub struct HugePools {
    pub total: [u64; 256],
    pub free: [u64; 256],
    pub surplus: [u64; 256],
    pub reserved: u64,
}

/// The pools that a call tells.
fn told_by(ask: impl FnOnce(&mut ToldPools) -> u32) -> HugePools {
    let mut told = ToldPools { total: [0; 256], free: [0; 256], surplus: [0; 256], reserved: 0 };
    ask(&mut told);
    let ToldPools { total, free, surplus, reserved } = told;
    HugePools { total, free, surplus, reserved }
}

/// Pages of 2 MiB are those of [`Pages::map_huge`]: they come from the pools, come and move whole, and take no
/// room of a node.
///
/// ```
/// use numaplan::{Core, Pages, Refused};
///
/// let mut core = Core::open("0-1", &[0; 2], &[10, 20, 20, 10], 1)?;
/// let mut pages = Pages::open(&mut core)?;
/// pages.resize_pool(0, 2)?;
/// // a guest of 4 MiB reserves both pages
/// pages.map_huge(0x4000_0000, 0x40_0000, 0, 7, true)?;
/// assert_eq!((pages.pools().free[0], pages.pools().reserved), (2, 2));
/// let more = pages.map_huge(0x5000_0000, 0x20_0000, 0, 7, true);
/// assert_eq!(more, Err(Refused::NO_HUGE_PAGES));
/// // the first lies on node 0, though a CPU of node 1 touches it
/// assert_eq!(pages.fault(7, 0x4000_0000, 1)?, 0);
/// assert_eq!(pages.counts()[0], 512);
/// # Ok::<(), Refused>(())
/// ```
impl Pages {
    /// What the pools of pages of 2 MiB have.
    #[must_use]
    pub fn pools(&mut self) -> HugePools {
        told_by(|told| unsafe { raw::np_pages_pools(&mut self.0, told) })
    }

    /// Makes the pools of all nodes with memory have `count` pages together that aren't surplus, as a write to
    /// nr_hugepages: surplus pages stay from then on, then fresh ones come in turn, on allowed nodes alone; or
    /// free ones go in turn, and what is used or reserved becomes surplus.
    pub fn resize_pools(&mut self, count: u64) {
        unsafe { raw::np_pages_pool(&mut self.0, count) };
    }

    /// The same of one node, as a write to its own nr_hugepages.
    ///
    /// # Errors
    /// `NO_SUCH_POOL`; `UNSURE` where Linux takes all the node's memory.
    pub fn resize_pool(&mut self, node: u32, count: u64) -> Result<(), Refused> {
        done(unsafe { raw::np_pages_pool_node(&mut self.0, node, count) })
    }

    /// The same of the nodes of a task's policy, as a write to nr_hugepages_mempolicy by the task on a CPU of
    /// node `cpu`, whose own it is if the policy is "local".
    ///
    /// # Errors
    /// `NO_SUCH_CPU`.
    pub fn resize_pools_for(&mut self, count: u64, task: u32, cpu: u32) -> Result<(), Refused> {
        done(unsafe { raw::np_pages_pool_for(&mut self.0, count, task, cpu) })
    }

    /// Maps a span as pages of 2 MiB, as many as its length takes (MAP_HUGETLB), for a task; the offset is in
    /// pages of 4 KiB. With `reserve` they are reserved; without (MAP_NORESERVE) a page may lack later.
    ///
    /// # Errors
    /// `NO_HUGE_PAGES` where too few are free: on the allowed nodes, and if the task's policy is bind, on its
    /// nodes; then free surplus pages end, as many as it had reserved. Else as
    /// [`Core::map_huge`](crate::Core::map_huge), and `TOO_MANY_RUNS`.
    pub fn map_huge(
        &mut self,
        start: u64,
        length: u64,
        offset: u64,
        task: u32,
        reserve: bool,
    ) -> Result<(), Refused> {
        done(unsafe {
            raw::np_pages_map_huge(&mut self.0, start, length, offset, task, reserve)
        })
    }

    /// Touches the page of an address, of either size, for the first time, as a task on a CPU of node `cpu`
    /// does that writes to it: the node where it lies then, also if it was there before.
    ///
    /// # Errors
    /// `NO_SUCH_CPU`, `PAGE_UNMAPPED`; `NODES_FULL`, or of a page of 2 MiB `NO_PAGE_FREE` (the task gets
    /// SIGBUS), where no node gives it; `TOO_MANY_RUNS`, `NO_MEMORY`.
    pub fn fault(&mut self, task: u32, address: u64, cpu: u32) -> Result<u32, Refused> {
        let mut node = 0;
        done(unsafe { raw::np_pages_fault(&mut self.0, task, address, cpu, &mut node) })?;
        Ok(node)
    }
}

/// Pages of 2 MiB of a host's processes are those of [`Host::map_huge_for`]: they come from the pools, which all
/// processes share.
///
/// ```
/// use numaplan::{Host, Options, Refused};
///
/// let mut host = Host::open("0-1", &[0; 2], &[10, 20, 20, 10], Options::default())?;
/// host.new_process(1, 0)?;
/// host.new_process(2, 0)?;
/// host.resize_pool(1, 2)?;
/// // the first guest reserves both pages, so the second one doesn't start
/// host.map_huge_for(1, 0x4000_0000, 0x40_0000, 0, 7, true)?;
/// assert_eq!(host.pools().reserved, 2);
/// let more = host.map_huge_for(2, 0x4000_0000, 0x20_0000, 0, 7, true);
/// assert_eq!(more, Err(Refused::NO_HUGE_PAGES));
/// assert_eq!(host.fault(1, 7, 0x4000_0000, 0)?, 1);
/// assert_eq!(host.counts(1)?[1], 512);
/// host.exit(1)?;
/// host.map_huge_for(2, 0x4000_0000, 0x20_0000, 0, 7, true)?;
/// # Ok::<(), Refused>(())
/// ```
impl Host {
    /// What the pools of pages of 2 MiB have.
    #[must_use]
    pub fn pools(&mut self) -> HugePools {
        told_by(|told| unsafe { raw::np_host_pools(&mut self.0, told) })
    }

    /// Makes the pools of all nodes with memory have `count` pages together, as
    /// [`Pages::resize_pools`]; whoever writes is allowed all nodes with memory.
    pub fn resize_pools(&mut self, count: u64) {
        unsafe { raw::np_host_pool(&mut self.0, count) };
    }

    /// The same of one node, as [`Pages::resize_pool`].
    ///
    /// # Errors
    /// `NO_SUCH_POOL`, `UNSURE`.
    pub fn resize_pool(&mut self, node: u32, count: u64) -> Result<(), Refused> {
        done(unsafe { raw::np_host_pool_node(&mut self.0, node, count) })
    }

    /// [`Host::resize_pools`] where a process writes: fresh pages come on the nodes alone that it is allowed.
    ///
    /// # Errors
    /// `NO_SUCH_PROCESS`.
    pub fn resize_pools_in(&mut self, process: u32, count: u64) -> Result<(), Refused> {
        done(unsafe { raw::np_host_pool_in(&mut self.0, process, count) })
    }

    /// The same of one node.
    ///
    /// # Errors
    /// `NO_SUCH_PROCESS`, `NO_SUCH_POOL`, `UNSURE`.
    pub fn resize_pool_in(&mut self, process: u32, node: u32, count: u64) -> Result<(), Refused> {
        done(unsafe { raw::np_host_pool_node_in(&mut self.0, process, node, count) })
    }

    /// The same of the nodes of the policy of a task of a process, as [`Pages::resize_pools_for`].
    ///
    /// # Errors
    /// `NO_SUCH_PROCESS`, `NO_SUCH_CPU`.
    pub fn resize_pools_for(
        &mut self,
        process: u32,
        count: u64,
        task: u32,
        cpu: u32,
    ) -> Result<(), Refused> {
        done(unsafe { raw::np_host_pool_for(&mut self.0, process, count, task, cpu) })
    }

    /// Maps a span of a process as pages of 2 MiB that come from the pools, for a task, which reserves them or
    /// doesn't, as [`Pages::map_huge`]. ([`Host::map_huge`] takes them from no pool.)
    ///
    /// # Errors
    /// As [`Pages::map_huge`], and `NO_SUCH_PROCESS`.
    pub fn map_huge_for(
        &mut self,
        process: u32,
        start: u64,
        length: u64,
        offset: u64,
        task: u32,
        reserve: bool,
    ) -> Result<(), Refused> {
        done(unsafe {
            raw::np_host_map_huge_for(&mut self.0, process, start, length, offset, task, reserve)
        })
    }

    /// Touches the page of an address of a process, of either size, for the first time, as
    /// [`Pages::fault`]: the node where it lies then.
    ///
    /// # Errors
    /// As [`Pages::fault`], and first `NO_SUCH_PROCESS`.
    pub fn fault(
        &mut self,
        process: u32,
        task: u32,
        address: u64,
        cpu: u32,
    ) -> Result<u32, Refused> {
        let mut node = 0;
        done(unsafe { raw::np_host_fault(&mut self.0, process, task, address, cpu, &mut node) })?;
        Ok(node)
    }
}
