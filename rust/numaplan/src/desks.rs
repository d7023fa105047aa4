//! Desks, and readers of what they publish. Each call of the library is as `calls` says.

use crate::calls::done;
use crate::raw::{self, Counts, Handle, Limits};
use crate::values::set_of;
use crate::{Options, Refused};

/// A desk: it accepts commands, and publishes them to up to 64 readers in other threads, each by one
/// call. Nobody waits for anybody.
///
/// ```
/// use numaplan::{Desk, Options, Refused};
/// use std::thread;
///
/// let mut desk = Desk::open("0-1", &[8, 8], &[10, 20, 20, 10], 4, Options::default())?;
/// desk.map(0x10000, 0x4000, 0x10)?;
/// desk.mbind(0x10000, 0x4000, "bind:1")?;
/// let version = desk.publish()?;
/// let mut reader = desk.reader()?;
/// let there = thread::spawn(move || {
///     reader.enter(version)?;
///     reader.choice(1, 0x10, 0)
/// });
/// desk.mbind(0x10000, 0x4000, "bind:0")?; // (isn't published)
/// assert_eq!(there.join().unwrap()?, [1]);
/// # Ok::<(), Refused>(())
/// ```
#[derive(Debug)]
#[must_use]
pub struct Desk(Handle);

// SAFETY: as for a core.
unsafe impl Send for Desk {}

impl Desk {
    /// A desk of a machine, described as for a core, for so many readers at a time.
    ///
    /// # Errors
    /// As for a core, with `BAD_READERS` where there are none, or over 64.
    pub fn open(
        memory: &str,
        frames: &[u32],
        distances: &[u8],
        readers: u32,
        options: Options<'_>,
    ) -> Result<Desk, Refused> {
        let options = options.raw()?;
        let limits = Limits {
            max_ranges: 65_536,
            max_tasks: 1_024,
            max_commands: u32::MAX,
        };
        let mut desk = Desk(Handle::closed());
        done(unsafe {
            raw::np_desk_open(
                &mut desk.0,
                memory.as_ptr(),
                memory.len(),
                frames.as_ptr(),
                frames.len(),
                distances.as_ptr(),
                distances.len(),
                &limits,
                readers,
                &options,
            )
        })?;
        Ok(desk)
    }

    /// As `Core::map`.
    ///
    /// # Errors
    /// As there; so for each command.
    pub fn map(&mut self, start: u64, length: u64, offset: u64) -> Result<(), Refused> {
        done(unsafe { raw::np_desk_map(&mut self.0, start, length, offset) })
    }

    /// As `Core::map_huge`.
    ///
    /// # Errors
    /// As there.
    pub fn map_huge(&mut self, start: u64, length: u64, offset: u64) -> Result<(), Refused> {
        done(unsafe { raw::np_desk_map_huge(&mut self.0, start, length, offset) })
    }

    /// As `Core::unmap`.
    ///
    /// # Errors
    /// As there.
    pub fn unmap(&mut self, start: u64, length: u64) -> Result<(), Refused> {
        done(unsafe { raw::np_desk_unmap(&mut self.0, start, length) })
    }

    /// As `Core::mbind`.
    ///
    /// # Errors
    /// As there.
    pub fn mbind(&mut self, start: u64, length: u64, policy: &str) -> Result<(), Refused> {
        let text = policy.as_bytes();
        done(unsafe {
            raw::np_desk_mbind(&mut self.0, start, length, text.as_ptr(), text.len())
        })
    }

    /// As `Core::mbind_by`.
    ///
    /// # Errors
    /// As there.
    pub fn mbind_by(
        &mut self,
        start: u64,
        length: u64,
        mode: u32,
        nodes: &[u8],
    ) -> Result<(), Refused> {
        let nodes = set_of(nodes);
        done(unsafe { raw::np_desk_mbind_by(&mut self.0, start, length, mode, &nodes) })
    }

    /// As `Core::set_task`.
    ///
    /// # Errors
    /// As there.
    pub fn set_task(&mut self, task: u32, policy: &str) -> Result<(), Refused> {
        let text = policy.as_bytes();
        done(unsafe { raw::np_desk_set_task(&mut self.0, task, text.as_ptr(), text.len()) })
    }

    /// As `Core::set_task_by`.
    ///
    /// # Errors
    /// As there.
    pub fn set_task_by(&mut self, task: u32, mode: u32, nodes: &[u8]) -> Result<(), Refused> {
        let nodes = set_of(nodes);
        done(unsafe { raw::np_desk_set_task_by(&mut self.0, task, mode, &nodes) })
    }

    /// As `Core::inherit`.
    ///
    /// # Errors
    /// As there.
    pub fn inherit(&mut self, task: u32, from: u32) -> Result<(), Refused> {
        done(unsafe { raw::np_desk_inherit(&mut self.0, task, from) })
    }

    /// As `Core::set_home`.
    ///
    /// # Errors
    /// As there.
    pub fn set_home(&mut self, start: u64, length: u64, node: u32) -> Result<(), Refused> {
        done(unsafe { raw::np_desk_set_home(&mut self.0, start, length, node) })
    }

    /// As `Core::home_by`.
    ///
    /// # Errors
    /// As there.
    pub fn home_by(
        &mut self,
        start: u64,
        length: u64,
        node: u64,
        flags: u64,
    ) -> Result<(), Refused> {
        done(unsafe { raw::np_desk_home_by(&mut self.0, start, length, node, flags) })
    }

    /// As `Core::set_weight`.
    ///
    /// # Errors
    /// As there.
    pub fn set_weight(&mut self, node: u32, weight: u32) -> Result<(), Refused> {
        done(unsafe { raw::np_desk_set_weight(&mut self.0, node, weight) })
    }

    /// As `Core::set_mems`.
    ///
    /// # Errors
    /// As there.
    pub fn set_mems(&mut self, nodes: &str) -> Result<(), Refused> {
        done(unsafe { raw::np_desk_set_mems(&mut self.0, nodes.as_ptr(), nodes.len()) })
    }

    /// Publishes all accepted commands, and returns how many these are, the version: each `enter` that
    /// begins later sees it or a later one.
    ///
    /// # Errors
    /// `NO_MEMORY`.
    pub fn publish(&mut self) -> Result<u64, Refused> {
        let mut version = 0;
        done(unsafe { raw::np_desk_publish(&mut self.0, &mut version) })?;
        Ok(version)
    }

    /// How many commands are accepted, and how many of them are published.
    #[must_use]
    pub fn versions(&mut self) -> (u64, u64) {
        let (mut accepted, mut published) = (0, 0);
        unsafe { raw::np_desk_versions(&mut self.0, &mut accepted, &mut published) };
        (accepted, published)
    }

    /// A new reader, which looks at what is published.
    ///
    /// # Errors
    /// `NO_PLACE` where the desk has as many readers as it can, `NO_MEMORY`.
    pub fn reader(&mut self) -> Result<Reader, Refused> {
        let mut reader = Reader(Handle::closed());
        done(unsafe { raw::np_desk_reader(&mut self.0, &mut reader.0) })?;
        Ok(reader)
    }
}

impl Drop for Desk {
    fn drop(&mut self) {
        unsafe { raw::np_desk_close(&mut self.0) }
    }
}

/// A reader of a desk, with the plan that it took last. It answers by that also once the desk is gone.
#[derive(Debug)]
#[must_use]
pub struct Reader(Handle);

// SAFETY: as for a core.
unsafe impl Send for Reader {}
// SAFETY: as for a plan: questions only look at it, and `&mut` keeps `enter` apart from them.
unsafe impl Sync for Reader {}

impl Reader {
    /// Takes the newest published plan, and returns its version. It takes no memory, and waits for nobody.
    ///
    /// # Errors
    /// `ENDED` where the desk is gone; `NOT_YET` where the newest that could be taken is older than
    /// `least`: enter again. The reader then has the plan that it had.
    pub fn enter(&mut self, least: u64) -> Result<u64, Refused> {
        let mut version = 0;
        done(unsafe { raw::np_reader_enter(&mut self.0, least, &mut version) })?;
        Ok(version)
    }

    /// How many published commands the plan was made of.
    #[must_use]
    pub fn version(&self) -> u64 {
        let mut version = 0;
        unsafe { raw::np_reader_version(&self.0, &mut version) };
        version
    }

    /// The nodes on which memory for a page is looked for, the first first, at the start of `nodes`; how
    /// many they are. A list has no more nodes than the machine.
    ///
    /// # Errors
    /// `BAD_CPU`, `UNMAPPED`; `NO_ROOM`.
    pub fn choice_into(
        &self,
        task: u32,
        page: u64,
        cpu: u32,
        nodes: &mut [u8],
    ) -> Result<usize, Refused> {
        let mut count = 0;
        let (at, room) = (nodes.as_mut_ptr(), nodes.len());
        done(unsafe { raw::np_reader_choice(&self.0, task, page, cpu, at, room, &mut count) })?;
        Ok(count)
    }

    /// The same as a list of its own.
    ///
    /// # Errors
    /// `BAD_CPU`, `UNMAPPED`.
    pub fn choice(&self, task: u32, page: u64, cpu: u32) -> Result<Vec<u8>, Refused> {
        let mut nodes = [0; 256];
        let count = self.choice_into(task, page, cpu, &mut nodes)?;
        Ok(nodes[..count].to_vec())
    }

    /// Writes the first node of each page's list, for as many pages as there are places.
    ///
    /// # Errors
    /// `BAD_CPU`, `UNMAPPED`; then nothing was written.
    pub fn fill(&self, task: u32, cpu: u32, first: u64, out: &mut [u8]) -> Result<(), Refused> {
        done(unsafe {
            raw::np_reader_fill(&self.0, task, cpu, first, out.as_mut_ptr(), out.len())
        })
    }

    /// How many pages of a span have each node first.
    ///
    /// # Errors
    /// `BAD_CPU`, `UNMAPPED`.
    pub fn counts(
        &self,
        task: u32,
        cpu: u32,
        first: u64,
        pages: u64,
    ) -> Result<[u64; 256], Refused> {
        let mut counts = Counts { pages: [0; 256] };
        done(unsafe { raw::np_reader_counts(&self.0, task, cpu, first, pages, &mut counts) })?;
        Ok(counts.pages)
    }
}

impl Drop for Reader {
    fn drop(&mut self) {
        unsafe { raw::np_reader_close(&mut self.0) }
    }
}
