//! Seats at pools of frames. Each call of the library is as `calls` says.

use crate::calls::done;
use crate::raw::{self, Handle};
use crate::{Frame, Refused};
use std::sync::Arc;

/// A seat at pools of frames, for one thread: it takes frames, and gives back those that it holds.
/// Frames of a seat that is dropped stay taken.
#[derive(Debug)]
#[must_use]
pub struct Seat {
    handle: Handle,
    // (one for all seats at the same pools)
    pools: Arc<()>,
}

// SAFETY: as for a core.
unsafe impl Send for Seat {}

impl Seat {
    /// The first seat at new pools of a machine's frames, described as for a core.
    ///
    /// # Errors
    /// `LIST_EMPTY` to `LIST_TOO_HIGH` for a faulty list; `BAD_NODE_COUNT` to `TOO_MANY_FRAMES`;
    /// `NO_MEMORY`.
    pub fn open(memory: &str, frames: &[u32], distances: &[u8]) -> Result<Seat, Refused> {
        let mut seat = Seat {
            handle: Handle::closed(),
            pools: Arc::new(()),
        };
        done(unsafe {
            raw::np_seat_open(
                &mut seat.handle,
                memory.as_ptr(),
                memory.len(),
                frames.as_ptr(),
                frames.len(),
                distances.as_ptr(),
                distances.len(),
            )
        })?;
        Ok(seat)
    }

    /// A seat at the same pools, for another thread; it holds nothing.
    ///
    /// # Errors
    /// `NO_MEMORY`.
    pub fn split(&mut self) -> Result<Seat, Refused> {
        let mut other = Seat {
            handle: Handle::closed(),
            pools: Arc::clone(&self.pools),
        };
        done(unsafe { raw::np_seat_split(&mut self.handle, &mut other.handle) })?;
        Ok(other)
    }

    /// Takes a free frame of the first of the listed nodes that has one, and returns the node's place
    /// in the list.
    ///
    /// # Errors
    /// `ALL_TAKEN` where each frame of each of them was found taken.
    pub fn take(&mut self, nodes: &[u8]) -> Result<(Frame, usize), Refused> {
        let (mut frame, mut rank) = (Frame::default(), 0);
        done(unsafe {
            raw::np_seat_take(
                &mut self.handle,
                nodes.as_ptr(),
                nodes.len(),
                &mut frame,
                &mut rank,
            )
        })?;
        Ok((frame, rank))
    }

    /// Gives back a frame that the seat holds.
    ///
    /// # Errors
    /// `NOT_OWNED` where the seat doesn't hold it.
    pub fn give(&mut self, frame: Frame) -> Result<(), Refused> {
        done(unsafe { raw::np_seat_give(&mut self.handle, frame.node, frame.number) })
    }

    /// Exchanges a frame that the seat holds for one of a node, as for a page that moves there: takes
    /// the new one, and then gives back the old one.
    ///
    /// # Errors
    /// `NOT_OWNED` where the seat doesn't hold the frame; `ALL_TAKEN` where each frame of the node
    /// was found taken. It then holds what it held.
    pub fn migrate(&mut self, frame: Frame, to: u8) -> Result<Frame, Refused> {
        let mut found = Frame::default();
        done(unsafe {
            raw::np_seat_migrate(&mut self.handle, frame.node, frame.number, to, &mut found)
        })?;
        Ok(found)
    }

    /// Gets the frames that another seat at the same pools holds.
    ///
    /// # Errors
    /// The other seat, where it is at other pools.
    pub fn join(&mut self, mut other: Seat) -> Result<(), Seat> {
        // (the one thing that np_seat_join leaves to its caller)
        if !Arc::ptr_eq(&self.pools, &other.pools) {
            return Err(other);
        }
        match done(unsafe { raw::np_seat_join(&mut self.handle, &mut other.handle) }) {
            Ok(()) => Ok(()),
            Err(_) => Err(other),
        }
    }
}

impl Drop for Seat {
    fn drop(&mut self) {
        unsafe { raw::np_seat_close(&mut self.handle) }
    }
}
