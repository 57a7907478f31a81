use std::{fmt, ptr::NonNull, slice, sync::Arc};

use crate::{home::Home, sys};

/// Why a device didn't perform a command. Each takes the device out, but for the [`Fault::Read`] of a block's first read.
#[derive(Clone, Copy, Debug, PartialEq, Eq, Hash)]
#[non_exhaustive]
pub enum Fault {
    /// The block couldn't be read. The device goes on: it is asked to read the block once more, or to take it anew, as
    /// [`Array::deliver`](crate::Array::deliver) says.
    Read = 1,
    /// The block couldn't be written.
    Write = 2,
    /// The device is there no more.
    Gone = 3,
    /// The device ends before the row.
    Length = 4,
}

/// What a device has to do with the block of a command.
#[derive(Debug, PartialEq, Eq)]
pub enum Io<'a> {
    /// Fill this with the block that the device has.
    Read(&'a mut [u8]),
    /// Write this.
    Write(&'a [u8]),
}

/// A command for the device of a slot, to be performed there at most once, and then delivered. It may go to another thread
/// with its block.
///
/// One that is dropped, in any thread, is delivered with [`Fault::Gone`], so its shard goes on without the device. An array
/// does that in [`Array::deliver`](crate::Array::deliver), before the command there, and where
/// [`Array::next_reply`](crate::Array::next_reply) answers `None`; a shard in [`Shard::deliver`](crate::Shard::deliver) and
/// [`Shard::look`](crate::Shard::look). No thread is woken for it. From the drop on the block is the array's again, so no
/// device may be at work on it.
///
/// A command may outlive its array. The memory of both is freed with the last of them.
///
/// ```
/// use raid6::{Array, State};
/// # let shape = raid6::Shape { slots: 6, chunk: 4, block: 512, rows: 64, shards: 1, window: 8, lost: 0 };
///
/// let mut array = Array::new(&shape, 1)?;
/// array.submit_read(9, 1)?;
/// drop(array.next_command());
/// assert!(array.next_reply().is_none());
/// let change = array.next_change().expect("the device is gone");
/// assert_eq!((change.slot, change.state), (3, State::Lost));
/// # Ok::<(), Box<dyn std::error::Error>>(())
/// ```
#[must_use = "a command that is dropped takes its device out"]
pub struct Command {
    pub(crate) raw: NonNull<sys::Command>,
    pub(crate) home: Arc<Home>,
    pub(crate) block: usize,
}

// SAFETY: the memory of a command and its block are the command's alone until it is delivered or dropped
unsafe impl Send for Command {}

impl Command {
    fn raw(&self) -> &sys::Command {
        // SAFETY: `raid6_command_new` made it, and it is freed with its home, which the command keeps
        unsafe { self.raw.as_ref() }
    }

    /// The slot whose device has to perform it.
    pub fn slot(&self) -> usize {
        self.raw().slot as usize
    }

    /// Which device of the slot: 0 for the first, else what [`Array::attach`](crate::Array::attach) or
    /// [`Array::replace`](crate::Array::replace) gave.
    pub fn generation(&self) -> u32 {
        self.raw().generation
    }

    /// The shard that asks for it.
    pub fn shard(&self) -> usize {
        self.raw().shard as usize
    }

    /// The block of the device, from 0: its first byte is at `row() * Shape::block`.
    pub fn row(&self) -> u64 {
        self.raw().row
    }

    /// What is to be done with the block.
    pub fn io(&mut self) -> Io<'_> {
        let &sys::Command { block, is_write, .. } = self.raw();
        // SAFETY: the block has the array's length, was filled when it was made, and is the command's until `deliver`
        // takes the command; the slice borrows it
        unsafe {
            if is_write == 0 {
                Io::Read(slice::from_raw_parts_mut(block, self.block))
            } else {
                Io::Write(slice::from_raw_parts(block, self.block))
            }
        }
    }
}

impl Drop for Command {
    fn drop(&mut self) {
        self.home.take_back(self.raw);
    }
}

impl fmt::Debug for Command {
    fn fmt(&self, f: &mut fmt::Formatter<'_>) -> fmt::Result {
        f.debug_struct("Command")
            .field("slot", &self.slot())
            .field("generation", &self.generation())
            .field("shard", &self.shard())
            .field("row", &self.row())
            .field("is_write", &(self.raw().is_write != 0))
            .finish_non_exhaustive()
    }
}
