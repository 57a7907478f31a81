use std::{error::Error, fmt, io};

use crate::sys;

/// Why a call was refused, by the numbers of `raid6.h`. The array has not changed.
#[derive(Clone, Copy, Debug, PartialEq, Eq, Hash)]
#[non_exhaustive]
pub enum Refusal {
    /// The array has no block of this number.
    NoSuchBlock = 1,
    /// The array has no shard of this number; or another shard has the block.
    WrongShard = 2,
    /// 256 requests of the block's shard have no taken reply: take replies.
    Busy = 4,
    /// A third slot went out: for good.
    ArrayFailed = 5,
    /// 2^60 commands or requests were made.
    Exhausted = 6,
    /// The shard asks for a change, which is to be agreed to before it looks.
    UntoldFirst = 8,
    /// 64 rows of the shard are held: turn again after a delivery.
    NoFrame = 9,
    /// The shard has no row to rebuild now, or the next row is held.
    NothingToDo = 10,
    /// The change isn't asked for any more.
    UnknownChange = 11,
    /// No change was told since the last one was agreed to.
    NoChange = 91,
    /// The array has no slot of this number.
    NoSlot = 101,
    /// The slot is lost.
    AlreadyLost = 102,
    /// The slot has no device of this generation any more.
    Stale = 103,
    /// Only a lost slot takes a new device.
    NotLost = 104,
    /// 1,048,575 new devices have come.
    Spent = 107,
    /// The slot to replace is out, or is being replaced.
    NotInSync = 109,
    /// Another slot is being replaced.
    Replacing = 110,
}

impl Refusal {
    const ALL: [Refusal; 17] = [
        Refusal::NoSuchBlock,
        Refusal::WrongShard,
        Refusal::Busy,
        Refusal::ArrayFailed,
        Refusal::Exhausted,
        Refusal::UntoldFirst,
        Refusal::NoFrame,
        Refusal::NothingToDo,
        Refusal::UnknownChange,
        Refusal::NoChange,
        Refusal::NoSlot,
        Refusal::AlreadyLost,
        Refusal::Stale,
        Refusal::NotLost,
        Refusal::Spent,
        Refusal::NotInSync,
        Refusal::Replacing,
    ];

    /// The number that `raid6.h` has.
    pub fn number(self) -> i32 {
        self as i32
    }

    /// The refusal that a call of `raid6.h` answered, if it did.
    pub(crate) fn check(number: i32) -> Result<(), Refusal> {
        if number == 0 {
            return Ok(());
        }
        let refusal = Refusal::ALL.into_iter().find(|refusal| refusal.number() == number);
        Err(refusal.unwrap_or_else(|| unreachable!("a call of the array was refused with {number}")))
    }
}

impl fmt::Display for Refusal {
    fn fmt(&self, f: &mut fmt::Formatter<'_>) -> fmt::Result {
        f.write_str(match self {
            Refusal::NoSuchBlock => "no such block",
            Refusal::WrongShard => "no such shard, or another one's block",
            Refusal::Busy => "the shard of the block has 256 requests with no taken reply",
            Refusal::ArrayFailed => "the array has failed",
            Refusal::Exhausted => "all numbers of commands or requests are used",
            Refusal::UntoldFirst => "a change is to be agreed to first",
            Refusal::NoFrame => "64 rows are held",
            Refusal::NothingToDo => "nothing to do now",
            Refusal::UnknownChange => "the change isn't asked for any more",
            Refusal::NoChange => "no change was told",
            Refusal::NoSlot => "no such slot",
            Refusal::AlreadyLost => "the slot is lost",
            Refusal::Stale => "the slot has no device of this generation",
            Refusal::NotLost => "the slot isn't lost",
            Refusal::Spent => "all generations of devices are used",
            Refusal::NotInSync => "the slot isn't in sync, or is being replaced",
            Refusal::Replacing => "another slot is being replaced",
        })
    }
}

impl Error for Refusal {}

/// The error of the system that `raid6_errno` gives.
impl From<Refusal> for io::Error {
    fn from(refusal: Refusal) -> io::Error {
        // SAFETY: the function takes any number and touches no memory
        io::Error::from_raw_os_error(unsafe { sys::raid6_errno(refusal.number()) })
    }
}

/// Why no array was made, or no shard.
#[derive(Clone, Copy, Debug, PartialEq, Eq, Hash)]
#[non_exhaustive]
pub enum ShapeRefusal {
    /// Not 4 to 32 slots.
    Slots = 1,
    /// A chunk isn't 1 to 128 blocks.
    Chunk,
    /// A block isn't 16 to 4,096 bytes, or no multiple of 16.
    Block,
    /// Not 1 to 16,777,216 rows, or no multiple of the chunk.
    Rows,
    /// Not 1 to 16 shards, or more than rows / chunk.
    Shards,
    /// The window of a rebuild isn't 1 to 8 rows.
    Window,
    /// More than two slots lost, or one that isn't there.
    Lost,
    /// No memory.
    NoMemory,
    /// The array has no shard of this number.
    NoSuchShard,
    /// A device was attached, or the array has failed: a shard is made before.
    Begun,
}

impl ShapeRefusal {
    const ALL: [ShapeRefusal; 10] = [
        ShapeRefusal::Slots,
        ShapeRefusal::Chunk,
        ShapeRefusal::Block,
        ShapeRefusal::Rows,
        ShapeRefusal::Shards,
        ShapeRefusal::Window,
        ShapeRefusal::Lost,
        ShapeRefusal::NoMemory,
        ShapeRefusal::NoSuchShard,
        ShapeRefusal::Begun,
    ];

    pub(crate) fn check(number: i32) -> Result<(), ShapeRefusal> {
        if number == 0 {
            return Ok(());
        }
        let refusal = ShapeRefusal::ALL.into_iter().find(|&refusal| refusal as i32 == number);
        Err(refusal.unwrap_or_else(|| unreachable!("an array was refused with {number}")))
    }
}

impl fmt::Display for ShapeRefusal {
    fn fmt(&self, f: &mut fmt::Formatter<'_>) -> fmt::Result {
        f.write_str(match self {
            ShapeRefusal::Slots => "an array has 4 to 32 slots",
            ShapeRefusal::Chunk => "a chunk has 1 to 128 blocks",
            ShapeRefusal::Block => "a block has 16 to 4,096 bytes, a multiple of 16",
            ShapeRefusal::Rows => "a device has 1 to 16,777,216 rows, a multiple of the chunk",
            ShapeRefusal::Shards => "an array has 1 to 16 shards, at most one for each chunk of a device",
            ShapeRefusal::Window => "the window of a rebuild is 1 to 8 rows",
            ShapeRefusal::Lost => "at most two of the slots are lost",
            ShapeRefusal::NoMemory => "no memory",
            ShapeRefusal::NoSuchShard => "the array has no shard of this number",
            ShapeRefusal::Begun => "shards are made before a device is attached, and before the array fails",
        })
    }
}

impl Error for ShapeRefusal {}
