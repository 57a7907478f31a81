use std::{
    fmt,
    mem::MaybeUninit,
    ops::Range,
    ptr::{self, NonNull},
    slice,
};

use crate::{
    Command, Fault, Refusal, Request, ShapeRefusal, Taken,
    home::{Commands, Owner},
    run::Run,
    sys,
};

/// What an array is made of.
#[derive(Clone, Copy, Debug, PartialEq, Eq)]
pub struct Shape {
    /// Devices, P and Q included: 4 to 32.
    pub slots: usize,
    /// Blocks that follow one another on a device: 1 to 128.
    pub chunk: u64,
    /// Bytes of a block: 16 to 4,096, a multiple of 16.
    pub block: usize,
    /// Blocks of a device: 1 to 16,777,216, a multiple of the chunk.
    pub rows: u64,
    /// Cores: 1 to 16, at most `rows / chunk`. Each holds 64 rows and takes 256 requests at a time.
    pub shards: usize,
    /// Rows of a slot and shard that are rebuilt at a time: 1 to 8.
    pub window: u64,
    /// A bit for each slot that has no device at the start: at most two.
    pub lost: u32,
}

impl Shape {
    /// Which shard has a block; `None` for no such block, or where no array has this shape.
    ///
    /// ```
    /// use raid6::Shape;
    ///
    /// let shape = Shape { slots: 6, chunk: 4, block: 4096, rows: 64, shards: 4, window: 8, lost: 0 };
    /// assert_eq!((shape.shard_of(0), shape.shard_of(64), shape.shard_of(255)), (Some(0), Some(1), Some(3)));
    /// assert_eq!(shape.shard_of(256), None);
    /// ```
    pub fn shard_of(&self, block: u64) -> Option<usize> {
        // SAFETY: the shape is valid for the call
        usize::try_from(unsafe { sys::raid6_shard_of(&self.raw(), block) }).ok()
    }

    pub(crate) fn raw(&self) -> sys::Shape {
        sys::Shape {
            slots: self.slots as u64,
            chunk: self.chunk,
            block: self.block as u64,
            rows: self.rows,
            shards: self.shards as u64,
            window: self.window,
            lost: self.lost,
            reserved: 0,
        }
    }
}

/// An answer to a request.
#[derive(Clone, Copy, Debug, PartialEq, Eq)]
#[non_exhaustive]
pub enum Answer<'a> {
    /// A read's block, lent until the next call on the array.
    Data(&'a [u8]),
    /// A write is done.
    Done,
    /// The array has failed: the request acted, or it did not.
    ArrayFailed,
}

/// The reply to a request.
#[derive(Clone, Copy, Debug, PartialEq, Eq)]
#[non_exhaustive]
pub struct Reply<'a> {
    /// As the request was handed in with.
    pub user_data: u64,
    /// What became of the request.
    pub answer: Answer<'a>,
}

/// How a slot is.
#[derive(Clone, Copy, Debug, PartialEq, Eq, Hash)]
#[non_exhaustive]
pub enum State {
    /// Its device has what it should.
    InSync,
    /// It has no device.
    Lost,
    /// It has a new device, which is being rebuilt.
    Rebuilding,
}

/// A change of a slot that a shard asks for.
#[derive(Clone, Copy, Debug, PartialEq, Eq, Hash)]
#[non_exhaustive]
pub struct Change {
    /// The slot.
    pub slot: usize,
    /// Which device of the slot.
    pub generation: u32,
    /// The shard that asks.
    pub shard: usize,
    /// [`State::Lost`], or [`State::InSync`]: the shard has rebuilt its rows.
    pub state: State,
}

/// What goes through the rows of a shard.
#[derive(Clone, Copy, Debug, PartialEq, Eq, Hash)]
#[non_exhaustive]
pub enum Task {
    /// Writes what a new device should have. Done when its slot is in sync.
    Rebuild = 0,
    /// Compares parities with data, and counts. Goes round.
    Check = 1,
    /// As a check, and writes parities that are wrong.
    Repair = 2,
}

/// What a turn of a task did.
#[derive(Clone, Copy, Debug, PartialEq, Eq, Hash)]
#[non_exhaustive]
pub enum Turn {
    /// A row was begun: there are commands.
    Begun,
    /// A row was passed over, since a slot is out (checks and repairs).
    PassedOver,
}

/// How far a task is in a shard.
#[derive(Clone, Debug, PartialEq, Eq)]
#[non_exhaustive]
pub struct Progress {
    /// Its next row; of a rebuild the first that isn't rebuilt.
    pub row: u64,
    /// The shard's rows.
    pub rows: Range<u64>,
}

/// What a shard counts since it was made.
#[derive(Clone, Copy, Debug, PartialEq, Eq, Hash)]
#[non_exhaustive]
pub enum Count {
    /// Checked rows whose parities were right.
    Consistent = 0,
    /// Checked rows with a wrong P.
    WrongP,
    /// Checked rows with a wrong Q.
    WrongQ,
    /// Checked rows with one wrong block of data.
    WrongData,
    /// Checked rows with more wrong than one block.
    Many,
    /// Rows that a check or a repair passed over.
    Skipped,
    /// Rows that a repair wrote.
    Repaired,
    /// Rows that were rebuilt.
    Rebuilt,
}

/// An array. It may go to another thread; one call works on it at a time.
pub struct Array {
    raw: NonNull<sys::Raid6>,
    /// They keep the array of the library, and the last of them frees it.
    commands: Commands,
    block: usize,
    run: Run,
}

// SAFETY: the memory of an array is its alone, and no call leaves anything with its thread. It isn't `Sync`.
unsafe impl Send for Array {}

/// A number that a slot or a shard has, or one that none has.
pub(crate) fn to_number(of: usize) -> u32 {
    u32::try_from(of).unwrap_or(u32::MAX)
}

impl From<sys::Change> for Change {
    fn from(change: sys::Change) -> Change {
        Change {
            slot: change.slot as usize,
            generation: change.generation,
            shard: change.shard as usize,
            state: if change.state == 0 { State::InSync } else { State::Lost },
        }
    }
}

impl Reply<'_> {
    /// # Safety
    ///
    /// The block of the reply has this length, and is lent as long as the reply lives.
    pub(crate) unsafe fn from_raw<'a>(reply: &sys::Reply, length: usize) -> Reply<'a> {
        let answer = match reply.kind {
            // SAFETY: the caller says so
            0 => Answer::Data(unsafe { slice::from_raw_parts(reply.block, length) }),
            1 => Answer::Done,
            _ => Answer::ArrayFailed,
        };
        Reply { user_data: reply.user_data, answer }
    }
}

impl State {
    /// The state of this number, if it is one's.
    pub(crate) fn from_number(number: i32) -> Option<State> {
        match number {
            0 => Some(State::InSync),
            1 => Some(State::Lost),
            2 => Some(State::Rebuilding),
            _ => None,
        }
    }
}

impl Turn {
    /// What a turn that was answered so did.
    pub(crate) fn check(answer: i32) -> Result<Turn, Refusal> {
        match Refusal::check(answer) {
            Ok(()) => Ok(Turn::Begun),
            Err(Refusal::NoChange) => Ok(Turn::PassedOver),
            Err(refusal) => Err(refusal),
        }
    }
}

impl Array {
    /// Makes an array over devices that are consistent, as zeros are, with room for `commands` that are out at a time; at
    /// most `64 * (slots + 2)` of a shard ever are. No later call takes memory.
    pub fn new(shape: &Shape, commands: usize) -> Result<Array, ShapeRefusal> {
        let block = shape.block;
        let shape = shape.raw();
        let run = Run::new()?;
        let mut raw = ptr::null_mut();
        // SAFETY: both are valid for the call
        ShapeRefusal::check(unsafe { sys::raid6_new(&shape, &mut raw) })?;
        let raw = NonNull::new(raw).expect("an array that isn't refused is made");
        let commands = Commands::new(Owner::Array(raw), None, &shape, commands)?;
        Ok(Array { raw, commands, block, run })
    }

    /// How many blocks the array has.
    pub fn blocks(&self) -> u64 {
        // SAFETY: the array lives, here and in all calls below, and none of them runs concurrently with another
        unsafe { sys::raid6_blocks(self.raw.as_ptr()) }
    }

    /// Asks for a block. Its reply, which may come at any later [`Array::next_reply`], brings `user_data`.
    pub fn submit_read(&mut self, block: u64, user_data: u64) -> Result<(), Refusal> {
        // SAFETY: a read has no data
        Refusal::check(unsafe { sys::raid6_submit(self.raw.as_ptr(), block, ptr::null(), user_data) })
    }

    /// Asks for a block to be written with a copy of `data`.
    ///
    /// # Panics
    ///
    /// If `data` hasn't the length of a block.
    pub fn submit_write(&mut self, block: u64, data: &[u8], user_data: u64) -> Result<(), Refusal> {
        assert_eq!(data.len(), self.block, "a write is of one block");
        // SAFETY: the data are as long as a block, and are copied during the call
        Refusal::check(unsafe { sys::raid6_submit(self.raw.as_ptr(), block, data.as_ptr(), user_data) })
    }

    /// Hands in several requests, in their order, up to the first that is refused. Writes of one row that are handed in
    /// together begin together: a row all of whose blocks are, is written with no read. Of a shard up to 256 blocks begin
    /// at a time, so hand in a multiple of `(slots - 2) * chunk` of them that begins at such a multiple.
    ///
    /// ```
    /// use raid6::{Array, Io, Request};
    /// # let shape = raid6::Shape { slots: 6, chunk: 4, block: 512, rows: 64, shards: 1, window: 8, lost: 0 };
    ///
    /// let mut array = Array::new(&shape, 64)?;
    /// let data = [7; 512];
    /// // four rows of four blocks each
    /// let writes: Vec<Request> = (0..16).map(|block| Request { block, data: Some(&data), user_data: block }).collect();
    /// assert_eq!(array.submit_run(&writes).count, 16);
    /// while let Some(mut command) = array.next_command() {
    ///     assert!(matches!(command.io(), Io::Write(_)));
    ///     array.deliver(command, Ok(()));
    /// }
    /// assert_eq!(std::iter::from_fn(|| array.next_reply().map(|reply| reply.user_data)).count(), 16);
    /// # Ok::<(), Box<dyn std::error::Error>>(())
    /// ```
    ///
    /// # Panics
    ///
    /// If what a write writes hasn't the length of a block.
    pub fn submit_run(&mut self, requests: &[Request<'_>]) -> Taken {
        let raw = self.raw.as_ptr();
        // SAFETY: the data of the requests are as long as a block, and are copied during the call
        self.run.hand_in(requests, self.block, |part, count, taken| unsafe {
            sys::raid6_submit_run(raw, part, count, taken)
        })
    }

    /// How many more requests the shard of a block takes; 0 also for no such block.
    pub fn room(&self, block: u64) -> u64 {
        // SAFETY: as of `blocks`
        unsafe { sys::raid6_room(self.raw.as_ptr(), block) }
    }

    /// The next command for a device. Call it until `None` after each other call: there is none now, or as many as the
    /// array has room for are out.
    pub fn next_command(&mut self) -> Option<Command> {
        self.commands.next()
    }

    /// Hands in the completion of a command. A fault takes its device out in its shard, which goes on without it and asks
    /// for a change.
    ///
    /// But the [`Fault::Read`] of a block's first read loses nothing. A read of this block alone is put out once more; if
    /// that fails too, and at once for a write, a rebuild or a check, the shard reads other blocks of the row, writes the
    /// block anew and reads it again. A fault of this write or last read takes the device out. Where too few blocks of the
    /// row can be read, the slots of all its read errors go out, and three are out then; but if one of them has a second
    /// device with the row's block, its first device goes out alone.
    ///
    /// # Panics
    ///
    /// If the command is another array's: then it is dropped.
    pub fn deliver(&mut self, command: Command, result: Result<(), Fault>) {
        self.commands.deliver(command, result);
    }

    /// The change that a shard asks for, until [`Array::agree`] makes it. Until then no reply of that shard is handed out:
    /// write down that the slot is lost, and sync that, before agreeing, or after a restart its old blocks would be read.
    pub fn next_change(&mut self) -> Option<Change> {
        let mut change = MaybeUninit::<sys::Change>::uninit();
        // SAFETY: the change is valid for the call
        if unsafe { sys::raid6_next_change(self.raw.as_ptr(), change.as_mut_ptr()) } != 0 {
            return None;
        }
        // SAFETY: a call that isn't refused has filled it
        Some(unsafe { change.assume_init() }.into())
    }

    /// Makes the change that was told last. Refusals: [`Refusal::NoChange`], [`Refusal::UnknownChange`].
    pub fn agree(&mut self) -> Result<(), Refusal> {
        // SAFETY: as of `blocks`
        Refusal::check(unsafe { sys::raid6_agree(self.raw.as_ptr()) })
    }

    /// Takes the next reply. Call it until `None`, then [`Array::next_command`]: replies may let more begin. Here the shards
    /// also see what [`Array::fail`], [`Array::lose`], [`Array::attach`] and [`Array::replace`] did, and where the answer is
    /// `None` they get what became of commands that were dropped.
    pub fn next_reply(&mut self) -> Option<Reply<'_>> {
        let mut reply = MaybeUninit::<sys::Reply>::uninit();
        // SAFETY: the reply is valid for the call
        if unsafe { sys::raid6_next_reply(self.raw.as_ptr(), reply.as_mut_ptr()) } != 0 {
            self.commands.deliver_dropped(); // no sooner: after a loss the shards look before anything is delivered
            return None;
        }
        // SAFETY: a call that isn't refused has filled it; the block is as long as one of the array, and lent until the
        // next call, as the borrow is
        Some(unsafe { Reply::from_raw(reply.assume_init_ref(), self.block) })
    }

    /// Takes a slot out, as `mdadm --fail`: write it down before. Refusals: [`Refusal::NoSlot`],
    /// [`Refusal::ArrayFailed`], [`Refusal::AlreadyLost`].
    pub fn fail(&mut self, slot: usize) -> Result<(), Refusal> {
        // SAFETY: as of `blocks`
        Refusal::check(unsafe { sys::raid6_fail(self.raw.as_ptr(), to_number(slot)) })
    }

    /// Takes out the device that a slot has with this generation, which has failed without a command: a sync of it failed,
    /// it was pulled, or it is silent. Write it down before, as a change. The slot's other device stays, if it has one: the
    /// answer says whether that one has the slot in sync, as the first of two has. Shards go on with the device until they
    /// look: so take replies until `None` before another command is delivered, and deliver with [`Fault::Gone`] what the
    /// device answers after it failed. What a silent one doesn't answer stays out, and the array goes on without it.
    /// Refusals: [`Refusal::NoSlot`], [`Refusal::ArrayFailed`], [`Refusal::AlreadyLost`], [`Refusal::Stale`].
    pub fn lose(&mut self, slot: usize, generation: u32) -> Result<bool, Refusal> {
        let mut kept = 0;
        // SAFETY: the number is valid for the call
        let refusal = unsafe { sys::raid6_lose(self.raw.as_ptr(), to_number(slot), generation, &mut kept) };
        Refusal::check(refusal)?;
        Ok(kept != 0)
    }

    /// Gives a lost slot a new device, as `mdadm --add`, and tells its generation. The blocks of the device don't matter;
    /// it counts as out until its slot is in sync. Before, wait until [`Array::at_work`] is 0: no command of the old device
    /// is out. Refusals: [`Refusal::NoSlot`], [`Refusal::ArrayFailed`], [`Refusal::NotLost`], [`Refusal::Spent`].
    ///
    /// ```
    /// use raid6::{Array, Io, State, Task};
    /// # let shape = raid6::Shape { slots: 6, chunk: 4, block: 512, rows: 64, shards: 1, window: 8, lost: 0 };
    ///
    /// let mut array = Array::new(&shape, 64)?;
    /// array.fail(1)?;
    /// assert!(array.next_reply().is_none()); // the shards see the loss
    /// assert_eq!((array.at_work(1), array.attach(1)), (0, Ok(1)));
    /// assert!(array.next_reply().is_none()); // and the new device
    /// while array.slot(1) == Some(State::Rebuilding) {
    ///     let _ = array.turn(0, Task::Rebuild);
    ///     while let Some(mut command) = array.next_command() {
    ///         if let Io::Read(block) = command.io() {
    ///             block.fill(0); // what all devices of this example have
    ///         }
    ///         array.deliver(command, Ok(()));
    ///     }
    ///     while array.next_change().is_some() {
    ///         array.agree()?;
    ///     }
    ///     while array.next_reply().is_some() {}
    /// }
    /// assert_eq!(array.slot(1), Some(State::InSync));
    /// # Ok::<(), Box<dyn std::error::Error>>(())
    /// ```
    pub fn attach(&mut self, slot: usize) -> Result<u32, Refusal> {
        let mut generation = 0;
        // SAFETY: the generation is valid for the call
        Refusal::check(unsafe { sys::raid6_attach(self.raw.as_ptr(), to_number(slot), &mut generation) })?;
        Ok(generation)
    }

    /// Gives a slot in sync a second device, as `mdadm --replace`, and tells its generation. The blocks of the device don't
    /// matter. A command says by its generation to which of them it goes. Once each shard has rebuilt its rows on the second
    /// that is the slot's; a shard reads and writes the first until its next reply after that, so keep it until then, and
    /// until none of its commands is out. Refusals: [`Refusal::NoSlot`], [`Refusal::ArrayFailed`],
    /// [`Refusal::NotInSync`], [`Refusal::Replacing`], [`Refusal::Spent`].
    pub fn replace(&mut self, slot: usize) -> Result<u32, Refusal> {
        let mut generation = 0;
        // SAFETY: the generation is valid for the call
        Refusal::check(unsafe { sys::raid6_replace(self.raw.as_ptr(), to_number(slot), &mut generation) })?;
        Ok(generation)
    }

    /// How many commands of a slot are out.
    pub fn at_work(&self, slot: usize) -> u64 {
        // SAFETY: as of `blocks`
        unsafe { sys::raid6_at_work(self.raw.as_ptr(), to_number(slot)) }
    }

    /// Begins the next row of a task in a shard. Refusals: [`Refusal::WrongShard`], [`Refusal::ArrayFailed`],
    /// [`Refusal::Exhausted`], [`Refusal::NothingToDo`], [`Refusal::NoFrame`].
    pub fn turn(&mut self, shard: usize, task: Task) -> Result<Turn, Refusal> {
        // SAFETY: as of `blocks`
        Turn::check(unsafe { sys::raid6_turn(self.raw.as_ptr(), to_number(shard), task as i32) })
    }

    /// How far a task is in a shard, of a rebuild on this slot; `None` for no such shard, and where the slot has no new
    /// device in it: the shard has not seen it, or has rebuilt its rows.
    pub fn progress(&self, shard: usize, task: Task, slot: usize) -> Option<Progress> {
        let (mut row, mut first, mut end) = (0, 0, 0);
        let (shard, slot) = (to_number(shard), to_number(slot));
        // SAFETY: the three numbers are valid for the call
        let refusal =
            unsafe { sys::raid6_progress(self.raw.as_ptr(), shard, task as i32, slot, &mut row, &mut first, &mut end) };
        (refusal == 0).then_some(Progress { row, rows: first..end })
    }

    /// How a slot is; `None` for no such slot.
    pub fn slot(&self, slot: usize) -> Option<State> {
        // SAFETY: no place is asked to be filled
        State::from_number(unsafe { sys::raid6_slot(self.raw.as_ptr(), to_number(slot), ptr::null_mut()) })
    }

    /// Whether a third slot went out.
    pub fn has_failed(&self) -> bool {
        let mut failed = 0;
        // SAFETY: the number is valid for the call
        unsafe { sys::raid6_slot(self.raw.as_ptr(), 0, &mut failed) };
        failed != 0
    }

    /// What a shard has counted; 0 for no such shard.
    pub fn count(&self, shard: usize, count: Count) -> u64 {
        // SAFETY: as of `blocks`
        unsafe { sys::raid6_count(self.raw.as_ptr(), to_number(shard), count as i32) }
    }
}

impl fmt::Debug for Array {
    fn fmt(&self, f: &mut fmt::Formatter<'_>) -> fmt::Result {
        f.debug_struct("Array").field("blocks", &self.blocks()).field("block", &self.block).finish_non_exhaustive()
    }
}
