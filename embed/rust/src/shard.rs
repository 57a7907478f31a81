use std::{
    fmt,
    mem::MaybeUninit,
    ptr::{self, NonNull},
    sync::{Arc, Mutex, MutexGuard, PoisonError},
};

use crate::{
    Change, Command, Count, Fault, Progress, Refusal, Reply, Request, Shape, ShapeRefusal, State, Taken, Task, Turn,
    array::to_number,
    home::{Commands, Owner},
    run::Run,
    sys,
};

/// Which slots of an array are in sync, for all its shards, where they have a thread each. A clone is the same register;
/// it has a lock, under which each call that takes it is made.
///
/// A shard goes to a thread of its own:
///
/// ```
/// use raid6::{Answer, Io, Register, Shape};
///
/// let shape = Shape { slots: 6, chunk: 4, block: 512, rows: 64, shards: 2, window: 8, lost: 0 };
/// let register = Register::new(&shape)?;
/// let shards = [register.shard(0, 64)?, register.shard(1, 64)?];
/// let first_blocks = [0, 128];
/// std::thread::scope(|scope| {
///     for (mut shard, block) in shards.into_iter().zip(first_blocks) {
///         assert_eq!(shape.shard_of(block), Some(shard.number()));
///         scope.spawn(move || {
///             shard.submit_read(block, 1).expect("there is room");
///             while let Some(mut command) = shard.next_command() {
///                 if let Io::Read(block) = command.io() {
///                     block.fill(7); // where a device would be asked
///                 }
///                 shard.deliver(command, Ok(()));
///             }
///             shard.look().expect("no change is asked for");
///             assert_eq!(shard.next_reply().map(|reply| reply.answer), Some(Answer::Data(&[7; 512])));
///         });
///     }
/// });
/// # Ok::<(), Box<dyn std::error::Error>>(())
/// ```
#[derive(Clone)]
pub struct Register {
    shared: Arc<Shared>,
}

struct Shared {
    raw: Mutex<Raw>,
    shape: Shape,
}

struct Raw {
    register: NonNull<sys::Register>,
    /// The shards that were made, by bits.
    made: u32,
}

// SAFETY: the memory of a register is its alone, and no call leaves anything with its thread
unsafe impl Send for Raw {}

impl Drop for Raw {
    fn drop(&mut self) {
        // SAFETY: no call comes after this one
        unsafe { sys::raid6_register_free(self.register.as_ptr()) };
    }
}

impl Register {
    /// Makes the register of an array over devices that are consistent, as zeros are.
    pub fn new(shape: &Shape) -> Result<Register, ShapeRefusal> {
        let mut raw = ptr::null_mut();
        // SAFETY: both are valid for the call
        ShapeRefusal::check(unsafe { sys::raid6_register_new(&shape.raw(), &mut raw) })?;
        let register = NonNull::new(raw).expect("a register that isn't refused is made");
        let raw = Mutex::new(Raw { register, made: 0 });
        Ok(Register { shared: Arc::new(Shared { raw, shape: *shape }) })
    }

    /// No call leaves the register half done, so it is also used after a thread that had it panicked.
    fn lock(&self) -> MutexGuard<'_, Raw> {
        self.shared.raw.lock().unwrap_or_else(PoisonError::into_inner)
    }

    /// Makes the shard of this number, with room for `commands` that are out at a time; at most `64 * (slots + 2)` ever
    /// are. No later call takes memory. All shards are made before a device is attached. Refusals:
    /// [`ShapeRefusal::Window`], [`ShapeRefusal::NoSuchShard`], [`ShapeRefusal::Begun`], [`ShapeRefusal::NoMemory`].
    ///
    /// # Panics
    ///
    /// If the shard was made before.
    pub fn shard(&self, number: usize, commands: usize) -> Result<Shard, ShapeRefusal> {
        let mut locked = self.lock();
        let run = Run::new()?;
        let mut raw = ptr::null_mut();
        // SAFETY: the register lives, here and in all calls below, and the lock is held; the place is valid for the call
        let refusal = unsafe { sys::raid6_shard_new(locked.register.as_ptr(), to_number(number), &mut raw) };
        ShapeRefusal::check(refusal)?;
        let raw = NonNull::new(raw).expect("a shard that isn't refused is made");
        let commands = Commands::new(Owner::Shard(raw), Some(self.clone()), &self.shared.shape.raw(), commands)?;
        assert!(locked.made >> number & 1 == 0, "a shard is made once");
        locked.made |= 1 << number;
        Ok(Shard { raw, commands, number, register: self.clone(), run })
    }

    /// Takes a slot out, as `mdadm --fail`: write it down before. Refusals: [`Refusal::NoSlot`],
    /// [`Refusal::ArrayFailed`], [`Refusal::AlreadyLost`].
    pub fn fail(&self, slot: usize) -> Result<(), Refusal> {
        // SAFETY: as of `Register::shard`
        Refusal::check(unsafe { sys::raid6_register_fail(self.lock().register.as_ptr(), to_number(slot)) })
    }

    /// Takes out the device that a slot has with this generation, which has failed without a command: see
    /// [`Array::lose`](crate::Array::lose), whose answer and refusals it has. Each shard looks before another command is
    /// delivered to it.
    pub fn lose(&self, slot: usize, generation: u32) -> Result<bool, Refusal> {
        let (slot, mut kept) = (to_number(slot), 0);
        // SAFETY: as of `Register::shard`; the number is valid for the call
        let refusal = unsafe { sys::raid6_register_lose(self.lock().register.as_ptr(), slot, generation, &mut kept) };
        Refusal::check(refusal)?;
        Ok(kept != 0)
    }

    /// Gives a lost slot a new device, as `mdadm --add`, and tells its generation. Before, wait until
    /// [`Shard::at_work`] is 0 in each shard, once each has looked since the slot was lost. Refusals:
    /// [`Refusal::NoSlot`], [`Refusal::ArrayFailed`], [`Refusal::NotLost`], [`Refusal::Spent`].
    pub fn attach(&self, slot: usize) -> Result<u32, Refusal> {
        let mut generation = 0;
        // SAFETY: as of `Register::shard`; the generation is valid for the call
        let refusal =
            unsafe { sys::raid6_register_attach(self.lock().register.as_ptr(), to_number(slot), &mut generation) };
        Refusal::check(refusal)?;
        Ok(generation)
    }

    /// Gives a slot in sync a second device, as `mdadm --replace`, and tells its generation: see
    /// [`Array::replace`](crate::Array::replace), whose refusals it has.
    pub fn replace(&self, slot: usize) -> Result<u32, Refusal> {
        let mut generation = 0;
        // SAFETY: as of `Register::shard`; the generation is valid for the call
        let refusal =
            unsafe { sys::raid6_register_replace(self.lock().register.as_ptr(), to_number(slot), &mut generation) };
        Refusal::check(refusal)?;
        Ok(generation)
    }

    /// How a slot is; `None` for no such slot.
    pub fn slot(&self, slot: usize) -> Option<State> {
        // SAFETY: as of `Register::shard`; no place is asked to be filled
        State::from_number(unsafe {
            sys::raid6_register_slot(self.lock().register.as_ptr(), to_number(slot), ptr::null_mut())
        })
    }

    /// Whether a third slot went out.
    pub fn has_failed(&self) -> bool {
        let mut failed = 0;
        // SAFETY: as of `Register::shard`; the number is valid for the call
        unsafe { sys::raid6_register_slot(self.lock().register.as_ptr(), 0, &mut failed) };
        failed != 0
    }
}

impl fmt::Debug for Register {
    fn fmt(&self, f: &mut fmt::Formatter<'_>) -> fmt::Result {
        f.debug_struct("Register").field("shape", &self.shared.shape).finish_non_exhaustive()
    }
}

/// One shard of an array whose shards have a thread each. It may go to another thread; one call works on it at a time.
pub struct Shard {
    raw: NonNull<sys::Shard>,
    /// They keep the shard of the library, and the last of them frees it.
    commands: Commands,
    number: usize,
    register: Register,
    run: Run,
}

// SAFETY: the memory of a shard is its alone but for the register, which has a lock, and no call leaves anything with its
// thread. It isn't `Sync`.
unsafe impl Send for Shard {}

impl Shard {
    /// The number of the shard.
    pub fn number(&self) -> usize {
        self.number
    }

    /// The register of the array.
    pub fn register(&self) -> &Register {
        &self.register
    }

    fn block(&self) -> usize {
        self.register.shared.shape.block
    }

    /// Asks for a block of the shard. Its reply, which may come at any later [`Shard::next_reply`], brings `user_data`.
    pub fn submit_read(&mut self, block: u64, user_data: u64) -> Result<(), Refusal> {
        // SAFETY: the shard lives, here and in all calls below, and none of them runs concurrently with another; a read
        // has no data
        Refusal::check(unsafe { sys::raid6_shard_submit(self.raw.as_ptr(), block, ptr::null(), user_data) })
    }

    /// Asks for a block of the shard to be written with a copy of `data`.
    ///
    /// # Panics
    ///
    /// If `data` hasn't the length of a block.
    pub fn submit_write(&mut self, block: u64, data: &[u8], user_data: u64) -> Result<(), Refusal> {
        assert_eq!(data.len(), self.block(), "a write is of one block");
        // SAFETY: the data are as long as a block, and are copied during the call
        Refusal::check(unsafe { sys::raid6_shard_submit(self.raw.as_ptr(), block, data.as_ptr(), user_data) })
    }

    /// Hands in several requests for blocks of the shard, as [`Array::submit_run`](crate::Array::submit_run).
    ///
    /// # Panics
    ///
    /// If what a write writes hasn't the length of a block.
    pub fn submit_run(&mut self, requests: &[Request<'_>]) -> Taken {
        let (raw, block) = (self.raw.as_ptr(), self.block());
        // SAFETY: the data of the requests are as long as a block, and are copied during the call
        self.run.hand_in(requests, block, |part, count, taken| unsafe {
            sys::raid6_shard_submit_run(raw, part, count, taken)
        })
    }

    /// How many more requests the shard takes.
    pub fn room(&self) -> u64 {
        // SAFETY: as of `submit_read`
        unsafe { sys::raid6_shard_room(self.raw.as_ptr()) }
    }

    /// The next command for a device. Call it until `None` after each other call: there is none now, or as many as the
    /// shard has room for are out.
    pub fn next_command(&mut self) -> Option<Command> {
        self.commands.next()
    }

    /// Hands in the completion of a command, as [`Array::deliver`](crate::Array::deliver).
    ///
    /// # Panics
    ///
    /// If the command is another shard's: then it is dropped.
    pub fn deliver(&mut self, command: Command, result: Result<(), Fault>) {
        self.commands.deliver(command, result);
    }

    /// The change that the shard asks for, until [`Shard::agree`] makes it. Until then no reply is handed out: write down
    /// that the slot is lost, and sync that, before agreeing, or after a restart its old blocks would be read.
    pub fn next_change(&mut self) -> Option<Change> {
        let mut change = MaybeUninit::<sys::Change>::uninit();
        // SAFETY: the change is valid for the call
        if unsafe { sys::raid6_shard_next_change(self.raw.as_ptr(), change.as_mut_ptr()) } != 0 {
            return None;
        }
        // SAFETY: a call that isn't refused has filled it
        Some(unsafe { change.assume_init() }.into())
    }

    /// Makes the change that was told last at the register. Refusals: [`Refusal::NoChange`],
    /// [`Refusal::UnknownChange`].
    pub fn agree(&mut self) -> Result<(), Refusal> {
        // SAFETY: as of `submit_read`, and the register's lock is held
        Refusal::check(unsafe { sys::raid6_shard_agree(self.raw.as_ptr(), self.register.lock().register.as_ptr()) })
    }

    /// The shard looks at the register: replies are released, and it sees what others changed. Then it gets what became of
    /// commands that were dropped, for which it may ask for a change. Call it after deliveries, after changes, and now and
    /// then. Refusal: [`Refusal::UntoldFirst`].
    pub fn look(&mut self) -> Result<(), Refusal> {
        // SAFETY: as of `agree`
        Refusal::check(unsafe { sys::raid6_shard_look(self.raw.as_ptr(), self.register.lock().register.as_ptr()) })?;
        self.commands.deliver_dropped();
        Ok(())
    }

    /// Takes the next reply. Call it until `None`, then [`Shard::next_command`]: replies may let more begin.
    pub fn next_reply(&mut self) -> Option<Reply<'_>> {
        let mut reply = MaybeUninit::<sys::Reply>::uninit();
        // SAFETY: the reply is valid for the call
        if unsafe { sys::raid6_shard_next_reply(self.raw.as_ptr(), reply.as_mut_ptr()) } != 0 {
            return None;
        }
        // SAFETY: a call that isn't refused has filled it; the block is as long as one of the array, and lent until the
        // next call, as the borrow is
        Some(unsafe { Reply::from_raw(reply.assume_init_ref(), self.block()) })
    }

    /// How many commands of a slot are out.
    pub fn at_work(&self, slot: usize) -> u64 {
        // SAFETY: as of `submit_read`
        unsafe { sys::raid6_shard_at_work(self.raw.as_ptr(), to_number(slot)) }
    }

    /// Begins the next row of a task. Refusals: [`Refusal::ArrayFailed`], [`Refusal::Exhausted`],
    /// [`Refusal::NothingToDo`], [`Refusal::NoFrame`].
    pub fn turn(&mut self, task: Task) -> Result<Turn, Refusal> {
        // SAFETY: as of `submit_read`
        Turn::check(unsafe { sys::raid6_shard_turn(self.raw.as_ptr(), task as i32) })
    }

    /// How far a task is, of a rebuild on this slot; `None` where the slot has no new device in the shard: it has not seen
    /// it, or has rebuilt its rows.
    pub fn progress(&self, task: Task, slot: usize) -> Option<Progress> {
        let (mut row, mut first, mut end) = (0, 0, 0);
        let (raw, slot) = (self.raw.as_ptr(), to_number(slot));
        // SAFETY: the three numbers are valid for the call
        let refusal = unsafe { sys::raid6_shard_progress(raw, task as i32, slot, &mut row, &mut first, &mut end) };
        (refusal == 0).then_some(Progress { row, rows: first..end })
    }

    /// What the shard has counted.
    pub fn count(&self, count: Count) -> u64 {
        // SAFETY: as of `submit_read`
        unsafe { sys::raid6_shard_count(self.raw.as_ptr(), count as i32) }
    }
}

impl fmt::Debug for Shard {
    fn fmt(&self, f: &mut fmt::Formatter<'_>) -> fmt::Result {
        f.debug_struct("Shard").field("number", &self.number).finish_non_exhaustive()
    }
}
