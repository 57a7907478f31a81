use std::{
    ptr::{self, NonNull},
    sync::{Arc, Mutex, PoisonError},
};

use crate::{Command, Fault, Register, ShapeRefusal, sys};

/// What hands commands out and takes them back: an array of the library, or a shard of one.
#[derive(Clone, Copy)]
pub(crate) enum Owner {
    Array(NonNull<sys::Raid6>),
    Shard(NonNull<sys::Shard>),
}

/// Each is to be called while the owner lives, by one thread at a time, with commands of the owner.
impl Owner {
    /// Whether there was a command to fill in.
    unsafe fn fill(self, command: NonNull<sys::Command>) -> bool {
        // SAFETY: the caller sees to it, here and below
        let refusal = unsafe {
            match self {
                Owner::Array(raw) => sys::raid6_next_command(raw.as_ptr(), command.as_ptr()),
                Owner::Shard(raw) => sys::raid6_shard_next_command(raw.as_ptr(), command.as_ptr()),
            }
        };
        refusal == 0
    }

    /// Whether the command was out.
    unsafe fn deliver(self, mut command: NonNull<sys::Command>, result: Result<(), Fault>) -> bool {
        // SAFETY: nothing else has the memory of a command that is delivered
        unsafe { command.as_mut() }.fault = result.err().map_or(0, |fault| fault as u32);
        // SAFETY: as of `fill`
        let refusal = unsafe {
            match self {
                Owner::Array(raw) => sys::raid6_deliver(raw.as_ptr(), command.as_ptr()),
                Owner::Shard(raw) => sys::raid6_shard_deliver(raw.as_ptr(), command.as_ptr()),
            }
        };
        refusal == 0
    }

    unsafe fn free_command(self, command: NonNull<sys::Command>) {
        // SAFETY: as of `fill`
        unsafe {
            match self {
                Owner::Array(raw) => sys::raid6_command_free(raw.as_ptr(), command.as_ptr()),
                Owner::Shard(raw) => sys::raid6_shard_command_free(raw.as_ptr(), command.as_ptr()),
            }
        }
    }

    unsafe fn free(self) {
        // SAFETY: as of `fill`, and no call comes after this one
        unsafe {
            match self {
                Owner::Array(raw) => sys::raid6_free(raw.as_ptr()),
                Owner::Shard(raw) => sys::raid6_shard_free(raw.as_ptr()),
            }
        }
    }
}

/// What an owner and its commands have in common. The last of them that is dropped frees the owner and all commands.
pub(crate) struct Home {
    owner: Owner,
    /// The commands that were dropped. It has room for all of them, so a drop takes no memory.
    dropped: Mutex<Vec<NonNull<sys::Command>>>,
    /// The register of a shard, which the library frees after its shards.
    _register: Option<Register>,
}

// SAFETY: the owner is called by its `Commands` alone, which are borrowed mutably, and by the drop of the home; a command
// that was dropped is nobody else's. No call leaves anything with its thread.
unsafe impl Send for Home {}
unsafe impl Sync for Home {}

impl Home {
    /// Takes back a command that was dropped.
    pub(crate) fn take_back(&self, command: NonNull<sys::Command>) {
        self.dropped.lock().unwrap_or_else(PoisonError::into_inner).push(command);
    }

    fn next_dropped(&self) -> Option<NonNull<sys::Command>> {
        self.dropped.lock().unwrap_or_else(PoisonError::into_inner).pop()
    }
}

impl Drop for Home {
    fn drop(&mut self) {
        while let Some(command) = self.next_dropped() {
            // SAFETY: the command is one of the owner, which lives; one that isn't out is refused, and nothing is lost
            unsafe {
                self.owner.deliver(command, Err(Fault::Gone));
                self.owner.free_command(command);
            }
        }
        // SAFETY: its commands are freed, and nothing else has the owner
        unsafe { self.owner.free() };
    }
}

/// The commands of an owner.
pub(crate) struct Commands {
    home: Arc<Home>,
    idle: Vec<Command>,
    block: usize,
}

impl Commands {
    /// Makes so many commands of an owner, which it frees from now on.
    pub(crate) fn new(
        owner: Owner,
        register: Option<Register>,
        shape: &sys::Shape,
        count: usize,
    ) -> Result<Commands, ShapeRefusal> {
        let home = Home { owner, dropped: Mutex::default(), _register: register };
        let no_memory = |_| ShapeRefusal::NoMemory;
        home.dropped.lock().unwrap_or_else(PoisonError::into_inner).try_reserve_exact(count).map_err(no_memory)?;
        let mut commands = Commands { home: Arc::new(home), idle: Vec::new(), block: shape.block as usize };
        commands.idle.try_reserve_exact(count).map_err(no_memory)?;
        for _ in 0..count {
            let mut raw = ptr::null_mut();
            // SAFETY: both are valid for the call
            ShapeRefusal::check(unsafe { sys::raid6_command_new(shape, &mut raw) })?;
            let raw = NonNull::new(raw).expect("a command that isn't refused is made");
            commands.add(raw);
        }
        Ok(commands)
    }

    fn add(&mut self, raw: NonNull<sys::Command>) {
        self.idle.push(Command { raw, home: Arc::clone(&self.home), block: self.block });
    }

    /// The next command that is filled in, if there is one and room for it.
    pub(crate) fn next(&mut self) -> Option<Command> {
        let raw = self.idle.last()?.raw;
        // SAFETY: the home keeps the owner, whose commands these are; the borrow is the only one
        if unsafe { self.home.owner.fill(raw) } { self.idle.pop() } else { None }
    }

    /// Delivers a command, and before it those that were dropped: what their devices did after them comes later.
    ///
    /// # Panics
    ///
    /// If the command is another owner's.
    pub(crate) fn deliver(&mut self, command: Command, result: Result<(), Fault>) {
        assert!(Arc::ptr_eq(&command.home, &self.home), "a command is delivered where it came from");
        self.deliver_dropped();
        // SAFETY: as of `next`
        let is_taken = unsafe { self.home.owner.deliver(command.raw, result) };
        assert!(is_taken, "a command that is out is taken");
        self.idle.push(command);
    }

    /// Delivers the commands that were dropped, as of devices that are gone.
    pub(crate) fn deliver_dropped(&mut self) {
        while let Some(raw) = self.home.next_dropped() {
            // SAFETY: as of `next`
            let is_taken = unsafe { self.home.owner.deliver(raw, Err(Fault::Gone)) };
            assert!(is_taken, "a command that is out is taken");
            self.add(raw);
        }
    }
}
