//! The core of a RAID-6 array: P and Q over 4 to 32 slots, md's left-symmetric layout.
//!
//! The library has no thread, no device and no clock. A program hands in requests ([`Array::submit_read`],
//! [`Array::submit_write`]) and the completions of its devices ([`Array::deliver`]), and takes out commands for them
//! ([`Array::next_command`]) and replies ([`Array::next_reply`]). A block that its device can't read is written anew from
//! others of its row. A slot's device is lost when a command is delivered with another [`Fault`], or when that doesn't
//! help (see [`Array::deliver`]), or by [`Array::fail`]; one that fails without a command is by [`Array::lose`]. Replies go
//! on, also with two slots lost, once the loss was written down and [agreed to](Array::agree).
//!
//! A block is [`Shape::block`] bytes, the unit of requests and of commands.
//!
//! An [`Array`] is driven by one thread. A program that wants a thread for each shard has a [`Shard`] of each, made at one
//! [`Register`]; a shard sees at [`Shard::look`] what the others changed there, and its replies are released there.
//!
//! What devices have to do: perform each command at most once, as one step, and only where its slot and generation are
//! theirs. Every command is delivered, one of another generation with [`Fault::Gone`], and an error before any command that
//! its device performed after it. A [`Command`] that is dropped is delivered as of a device that is gone. The array's
//! theorem is of the library below, for programs that keep to this; of the crate itself nothing is proved.
//!
//! # Example
//!
//! Six devices in memory, of which two go away:
//!
//! ```
//! use raid6::{Answer, Array, Command, Fault, Io, Shape};
//!
//! const SHAPE: Shape = Shape { slots: 6, chunk: 4, block: 512, rows: 64, shards: 1, window: 8, lost: 0 };
//!
//! fn perform(devices: &mut [Vec<u8>], command: &mut Command) -> Result<(), Fault> {
//!     let first = command.row() as usize * SHAPE.block;
//!     let there = devices[command.slot()].get_mut(first..first + SHAPE.block).ok_or(Fault::Gone)?;
//!     match command.io() {
//!         Io::Read(block) => block.copy_from_slice(there),
//!         Io::Write(block) => there.copy_from_slice(block),
//!     }
//!     Ok(())
//! }
//!
//! /// All commands are performed, and all changes agreed to.
//! fn drive(array: &mut Array, devices: &mut [Vec<u8>]) {
//!     loop {
//!         while let Some(mut command) = array.next_command() {
//!             let result = perform(devices, &mut command);
//!             array.deliver(command, result);
//!         }
//!         if array.next_change().is_none() {
//!             return;
//!         }
//!         array.agree().expect("a change was told"); // a loss is written down before, and synced
//!     }
//! }
//!
//! let mut array = Array::new(&SHAPE, 64)?;
//! let mut devices = vec![vec![0; 64 * 512]; 6];
//! array.submit_write(9, &[7; 512], 1)?;
//! drive(&mut array, &mut devices);
//! assert_eq!(array.next_reply().map(|reply| (reply.user_data, reply.answer)), Some((1, Answer::Done)));
//!
//! devices[3].clear(); // this slot has block 9
//! devices[4].clear();
//! array.submit_read(9, 2)?;
//! drive(&mut array, &mut devices);
//! assert_eq!(array.next_reply().map(|reply| reply.answer), Some(Answer::Data(&[7; 512])));
//! # Ok::<(), Box<dyn std::error::Error>>(())
//! ```
#![deny(unsafe_op_in_unsafe_fn)]

mod array;
mod command;
mod home;
mod refusal;
mod run;
mod shard;
mod sys;

pub use array::{Answer, Array, Change, Count, Progress, Reply, Shape, State, Task, Turn};
pub use command::{Command, Fault, Io};
pub use refusal::{Refusal, ShapeRefusal};
pub use run::{Request, Taken};
pub use shard::{Register, Shard};
