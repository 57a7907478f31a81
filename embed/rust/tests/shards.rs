//! Shards in threads of their own, over devices in memory, and what they refuse.

use std::thread;

use raid6::{Answer, Command, Count, Fault, Io, Refusal, Register, Shape, ShapeRefusal, Shard, State, Task, Turn};

const SHAPE: Shape = Shape { slots: 6, chunk: 4, block: 16, rows: 64, shards: 4, window: 8, lost: 0 };

fn blocks() -> u64 {
    SHAPE.rows * (SHAPE.slots as u64 - 2)
}

/// A shard with its parts of the devices, by slot and row, and what its blocks are to have throughout.
struct Part {
    shard: Shard,
    disks: Vec<Vec<[u8; 16]>>,
    blocks: Vec<(u64, u8)>,
    /// The slot whose first device is gone.
    gone: Option<usize>,
    /// The slot whose first device is replaced by one of generation 1, and the blocks of that one.
    replaced: Option<usize>,
    second: Vec<[u8; 16]>,
}

impl Part {
    fn new(register: &Register, number: usize) -> Part {
        let shard = register.shard(number, 8).expect("the shard is one of the array");
        let own = |block: &u64| SHAPE.shard_of(*block) == Some(number);
        let blocks = (0..blocks()).filter(own).map(|block| (block, 0)).collect();
        let disk = |byte| vec![[byte; 16]; SHAPE.rows as usize];
        Part { shard, disks: vec![disk(0); SHAPE.slots], blocks, gone: None, replaced: None, second: disk(0xaa) }
    }

    fn perform(&mut self, command: &mut Command) -> Result<(), Fault> {
        if self.gone == Some(command.slot()) && command.generation() == 0 {
            return Err(Fault::Gone);
        }
        let (slot, row) = (command.slot(), command.row() as usize);
        let is_second = self.replaced == Some(slot) && command.generation() == 1;
        let block = if is_second { &mut self.second[row] } else { &mut self.disks[slot][row] };
        match command.io() {
            Io::Read(room) => room.copy_from_slice(block),
            Io::Write(data) => block.copy_from_slice(data),
        }
        Ok(())
    }

    /// All commands are performed, all changes agreed to, and the shard looks.
    fn drive(&mut self) {
        loop {
            while let Some(mut command) = self.shard.next_command() {
                let result = self.perform(&mut command);
                self.shard.deliver(command, result);
            }
            if self.shard.next_change().is_none() {
                return self.shard.look().expect("no change is asked for");
            }
            self.shard.agree().expect("the change was told");
        }
    }

    /// What a request is answered, which may take commands that a look brings about.
    fn answer<T>(&mut self, name: u64, of: impl Fn(Answer<'_>) -> T) -> T {
        loop {
            self.drive();
            if let Some(reply) = self.shard.next_reply() {
                assert_eq!(reply.user_data, name);
                return of(reply.answer);
            }
        }
    }

    fn write_all(&mut self, first: u8) {
        for index in 0..self.blocks.len() {
            let (block, _) = self.blocks[index];
            let byte = first.wrapping_add(block as u8);
            self.blocks[index].1 = byte;
            self.shard.submit_write(block, &[byte; 16], block).expect("there is room");
            assert!(self.answer(block, |answer| answer == Answer::Done));
        }
    }

    fn check_all(&mut self) {
        for index in 0..self.blocks.len() {
            let (block, byte) = self.blocks[index];
            self.shard.submit_read(block, block + 1000).expect("there is room");
            assert!(self.answer(block + 1000, |answer| answer == Answer::Data(&[byte; 16])), "block {block}");
        }
    }

    /// The shard's rows are rebuilt on a device of other bytes, with writes amid.
    fn rebuild(&mut self, slot: usize) {
        self.disks[slot].fill([0xaa; 16]);
        self.copy(slot);
    }

    fn copy(&mut self, slot: usize) {
        self.drive();
        while self.shard.progress(Task::Rebuild, slot).is_some() {
            assert_eq!(self.shard.turn(Task::Rebuild), Ok(Turn::Begun));
            self.write_all(self.shard.count(Count::Rebuilt) as u8);
        }
    }
}

/// Each part in a thread of its own.
fn in_threads(parts: &mut [Part], does: impl Fn(&mut Part) + Sync) {
    thread::scope(|scope| {
        for part in parts {
            scope.spawn(|| does(part));
        }
    });
}

#[test]
fn blocks_outlive_two_losses_and_a_rebuild_in_four_threads() {
    let register = Register::new(&SHAPE).expect("the shape is right");
    let mut parts: Vec<Part> = (0..SHAPE.shards).map(|number| Part::new(&register, number)).collect();
    parts[0].gone = Some(2);
    in_threads(&mut parts, |part| {
        part.write_all(1);
        part.check_all();
    });
    assert_eq!(register.slot(2), Some(State::Lost));
    register.fail(5).expect("one slot is lost");
    in_threads(&mut parts, |part| {
        part.check_all();
        part.write_all(101);
    });
    assert!(parts.iter().all(|part| part.shard.at_work(2) == 0));
    assert_eq!((register.attach(2), register.slot(2)), (Ok(1), Some(State::Rebuilding)));
    in_threads(&mut parts, |part| part.rebuild(2));
    assert_eq!((register.slot(2), register.slot(5)), (Some(State::InSync), Some(State::Lost)));
    let rebuilt: u64 = parts.iter().map(|part| part.shard.count(Count::Rebuilt)).sum();
    assert_eq!(rebuilt, SHAPE.rows);
    register.fail(0).expect("one slot is lost");
    in_threads(&mut parts, Part::check_all);
    assert!(!register.has_failed());
}

#[test]
fn a_device_is_replaced_by_four_threads() {
    let register = Register::new(&SHAPE).expect("the shape is right");
    let mut parts: Vec<Part> = (0..SHAPE.shards).map(|number| Part::new(&register, number)).collect();
    in_threads(&mut parts, |part| part.write_all(1));
    assert_eq!((register.replace(3), register.slot(3)), (Ok(1), Some(State::InSync)));
    assert_eq!((register.replace(3), register.replace(4)), (Err(Refusal::NotInSync), Err(Refusal::Replacing)));
    in_threads(&mut parts, |part| {
        part.replaced = Some(3);
        part.copy(3);
        part.write_all(101);
    });
    in_threads(&mut parts, Part::drive); // each looks once all have reported: the old device is asked no more
    in_threads(&mut parts, |part| {
        part.gone = Some(3);
        part.check_all();
        part.write_all(7);
        part.check_all();
    });
    assert_eq!((register.slot(3), register.replace(4)), (Some(State::InSync), Ok(2)));
}

#[test]
fn a_third_loss_is_seen_by_a_look() {
    let register = Register::new(&Shape { lost: 0b11, ..SHAPE }).expect("two may be lost");
    let mut part = Part::new(&register, 3);
    let (block, _) = part.blocks[0];
    part.shard.submit_read(block, 7).expect("two slots are lost");
    register.clone().fail(4).expect("two slots are lost");
    assert!(register.has_failed());
    assert!(part.answer(7, |answer| answer == Answer::ArrayFailed));
    assert_eq!(part.shard.submit_read(block, 8), Err(Refusal::ArrayFailed));
    assert_eq!(register.shard(2, 1).map(|shard| shard.number()), Err(ShapeRefusal::Begun));
}

#[test]
fn a_loss_is_answered_once_it_was_agreed_to() {
    let register = Register::new(&SHAPE).expect("the shape is right");
    let mut part = Part::new(&register, 0);
    part.gone = Some(1);
    part.shard.submit_read(0, 7).expect("there is room"); // slot 1 has block 0
    let command = part.shard.next_command().expect("a read was asked for");
    assert_eq!((command.slot(), command.shard(), part.shard.at_work(1)), (1, 0, 1));
    part.shard.deliver(command, Err(Fault::Gone));
    assert_eq!((part.shard.look(), part.shard.next_reply()), (Err(Refusal::UntoldFirst), None));
    assert_eq!(register.slot(1), Some(State::InSync));
    let change = part.shard.next_change().expect("the device is gone");
    assert_eq!((change.slot, change.generation, change.shard, change.state), (1, 0, 0, State::Lost));
    part.shard.agree().expect("the change was told");
    assert_eq!((register.slot(1), part.shard.agree()), (Some(State::Lost), Err(Refusal::NoChange)));
    assert!(part.answer(7, |answer| answer == Answer::Data(&[0; 16])));
}

#[test]
fn a_dropped_command_takes_its_device_out() {
    let register = Register::new(&SHAPE).expect("the shape is right");
    let mut part = Part::new(&register, 0);
    part.shard.submit_read(0, 7).expect("there is room"); // slot 1 has block 0
    drop(part.shard.next_command().expect("a read was asked for"));
    assert_eq!((part.shard.at_work(1), part.shard.look(), part.shard.at_work(1)), (1, Ok(()), 0));
    assert_eq!(part.shard.next_change().map(|change| (change.slot, change.state)), Some((1, State::Lost)));
    assert!(part.answer(7, |answer| answer == Answer::Data(&[0; 16])));
    assert_eq!((register.slot(1), register.attach(1)), (Some(State::Lost), Ok(1)));
}

#[test]
fn a_command_outlives_its_shard_and_its_register() {
    let register = Register::new(&SHAPE).expect("the shape is right");
    let mut shard = register.shard(0, 2).expect("the array has it");
    shard.submit_read(0, 7).expect("there is room");
    let command = shard.next_command().expect("a read was asked for");
    drop((shard, register));
    assert_eq!((command.slot(), command.row()), (1, 0));
}

#[test]
fn a_device_is_lost_without_a_command() {
    let register = Register::new(&SHAPE).expect("the shape is right");
    let mut part = Part::new(&register, 0);
    part.shard.submit_read(0, 7).expect("there is room"); // slot 1 has block 0
    let silent = part.shard.next_command().expect("a read was asked for");
    assert_eq!((register.lose(1, 0), register.lose(1, 0)), (Ok(false), Err(Refusal::AlreadyLost)));
    assert!(part.answer(7, |answer| answer == Answer::Data(&[0; 16])));
    assert_eq!((part.shard.at_work(1), part.shard.next_change()), (1, None));
    part.shard.deliver(silent, Err(Fault::Gone)); // late
    assert_eq!((register.slot(1), part.shard.at_work(1)), (Some(State::Lost), 0));
    assert_eq!((register.replace(2), register.lose(2, 1), register.slot(2)), (Ok(1), Ok(true), Some(State::InSync)));
    assert_eq!(
        (register.replace(2), register.lose(2, 0), register.slot(2)),
        (Ok(2), Ok(false), Some(State::Rebuilding))
    );
}

#[test]
fn calls_are_refused() {
    let register = Register::new(&SHAPE).expect("the shape is right");
    let mut shard = register.shard(1, 1).expect("the array has it");
    assert_eq!((SHAPE.shard_of(0), SHAPE.shard_of(64), SHAPE.shard_of(blocks())), (Some(0), Some(1), None));
    assert_eq!(shard.submit_read(0, 0), Err(Refusal::WrongShard));
    assert_eq!(shard.submit_read(blocks(), 0), Err(Refusal::NoSuchBlock));
    assert_eq!((shard.room(), shard.at_work(0), shard.at_work(99)), (256, 0, 0));
    assert_eq!((shard.turn(Task::Rebuild), shard.agree()), (Err(Refusal::NothingToDo), Err(Refusal::NoChange)));
    assert_eq!(shard.progress(Task::Check, 0).map(|it| (it.row, it.rows)), Some((16, 16..32)));
    assert_eq!((register.fail(6), register.attach(0)), (Err(Refusal::NoSlot), Err(Refusal::NotLost)));
    assert_eq!((register.lose(6, 0), register.lose(0, 1)), (Err(Refusal::NoSlot), Err(Refusal::Stale)));
    assert_eq!(register.slot(6), None);
}

#[test]
fn registers_and_shards_are_refused() {
    let lost = Register::new(&Shape { lost: 0b111, ..SHAPE }).map(|register| register.has_failed());
    assert_eq!(lost, Err(ShapeRefusal::Lost));
    let register = Register::new(&Shape { window: 9, ..SHAPE }).expect("a register has no window");
    assert_eq!(register.shard(0, 1).map(|shard| shard.number()), Err(ShapeRefusal::Window));
    let register = Register::new(&SHAPE).expect("the shape is right");
    assert_eq!(register.shard(4, 1).map(|shard| shard.number()), Err(ShapeRefusal::NoSuchShard));
    register.fail(0).expect("no slot is lost");
    register.attach(0).expect("slot 0 is lost");
    assert_eq!(register.shard(0, 1).map(|shard| shard.number()), Err(ShapeRefusal::Begun));
}

#[test]
#[should_panic(expected = "a shard is made once")]
fn a_shard_is_made_once() {
    let register = Register::new(&SHAPE).expect("the shape is right");
    let _shard = register.shard(0, 1).expect("the array has it");
    let _ = register.shard(0, 1);
}

#[test]
#[should_panic(expected = "a command is delivered where it came from")]
fn a_command_of_another_shard_is_not_taken() {
    let register = Register::new(&SHAPE).expect("the shape is right");
    let mut shard = register.shard(0, 1).expect("the array has it");
    let mut other = register.shard(1, 1).expect("the array has it");
    shard.submit_read(0, 0).expect("there is room");
    other.deliver(shard.next_command().expect("a read was asked for"), Ok(()));
}
