//! The calls over devices in memory, and what they refuse.

use raid6::{Answer, Array, Command, Count, Fault, Io, Refusal, Request, Shape, ShapeRefusal, State, Task, Turn};

const SHAPE: Shape = Shape { slots: 6, chunk: 4, block: 16, rows: 8, shards: 2, window: 8, lost: 0 };

/// Devices in memory, of which some fail, and one that is to replace a slot's.
struct Disks {
    blocks: Vec<Vec<[u8; 16]>>,
    gone: Vec<usize>,
    second: Option<Second>,
}

struct Second {
    slot: usize,
    generation: u32,
    blocks: Vec<[u8; 16]>,
}

impl Disks {
    fn new() -> Disks {
        Disks { blocks: vec![vec![[0; 16]; SHAPE.rows as usize]; SHAPE.slots], gone: Vec::new(), second: None }
    }

    fn perform(&mut self, command: &mut Command) -> Result<(), Fault> {
        let (slot, row) = (command.slot(), command.row() as usize);
        let block = match &mut self.second {
            Some(second) if (second.slot, second.generation) == (slot, command.generation()) => &mut second.blocks[row],
            _ if self.gone.contains(&slot) => return Err(Fault::Gone),
            _ => &mut self.blocks[slot][row],
        };
        match command.io() {
            Io::Read(room) => room.copy_from_slice(block),
            Io::Write(data) => block.copy_from_slice(data),
        }
        Ok(())
    }

    /// All commands are performed and all changes agreed to.
    fn drive(&mut self, array: &mut Array) {
        loop {
            while let Some(mut command) = array.next_command() {
                let result = self.perform(&mut command);
                array.deliver(command, result);
            }
            if array.next_change().is_none() {
                return;
            }
            array.agree().expect("the change was told");
        }
    }

    fn write(&mut self, array: &mut Array, block: u64, byte: u8) {
        array.submit_write(block, &[byte; 16], block).expect("there is room");
        self.drive(array);
        let reply = array.next_reply().expect("the write is done");
        assert_eq!((reply.user_data, reply.answer), (block, Answer::Done));
    }

    fn check(&mut self, array: &mut Array, block: u64, byte: u8) {
        array.submit_read(block, block + 1000).expect("there is room");
        self.drive(array);
        let reply = array.next_reply().expect("the read is done");
        assert_eq!((reply.user_data, reply.answer), (block + 1000, Answer::Data(&[byte; 16])));
    }
}

#[test]
fn blocks_outlive_two_losses_and_a_rebuild() {
    let mut array = Array::new(&SHAPE, 8).expect("the shape is right");
    let mut disks = Disks::new();
    assert_eq!(array.blocks(), 32);
    for block in 0..32 {
        disks.write(&mut array, block, block as u8 + 1);
    }
    disks.gone.push(2);
    array.fail(5).expect("no slot is lost");
    for block in 0..32 {
        disks.check(&mut array, block, block as u8 + 1);
    }
    assert_eq!((array.slot(2), array.slot(5)), (Some(State::Lost), Some(State::Lost)));
    for block in 0..32 {
        disks.write(&mut array, block, block as u8 + 101);
    }
    disks.gone.clear();
    disks.blocks[2].fill([0xaa; 16]);
    assert_eq!((array.at_work(2), array.attach(2)), (0, Ok(1)));
    assert!(array.progress(1, Task::Rebuild, 2).is_none() && array.next_reply().is_none()); // the shards see the attach now
    assert_eq!(array.progress(1, Task::Rebuild, 2).map(|it| (it.row, it.rows)), Some((4, 4..8)));
    for shard in 0..SHAPE.shards {
        while array.turn(shard, Task::Rebuild) == Ok(Turn::Begun) {
            disks.drive(&mut array);
        }
        assert_eq!((array.count(shard, Count::Rebuilt), array.progress(shard, Task::Rebuild, 2)), (4, None));
    }
    assert_eq!(array.slot(2), Some(State::InSync));
    array.fail(0).expect("one slot is lost");
    for block in 0..32 {
        disks.check(&mut array, block, block as u8 + 101);
    }
}

/// How many requests are taken, and why the next one is refused.
fn hand_in(array: &mut Array, requests: &[Request<'_>]) -> (usize, Option<Refusal>) {
    let taken = array.submit_run(requests);
    (taken.count, taken.refusal)
}

#[test]
fn whole_rows_that_are_handed_in_together_are_written_with_no_read() {
    let mut array = Array::new(&SHAPE, 8).expect("the shape is right");
    let mut disks = Disks::new();
    let blocks: Vec<[u8; 16]> = (0..32).map(|block| [block + 1; 16]).collect();
    let writes: Vec<Request> =
        (0..32).map(|block| Request { block, data: Some(&blocks[block as usize]), user_data: block }).collect();
    assert_eq!(hand_in(&mut array, &writes), (32, None)); // of both shards
    let mut commands = 0;
    while let Some(mut command) = array.next_command() {
        assert!(matches!(command.io(), Io::Write(_)));
        let result = disks.perform(&mut command);
        array.deliver(command, result);
        commands += 1;
    }
    assert_eq!(commands, SHAPE.rows as usize * SHAPE.slots);
    let mut done: Vec<u64> = Vec::new();
    while let Some(reply) = array.next_reply() {
        assert_eq!(reply.answer, Answer::Done);
        done.push(reply.user_data);
    }
    done.sort_unstable();
    assert_eq!(done, (0..32).collect::<Vec<u64>>());
    for block in 0..32 {
        disks.check(&mut array, block, block as u8 + 1);
    }
    let reads = [0, 32, 1].map(|block| Request { block, data: None, user_data: block });
    assert_eq!(hand_in(&mut array, &reads), (1, Some(Refusal::NoSuchBlock)));
    assert_eq!(hand_in(&mut array, &[]), (0, None));
}

#[test]
fn a_device_is_replaced_while_it_works() {
    let mut array = Array::new(&SHAPE, 8).expect("the shape is right");
    let mut disks = Disks::new();
    for block in 0..32 {
        disks.write(&mut array, block, block as u8 + 1);
    }
    assert_eq!((array.replace(3), array.slot(3)), (Ok(1), Some(State::InSync)));
    assert_eq!((array.replace(3), array.replace(4)), (Err(Refusal::NotInSync), Err(Refusal::Replacing)));
    disks.second = Some(Second { slot: 3, generation: 1, blocks: vec![[0xaa; 16]; SHAPE.rows as usize] });
    assert!(array.next_reply().is_none()); // the shards see the new device now
    for shard in 0..SHAPE.shards {
        while array.turn(shard, Task::Rebuild) == Ok(Turn::Begun) {
            disks.drive(&mut array);
        }
        assert_eq!(array.count(shard, Count::Rebuilt), 4);
    }
    for block in 0..32 {
        disks.write(&mut array, block, block as u8 + 101);
    }
    assert!(array.next_reply().is_none()); // each shard has looked: the old device is asked no more
    disks.gone.push(3);
    for block in 0..32 {
        disks.check(&mut array, block, block as u8 + 101);
    }
    assert_eq!((array.slot(3), array.replace(4)), (Some(State::InSync), Ok(2)));
}

/// Slot 3 is being replaced, by a device of this generation, and each shard has seen that and copied a row.
fn begin_to_replace(array: &mut Array, disks: &mut Disks, generation: u32) {
    assert_eq!(array.replace(3), Ok(generation));
    disks.second = Some(Second { slot: 3, generation, blocks: vec![[0xaa; 16]; SHAPE.rows as usize] });
    assert!(array.next_reply().is_none()); // the shards see the new device now
    for shard in 0..SHAPE.shards {
        assert_eq!(array.turn(shard, Task::Rebuild), Ok(Turn::Begun));
        disks.drive(array);
    }
}

#[test]
fn one_of_two_devices_is_lost_without_a_command() {
    let mut array = Array::new(&SHAPE, 8).expect("the shape is right");
    let mut disks = Disks::new();
    for block in 0..32 {
        disks.write(&mut array, block, block as u8 + 1);
    }
    begin_to_replace(&mut array, &mut disks, 1);
    assert_eq!(
        (array.lose(3, 2), array.lose(3, 1), array.lose(3, 1)),
        (Err(Refusal::Stale), Ok(true), Err(Refusal::Stale))
    );
    assert_eq!(array.slot(3), Some(State::InSync));
    assert!(array.next_reply().is_none()); // each shard has looked: the new device is asked no more
    disks.second = None;
    for block in 0..32 {
        disks.check(&mut array, block, block as u8 + 1);
        disks.write(&mut array, block, block as u8 + 101);
    }
    begin_to_replace(&mut array, &mut disks, 2);
    assert_eq!((array.lose(3, 0), array.slot(3)), (Ok(false), Some(State::Rebuilding)));
    assert!(array.next_reply().is_none());
    disks.blocks[3].fill([0xbb; 16]);
    for shard in 0..SHAPE.shards {
        while array.turn(shard, Task::Rebuild) == Ok(Turn::Begun) {
            disks.drive(&mut array);
        }
    }
    assert_eq!((array.slot(3), array.next_change(), array.has_failed()), (Some(State::InSync), None, false));
    for block in 0..32 {
        disks.check(&mut array, block, block as u8 + 101);
    }
}

#[test]
fn a_request_goes_on_without_a_silent_device() {
    let mut array = Array::new(&SHAPE, 8).expect("the shape is right");
    let mut disks = Disks::new();
    array.submit_read(0, 7).expect("there is room");
    let command = array.next_command().expect("a read was asked for");
    assert!(array.next_command().is_none() && array.next_reply().is_none());
    let slot = command.slot();
    assert_eq!((array.lose(slot, 0), array.lose(slot, 0)), (Ok(false), Err(Refusal::AlreadyLost)));
    assert!(array.next_reply().is_none()); // the shards see the loss now
    disks.drive(&mut array);
    assert_eq!(array.next_reply().map(|reply| (reply.user_data, reply.answer)), Some((7, Answer::Data(&[0; 16]))));
    assert_eq!(array.at_work(slot), 1);
    array.deliver(command, Err(Fault::Gone)); // late
    assert_eq!((array.at_work(slot), array.next_change(), array.attach(slot)), (0, None, Ok(1)));
}

#[test]
fn a_third_loss_answers_what_is_open() {
    let mut array = Array::new(&Shape { lost: 0b11, ..SHAPE }, 8).expect("two may be lost");
    assert_eq!([0, 1, 2].map(|slot| array.slot(slot)), [State::Lost, State::Lost, State::InSync].map(Some));
    assert!(array.submit_read(0, 7).is_ok() && !array.has_failed());
    array.fail(4).expect("two slots are lost");
    Disks::new().drive(&mut array);
    assert_eq!(array.next_reply().map(|reply| (reply.user_data, reply.answer)), Some((7, Answer::ArrayFailed)));
    assert!(array.has_failed());
    assert_eq!(array.submit_read(0, 8), Err(Refusal::ArrayFailed));
    assert_eq!(array.fail(3), Err(Refusal::ArrayFailed));
    assert_eq!((array.lose(3, 0), array.attach(0)), (Err(Refusal::ArrayFailed), Err(Refusal::ArrayFailed)));
}

#[test]
fn shapes_are_refused_in_order() {
    let tries = [
        (Shape { slots: 3, ..SHAPE }, ShapeRefusal::Slots),
        (Shape { chunk: 129, ..SHAPE }, ShapeRefusal::Chunk),
        (Shape { block: 24, ..SHAPE }, ShapeRefusal::Block),
        (Shape { rows: 9, ..SHAPE }, ShapeRefusal::Rows),
        (Shape { shards: 3, ..SHAPE }, ShapeRefusal::Shards),
        (Shape { window: 9, ..SHAPE }, ShapeRefusal::Window),
        (Shape { lost: 0b111, ..SHAPE }, ShapeRefusal::Lost),
        (Shape { window: 0, lost: 1 << 6, ..SHAPE }, ShapeRefusal::Window),
    ];
    for (shape, refusal) in tries {
        assert_eq!(Array::new(&shape, 1).map(|array| array.blocks()), Err(refusal));
    }
}

#[test]
fn calls_are_refused() {
    let mut array = Array::new(&SHAPE, 1).expect("the shape is right");
    assert_eq!(array.submit_read(32, 0), Err(Refusal::NoSuchBlock));
    assert_eq!((array.room(0), array.room(32)), (256, 0));
    assert_eq!(array.agree(), Err(Refusal::NoChange));
    assert_eq!((array.fail(6), array.fail(1 << 32)), (Err(Refusal::NoSlot), Err(Refusal::NoSlot)));
    assert_eq!((array.lose(6, 0), array.lose(0, 1)), (Err(Refusal::NoSlot), Err(Refusal::Stale)));
    assert_eq!((array.attach(6), array.attach(0)), (Err(Refusal::NoSlot), Err(Refusal::NotLost)));
    assert_eq!(array.turn(2, Task::Check), Err(Refusal::WrongShard));
    assert_eq!(array.turn(0, Task::Rebuild), Err(Refusal::NothingToDo));
    assert_eq!((array.slot(6), array.progress(2, Task::Check, 0)), (None, None));
    array.fail(0).expect("no slot is lost");
    assert!(array.next_reply().is_none()); // the shards see the loss now
    assert_eq!((array.fail(0), array.turn(0, Task::Repair)), (Err(Refusal::AlreadyLost), Ok(Turn::PassedOver)));
}

#[test]
fn no_more_commands_are_out_than_there_is_room_for() {
    let mut array = Array::new(&SHAPE, 2).expect("the shape is right");
    for block in [0, 1, 2] {
        array.submit_read(block, block).expect("there is room");
    }
    let first = array.next_command().expect("a read was asked for");
    let _second = array.next_command().expect("a read was asked for");
    assert!(array.next_command().is_none());
    array.deliver(first, Ok(()));
    assert!(array.next_command().is_some());
}

#[test]
#[should_panic(expected = "a command is delivered where it came from")]
fn a_command_of_another_array_is_not_taken() {
    let mut array = Array::new(&SHAPE, 1).expect("the shape is right");
    let mut other = Array::new(&SHAPE, 1).expect("the shape is right");
    array.submit_read(0, 0).expect("there is room");
    other.deliver(array.next_command().expect("a read was asked for"), Ok(()));
}

#[test]
fn a_dropped_command_takes_its_device_out() {
    let mut array = Array::new(&SHAPE, 1).expect("the shape is right");
    array.submit_read(0, 7).expect("there is room");
    let command = array.next_command().expect("a read was asked for");
    let slot = command.slot();
    std::thread::spawn(move || drop(command)).join().expect("the thread ends well");
    assert!(array.at_work(slot) == 1 && array.next_reply().is_none() && array.at_work(slot) == 0);
    let change = array.next_change().expect("the device is gone");
    assert_eq!((change.slot, change.generation, change.state), (slot, 0, State::Lost));
    Disks::new().drive(&mut array); // with the one command that there is room for
    assert_eq!(array.next_reply().map(|reply| (reply.user_data, reply.answer)), Some((7, Answer::Data(&[0; 16]))));
    assert_eq!((array.slot(slot), array.attach(slot)), (Some(State::Lost), Ok(1)));
}

#[test]
fn a_dropped_command_is_delivered_before_the_next_one() {
    let mut array = Array::new(&SHAPE, 2).expect("the shape is right");
    for block in [0, 1] {
        array.submit_read(block, block).expect("there is room");
    }
    let first = array.next_command().expect("a read was asked for");
    let mut second = array.next_command().expect("a read was asked for");
    assert_eq!(first.slot(), second.slot());
    let result = Disks::new().perform(&mut second);
    drop(first);
    array.deliver(second, result);
    assert_eq!(array.next_change().map(|change| change.state), Some(State::Lost));
    array.agree().expect("the change was told");
    assert!(array.next_reply().is_none()); // what the device answered after it was lost isn't told
}

#[test]
fn a_command_that_another_array_refuses_comes_back() {
    let mut array = Array::new(&SHAPE, 1).expect("the shape is right");
    let mut other = Array::new(&SHAPE, 1).expect("the shape is right");
    array.submit_read(0, 0).expect("there is room");
    let command = array.next_command().expect("a read was asked for");
    let refused = std::panic::catch_unwind(std::panic::AssertUnwindSafe(|| other.deliver(command, Ok(()))));
    assert!(refused.is_err() && array.next_reply().is_none());
    assert!(array.next_change().is_some() && other.next_reply().is_none() && other.next_change().is_none());
}

#[test]
fn a_command_outlives_its_array() {
    let mut array = Array::new(&SHAPE, 1).expect("the shape is right");
    array.submit_write(0, &[3; 16], 0).expect("there is room");
    let mut command = array.next_command().expect("a write begins with reads");
    drop(array);
    assert!(matches!(command.io(), Io::Read(block) if block.len() == 16));
}

#[test]
fn an_array_and_its_commands_change_threads() {
    let mut array = Array::new(&SHAPE, 8).expect("the shape is right");
    array.submit_write(5, &[9; 16], 0).expect("there is room");
    let mut command = array.next_command().expect("a write begins with reads");
    let mut array = std::thread::spawn(move || {
        let result = Disks::new().perform(&mut command);
        array.deliver(command, result);
        array
    })
    .join()
    .expect("the thread ends well");
    let mut disks = Disks::new();
    disks.drive(&mut array);
    assert_eq!(array.next_reply().map(|reply| reply.answer), Some(Answer::Done));
    disks.check(&mut array, 5, 9);
}
