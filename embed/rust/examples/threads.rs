//! An array whose devices are threads, against a model: a device fails at its next command, a slot is taken out, and the
//! first gets a new device, which is rebuilt while requests go on.
//!
//!     cargo run --release --example threads [REQUESTS]

use std::{
    collections::HashMap,
    env,
    error::Error,
    sync::mpsc::{Receiver, Sender, channel},
    thread,
};

use raid6::{Answer, Array, Command, Fault, Io, Shape, State, Task};

const SHAPE: Shape = Shape { slots: 6, chunk: 4, block: 4096, rows: 512, shards: 2, window: 8, lost: 0 };
/// Requests that wait for their replies.
const DEPTH: usize = 32;

enum Work {
    Perform(Command),
    Fail,
}

type Done = (Command, Result<(), Fault>);

/// A disk in memory. It does one command after another, so each is one step.
fn device(work: Receiver<Work>, done: Sender<Done>) {
    let mut disk = vec![0; SHAPE.rows as usize * SHAPE.block];
    let mut is_gone = false;
    for work in work {
        let Work::Perform(mut command) = work else {
            is_gone = true;
            continue;
        };
        let first = command.row() as usize * SHAPE.block;
        let there = &mut disk[first..first + SHAPE.block];
        match command.io() {
            _ if is_gone => {}
            Io::Read(room) => room.copy_from_slice(there),
            Io::Write(data) => there.copy_from_slice(data),
        }
        if done.send((command, if is_gone { Err(Fault::Gone) } else { Ok(()) })).is_err() {
            return;
        }
    }
}

struct Slot {
    work: Sender<Work>,
    generation: u32,
}

impl Slot {
    fn start(generation: u32, done: &Sender<Done>) -> Slot {
        let (work, todo) = channel();
        let done = done.clone();
        thread::spawn(move || device(todo, done));
        Slot { work, generation }
    }
}

struct Random(u64);

impl Random {
    fn next(&mut self) -> u64 {
        self.0 ^= self.0 << 13;
        self.0 ^= self.0 >> 7;
        self.0 ^= self.0 << 17;
        self.0
    }
}

/// Requests against a model: a byte for each block, of which at most one request is open.
struct Client {
    random: Random,
    holds: Vec<u8>,
    open: HashMap<u64, Option<u8>>,
    asked: usize,
}

impl Client {
    fn ask(&mut self, array: &mut Array) -> Result<(), Box<dyn Error>> {
        while self.open.len() < DEPTH {
            let block = self.random.next() % array.blocks();
            if self.open.contains_key(&block) {
                continue;
            }
            let byte = (self.random.next() % 2 == 0).then(|| self.random.next() as u8);
            match byte {
                Some(byte) => array.submit_write(block, &vec![byte; SHAPE.block], block)?,
                None => array.submit_read(block, block)?,
            }
            self.open.insert(block, byte);
            self.asked += 1;
        }
        Ok(())
    }

    fn take(&mut self, array: &mut Array) {
        while let Some(reply) = array.next_reply() {
            let block = reply.user_data;
            match (reply.answer, self.open.remove(&block).expect("the request is open")) {
                (Answer::Data(data), None) => assert!(data.iter().all(|byte| *byte == self.holds[block as usize])),
                (Answer::Done, Some(byte)) => self.holds[block as usize] = byte,
                (answer, asked) => panic!("{asked:?} was answered by {answer:?}"),
            }
        }
    }
}

fn main() -> Result<(), Box<dyn Error>> {
    let requests = env::args().nth(1).map_or(Ok(60_000), |word| word.parse())?;
    let mut array = Array::new(&SHAPE, 64)?;
    let (done, completions) = channel();
    let mut slots: Vec<Slot> = (0..SHAPE.slots).map(|_| Slot::start(0, &done)).collect();
    let holds = vec![0; array.blocks() as usize];
    let mut client = Client { random: Random(1), holds, open: HashMap::new(), asked: 0 };
    let (mut at_work, mut stage) = (0, 0);
    while client.asked < requests {
        client.ask(&mut array)?;
        match stage {
            0 if client.asked > requests / 3 => slots[3].work.send(Work::Fail)?,
            1 if client.asked > requests / 2 => array.fail(1)?,
            2 if client.asked > requests / 3 * 2 && array.at_work(3) == 0 => {
                slots[3] = Slot::start(array.attach(3)?, &done);
            }
            _ => stage -= 1,
        }
        stage += 1;
        for shard in 0..SHAPE.shards {
            // nothing to do, for the most part
            let _ = array.turn(shard, Task::Rebuild);
        }
        while let Some(command) = array.next_command() {
            let slot = &slots[command.slot()];
            if slot.generation == command.generation() {
                slot.work.send(Work::Perform(command))?;
                at_work += 1;
            } else {
                array.deliver(command, Err(Fault::Gone));
            }
        }
        while at_work > 0 {
            let (command, result) = completions.recv()?;
            array.deliver(command, result);
            at_work -= 1;
        }
        while let Some(change) = array.next_change() {
            println!("shard {}: slot {} {:?}", change.shard, change.slot, change.state); // where a loss is written down
            array.agree()?;
        }
        client.take(&mut array);
    }
    println!("{} requests, each answered as the model has it", client.asked);
    assert_eq!((array.slot(1), array.slot(3)), (Some(State::Lost), Some(State::InSync)));
    Ok(())
}
