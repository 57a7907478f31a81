//! `raid6.h`, as far as the crate calls it.

#[repr(C)]
pub struct Raid6([u8; 0]);

#[repr(C)]
pub struct Shard([u8; 0]);

#[repr(C)]
pub struct Register([u8; 0]);

#[repr(C)]
pub struct Shape {
    pub slots: u64,
    pub chunk: u64,
    pub block: u64,
    pub rows: u64,
    pub shards: u64,
    pub window: u64,
    pub lost: u32,
    pub reserved: u32,
}

#[repr(C)]
pub struct Command {
    pub fault: u32,
    pub is_write: u32,
    pub slot: u64,
    pub shard: u64,
    pub row: u64,
    pub generation: u32,
    pub reserved: u32,
    pub block: *mut u8,
}

#[repr(C)]
pub struct Change {
    pub slot: u32,
    pub generation: u32,
    pub shard: u32,
    pub state: u32,
}

#[repr(C)]
pub struct Reply {
    pub user_data: u64,
    pub block: *const u8,
    pub kind: u32,
    pub reserved: u32,
}

#[repr(C)]
pub struct Request {
    pub block: u64,
    pub user_data: u64,
    pub data: *const u8,
}

unsafe extern "C" {
    pub fn raid6_errno(refusal: i32) -> i32;
    pub fn raid6_new(shape: *const Shape, array: *mut *mut Raid6) -> i32;
    pub fn raid6_free(array: *mut Raid6);
    pub fn raid6_blocks(array: *mut Raid6) -> u64;
    pub fn raid6_command_new(shape: *const Shape, command: *mut *mut Command) -> i32;
    pub fn raid6_command_free(array: *mut Raid6, command: *mut Command);
    pub fn raid6_submit(array: *mut Raid6, block: u64, data: *const u8, user_data: u64) -> i32;
    pub fn raid6_submit_run(array: *mut Raid6, requests: *const Request, count: u64, taken: *mut u64) -> i32;
    pub fn raid6_room(array: *mut Raid6, block: u64) -> u64;
    pub fn raid6_next_command(array: *mut Raid6, command: *mut Command) -> i32;
    pub fn raid6_deliver(array: *mut Raid6, command: *mut Command) -> i32;
    pub fn raid6_next_change(array: *mut Raid6, change: *mut Change) -> i32;
    pub fn raid6_agree(array: *mut Raid6) -> i32;
    pub fn raid6_next_reply(array: *mut Raid6, reply: *mut Reply) -> i32;
    pub fn raid6_fail(array: *mut Raid6, slot: u32) -> i32;
    pub fn raid6_lose(array: *mut Raid6, slot: u32, generation: u32, kept: *mut i32) -> i32;
    pub fn raid6_attach(array: *mut Raid6, slot: u32, generation: *mut u32) -> i32;
    pub fn raid6_replace(array: *mut Raid6, slot: u32, generation: *mut u32) -> i32;
    pub fn raid6_at_work(array: *mut Raid6, slot: u32) -> u64;
    pub fn raid6_turn(array: *mut Raid6, shard: u32, task: i32) -> i32;
    pub fn raid6_progress(
        array: *mut Raid6,
        shard: u32,
        task: i32,
        slot: u32,
        row: *mut u64,
        first: *mut u64,
        end: *mut u64,
    ) -> i32;
    pub fn raid6_slot(array: *mut Raid6, slot: u32, failed: *mut i32) -> i32;
    pub fn raid6_count(array: *mut Raid6, shard: u32, which: i32) -> u64;
    pub fn raid6_shard_of(shape: *const Shape, block: u64) -> i32;
    pub fn raid6_register_new(shape: *const Shape, register: *mut *mut Register) -> i32;
    pub fn raid6_register_free(register: *mut Register);
    pub fn raid6_register_fail(register: *mut Register, slot: u32) -> i32;
    pub fn raid6_register_lose(register: *mut Register, slot: u32, generation: u32, kept: *mut i32) -> i32;
    pub fn raid6_register_attach(register: *mut Register, slot: u32, generation: *mut u32) -> i32;
    pub fn raid6_register_replace(register: *mut Register, slot: u32, generation: *mut u32) -> i32;
    pub fn raid6_register_slot(register: *mut Register, slot: u32, failed: *mut i32) -> i32;
    pub fn raid6_shard_new(register: *mut Register, number: u32, shard: *mut *mut Shard) -> i32;
    pub fn raid6_shard_free(shard: *mut Shard);
    pub fn raid6_shard_command_free(shard: *mut Shard, command: *mut Command);
    pub fn raid6_shard_submit(shard: *mut Shard, block: u64, data: *const u8, user_data: u64) -> i32;
    pub fn raid6_shard_submit_run(shard: *mut Shard, requests: *const Request, count: u64, taken: *mut u64) -> i32;
    pub fn raid6_shard_room(shard: *mut Shard) -> u64;
    pub fn raid6_shard_next_command(shard: *mut Shard, command: *mut Command) -> i32;
    pub fn raid6_shard_deliver(shard: *mut Shard, command: *mut Command) -> i32;
    pub fn raid6_shard_next_change(shard: *mut Shard, change: *mut Change) -> i32;
    pub fn raid6_shard_agree(shard: *mut Shard, register: *mut Register) -> i32;
    pub fn raid6_shard_look(shard: *mut Shard, register: *mut Register) -> i32;
    pub fn raid6_shard_next_reply(shard: *mut Shard, reply: *mut Reply) -> i32;
    pub fn raid6_shard_at_work(shard: *mut Shard, slot: u32) -> u64;
    pub fn raid6_shard_turn(shard: *mut Shard, task: i32) -> i32;
    pub fn raid6_shard_progress(
        shard: *mut Shard,
        task: i32,
        slot: u32,
        row: *mut u64,
        first: *mut u64,
        end: *mut u64,
    ) -> i32;
    pub fn raid6_shard_count(shard: *mut Shard, which: i32) -> u64;
}
