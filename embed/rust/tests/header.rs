//! The numbers of the crate beside those of `raid6.h`.

use std::{collections::HashMap, io};

use raid6::{Count, Fault, Refusal, Task};

/// `RAID6_NAME = NUMBER` of the header.
fn numbers() -> HashMap<&'static str, i32> {
    include_str!("../../c/raid6.h")
        .split([',', ';', '{', '}', '\n'])
        .filter_map(|part| part.trim().strip_prefix("RAID6_")?.split_once(" = "))
        .filter_map(|(name, number)| Some((name, number.split_whitespace().next()?.parse().ok()?)))
        .collect()
}

#[test]
fn refusals_have_the_numbers_of_the_header() {
    let numbers = numbers();
    let refusals = [
        (Refusal::NoSuchBlock, "NO_SUCH_BLOCK"),
        (Refusal::WrongShard, "WRONG_SHARD"),
        (Refusal::Busy, "BUSY"),
        (Refusal::ArrayFailed, "ARRAY_FAILED"),
        (Refusal::Exhausted, "EXHAUSTED"),
        (Refusal::UntoldFirst, "UNTOLD_FIRST"),
        (Refusal::NoFrame, "NO_FRAME"),
        (Refusal::NothingToDo, "NOTHING_TO_DO"),
        (Refusal::UnknownChange, "UNKNOWN_CHANGE"),
        (Refusal::NoChange, "NONE"),
        (Refusal::NoSlot, "NO_SLOT"),
        (Refusal::AlreadyLost, "ALREADY_LOST"),
        (Refusal::Stale, "STALE"),
        (Refusal::NotLost, "NOT_LOST"),
        (Refusal::Spent, "SPENT"),
    ];
    for (refusal, name) in refusals {
        assert_eq!(Some(&refusal.number()), numbers.get(name), "{name}");
    }
}

#[test]
fn faults_and_tasks_have_the_numbers_of_the_header() {
    let numbers = numbers();
    let faults = [Fault::Read, Fault::Write, Fault::Gone, Fault::Length].map(|fault| Some(fault as i32));
    let told = ["READ_FAULT", "WRITE_FAULT", "GONE", "LENGTH"].map(|name| numbers.get(name).copied());
    assert_eq!(faults, told);
    let tasks = [Task::Rebuild, Task::Check, Task::Repair].map(|task| Some(task as i32));
    assert_eq!(tasks, ["REBUILD", "CHECK", "REPAIR"].map(|name| numbers.get(name).copied()));
    assert_eq!(Count::Rebuilt as i32, 7); // the last of the header's list, which has no numbers
}

#[test]
fn refusals_are_errors_of_the_system() {
    let kinds = [Refusal::Busy, Refusal::NoSlot].map(|refusal| io::Error::from(refusal).kind());
    assert_eq!(kinds, [io::ErrorKind::WouldBlock, io::ErrorKind::InvalidInput]);
    assert_eq!(
        [Refusal::ArrayFailed, Refusal::Stale].map(|it| io::Error::from(it).raw_os_error()),
        [Some(5), Some(116)]
    );
}
