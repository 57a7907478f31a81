use std::ptr;

use crate::{Refusal, ShapeRefusal, sys};

/// As many requests of a run go to the library at one time.
const MOST: usize = 256;

/// A request that is handed in with others.
#[derive(Clone, Copy, Debug, PartialEq, Eq)]
pub struct Request<'a> {
    /// Its block.
    pub block: u64,
    /// What is written there; `None` reads it.
    pub data: Option<&'a [u8]>,
    /// What its reply brings.
    pub user_data: u64,
}

/// What became of requests that were handed in together.
#[derive(Clone, Copy, Debug, PartialEq, Eq)]
#[must_use = "the requests that weren't taken have no reply"]
#[non_exhaustive]
pub struct Taken {
    /// How many were taken, from the first on.
    pub count: usize,
    /// Why the next one was refused; `None` if all were taken.
    pub refusal: Option<Refusal>,
}

/// Room for the requests of a run, as the library has them. They point to the program's data, so it is empty between calls.
pub(crate) struct Run(Vec<sys::Request>);

impl Run {
    pub(crate) fn new() -> Result<Run, ShapeRefusal> {
        let mut requests = Vec::new();
        requests.try_reserve_exact(MOST).map_err(|_| ShapeRefusal::NoMemory)?;
        Ok(Run(requests))
    }

    /// Hands requests in by `submit`, which gets them where they stand, how many they are, and where it tells how many of
    /// them were taken, and answers 0 or the refusal of the next.
    pub(crate) fn hand_in(
        &mut self,
        requests: &[Request<'_>],
        block: usize,
        submit: impl Fn(*const sys::Request, u64, &mut u64) -> i32,
    ) -> Taken {
        let mut count = 0;
        for part in requests.chunks(MOST) {
            self.0.clear();
            self.0.extend(part.iter().map(|request| {
                assert!(request.data.is_none_or(|data| data.len() == block), "a write is of one block");
                let data = request.data.map_or(ptr::null(), <[u8]>::as_ptr);
                sys::Request { block: request.block, data, user_data: request.user_data }
            }));
            let mut taken = 0;
            let answer = submit(self.0.as_ptr(), part.len() as u64, &mut taken);
            self.0.clear();
            count += taken as usize;
            if let Err(refusal) = Refusal::check(answer) {
                return Taken { count, refusal: Some(refusal) };
            }
        }
        Taken { count, refusal: None }
    }
}
