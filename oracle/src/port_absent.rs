//! In place of port.rs where the feature `port` is off: the same words, and no call is brought here (`PRESENT` is asked first).
use crate::calls::{Call, Mode, Runs, Said, Scan, Wins};
use crate::model::Sieve;

pub const PRESENT: bool = false;

pub fn has(_: &Call) -> bool {
    false
}

#[derive(Clone, Copy, Debug)]
pub struct Session;

#[derive(Default)]
pub struct Desk;

impl Session {
    pub fn over(_: Scan) -> Session {
        Session
    }
    pub fn open(self, _: Wins, _: Mode) -> Session {
        self
    }
    pub fn scan(&self) -> Scan {
        absent()
    }
    pub fn sieve(&self) -> Option<Sieve> {
        absent()
    }
    pub fn call(&mut self, _: &Runs, _: &Call, _: &mut Desk) -> Said {
        absent()
    }
}

fn absent() -> ! {
    unreachable!("the port is not there")
}
