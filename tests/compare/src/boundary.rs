//! What all calls of the library share: its two structs, and runs as pointers.
//!
//! An empty run crosses as a null pointer, which the boundary allows.

use crate::case::{Input, Reply};
use std::ptr::{null, null_mut};

#[repr(C)]
#[derive(Clone, Copy)]
pub struct Answer {
    pub number: u32,
    pub first: u32,
    pub second: u32,
    pub count: u32,
}

#[repr(C)]
#[derive(Clone, Copy)]
pub struct Record {
    pub number: u64,
    pub start: u64,
    pub end: u64,
    pub next: u64,
}

impl Answer {
    pub fn reply(self) -> Reply {
        [self.number, self.first, self.second, self.count].map(u64::from)
    }
}

/// The independent program's answer in the same form.
pub fn reply_of(answer: independent::answer::Answer) -> Reply {
    [answer.number, answer.first, answer.second, answer.count].map(u64::from)
}

impl Input {
    pub fn len(&self) -> usize {
        match self {
            Input::Bytes(run) => run.len(),
            Input::Counts(run) => run.len(),
            Input::Number(_) => panic!("a run wanted"),
        }
    }

    pub fn at(&self) -> *const u8 {
        if self.len() == 0 {
            null()
        } else {
            self.bytes().as_ptr()
        }
    }

    pub fn at_mut(&mut self) -> *mut u8 {
        if self.len() == 0 {
            null_mut()
        } else {
            self.bytes_mut().as_mut_ptr()
        }
    }

    pub fn counts_at(&self) -> *const u32 {
        if self.len() == 0 {
            null()
        } else {
            self.counts().as_ptr()
        }
    }

    pub fn byte(&self) -> u8 {
        self.number() as u8
    }
}
