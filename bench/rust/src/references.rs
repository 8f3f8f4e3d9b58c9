//! The numbers of frames and of what holds variables. They rise, and all die together.

use crate::failure::Failure;
use crate::recorded::{FrameId, HolderId};
use std::collections::HashMap;

const MOST: usize = 65536;
const GREATEST: u32 = 2147483647;

#[derive(Clone, Copy, PartialEq, Eq, Hash)]
enum Target {
    Frame(FrameId),
    Holder(HolderId),
}

#[derive(Default)]
pub struct References {
    dead: u32,
    live: Vec<Target>,
    numbers: HashMap<Target, u32>,
}

impl References {
    pub fn of_frame(&mut self, frame: FrameId) -> Result<u32, Failure> {
        self.number(Target::Frame(frame))
    }

    pub fn of_holder(&mut self, holder: HolderId) -> Result<u32, Failure> {
        self.number(Target::Holder(holder))
    }

    fn number(&mut self, target: Target) -> Result<u32, Failure> {
        if let Some(&number) = self.numbers.get(&target) {
            return Ok(number);
        }
        if self.live.len() >= MOST {
            return Err(Failure::TooManyReferences);
        }
        let last = self.dead + self.live.len() as u32;
        if last >= GREATEST {
            return Err(Failure::ReferencesExhausted);
        }
        self.live.push(target);
        self.numbers.insert(target, last + 1);
        Ok(last + 1)
    }

    pub fn frame(&self, number: u32) -> Result<FrameId, Failure> {
        match self.target(number) {
            Some(&Target::Frame(frame)) => Ok(frame),
            _ => Err(Failure::StaleReference),
        }
    }

    pub fn holder(&self, number: u32) -> Result<HolderId, Failure> {
        match self.target(number) {
            Some(&Target::Holder(holder)) => Ok(holder),
            _ => Err(Failure::StaleReference),
        }
    }

    fn target(&self, number: u32) -> Option<&Target> {
        let place = number.checked_sub(self.dead)?.checked_sub(1)?;
        self.live.get(place as usize)
    }

    /// How many are live.
    pub fn count(&self) -> usize {
        self.live.len()
    }

    /// Takes back all but the first ones.
    pub fn take_back(&mut self, first: usize) {
        for target in self.live.drain(first..) {
            self.numbers.remove(&target);
        }
    }

    pub fn clear(&mut self) {
        self.dead += self.live.len() as u32;
        self.live.clear();
        self.numbers.clear();
    }
}
