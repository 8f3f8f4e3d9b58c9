//! The references that an adapter has given: ids of stack frames, and numbers by which variables are asked for.

use crate::call::as_count;
use crate::client::Command;
use serde_json::Value;
use std::collections::HashSet;

#[derive(Default)]
pub struct Known {
    pub frames: HashSet<u32>,
    pub holders: HashSet<u32>,
}

impl Known {
    /// Learns those in the body of a success.
    pub fn learn(&mut self, command: Command, body: &Value) {
        match command {
            Command::StackTrace => self
                .frames
                .extend(items(body, "stackFrames").filter_map(|frame| as_count(frame.get("id")?))),
            Command::Scopes => self
                .holders
                .extend(items(body, "scopes").filter_map(holder)),
            Command::Variables => self
                .holders
                .extend(items(body, "variables").filter_map(holder)),
            Command::Evaluate | Command::SetVariable => self.holders.extend(holder(body)),
            _ => {}
        }
    }

    pub fn len(&self) -> usize {
        self.frames.len() + self.holders.len()
    }

    pub fn clear(&mut self) {
        self.frames.clear();
        self.holders.clear();
    }
}

fn items<'a>(body: &'a Value, key: &str) -> impl Iterator<Item = &'a Value> {
    body.get(key)
        .and_then(Value::as_array)
        .into_iter()
        .flatten()
}

/// The number by which variables can be asked for; 0 says that there are none.
fn holder(value: &Value) -> Option<u32> {
    as_count(value.get("variablesReference")?).filter(|&number| number > 0)
}
