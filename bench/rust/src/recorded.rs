//! A recorded run, as `docs/RECORDINGS.md` has it. Frames and what holds variables have numbers over the whole
//! recording.

use crate::call::{Move, SourceName};
use serde::Deserialize;
use std::collections::{HashMap, VecDeque};
use std::ffi::OsStr;
use std::fs::File;
use std::io::{BufReader, Error, ErrorKind};
use std::ops::Range;

const PIECE: usize = 128;

pub type FrameId = usize;
pub type HolderId = usize;

pub struct Recorded {
    exit: i32,
    sources: Vec<Source>,
    moments: Vec<Moment>,
    frames: Vec<Frame>,
    holders: Vec<Vec<Variable>>,
    /// The variables of the holders in which a value was set at this stop.
    changed: HashMap<HolderId, Vec<Variable>>,
    /// The lines last set, by the name of a source.
    lines: HashMap<SourceName, Vec<u64>>,
    shown: Option<usize>,
    untold: VecDeque<String>,
    goal: (usize, &'static str),
    held: bool,
}

pub struct Source {
    pub name: String,
    pub path: Option<String>,
    pub text: String,
    lines: u64,
}

pub struct Moment {
    pub threads: Vec<Thread>,
    /// The place of the one that came to the moment.
    thread: usize,
    output: String,
    waits: bool,
}

pub struct Thread {
    pub id: i64,
    pub name: String,
    pub frames: Range<FrameId>,
}

pub struct Frame {
    pub name: String,
    pub source: usize,
    pub line: u32,
    pub scopes: Vec<Scope>,
}

pub struct Scope {
    pub name: String,
    pub holder: HolderId,
}

#[derive(Clone)]
pub struct Variable {
    pub name: String,
    pub value: String,
    pub holder: Option<HolderId>,
}

pub enum Happened {
    Output(String),
    Stopped { reason: &'static str, thread: i64 },
    Exited { code: i32 },
}

impl Recorded {
    pub fn open(path: &OsStr) -> Result<Self, Error> {
        let read: file::Recording = serde_json::from_reader(BufReader::new(File::open(path)?))?;
        let mut made = Recorded {
            exit: read.exit,
            sources: read.sources.into_iter().map(Source::from).collect(),
            moments: Vec::with_capacity(read.moments.len()),
            frames: Vec::new(),
            holders: Vec::new(),
            changed: HashMap::new(),
            lines: HashMap::new(),
            shown: None,
            untold: VecDeque::new(),
            goal: (0, "entry"),
            held: false,
        };
        for moment in read.moments {
            let moment = made.moment(moment)?;
            made.moments.push(moment);
        }
        if made.moments.is_empty() {
            return Err(malformed("moments"));
        }
        Ok(made)
    }

    fn moment(&mut self, read: file::Moment) -> Result<Moment, Error> {
        let thread = read
            .threads
            .iter()
            .position(|thread| thread.id == read.thread);
        let thread = thread.ok_or_else(|| malformed("thread"))?;
        let mut threads = Vec::with_capacity(read.threads.len());
        for thread in read.threads {
            threads.push(self.thread(thread)?);
        }
        Ok(Moment {
            threads,
            thread,
            output: read.output,
            waits: read.waits,
        })
    }

    fn thread(&mut self, read: file::Thread) -> Result<Thread, Error> {
        if read.frames.is_empty() {
            return Err(malformed("frames"));
        }
        let first = self.frames.len();
        for frame in read.frames {
            let source = self
                .sources
                .get(frame.source)
                .ok_or_else(|| malformed("source"))?;
            if !(1..=source.lines).contains(&frame.line.into()) {
                return Err(malformed("line"));
            }
            let scopes = frame
                .scopes
                .into_iter()
                .map(|scope| self.scope(scope))
                .collect();
            self.frames.push(Frame {
                name: frame.name,
                source: frame.source,
                line: frame.line,
                scopes,
            });
        }
        Ok(Thread {
            id: read.id,
            name: read.name,
            frames: first..self.frames.len(),
        })
    }

    fn scope(&mut self, read: file::Scope) -> Scope {
        Scope {
            name: read.name,
            holder: self.hold(read.variables),
        }
    }

    fn hold(&mut self, read: Vec<file::Variable>) -> HolderId {
        let holder = self.holders.len();
        self.holders.push(Vec::new());
        self.holders[holder] = read
            .into_iter()
            .map(|variable| self.variable(variable))
            .collect();
        holder
    }

    fn variable(&mut self, read: file::Variable) -> Variable {
        let holder = Some(read.variables)
            .filter(|held| !held.is_empty())
            .map(|held| self.hold(held));
        Variable {
            name: read.name,
            value: read.value,
            holder,
        }
    }

    // ---- What is shown

    pub fn threads(&self) -> &[Thread] {
        self.shown.map_or(&[], |shown| &self.moments[shown].threads)
    }

    pub fn thread_of(&self, id: i64) -> Option<&Thread> {
        self.threads().iter().find(|thread| thread.id == id)
    }

    pub fn frame(&self, frame: FrameId) -> &Frame {
        &self.frames[frame]
    }

    pub fn children(&self, holder: HolderId) -> &[Variable] {
        self.changed.get(&holder).unwrap_or(&self.holders[holder])
    }

    /// The first variable of that name that stands directly in a scope of the frame.
    pub fn evaluate(&self, frame: FrameId, text: &str) -> Option<&Variable> {
        let scopes = self.frames[frame].scopes.iter();
        scopes
            .flat_map(|scope| self.children(scope.holder))
            .find(|variable| variable.name == text)
    }

    /// Where the first variable of that name stands directly in a holder.
    pub fn place_of(&self, holder: HolderId, name: &str) -> Option<usize> {
        let mut children = self.children(holder).iter();
        children.position(|variable| variable.name == name)
    }

    /// Sets a value, until the next move.
    pub fn assign(&mut self, holder: HolderId, place: usize, value: &str) {
        let recorded = &self.holders[holder];
        let changed = self.changed.entry(holder);
        changed.or_insert_with(|| recorded.clone())[place].value = value.to_owned();
    }

    pub fn sources(&self) -> &[Source] {
        &self.sources
    }

    // ---- Breakpoints

    /// How many lines the longest source of that name has.
    pub fn lines_of(&self, name: &SourceName) -> u64 {
        match name {
            SourceName::Path(path) => {
                let named = self
                    .sources
                    .iter()
                    .filter(|source| source.path.as_ref() == Some(path));
                named.map(|source| source.lines).max().unwrap_or(0)
            }
            SourceName::Reference(number) => {
                let place = (*number as usize).wrapping_sub(1);
                self.sources.get(place).map_or(0, |source| source.lines)
            }
        }
    }

    /// How many breakpoints stand in other sources.
    pub fn others(&self, name: &SourceName) -> usize {
        let others = self.lines.iter().filter(|(other, _)| *other != name);
        others.map(|(_, lines)| lines.len()).sum()
    }

    pub fn set_lines(&mut self, name: SourceName, lines: Vec<u64>) {
        self.lines.insert(name, lines);
    }

    fn is_at_breakpoint(&self, moment: usize) -> bool {
        let top = self.frame(self.stack(moment).start);
        let is_set = |name| {
            self.lines
                .get(&name)
                .map_or(false, |lines| lines.contains(&top.line.into()))
        };
        let path = self.sources[top.source].path.clone();
        is_set(SourceName::Reference(top.source as u32 + 1))
            || path.map_or(false, |path| is_set(SourceName::Path(path)))
    }

    // ---- Moves

    /// The frames of the thread that came to a moment.
    fn stack(&self, moment: usize) -> Range<FrameId> {
        let moment = &self.moments[moment];
        moment.threads[moment.thread].frames.clone()
    }

    pub fn start(&mut self) {
        self.shown = Some(0);
        self.untold.extend(pieces(&self.moments[0].output));
        self.goal = (0, "entry");
        self.held = false;
    }

    pub fn resume(&mut self, how: Move) {
        let at = self.shown.unwrap_or(0);
        let (mut place, mut reason) = self.target(how, at);
        self.held = false;
        self.changed.clear();
        if !matches!(how, Move::StepBack | Move::ReverseContinue) {
            if let Some(waiting) = (at + 1..place).find(|&k| self.moments[k].waits) {
                (place, reason) = (waiting, "pause");
                self.held = true;
            }
            for moment in self.moments.iter().take(place + 1).skip(at + 1) {
                self.untold.extend(pieces(&moment.output));
            }
        }
        self.goal = (place, reason);
    }

    /// Where a move goes, and why it stops there; past the last moment is the exit.
    fn target(&self, how: Move, at: usize) -> (usize, &'static str) {
        let last = self.moments.len();
        let depth = |k: usize| self.stack(k).len();
        let mut ahead = at + 1..last;
        match how {
            Move::StepIn => (at + 1, "step"),
            Move::Next => (
                ahead.find(|&k| depth(k) <= depth(at)).unwrap_or(last),
                "step",
            ),
            Move::StepOut => (
                ahead.find(|&k| depth(k) < depth(at)).unwrap_or(last),
                "step",
            ),
            Move::Continue => (
                ahead.find(|&k| self.is_at_breakpoint(k)).unwrap_or(last),
                "breakpoint",
            ),
            Move::StepBack => (at.saturating_sub(1), "step"),
            Move::ReverseContinue => match (0..at).rev().find(|&k| self.is_at_breakpoint(k)) {
                Some(k) => (k, "breakpoint"),
                None => (0, "entry"),
            },
        }
    }

    pub fn pause(&mut self) {
        self.held = false;
    }

    pub fn end(&mut self) {
        self.shown = None;
    }

    /// What happens while it runs; nothing while it is held.
    pub fn poll(&mut self) -> Option<Happened> {
        if let Some(piece) = self.untold.pop_front() {
            return Some(Happened::Output(piece));
        }
        if self.held {
            return None;
        }
        let (place, reason) = self.goal;
        let Some(moment) = self.moments.get(place) else {
            self.shown = None;
            return Some(Happened::Exited { code: self.exit });
        };
        self.shown = Some(place);
        Some(Happened::Stopped {
            reason,
            thread: moment.threads[moment.thread].id,
        })
    }
}

impl From<file::Source> for Source {
    fn from(read: file::Source) -> Self {
        let lines = read.text.lines().count() as u64;
        Source {
            name: read.name,
            path: read.path,
            text: read.text,
            lines,
        }
    }
}

fn malformed(key: &'static str) -> Error {
    Error::new(
        ErrorKind::InvalidData,
        format!("the recording has a bad {key}"),
    )
}

/// The pieces of an output: each as long as may be, and of whole characters.
fn pieces(mut output: &str) -> Vec<String> {
    let mut pieces = Vec::new();
    while !output.is_empty() {
        let mut end = output.len().min(PIECE);
        while !output.is_char_boundary(end) {
            end -= 1;
        }
        pieces.push(output[..end].to_owned());
        output = &output[end..];
    }
    pieces
}

/// The keys of a recording. Unknown ones are read over.
mod file {
    use super::*;

    #[derive(Deserialize)]
    pub struct Recording {
        pub exit: i32,
        pub sources: Vec<Source>,
        pub moments: Vec<Moment>,
    }

    #[derive(Deserialize)]
    pub struct Source {
        pub name: String,
        pub path: Option<String>,
        pub text: String,
    }

    #[derive(Deserialize)]
    pub struct Moment {
        pub threads: Vec<Thread>,
        pub thread: i64,
        #[serde(default)]
        pub output: String,
        #[serde(default)]
        pub waits: bool,
    }

    #[derive(Deserialize)]
    pub struct Thread {
        pub id: i64,
        pub name: String,
        pub frames: Vec<Frame>,
    }

    #[derive(Deserialize)]
    pub struct Frame {
        pub name: String,
        pub source: usize,
        pub line: u32,
        #[serde(default)]
        pub scopes: Vec<Scope>,
    }

    #[derive(Deserialize)]
    pub struct Scope {
        pub name: String,
        #[serde(default)]
        pub variables: Vec<Variable>,
    }

    #[derive(Deserialize)]
    pub struct Variable {
        pub name: String,
        pub value: String,
        #[serde(default)]
        pub variables: Vec<Variable>,
    }
}
