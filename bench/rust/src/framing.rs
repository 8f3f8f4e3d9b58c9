//! Frames: a header block with `Content-Length`, and a body.

use std::io::Write;

pub type Fault = &'static str;

/// The frames of a stream that is there whole, in order; a fault ends them.
pub struct Frames<'a> {
    input: &'a [u8],
    pub offset: usize,
}

pub struct Frame<'a> {
    pub offset: usize,
    pub body: &'a [u8],
}

impl<'a> Frames<'a> {
    pub fn new(input: &'a [u8]) -> Self {
        Frames { input, offset: 0 }
    }

    /// The next frame, or none where the input is at its end.
    pub fn next(&mut self) -> Result<Option<Frame<'a>>, Fault> {
        let rest = &self.input[self.offset..];
        if rest.is_empty() {
            return Ok(None);
        }
        let (start, length) = head(rest)?.ok_or("the input ends within a header block")?;
        let body = rest[start..]
            .get(..length)
            .ok_or("the input ends within a body")?;
        let frame = Frame {
            offset: self.offset,
            body,
        };
        self.offset += start + length;
        Ok(Some(frame))
    }
}

/// Where the body of the first frame starts and how long it is, once the header block is there.
pub fn head(rest: &[u8]) -> Result<Option<(usize, usize)>, Fault> {
    match rest.windows(4).position(|four| four == b"\r\n\r\n") {
        None => Ok(None),
        Some(block) => Ok(Some((block + 4, content_length(&rest[..block])?))),
    }
}

/// What `Content-Length` says in a header block, which comes without its last two line ends.
fn content_length(block: &[u8]) -> Result<usize, Fault> {
    let mut length = None;
    for line in block.split(|&byte| byte == b'\n') {
        let line = line.strip_suffix(b"\r").unwrap_or(line);
        let colon = line
            .iter()
            .position(|&byte| byte == b':')
            .ok_or("a header line has no colon")?;
        if line[..colon].eq_ignore_ascii_case(b"content-length") {
            if length.is_some() {
                return Err("two lengths");
            }
            length = Some(number(trim(&line[colon + 1..]))?);
        }
    }
    length.ok_or("no length")
}

pub fn push_frame(out: &mut Vec<u8>, body: &[u8]) {
    // Writing to a vector cannot fail.
    let _ = write!(out, "Content-Length: {}\r\n\r\n", body.len());
    out.extend_from_slice(body);
}

fn trim(mut value: &[u8]) -> &[u8] {
    while let [b' ' | b'\t', rest @ ..] = value {
        value = rest;
    }
    while let [rest @ .., b' ' | b'\t'] = value {
        value = rest;
    }
    value
}

fn number(digits: &[u8]) -> Result<usize, Fault> {
    if digits.is_empty() {
        return Err("the length is empty");
    }
    digits.iter().try_fold(0usize, |sum, &byte| {
        if !byte.is_ascii_digit() {
            return Err("the length is no number");
        }
        sum.checked_mul(10)
            .and_then(|sum| sum.checked_add(usize::from(byte - b'0')))
            .ok_or("the length is too great")
    })
}
