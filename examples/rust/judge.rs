//! Judges a transcript by the library for C: what is found, and why, in one sentence.
//!
//!     rustc judge.rs -L FOLDER -l static=yarntaupe && ./judge TRANSCRIPT
//!
//! FOLDER has libyarntaupe.a, as `release` of the repository has it. `judge` is the whole of the unsafe code.
use std::process::ExitCode;

#[repr(C)]
#[derive(Default)]
struct Verdict {
    line: u64,
    rule: u32,
}

const OK: u32 = 0;
const FINDING: u32 = 2;

unsafe extern "C" {
    fn yt_check(text: *const u8, text_len: usize, any_seq: u32, verdict: *mut Verdict) -> u32;
    fn yt_explain(text: *const u8, text_len: usize, line: u64, rule: u32, out: *mut u8, out_len: usize, size: *mut usize) -> u32;
}

/// `Ok` where the transcript keeps the rules; else what is found, or the code of a text that is no transcript.
fn judge(text: &[u8]) -> Result<(), String> {
    let mut verdict = Verdict::default();
    match unsafe { yt_check(text.as_ptr(), text.len(), 0, &mut verdict) } {
        OK => Ok(()),
        FINDING => {
            let mut size = 0;
            let mut why = vec![0; 1];
            // The first call tells how long the sentence is.
            for _ in 0..2 {
                unsafe { yt_explain(text.as_ptr(), text.len(), verdict.line, verdict.rule, why.as_mut_ptr(), why.len(), &mut size) };
                why.resize(size, 0);
            }
            Err(format!("line {} breaks rule {}: {}", verdict.line, verdict.rule, String::from_utf8_lossy(&why)))
        }
        code => Err(format!("line {}: code {code}", verdict.line)),
    }
}

fn main() -> ExitCode {
    let Some(path) = std::env::args_os().nth(1) else {
        eprintln!("usage: judge TRANSCRIPT");
        return ExitCode::from(2);
    };
    let text = match std::fs::read(&path) {
        Ok(text) => text,
        Err(error) => {
            eprintln!("judge: {error}");
            return ExitCode::from(2);
        }
    };
    match judge(&text) {
        Ok(()) => {
            println!("legal");
            ExitCode::SUCCESS
        }
        Err(found) => {
            println!("{found}");
            ExitCode::FAILURE
        }
    }
}
