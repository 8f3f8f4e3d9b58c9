//! What is written. The fields stand in byte order of their keys, so the keys do.

use serde::Serialize;
use std::borrow::Cow;

#[derive(Serialize)]
pub struct Response<'a, B> {
    #[serde(skip_serializing_if = "Option::is_none")]
    pub body: Option<B>,
    pub command: &'a str,
    #[serde(skip_serializing_if = "Option::is_none")]
    pub message: Option<&'static str>,
    pub request_seq: u64,
    pub seq: u64,
    pub success: bool,
    #[serde(rename = "type")]
    pub kind: &'static str,
}

#[derive(Serialize)]
pub struct Event<B> {
    #[serde(skip_serializing_if = "Option::is_none")]
    pub body: Option<B>,
    pub event: &'static str,
    pub seq: u64,
    #[serde(rename = "type")]
    pub kind: &'static str,
}

#[derive(Serialize)]
pub struct ErrorBody {
    pub error: ErrorMessage,
}

#[derive(Serialize)]
pub struct ErrorMessage {
    pub format: Cow<'static, str>,
    pub id: u32,
}

#[derive(Serialize)]
#[serde(rename_all = "camelCase")]
pub struct Capabilities {
    pub supports_cancel_request: bool,
    pub supports_configuration_done_request: bool,
    pub supports_loaded_sources_request: bool,
    pub supports_set_variable: bool,
    pub supports_step_back: bool,
    pub supports_terminate_request: bool,
}

#[derive(Serialize)]
pub struct Breakpoints {
    pub breakpoints: Vec<Breakpoint>,
}

#[derive(Serialize)]
pub struct Breakpoint {
    pub id: u64,
    pub line: u32,
    pub verified: bool,
}

#[derive(Serialize)]
pub struct Threads<'a> {
    pub threads: Vec<Thread<'a>>,
}

#[derive(Serialize)]
pub struct Thread<'a> {
    pub id: i64,
    pub name: &'a str,
}

#[derive(Serialize)]
#[serde(rename_all = "camelCase")]
pub struct StackTrace<'a> {
    pub stack_frames: Vec<StackFrame<'a>>,
    pub total_frames: usize,
}

#[derive(Serialize)]
pub struct StackFrame<'a> {
    pub column: u32,
    pub id: u32,
    pub line: u32,
    pub name: &'a str,
    pub source: Source<'a>,
}

#[derive(Serialize)]
#[serde(rename_all = "camelCase")]
pub struct Source<'a> {
    pub name: &'a str,
    #[serde(skip_serializing_if = "Option::is_none")]
    pub path: Option<&'a str>,
    pub source_reference: usize,
}

#[derive(Serialize)]
pub struct Scopes<'a> {
    pub scopes: Vec<Scope<'a>>,
}

#[derive(Serialize)]
#[serde(rename_all = "camelCase")]
pub struct Scope<'a> {
    pub expensive: bool,
    pub name: &'a str,
    pub variables_reference: u32,
}

#[derive(Serialize)]
pub struct Variables<'a> {
    pub variables: Vec<Variable<'a>>,
}

#[derive(Serialize)]
#[serde(rename_all = "camelCase")]
pub struct Variable<'a> {
    pub name: &'a str,
    pub value: &'a str,
    pub variables_reference: u32,
}

#[derive(Serialize)]
#[serde(rename_all = "camelCase")]
pub struct Evaluated<'a> {
    pub result: &'a str,
    pub variables_reference: u32,
}

#[derive(Serialize)]
pub struct Assigned<'a> {
    pub value: &'a str,
}

#[derive(Serialize)]
pub struct Content<'a> {
    pub content: &'a str,
}

#[derive(Serialize)]
pub struct LoadedSources<'a> {
    pub sources: Vec<Source<'a>>,
}

#[derive(Serialize)]
#[serde(rename_all = "camelCase")]
pub struct Continued {
    pub all_threads_continued: bool,
}

#[derive(Serialize)]
pub struct Output<'a> {
    pub category: &'static str,
    pub output: &'a str,
}

#[derive(Serialize)]
#[serde(rename_all = "camelCase")]
pub struct Stopped {
    pub all_threads_stopped: bool,
    pub reason: &'static str,
    pub thread_id: i64,
}

#[derive(Serialize)]
#[serde(rename_all = "camelCase")]
pub struct Exited {
    pub exit_code: i32,
}
