//! The command `lanq`, over the proved library. docs/COMMAND.md describes it.
//!
//! - [`commands`]: the commands and their help; [`options`]: the words of a call
//! - [`input`]: programs, schedules and outcomes from files and options
//! - [`asm`]: the assembler's text; [`text`]: LanQ texts; [`names`], [`code`]: a
//!   program's names, and where each instruction stands
//! - [`machine`]: the proved library, or the model where it is asked for
//! - [`case_refusal`]: refusals in words
//! - [`explain`]: a run in words, with [`sentence`], [`holders`], [`history`],
//!   [`readiness`] and [`empty_cells`]
//! - [`timeline`]: a run as a drawing, in [`svg`]
//! - [`report`]: a run for other programs, in [`json`]
//! - [`batch`]: every case of a directory; [`progress`]: how far it has come
//!
//! [`error`] says where a text goes wrong and why a command was not done.

#![forbid(unsafe_code)]

pub mod asm;
pub mod batch;
pub mod case_refusal;
pub mod code;
pub mod commands;
pub mod empty_cells;
pub mod error;
pub mod explain;
pub mod history;
pub mod holders;
pub mod input;
pub mod json;
pub mod machine;
pub mod names;
pub mod options;
pub mod progress;
pub mod readiness;
pub mod report;
pub mod sentence;
pub mod svg;
pub mod text;
pub mod timeline;
