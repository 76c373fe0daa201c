//! What a command works on: a program, a schedule and outcomes.
//!
//! - [`case`]: all three, from a file, a directory or options
//! - [`source`]: a program from a file, by the file's ending
//! - [`numbers`]: schedules and outcomes as they are written
//! - [`make`]: schedules that are made and not given
//! - [`mod@file`]: the input file of the printing program
//! - [`trace`]: traces as they are printed

pub mod case;
pub mod file;
pub mod make;
pub mod numbers;
pub mod source;
pub mod trace;
