//! The assembler's text: programs op by op, with names. The grammar stands in
//! docs/COMMAND.md.
//!
//! - [`lex`], [`cursor`]: a text's lines as tokens, and reading along one
//! - [`parse`]: the grammar
//! - [`assemble`]: names looked up, the table written
//! - [`list`]: a table back as text
//! - [`ops`]: the one table of ops; [`types`]: the types by name

pub mod assemble;
pub mod cursor;
pub mod lex;
pub mod list;
pub mod ops;
pub mod parse;
pub mod types;
