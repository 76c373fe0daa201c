//! Paper 1, "Read LanQ text": from the bytes of a text to a program table, or
//! to a refusal by 30, 31 or 32 with its place.
//!
//! Written from document 02's Paper 1, the grammar in document 003's appendix,
//! document 000's rules and the readings of them. Words in quotation marks are
//! Paper 1's, unless another document is named.
//!
//! - [`token`]: the tokens of a text
//! - [`tree`]: the tree of a text
//! - [`mod@read`], [`expression`]: from tokens to the tree; 30
//! - [`scope`]: names in blocks
//! - [`names`]: undeclared names, names declared twice, counts; 31
//! - [`code`]: the instructions of a method
//! - [`limits`]: 32, and the table
//! - [`term`], [`unfold`], [`rules`], [`mod@run`]: the meaning of a text, as
//!   rules on its tree
//! - [`grammar`]: the grammar as a list of productions, with a recogniser that
//!   goes by it alone

pub mod code;
pub mod expression;
pub mod grammar;
pub mod limits;
pub mod names;
pub mod read;
pub mod refusal;
pub mod rules;
pub mod run;
pub mod scope;
pub mod term;
pub mod token;
pub mod tree;
pub mod unfold;

pub use refusal::{Reason, TextRefusal};
pub use run::{run, TextRun};
pub use tree::Tree;

/// The words of the table that a text is translated into. "30 when the text
/// leaves the grammar or the nesting, 31 when a name is undeclared .., 32 when
/// the table .. passes a limit of questions 1 to 5: all before question 1, in
/// this order, each at its lowest byte index".
pub fn translate(text: &[u8]) -> Result<Vec<u16>, TextRefusal> {
    let tree = tree(text)?;
    limits::table(&tree)
}

/// The tree of a text that has neither 30 nor 31.
pub fn tree(text: &[u8]) -> Result<Tree<'_>, TextRefusal> {
    let tree = read::read(text)?;
    names::check(&tree)?;
    Ok(tree)
}
