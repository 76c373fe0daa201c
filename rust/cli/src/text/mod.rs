//! LanQ texts. The proved library answers a text's table, or number and place
//! of a refusal; here a refusal is put into words, and the names of a text are
//! found for its table.
//!
//! - [`token`]: the tokens of a text; [`outline`]: its methods, declarations
//!   and statements
//! - [`place`]: a byte's line and column, with the line shown
//! - [`reason`]: what is wrong, in words
//! - [`names`]: a table with the names of its text

pub mod names;
pub mod outline;
pub mod place;
pub mod reason;
pub mod token;
