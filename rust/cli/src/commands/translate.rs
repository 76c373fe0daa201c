//! `lanq translate`

use std::path::Path;

use data::program::Method;
use data::SLOTS;

use crate::asm::list::listing_by;
use crate::commands::{Command, CommandResult};
use crate::error::Failure;
use crate::input::source::{bytes, refused_text};
use crate::machine::Machine;
use crate::options::{flag, Arguments, Opt};
use crate::text::names::code;

pub const COMMAND: Command = Command {
    name: "translate",
    usage: "FILE.lanq > FILE.lqa [--words]",
    about: "writes the table of a LanQ text as text of the assembler, to standard output",
    more: "\
The proved library translates the text. Methods and slots have the text's names; a name that two
variables of a method have gets a number the second time, as q_2, and hole is the slot that is never
filled. A refusal by 30, 31 or 32 is shown with its byte, its line and a mark, and nothing is
written then. lanq asm writes the table of a LanQ text as an input file of the printing program.",
    options: &[OPTIONS],
    run,
};

const OPTIONS: &[Opt] = &[flag("--words", "the words of the table as numbers: sizes, pairs, rows, instructions")];

fn run(arguments: &Arguments) -> Result<CommandResult, Failure> {
    let [name] = arguments.exactly("a LanQ text")?;
    let text = bytes(Path::new(name))?;
    let machine = Machine::Proved;
    let program = machine.translate(&text).map_err(|refusal| refused_text(name, &text, refusal, machine))?;
    let methods = lanq::Program::from(program.as_slice()).methods();
    let methods = methods.map_err(|reason| Failure::of(name, reason))?;
    if arguments.has("--words") {
        return Ok(CommandResult::said(words(&program, &methods)));
    }
    let code = code(&text, methods);
    let listed = listing_by(&code.methods, code.names).text;
    let listed = listed.ok_or_else(|| Failure::of(name, "has a method with more parameters than slots"))?;
    Ok(CommandResult::said(listed))
}

/// The table's words in lines: the sizes; the pairs; a line for each method's row
/// and one for its instructions.
fn words(program: &[u16], methods: &[Method]) -> String {
    let line = |words: &[u16]| {
        let words: Vec<String> = words.iter().map(u16::to_string).collect();
        words.join(" ") + "\n"
    };
    let (sizes, rest) = program.split_at(2);
    let (pairs, rest) = rest.split_at(2 * methods.len());
    let (rows, mut code) = rest.split_at((2 + SLOTS) * methods.len());
    let mut text = line(sizes) + &line(pairs);
    rows.chunks(2 + SLOTS).for_each(|row| text += &line(row));
    for method in methods {
        let (here, others) = code.split_at(2 * method.code.len());
        text += &line(here);
        code = others;
    }
    text
}
