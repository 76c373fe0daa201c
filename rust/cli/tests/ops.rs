//! The tables of the text form against the model's, and rows to come.

mod common;

use cli::asm::assemble::assemble;
use cli::asm::ops::{Field, Op, Part, OPS};
use cli::asm::types;
use cli::names::{MethodNames, Scope};
use common::main_of;
use data::program::table;
use data::Type;
use model::table::Op as ModelOp;

#[test]
fn ops_and_types_are_the_models() {
    for number in 0..=100 {
        // 1 is in range for every argument that is not 0 alone.
        let listed = ModelOp::read(number, 0).or(ModelOp::read(number, 1));
        assert_eq!(Op::numbered(number).is_some(), listed.is_some());
        let kind = Type::read(number).filter(|kind| *kind != Type::None);
        let expected = kind.map_or(format!("raw({number})"), |kind| kind.to_string());
        assert_eq!(types::name(number), expected);
        assert_eq!(types::number(&types::name(number)), Some(number));
    }
}

#[test]
fn names_and_numbers_occur_once() {
    for (index, op) in OPS.iter().enumerate() {
        assert_eq!(Op::named(op.name).map(|found| found.number), Some(op.number));
        assert_eq!(usize::from(op.number), index + 1);
    }
}

/// A gate on n qubits: 16 times the gate, plus n.
static SET_OF_QUBITS: [Field; 2] =
    [Field { part: Part::Gate, factor: 16 }, Field { part: Part::Number { low: 2, high: 8 }, factor: 1 }];

#[test]
fn an_argument_may_have_two_fields() {
    let op = Op { number: 24, name: "GATES", fields: &SET_OF_QUBITS };
    let here = MethodNames { name: "main".to_string(), ..MethodNames::default() };
    let methods = std::slice::from_ref(&here);
    let scope = Scope { methods, here: &here };
    assert_eq!(op.argument(&[4, 3]), 67);
    assert_eq!(op.text(67, scope), Some("GATES H 3".to_string()));
    assert_eq!(op.text(16 * 4 + 9, scope), None);
    assert_eq!(op.text(16 * 11 + 2, scope), None);
}

/// Each op with its least and greatest argument, by the text.
#[test]
fn instructions_by_name() {
    let body = "  slots qbit a, end(bool) b\n";
    for (text, expected) in [
        ("INT -1", (1, 65_535)),
        ("BOOL false", (2, 0)),
        ("BOOL true", (2, 1)),
        ("GET b", (3, 1)),
        ("PUT a", (4, 0)),
        ("CLEAR b", (6, 1)),
        ("NEWC qbit", (8, 3)),
        ("END 1", (9, 1)),
        ("GATE SWAP", (10, 8)),
        ("CALL main", (12, 0)),
        ("FORK other", (14, 1)),
        ("here: JUMP here", (17, 0)),
        ("JFALSE there\nthere: RET", (18, 1)),
        ("raw 65535 7", (65_535, 7)),
    ] {
        let text = main_of(&format!("{body}{text}\nmethod void other()\nRET"));
        let program = table(&assemble(&text).expect("the text has no error").code.methods);
        let code = 2 + 20 * 2;
        assert_eq!((program[code], program[code + 1]), expected, "{text}");
    }
}
