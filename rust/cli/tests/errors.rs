//! Every class of error of a text, with line, column and what was expected.

mod common;

use cli::asm::assemble::assemble;
use cli::asm::lex;
use common::main_of;

/// What is said of a text with an error in it.
fn said(text: &str) -> String {
    match assemble(text) {
        Ok(_) => format!("no error in\n{text}"),
        Err(error) => error.to_string(),
    }
}

/// What is said of main's body, whose first line is line 2.
fn said_of_body(body: &str) -> String {
    said(&main_of(body))
}

const A_TYPE: &str = "a type (int, bool, qbit, channel(int), end(qbit) and so on)";

#[test]
fn characters() {
    let expected = "expected a name, a number or one of ( ) , : * -, found";
    assert_eq!(said_of_body("  GET $q"), format!("2:7: {expected} '$'"));
    assert_eq!(said_of_body("  é"), format!("2:3: {expected} 'é'"));
    let number = "expected a number or a name, found";
    assert_eq!(said_of_body("  INT 12ab"), format!("2:7: {number} `12ab`"));
    assert_eq!(said_of_body("\t-1x"), format!("2:2: {number} `-1x`"));
}

#[test]
fn bytes_that_are_no_text() {
    let wrong = lex::text(b"# \xC3\xA9\n# \xC3\xA9\xFF\n");
    let wrong = wrong.expect_err("the byte 255 is not UTF-8");
    assert_eq!(wrong.to_string(), "2:4: expected text in UTF-8, found another byte");
    assert!(lex::text("# é".as_bytes()).is_ok());
}

#[test]
fn sections() {
    let section = "`method`, `schedule` or `outcomes`";
    assert_eq!(said("\n  GET q\n"), format!("2:3: expected {section}, found `GET`"));
    assert_eq!(said(" ( "), format!("1:2: expected {section}, found `(`"));
    let number = format!("expected a number, {section}");
    assert_eq!(said("schedule 0\n  RET"), format!("2:3: {number}, found `RET`"));
    assert_eq!(
        said("outcomes\nschedule\n outcomes"),
        "3:2: expected one `outcomes`, found a second (the first is in line 1)"
    );
    assert_eq!(
        said("schedule 1 2\n# nothing\n schedule"),
        "3:2: expected one `schedule`, found a second (the first is in line 1)"
    );
}

#[test]
fn a_text_without_a_method() {
    assert_eq!(said(""), "1:1: expected a method, found none");
    assert_eq!(said("# nothing\n\nschedule 0\n"), "3:11: expected a method, found none");
}

#[test]
fn headers() {
    let start = format!("expected `void` or {A_TYPE}, found");
    assert_eq!(said("method main()"), format!("1:8: {start} `main`"));
    assert_eq!(said("method"), format!("1:7: {start} the end of the line"));
    assert_eq!(said("method void 1()"), "1:13: expected the method's name, found `1`");
    assert_eq!(said("method void main"), "1:17: expected `(`, found the end of the line");
    assert_eq!(said("method void main(int a"), "1:23: expected `)`, found the end of the line");
    assert_eq!(said("method void main() RET"), "1:20: expected the end of the line, found `RET`");
    assert_eq!(said("method void first()\n RET"), "1:13: expected `main` as the first method, found `first`");
}

#[test]
fn types() {
    let kind = format!("expected {A_TYPE}, found");
    for (body, said) in [
        ("  slots quit q", format!("2:9: {kind} `quit`")),
        ("  slots void q", format!("2:9: {kind} `void`")),
        ("  slots", format!("2:8: {kind} the end of the line")),
        ("  slots int a,", format!("2:15: {kind} the end of the line")),
        ("  slots end(void) a", format!("2:9: {kind} `end(void)`")),
        ("  slots channel(end(int)) a", format!("2:9: {kind} `channel(end(int))`")),
        ("  slots end(end(end(end(int)))) a", format!("2:21: {kind} `end`")),
        ("  slots raw(65536) a", format!("2:9: {kind} `raw(65536)`")),
        ("  slots channel int a", "2:17: expected `(`, found `int`".to_string()),
        ("  slots end(int a", "2:17: expected `)`, found `a`".to_string()),
    ] {
        assert_eq!(said_of_body(body), said);
    }
}

#[test]
fn slots() {
    assert_eq!(said_of_body("  slots int, int b"), "2:12: expected the slot's name, found `,`");
    assert_eq!(said_of_body("  slots int a int b"), "2:15: expected the end of the line, found `int`");
    let twice = "  slots int a\n  slots int b, qbit a\n  RET";
    assert_eq!(said_of_body(twice), "3:21: expected a new name, found the slot `a` of line 2");
    let many = ["-"; 17].join(", ");
    let many = format!("  slots {many}\n  RET");
    assert_eq!(said_of_body(&many), "2:57: expected at most 16 slots, parameters among them");
}

#[test]
fn ops() {
    let op = "expected an op, a label or `slots`, found";
    assert_eq!(said_of_body("  TAKE q"), format!("2:3: {op} `TAKE`"));
    assert_eq!(said_of_body("  17"), format!("2:3: {op} `17`"));
    assert_eq!(said_of_body("  a: , RET"), format!("2:6: {op} `,`"));
    assert_eq!(said_of_body("  get q"), "2:3: expected the op in capitals, GET, found `get`");
    assert_eq!(said_of_body("  RET 0"), "2:7: expected the end of the line, found `0`");
    assert_eq!(said_of_body("  INT 1 2"), "2:9: expected the end of the line, found `2`");
    assert_eq!(
        said_of_body("  raw 1"),
        "2:8: expected the argument as a number from 0 to 65535, found the end of the line"
    );
    assert_eq!(said_of_body("  raw 65536 0"), "2:7: expected the op as a number from 0 to 65535, found `65536`");
    assert_eq!(said_of_body("  raw 5 -1"), "2:9: expected the argument as a number from 0 to 65535, found `-1`");
}

#[test]
fn arguments() {
    let missing = "found the end of the line";
    assert_eq!(said_of_body("  GET"), format!("2:6: expected a slot, {missing}"));
    assert_eq!(said_of_body("  CALL # it"), format!("2:7: expected a method, {missing}"));
    assert_eq!(said_of_body("  JUMP"), format!("2:7: expected a label, {missing}"));
    let int = "expected a number from -32768 to 32767, found";
    assert_eq!(said_of_body("  INT 32768"), format!("2:7: {int} `32768`"));
    assert_eq!(said_of_body("  INT -32769"), format!("2:7: {int} `-32769`"));
    assert_eq!(said_of_body("  INT many"), format!("2:7: {int} `many`"));
    assert_eq!(said_of_body("  BOOL 1"), "2:8: expected a boolean (false, true), found `1`");
    assert_eq!(said_of_body("  END 2"), "2:7: expected a number from 0 to 1, found `2`");
    let carried = "expected a type that channels carry (int, bool, qbit), found";
    assert_eq!(said_of_body("  NEWC bit"), format!("2:8: {carried} `bit`"));
    assert_eq!(said_of_body("  NEWC end(int)"), format!("2:8: {carried} `end(int)`"));
    let gate = "expected a gate (X, Y, Z, H, S, CX, CZ, SWAP), found";
    assert_eq!(said_of_body("  GATE T"), format!("2:8: {gate} `T`"));
}

#[test]
fn names_that_are_not_there() {
    assert_eq!(said_of_body("  GET q"), "2:7: expected a slot (there is none), found `q`");
    assert_eq!(said_of_body("  slots qbit q, -, int n\n  PUT m"), "3:7: expected a slot (q, n), found `m`");
    assert_eq!(
        said_of_body("  FORK bob\nmethod void alice()\n  RET"),
        "2:8: expected a method (main, alice), found `bob`"
    );
    assert_eq!(said_of_body("a:\n  JUMP b\nmethod void m()\nb: RET"), "3:8: expected a label (a), found `b`");
}

#[test]
fn names_given_twice() {
    assert_eq!(
        said_of_body("  RET\nmethod int main()\n  RET"),
        "3:12: expected a new name, found the method `main` of line 1"
    );
    assert_eq!(said_of_body("a: NEWQ\n  DROP\n  a: RET"), "4:3: expected a new name, found the label `a` of line 2");
    assert_eq!(said("method void main(int a, int a)\n RET"), "1:29: expected a new name, found the slot `a` of line 1");
}

#[test]
fn sizes() {
    assert_eq!(said_of_body("# nothing"), "1:13: expected an op in method `main`, found none");
    assert_eq!(said_of_body("  RET\n  end:"), "3:3: expected an op after the label `end`");
    let methods: String = (1..33).map(|n| format!("method void m{n}()\n RET\n")).collect();
    assert_eq!(said_of_body(&format!("  RET\n{methods}")), "65:13: expected at most 32 methods, found one more");
    let code = "  RET\n".repeat(4_097);
    assert_eq!(said_of_body(&code), "4098:3: expected at most 4096 instructions, found one more");
}

#[test]
fn entries() {
    let number = "expected a number from 0 to 255, found";
    assert_eq!(said("schedule 256"), format!("1:10: {number} `256`"));
    assert_eq!(said("schedule -1"), format!("1:10: {number} `-1`"));
    assert_eq!(said("schedule\n 0 (1)"), format!("2:4: {number} `(`"));
    assert_eq!(said("outcomes\n 0, 1"), format!("2:3: {number} `,`"));
    assert_eq!(said("outcomes\n a: 1"), format!("2:2: {number} `a`"));
    let count = "expected a count from 1 to 65535, found";
    assert_eq!(said("schedule 0*0"), format!("1:12: {count} `0`"));
    assert_eq!(said("schedule 0*65536"), format!("1:12: {count} `65536`"));
    assert_eq!(said("schedule 0*"), format!("1:12: {count} the end of the line"));
}

#[test]
fn texts_that_ask_for_too_much() {
    let long = "expected at most 100000 entries, found more";
    let schedule = "schedule 0*65535 1*34465";
    assert!(assemble(&main_of(&format!("  RET\n{schedule}"))).is_ok());
    assert_eq!(said(&format!("outcomes\n{schedule}\n 1 2")), format!("3:2: {long}"));
}

/// A name is taken by where it stands.
#[test]
fn no_word_is_reserved() {
    let text = "\
method void main()
    slots end(int) end, int method
    slots int slots, int schedule
schedule: raw: RET: GET end
    DROP
    JUMP schedule
method void void(int GET)
    GET GET
    DROP
slots:
    JUMP slots
schedule 0
";
    assert!(assemble(text).is_ok(), "{}", said(text));
}

/// Line ends of either kind, and none after the last line.
#[test]
fn line_ends() {
    let text = "method void main()\n  INT 1 # one\n  DROP\n  RET";
    let other = text.replace('\n', "\r\n");
    assert_eq!(assemble(text), assemble(&other));
    assert!(assemble(text).is_ok());
    assert_eq!(assemble(text), assemble(&format!("{text}\r")));
}
