//! Paper 1: each sentence of the readings by a minimal text, from the data file
//! that docs and other tests share.

use data::program::table;
use data::texts::{records, Expectation, Record};
use data::WORK_WORDS;
use model::check;
use model::text::grammar::Grammar;
use model::text::{translate, Reason};

/// What the model answers, in the records' words.
fn answer(record: &Record) -> Expectation {
    match translate(&record.text) {
        Err(refusal) => Expectation::Refused { number: refusal.number, place: refusal.place },
        Ok(words) => {
            check(&words, &[], &[], WORK_WORDS).expect("a table that is given out passes the questions");
            match &record.answer {
                Expectation::Methods(methods) if table(methods) == words => record.answer.clone(),
                Expectation::Methods(_) => {
                    panic!("{}: {:?}\n{words:?}", record.why, String::from_utf8_lossy(&record.text))
                }
                _ => Expectation::Accepted,
            }
        }
    }
}

#[test]
fn every_record_is_answered_as_it_says() {
    for record in records() {
        let text = String::from_utf8_lossy(&record.text);
        assert_eq!(answer(&record), record.answer, "point {}, {}: {text:?}", record.point, record.why);
    }
}

/// Points 1 to 15 all have records, and every reason of a refusal has one.
#[test]
fn the_records_cover_points_and_reasons() {
    let records = records();
    for point in 1..=15 {
        assert!(records.iter().any(|record| record.point == point), "point {point}");
    }
    let refused = records.iter().filter_map(|record| translate(&record.text).err());
    let reasons: Vec<Reason> = refused.map(|refusal| refusal.reason).collect();
    for reason in Reason::ALL {
        assert!(reasons.contains(&reason), "{reason:?}");
    }
}

/// The grammar alone says the same of each text, but for nesting and withends.
#[test]
fn the_grammar_says_the_same() {
    let grammar = Grammar::new();
    assert_eq!(grammar.undefined(), Vec::<&str>::new());
    for record in records().iter().filter(|record| record.text.len() < 1_000) {
        let expected = match translate(&record.text) {
            Err(refusal) if refusal.reason.is_grammar() => Err(refusal.place),
            Err(refusal) if refusal.number == 30 => continue,
            _ => Ok(()),
        };
        let text = String::from_utf8_lossy(&record.text);
        assert_eq!(grammar.recognise(&record.text), expected, "{text:?}");
    }
}

/// One table with every word written out: sizes, pairs, rows, instructions.
#[test]
fn a_table_word_by_word() {
    let text = b"int one(boolean b) { return 1; } void main() { int a; a = one(true); }";
    let expected: &[u16] = &[
        2, 9, // M and N
        0, 5, 5, 4, // main's pair, then one's
        0, 0, 1, 0, 0, 0, 0, 0, 0, 0, 0, 0, 0, 0, 0, 0, 0, 0, // main: void, no parameter, slot a
        1, 1, 2, 1, 0, 0, 0, 0, 0, 0, 0, 0, 0, 0, 0, 0, 0, 0, // one: int, one parameter, the hole
        2, 1, 12, 1, 4, 0, 5, 0, 13, 0, // main: BOOL 1, CALL 1, PUT 0, DROP, RET
        1, 1, 13, 0, 3, 1, 13, 0, // one: INT 1, RET, GET 1, RET
    ];
    assert_eq!(translate(text).as_deref(), Ok(expected));
}

/// Texts of a million bytes are answered: nothing is called once for each bracket.
#[test]
fn deep_and_long_texts_are_answered() {
    let million = 1_000_000;
    let inside = |open: &str, middle: &str, close: &str| {
        let depth = million / (open.len() + close.len());
        let text = format!(
            "int f(int a) {{ return {}{middle}{}; }} void main() {{ }}",
            open.repeat(depth),
            close.repeat(depth)
        );
        text.into_bytes()
    };
    let number = |text: &[u8]| translate(text).err().map(|refusal| (refusal.number, refusal.place));
    assert_eq!(number(&inside("(", "a", ")")), None);
    assert_eq!(number(&inside("f(", "a", ")")), Some((32, 4)));
    assert_eq!(number(&inside("a = ", "a", "")), Some((32, 4)));
    assert_eq!(number(&inside("a + ", "a", "")), Some((32, 4)));
    assert_eq!(number(&inside("f(recv(", "a", "))")), Some((32, 4)));
    assert_eq!(number(&inside("(", "b", ")")).map(|(number, _)| number), Some(31));
    let open = "(".repeat(million);
    assert_eq!(number(open.as_bytes()), Some((30, 0)));
    let unclosed = format!("void main() {{ int a; a = {open}");
    assert_eq!(number(unclosed.as_bytes()), Some((30, unclosed.len())));
    let blocks = format!("void main() {}", "{".repeat(million));
    assert_eq!(number(blocks.as_bytes()), Some((30, 12 + 32)));
    let noise: Vec<u8> = (0..million).map(|index| (index * 7 + index / 251) as u8).collect();
    assert_eq!(number(&noise).map(|(number, _)| number), Some(30));
    let words = "void ".repeat(million / 5);
    assert_eq!(number(words.as_bytes()), Some((30, 5)));
    let methods: String = (0..million / 20).map(|index| format!("void f{index:08}() {{}} ")).collect();
    assert_eq!(number(methods.as_bytes()), Some((31, methods.len())));
    let statements = format!("void main() {{ int a; {}}}", "a = 1; ".repeat(million / 7));
    assert_eq!(number(statements.as_bytes()), Some((32, 5)));
}
