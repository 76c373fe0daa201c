//! Translations of LanQ texts that are wrong in one rule each.

use compare::texts::{dirty, in_buffer, left_by, text_input, ModelTable, Room};
use data::program::op;
use generate::Random;
use lanq::{Program, Translation};
use model::text::read::{read_by, Rules, PAPER_1};
use model::text::{limits, names, translate, Reason, TextRefusal};

/// What is answered for a text, and what is left in the lent buffer.
type Translate = fn(&[u8], &mut [u16]) -> Translation;

/// What is wrong, and the translation.
const WRONG: [(&str, Translate); 23] = [
    ("nested to 31", |text, lent| left_by(&by(text, Rules { nesting: 31, ..PAPER_1 }), lent)),
    ("nested to 33", |text, lent| left_by(&by(text, Rules { nesting: 33, ..PAPER_1 }), lent)),
    ("withends assigned anywhere", |text, lent| left_by(&by(text, Rules { withends: false, ..PAPER_1 }), lent)),
    ("names are not asked for", |text, lent| left_by(&refused(text, |refusal| refusal.number != 31), lent)),
    ("limits are not asked for", |text, lent| left_by(&refused(text, |refusal| refusal.number != 32), lent)),
    ("a text that stops is 30 at its last token's end", |text, lent| {
        left_by(&placed(text, Reason::Stops, |text| text.trim_ascii_end().len()), lent)
    }),
    ("a missing main is 31 at the start", |text, lent| left_by(&placed(text, Reason::NoMain, |_| 0), lent)),
    ("a missing main is 31 at the last token's end", |text, lent| {
        left_by(&placed(text, Reason::NoMain, |text| text.trim_ascii_end().len()), lent)
    }),
    ("32 at the start", |text, lent| left_by(&placed(text, Reason::Types, |_| 0), lent)),
    ("byte 11 is white space", |text, lent| left_by(&translate(&replaced(text, 11, b' ')), lent)),
    ("the text's methods in their order", |text, lent| left_by(&changed(text, in_text_order), lent)),
    ("an inner block's variables are not emptied", |text, lent| {
        left_by(&changed(text, |_, words| other_op(words, op::CLEAR, op::GET)), lent)
    }),
    ("+ for -", |text, lent| left_by(&changed(text, |_, words| other_op(words, op::SUB, op::ADD)), lent)),
    ("send is recv", |text, lent| left_by(&changed(text, |_, words| other_op(words, op::SEND, op::RECV)), lent)),
    ("a value is not dropped", |text, lent| {
        left_by(&changed(text, |_, words| other_op(words, op::DROP, op::NOT)), lent)
    }),
    ("no hole", |text, lent| left_by(&changed(text, without_hole), lent)),
    ("a table that just fits is too long", |text, lent| match (translate(text), lent.len()) {
        (Ok(words), length) if words.len() == length => Translation::Short(length),
        (model, _) => left_by(&model, lent),
    }),
    ("a short buffer is filled as far as it goes", |text, lent| {
        let model = translate(text);
        if let Ok(words) = &model {
            let length = lent.len().min(words.len());
            lent[..length].copy_from_slice(&words[..length]);
        }
        left_by(&model, lent)
    }),
    ("the rest of the buffer is emptied", |text, lent| {
        let answer = left_by(&translate(text), lent);
        if let Translation::Table(length) = answer {
            lent[length..].fill(0);
        }
        answer
    }),
    ("a refusal leaves the sizes", |text, lent| {
        let model = translate(text);
        if let (Err(_), Some(first)) = (&model, lent.first_mut()) {
            *first = 0;
        }
        left_by(&model, lent)
    }),
    ("a short buffer is refused", |text, lent| match left_by(&translate(text), lent) {
        Translation::Short(_) => Translation::Short(0),
        answer => answer,
    }),
    ("one word too many", |text, lent| match left_by(&translate(text), lent) {
        Translation::Table(length) => Translation::Table(length + 1),
        answer => answer,
    }),
    ("31 at the last use of a name", |text, lent| left_by(&last_use(text), lent)),
];

/// The model by other rules beside the grammar.
fn by(text: &[u8], rules: Rules) -> ModelTable {
    let tree = read_by(text, rules)?;
    names::check(&tree)?;
    limits::table(&tree)
}

/// A text refused for a reason that does not count gets the table of the least
/// text.
fn refused(text: &[u8], counts: fn(&TextRefusal) -> bool) -> ModelTable {
    match translate(text) {
        Err(refusal) if !counts(&refusal) => translate(b"void main() { }"),
        model => model,
    }
}

/// One reason at another place.
fn placed(text: &[u8], reason: Reason, place: fn(&[u8]) -> usize) -> ModelTable {
    translate(text).map_err(|refusal| match refusal.reason == reason {
        true => TextRefusal { place: place(text), ..refusal },
        false => refusal,
    })
}

fn replaced(text: &[u8], byte: u8, other: u8) -> Vec<u8> {
    text.iter().map(|one| if *one == byte { other } else { *one }).collect()
}

/// The table of the text, changed.
fn changed(text: &[u8], change: fn(&[u8], &mut Vec<u16>)) -> ModelTable {
    let mut words = translate(text)?;
    change(text, &mut words);
    Ok(words)
}

fn methods(words: &[u16]) -> Vec<data::program::Method> {
    Program::from(words).methods().expect("a table that is given out")
}

fn other_op(words: &mut Vec<u16>, one: u16, other: u16) {
    let mut methods = methods(words);
    let code = methods.iter_mut().flat_map(|method| &mut method.code);
    code.filter(|(op, _)| *op == one).for_each(|(op, _)| *op = other);
    *words = data::program::table(&methods);
}

/// Methods where they stand in the text; what calls them keeps its numbers.
fn in_text_order(text: &[u8], words: &mut Vec<u16>) {
    let tree = model::text::tree(text).expect("it has a table");
    let mut methods: Vec<_> = tree.order().into_iter().zip(methods(words)).collect();
    methods.sort_by_key(|(at, _)| *at);
    let methods: Vec<_> = methods.into_iter().map(|(_, method)| method).collect();
    *words = data::program::table(&methods);
}

/// A method that returns a value without the slot for it.
fn without_hole(_: &[u8], words: &mut Vec<u16>) {
    let mut methods = methods(words);
    for method in methods.iter_mut().filter(|method| method.return_type != 0) {
        if let Some(last) = method.slots.iter().rposition(|kind| *kind != 0) {
            method.slots[last] = 0;
        }
    }
    *words = data::program::table(&methods);
}

/// An undeclared variable refused where the text has its name last.
fn last_use(text: &[u8]) -> ModelTable {
    translate(text).map_err(|refusal| {
        let rest = &text[refusal.place..];
        let length = rest.iter().take_while(|byte| byte.is_ascii_alphanumeric() || **byte == b'_').count();
        let last = (refusal.place..text.len()).rfind(|at| text[*at..].starts_with(&rest[..length]));
        match (refusal.reason, last) {
            (Reason::Variable, Some(place)) => TextRefusal { place, ..refusal },
            _ => refusal,
        }
    })
}

/// As many as the gate compares.
const TEXTS: u64 = 5_000;

#[test]
fn every_wrong_translation_is_told_apart() {
    let mut hidden = WRONG.to_vec();
    for number in 0..TEXTS {
        if hidden.is_empty() {
            break;
        }
        let text = text_input(number).case.text;
        let model = translate(&text);
        for room in Room::ALL {
            let mut random = Random::new(number);
            let length = room.length(model.as_ref().map_or(40, Vec::len), &mut random);
            let dirty = dirty(length, &mut random);
            let right = in_buffer(&dirty, |lent| left_by(&model, lent));
            hidden.retain(|(name, wrong)| {
                let left = in_buffer(&dirty, |lent| wrong(&text, lent));
                if left != right {
                    println!("text {number:5}, {room:?}: {name}: {:?}, model {:?}", left.answer, right.answer);
                }
                left == right
            });
        }
    }
    let names: Vec<&str> = hidden.iter().map(|(name, _)| *name).collect();
    assert!(names.is_empty(), "not told apart: {names:?}");
}
