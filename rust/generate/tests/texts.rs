//! The generated texts bring about everything that coverage asks for. The run of a
//! text's tree and the run of its table are the same, entry by entry.

use std::collections::BTreeSet;

use data::program::table;
use data::{Type, SLOTS, WORK_WORDS};
use generate::{observe_text, text_case, TextCoverage, TextMark};
use model::check;
use model::text::tree::{Block, Method};
use model::text::{code, translate, Tree};

#[test]
fn texts_cover_everything_and_run_alike() {
    let mut coverage = TextCoverage::new();
    let texts = 4_000;
    for seed in 0..texts {
        if let Err(why) = observe_text(&text_case(seed), &mut coverage) {
            panic!("seed {seed}: {why}\n{}", String::from_utf8_lossy(&text_case(seed).text));
        }
    }
    assert_eq!(coverage.missing(), []);
    let accepted = coverage.count(TextMark::Accepted);
    assert!((texts * 2 / 5..texts * 3 / 5).contains(&accepted), "{accepted} of {texts} are accepted");
}

#[test]
fn a_seed_names_one_text() {
    for seed in [0, 1, 77, u64::MAX] {
        assert_eq!(text_case(seed), text_case(seed));
    }
    let texts: BTreeSet<Vec<u8>> = (0..50).map(|seed| text_case(seed).text).collect();
    assert!(texts.len() > 45);
}

/// 32 stands "at the name of the first method in text order with which a limit is
/// passed": the first with which the questions refuse the table, while all methods
/// after it in the text are empty.
#[test]
fn the_place_of_32_is_the_questions() {
    let mut refused = 0;
    for seed in 20_000..23_000 {
        let text = text_case(seed).text;
        let Some(tree) = model::text::tree(&text).ok().filter(is_small) else { continue };
        let expected = (0..tree.methods.len()).find(|last| is_refused(&tree, *last));
        let expected = expected.map(|method| tree.methods[method].name.at);
        let answer = translate(&text).err().map(|refusal| refusal.place);
        assert_eq!(answer, expected, "seed {seed}: {}", String::from_utf8_lossy(&text));
        refused += u64::from(answer.is_some());
    }
    assert!(refused > 50, "{refused} are refused");
}

/// Whether the methods after can be made empty without passing a limit themselves.
fn is_small(tree: &Tree) -> bool {
    let instructions: usize = tree.methods.iter().map(|method| code::translate(tree, method).code.len()).sum();
    let signature = |method: &Method| {
        let is_main = method.name.bytes == b"main";
        method.parameters.len() <= 8 && (!is_main || (method.parameters.is_empty() && method.returns == Type::None))
    };
    tree.methods.len() <= 32 && instructions < 4_000 && tree.methods.iter().all(signature)
}

/// Whether the questions refuse the table of the methods up to this one, the others
/// empty. A number's word cannot say that it is too large.
fn is_refused(tree: &Tree, last: usize) -> bool {
    let methods = tree.order().into_iter().map(|index| written(tree, index, index <= last));
    let too_large = code::translate(tree, &tree.methods[last]).large_number;
    let methods: Option<Vec<data::program::Method>> = methods.collect();
    match methods {
        Some(methods) => too_large || check(&table(&methods), &[], &[], WORK_WORDS).is_err(),
        None => true,
    }
}

/// A method's numbers, whole or empty; none where it has more than 16 slots.
fn written(tree: &Tree, index: usize, whole: bool) -> Option<data::program::Method> {
    let method = &tree.methods[index];
    let empty = Method { body: Block::default(), ..method.clone() };
    let made = code::translate(tree, if whole { method } else { &empty });
    let word = |number: usize| u16::try_from(number).expect("small texts have small numbers");
    (made.slots.len() <= SLOTS).then(|| data::program::Method {
        return_type: method.returns.number(),
        parameters: word(method.parameters.len()),
        slots: made.slots.iter().map(|kind| kind.number()).collect(),
        code: made.code.iter().map(|(op, argument)| (*op, word(*argument))).collect(),
    })
}
