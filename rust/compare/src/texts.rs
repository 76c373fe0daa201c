//! LanQ texts put to the library and to the model: the table of a text in a lent
//! buffer, and its run.

use data::{Question, Refusal, Run, WORK_WORDS};
use generate::{text_case, Random, TextCase};
use lanq::{Translation, MOST_TABLE_WORDS};
use model::text::{tree, TextRefusal};

use crate::result::{Buffers, RunResult, AROUND};

/// A text with all that its run is lent.
#[derive(Clone, Debug, PartialEq, Eq)]
pub struct TextInput {
    pub case: TextCase,
    /// Words of the lent work store.
    pub work_len: usize,
}

/// A generated text, as it is or with other inputs beside it.
pub fn text_input(number: u64) -> TextInput {
    let mut case = text_case(number);
    // Other numbers than those that made the text.
    let mut random = Random::new(!number);
    let mut work_len = WORK_WORDS + random.pick(&[0, 0, 1, 809]);
    match random.below(24) {
        0..3 => {
            let processes = random.between(1, 10);
            case.schedule = (0..random.below(300)).map(|_| random.below(processes) as u8).collect();
            case.trace_len = random.below(200);
        }
        3 => case.outcomes.push(random.pick(&[3, 4, 255])),
        4 if random.chance(30) => case.schedule = vec![0; 65_536],
        5 => work_len = random.pick(&[WORK_WORDS - 1, WORK_WORDS - 1, 8_192, 0]),
        _ => {}
    }
    TextInput { case, work_len }
}

/// How long a buffer for a table is.
#[derive(Clone, Copy, Debug, PartialEq, Eq, PartialOrd, Ord)]
pub enum Room {
    /// No word.
    None,
    /// Some words less than the table has.
    Less,
    OneLess,
    Exact,
    OneMore,
    /// What holds every table, and some words more.
    Ample,
}

impl Room {
    pub const ALL: [Room; 6] = [Room::None, Room::Less, Room::OneLess, Room::Exact, Room::OneMore, Room::Ample];

    /// Words of such a buffer for a table of so many words; for a text without a
    /// table any lengths are as good.
    pub fn length(self, words: usize, random: &mut Random) -> usize {
        match self {
            Room::None => 0,
            Room::Less => random.below(words),
            Room::OneLess => words - 1,
            Room::Exact => words,
            Room::OneMore => words + 1,
            Room::Ample => MOST_TABLE_WORDS + random.below(20),
        }
    }
}

/// What is answered for a text, and every word of the buffer and around it.
#[derive(Clone, Debug, PartialEq, Eq)]
pub struct Translated {
    pub answer: Translation,
    pub words: Vec<u16>,
}

/// What the model answers for a text.
pub type ModelTable = Result<Vec<u16>, TextRefusal>;

/// Both translations of a text into a buffer of so many words, the library's
/// first.
pub fn translations(text: &[u8], model: &ModelTable, length: usize, random: &mut Random) -> [Translated; 2] {
    let dirty = dirty(length, random);
    [in_buffer(&dirty, |lent| lanq::translate(text, lent)), in_buffer(&dirty, |lent| left_by(model, lent))]
}

/// A buffer of so many words full of words that no translation has written, with
/// more around it.
pub fn dirty(length: usize, random: &mut Random) -> Vec<u16> {
    (0..length + 2 * AROUND).map(|_| random.bits() as u16).collect()
}

/// A translation into what lies inside such a buffer.
pub fn in_buffer(dirty: &[u16], translate: impl FnOnce(&mut [u16]) -> Translation) -> Translated {
    let mut words = dirty.to_vec();
    let end = words.len() - AROUND;
    let answer = translate(&mut words[AROUND..end]);
    Translated { answer, words }
}

/// What the model's table leaves in a lent buffer, and what is answered.
pub fn left_by(model: &ModelTable, lent: &mut [u16]) -> Translation {
    match model {
        Err(refused) => Translation::Refused(refusal(*refused)),
        Ok(table) if table.len() > lent.len() => Translation::Short(table.len()),
        Ok(table) => {
            lent[..table.len()].copy_from_slice(table);
            Translation::Table(table.len())
        }
    }
}

/// The model's refusal in the shape that the library's has.
pub fn refusal(refused: TextRefusal) -> Refusal {
    let question = Question::read(refused.number).expect("30, 31 or 32");
    Refusal::new(question, refused.place)
}

/// Runs the text with the library.
pub fn by_library(input: &TextInput, mut buffers: Buffers) -> RunResult {
    let TextCase { text, schedule, outcomes, .. } = &input.case;
    let (trace, work) = buffers.lent();
    let answer = lanq::run_text(text, schedule, outcomes, trace, work);
    let configuration = answer.ok().and_then(|_| lanq::decode(work));
    RunResult { answer, buffers, configuration }
}

/// The model's run of the text's tree. A tree has no words for a store: the final
/// configuration is that of the table's run, which has to have the tree's answer,
/// lines and holders.
pub fn by_tree(input: &TextInput) -> Result<Run, Refusal> {
    let TextCase { text, schedule, outcomes, trace_len } = &input.case;
    let words = model::text::translate(text).map_err(refusal)?;
    let program = model::check(&words, schedule, outcomes, input.work_len)?;
    let tree = tree(text).expect("a text with a table has a tree");
    let on_tree = model::text::run(&tree, schedule, outcomes, *trace_len);
    let on_table = model::run(&program, schedule, outcomes, *trace_len);
    assert_eq!(on_tree.holders, on_table.configuration.holders, "the holders of the tree and of the table");
    Ok(Run {
        end: on_tree.end,
        entries: on_tree.entries,
        outcomes: on_tree.outcomes,
        lines: on_tree.lines,
        configuration: on_table.configuration,
    })
}

/// A part of a text on which it still differs, as short as leaving out bytes makes
/// it.
pub fn shortest(text: &[u8], differs: impl Fn(&[u8]) -> bool) -> Vec<u8> {
    let mut left = text.to_vec();
    let mut length = left.len();
    while length > 0 {
        let mut at = 0;
        while at < left.len() {
            let end = (at + length).min(left.len());
            let shorter = [&left[..at], &left[end..]].concat();
            if differs(&shorter) {
                left = shorter;
            } else {
                at = end;
            }
        }
        length /= 2;
    }
    left
}
