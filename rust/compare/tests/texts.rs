//! LanQ texts by the library and by the model (Paper 1): refusals 30 to 32 with
//! their places, the words of the table in buffers of every length, and the run,
//! which the model makes on the text's tree.
//!
//! The gate's part takes seconds. A million texts that it does not have:
//!
//!     cargo test --release --offline -p compare --test texts -- --ignored --nocapture

use std::collections::BTreeMap;
use std::ops::Range;
use std::time::Instant;

use compare::result::{by_model, difference, Buffers};
use compare::texts::{by_library, by_tree, shortest, text_input, translations, ModelTable, Room, TextInput};
use data::program::table;
use data::texts::{examples, records, Example, Expectation};
use data::{Answer, Question, Refusal, WORK_WORDS};
use generate::{observe_text, Random, TextCase, TextCoverage};
use lanq::{lines, run_text, translate, Translation, MOST_TABLE_WORDS};

/// What the texts have brought about.
#[derive(Default)]
struct Totals {
    coverage: TextCoverage,
    /// Tables by the room that was lent.
    tables: BTreeMap<Room, u64>,
    /// Refused texts by the room that was lent.
    refused: BTreeMap<Room, u64>,
    /// Runs, 0, and refusals by the question.
    runs: BTreeMap<u16, u64>,
    entries: usize,
    lines: usize,
}

/// The text's translation into a buffer of this room, by both.
fn translated(number: u64, text: &[u8], room: Room) -> Result<Translation, String> {
    beside(number, text, &model::text::translate(text), room)
}

/// The same beside what the model has answered.
fn beside(number: u64, text: &[u8], model: &ModelTable, room: Room) -> Result<Translation, String> {
    let mut random = Random::new(number);
    let words = model.as_ref().map_or(40, Vec::len);
    let length = room.length(words, &mut random);
    let [library, model] = translations(text, model, length, &mut random);
    if library.answer != model.answer {
        return Err(format!("{room:?}: {:?}, model {:?}", library.answer, model.answer));
    }
    match library.words.iter().zip(&model.words).position(|(one, other)| one != other) {
        Some(at) => Err(format!("{room:?}: word {at} of the buffer, with 8 before it, differs")),
        None => Ok(library.answer),
    }
}

/// The text's run by both: what the library answers, and a difference.
fn ran(number: u64, input: &TextInput) -> (Result<Answer, Refusal>, Option<String>) {
    let buffers = Buffers::of_lengths(input.case.trace_len, input.work_len, &mut Random::new(number));
    let library = by_library(input, buffers.clone());
    let difference = difference(&library, &by_model(&by_tree(input), buffers));
    (library.answer, difference)
}

fn compare(number: u64, input: &TextInput, met: &mut Totals) {
    let text = &input.case.text;
    let model = model::text::translate(text);
    // A buffer that just holds the table, and another one.
    for room in [Room::Exact, Room::ALL[number as usize % Room::ALL.len()]] {
        match beside(number, text, &model, room) {
            Ok(Translation::Refused(_)) => *met.refused.entry(room).or_default() += 1,
            Ok(_) => *met.tables.entry(room).or_default() += 1,
            Err(why) => {
                let shortest = shortest(text, |text| translated(number, text, room).is_err());
                panic!("text {number}: {why}\n{:?}", String::from_utf8_lossy(&shortest));
            }
        }
    }
    let (answer, difference) = ran(number, input);
    if let Some(why) = difference {
        let lengths = 0..=input.case.schedule.len();
        let starts =
            lengths.map(|length| TextCase { schedule: input.case.schedule[..length].to_vec(), ..input.case.clone() });
        let mut starts = starts.map(|case| TextInput { case, ..input.clone() });
        let shortest = starts.find(|input| ran(number, input).1.is_some()).unwrap_or_else(|| input.clone());
        panic!("text {number}: {why}\n{}\n{shortest:?}", String::from_utf8_lossy(&input.case.text));
    }
    *met.runs.entry(answer.map_or_else(Refusal::number, |_| 0)).or_default() += 1;
    if let Ok(answer) = answer {
        met.entries += answer.entries;
        met.lines += answer.lines;
    }
    // The coverage counts what a text brings about whose inputs are right.
    if !matches!(answer, Err(Refusal { question: Question::Outcomes | Question::Schedule, .. })) {
        let seen = observe_text(&input.case, &mut met.coverage);
        seen.unwrap_or_else(|why| panic!("text {number}: {why}"));
    }
}

/// What must have been met: everything that generated texts can bring about, among
/// it every reason of 30, 31 and 32, every op, fault, line and end that a text can
/// give; refusals 6, 7 and 8 after them; and buffers of every length.
fn all_met(met: &Totals) {
    assert_eq!(met.coverage.missing(), []);
    for room in Room::ALL {
        assert!(met.tables.contains_key(&room) && met.refused.contains_key(&room), "{room:?}");
    }
    // A table that is given out passes questions 1 to 5.
    let answers: Vec<u16> = met.runs.keys().copied().collect();
    assert_eq!(answers, [0, 6, 7, 8, 30, 31, 32]);
}

fn agree(numbers: Range<u64>) {
    let count = numbers.end - numbers.start;
    let mut met = Totals::default();
    let (first, begun) = (numbers.start, Instant::now());
    for number in numbers {
        compare(number, &text_input(number), &mut met);
        progress(number - first + 1, count, begun);
    }
    all_met(&met);
    println!("{count} texts, {} entries, {} lines", met.entries, met.lines);
    println!("tables {:?}, refused {:?}\nruns {:?}", met.tables, met.refused, met.runs);
    for (mark, count) in met.coverage.counts() {
        println!("{count:10} {mark:?}");
    }
}

/// Says how far many texts have come, a hundred times in all.
fn progress(done: u64, count: u64, begun: Instant) {
    if count > 100_000 && done.is_multiple_of(count / 100) {
        let left = begun.elapsed().as_secs_f64() * (count - done) as f64 / done as f64;
        eprintln!("{done} of {count} texts, {left:.0} s left");
    }
}

#[test]
fn five_thousand_agree() {
    agree(0..5_000);
}

/// Some minutes, so by hand.
#[test]
#[ignore]
fn a_million_agree() {
    agree(1_000_000..2_000_000);
}

/// The minimal texts are answered as their file says, whatever the model says; and
/// run alike.
#[test]
fn records_are_answered_as_they_say() {
    let schedule: Vec<u8> = (0..400).map(|index| (index * index / 7 % 3) as u8).collect();
    let mut met = Totals::default();
    for (record, number) in records().into_iter().zip(0..) {
        let mut words = vec![7; MOST_TABLE_WORDS];
        let answer = translate(&record.text, &mut words);
        let shown = format!("point {}, {}: {}", record.point, record.why, String::from_utf8_lossy(&record.text));
        match (&record.answer, answer) {
            (Expectation::Refused { number, place }, Translation::Refused(refusal)) => {
                assert_eq!((refusal.number(), refusal.place), (*number, *place), "{shown}");
                assert_eq!(words, vec![7; MOST_TABLE_WORDS], "{shown}");
            }
            (Expectation::Methods(methods), Translation::Table(length)) => {
                assert_eq!(words[..length], table(methods), "{shown}");
                assert!(words[length..].iter().all(|word| *word == 7), "{shown}");
            }
            (Expectation::Accepted, Translation::Table(_)) => {}
            (expected, answer) => panic!("{shown}: {answer:?}, not {expected:?}"),
        }
        for (outcomes, trace_len) in [(vec![1, 0, 2, 1, 1], 6_000), (vec![], 12), (vec![0, 3], 6_000)] {
            let case = TextCase { text: record.text.clone(), schedule: schedule.clone(), outcomes, trace_len };
            compare(number, &TextInput { case, work_len: WORK_WORDS }, &mut met);
        }
    }
    assert!(met.runs[&0] > 100 && met.runs[&6] > 50, "{:?}", met.runs);
}

/// The examples print what stands beside them, by the library's run of the text.
#[test]
fn examples_print_what_stands_beside_them() {
    assert!(examples().len() >= 8);
    for Example { name, text, schedule, outcomes, expected } in examples() {
        let mut trace = vec![7; 6 * 1_000];
        let mut work = vec![7; WORK_WORDS];
        let answer = run_text(text.as_bytes(), &schedule, &outcomes, &mut trace, &mut work);
        let answer = answer.unwrap_or_else(|refusal| panic!("{name}: {refusal}"));
        let lines: String = lines(&trace)[..answer.lines].iter().map(|line| format!("{line}\n")).collect();
        assert_eq!(format!("{lines}{answer}\n"), expected, "{name}");
        let case = TextCase { text: text.into_bytes(), schedule, outcomes, trace_len: 600 };
        compare(0, &TextInput { case, work_len: WORK_WORDS }, &mut Totals::default());
    }
}

/// Every beginning of an example, and every example with one byte left out or
/// another one in its place: a refusal's place has to be right wherever it is.
#[test]
fn damaged_examples_agree() {
    let mut refused: BTreeMap<u16, u64> = BTreeMap::new();
    for Example { name, text, .. } in examples() {
        let text = text.into_bytes();
        let mut random = Random::new(text.len() as u64);
        for at in 0..text.len() {
            let mut other = text.clone();
            other[at] = random.pick(b" ;(){}[],=+-<0a\n\x00\xff");
            let less = [&text[..at], &text[at + 1..]].concat();
            for damaged in [&text[..at], &less, &other] {
                let answer = translated(at as u64, damaged, Room::Ample);
                match answer {
                    Ok(Translation::Refused(refusal)) => *refused.entry(refusal.number()).or_default() += 1,
                    Ok(_) => *refused.entry(0).or_default() += 1,
                    Err(why) => {
                        let shortest = shortest(damaged, |text| translated(0, text, Room::Ample).is_err());
                        panic!("{name}, byte {at}: {why}\n{:?}", String::from_utf8_lossy(&shortest));
                    }
                }
            }
        }
    }
    let answers: Vec<u16> = refused.keys().copied().collect();
    assert_eq!(answers, [0, 30, 31, 32], "{refused:?}");
}

/// Longer texts: many names, many declarations, deep brackets and calls, noise.
#[test]
fn long_texts_agree() {
    let many = |passage: &str, count: usize| passage.repeat(count);
    let names: String = (0..1_000).map(|n| format!("v{n} = {n} ; ")).collect();
    let declared: String = (0..1_000).map(|n| format!("int v{n} ; ")).collect();
    let methods: String = (0..400).map(|n| format!("void f{n}() {{ f{}(); }} ", (n * 7 + 3) % 400)).collect();
    let texts = [
        many("(", 40_000),
        format!("void main() {{ int a; a = {}1{}; }}", many("(", 20_000), many(")", 20_000)),
        format!("int f(int a) {{ return a; }} void main() {{ f({}1{}); }}", many("f(", 4_000), many(")", 4_000)),
        format!("void main() {{ int a; a = 1{}; }}", many(" + 1", 8)),
        format!("void main() {{ int a; a = 1{}; }}", many(" + 1", 9_000)),
        format!("void main() {{ int a; {} }}", many("a = a ; ", 1_500)),
        format!("void main() {{ int a; {} }}", many("a = 1 ; ", 1_365)),
        format!("void main() {{ int a; {} }}", many("a = 1 ; ", 1_366)),
        format!("void main() {{ {declared} {names} }}"),
        format!("void main() {{ {declared} {names} v0 = v9 }}"),
        format!("{methods} void main() {{ f1(); }}"),
        format!("{methods} void main() {{ f1(2); }}"),
        format!("void main() {{ int {}x; x = 1; }}", many("x, ", 3_000)),
        format!("void main() {{ {} }}", many("if (true) ; ", 3_000)),
        format!("void main() {{ {} ; }}", many("if (true) ; else ", 40)),
        format!("void main() {{ {} {} }}", many("{ int a ; a = 1 ; ", 31), many("} ", 31)),
        format!("void main() {{ int a ; {} {} }}", many("while (a < 1) { int a ; ", 31), many("} ", 31)),
        many("void main() { int a; a = 1; } ", 1_000),
        many(" ", 50_000),
        many("a", 50_000),
        many("7", 50_000),
    ];
    let mut noise = Random::new(7);
    let noise: Vec<u8> = (0..50_000).map(|_| noise.byte()).collect();
    let texts = texts.into_iter().map(String::into_bytes).chain([noise]);
    for (text, number) in texts.zip(0..) {
        let model = model::text::translate(&text);
        for room in [Room::OneLess, Room::Exact] {
            let agreed = beside(number, &text, &model, room);
            let start = String::from_utf8_lossy(&text[..text.len().min(60)]).into_owned();
            agreed.unwrap_or_else(|why| panic!("text {number}: {why}\n{start} .."));
        }
    }
}

/// A megabyte of the stack is enough for every text, as include/lanq.h says: nothing grows
/// with brackets and calls, and blocks are nested to 32.
#[test]
fn a_megabyte_of_stack_is_enough() {
    let calls = format!("{}a{}", "f(".repeat(30), ")".repeat(30));
    let loops = format!("while (a < {calls}) {{ if (true) ; else ; a = {calls}; ").repeat(30);
    let text = format!("int f(int a) {{ return a; }} void main() {{ int a; {loops} {} }}", "} ".repeat(30));
    let brackets = format!("void main() {{ int a; a = {}1{}; }}", "(".repeat(100_000), ")".repeat(100_000));
    let called = move || {
        let mut table = vec![0; MOST_TABLE_WORDS];
        let (mut trace, mut work) = (vec![0; 600], vec![0; WORK_WORDS]);
        for text in [text, brackets] {
            let answer = translate(text.as_bytes(), &mut table);
            let ran = run_text(text.as_bytes(), &[0; 100], &[], &mut trace, &mut work);
            assert!(matches!(answer, Translation::Table(_)) && ran.is_ok(), "{answer:?}, {ran:?}");
        }
    };
    let thread = std::thread::Builder::new().stack_size(1 << 20).spawn(called);
    thread.expect("a thread").join().expect("it ends");
}
