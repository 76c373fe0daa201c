//! Text to file and back: the file comes out as it was.

mod common;

use std::collections::BTreeMap;

use cli::asm::list::{list_inputs, listing};
use cli::input::file::Parts;
use common::{bytes, examples, main_of};
use generate::{file, Random};
use lanq::Program;
use model::print::print;

/// The text of a file; the error says why there is none.
fn list(file: &[u8]) -> Result<String, String> {
    let parts = Parts::read(file)?;
    let methods = Program::from(parts.program.as_slice()).methods();
    let methods = methods.map_err(|reason| reason.to_string())?;
    let text = listing(&methods).text.ok_or("more parameters than slots")?;
    Ok(text + &list_inputs(&parts.schedule, &parts.outcomes))
}

fn listed(file: &[u8]) -> String {
    list(file).unwrap_or_else(|why| panic!("not listed: {why}"))
}

#[test]
fn examples_come_back() {
    for example in examples() {
        let file = bytes(&example.text);
        let text = listed(&file);
        assert_eq!(bytes(&text), file, "{}", example.name);
        assert_eq!(listed(&bytes(&text)), text, "{}", example.name);
    }
}

/// "refused" with its number, or "run".
fn class(printed: &str) -> String {
    match printed.strip_prefix("refused ") {
        Some(rest) => rest.split(' ').next().unwrap_or_default().to_string(),
        None => "run".to_string(),
    }
}

/// Whether a method is said to have more parameters than slots.
fn has_many_parameters(file: &[u8]) -> bool {
    let parts = Parts::read(file).expect("the file is well built");
    let methods = Program::from(parts.program.as_slice()).methods().expect("the table has methods");
    methods.iter().any(|method| method.parameters > 16)
}

/// Files that cannot be listed are those refused by 1, 2 or 9, and those with
/// too many parameters, which are refused by 3. All others come back.
#[test]
fn generated_files_come_back() {
    let mut counts: BTreeMap<(String, bool), usize> = BTreeMap::new();
    for seed in 0..4_000 {
        let file = file(seed);
        let class = class(&print(&file));
        let text = list(&file);
        *counts.entry((class.clone(), text.is_ok())).or_default() += 1;
        match text {
            Ok(text) => {
                assert_eq!(bytes(&text), file, "seed {seed}");
                assert!(!["1", "2", "9"].contains(&class.as_str()), "seed {seed}");
            }
            Err(_) if class == "3" => assert!(has_many_parameters(&file), "seed {seed}"),
            Err(why) => {
                assert!(["1", "2", "9"].contains(&class.as_str()), "seed {seed}: {why}");
            }
        }
    }
    let classes = ["run", "3", "4", "5", "6"].map(|class| (class.to_string(), true));
    assert!(classes.iter().all(|class| counts.contains_key(class)), "{counts:?}");
    let classes = ["1", "2", "3", "9"].map(|class| (class.to_string(), false));
    assert!(classes.iter().all(|class| counts.contains_key(class)), "{counts:?}");
    assert!(counts[&("run".to_string(), true)] > 2_000, "{counts:?}");
}

/// Any words after the pairs: types, ops and arguments of every kind.
#[test]
fn damaged_rows_and_code_come_back() {
    let mut random = Random::new(84);
    for example in examples() {
        let case = Parts::read(&bytes(&example.text)).expect("the file is well built");
        let methods = usize::from(case.program[0]);
        for _ in 0..300 {
            let mut case = case.clone();
            for _ in 0..random.between(1, 12) {
                let place = random.between(2 + 2 * methods, case.program.len() - 1);
                case.program[place] = random.edgy_word();
            }
            for method in 0..methods {
                // More parameters than slots cannot be written.
                let place = 3 + 2 * methods + 18 * method;
                case.program[place] %= 17;
            }
            case.outcomes.push(random.byte());
            case.schedule.push(random.byte());
            let file = data::file::file(&case.program, &case.schedule, &case.outcomes);
            assert_eq!(bytes(&listed(&file)), file);
        }
    }
}

#[test]
fn what_has_no_name_is_listed_raw() {
    let text = "\
method raw(20) main(int s0, -, raw(65535) s2)
    slots -, end(bool) s4
    raw 0 0
    raw 2 2
    raw 3 1
    raw 17 40
    raw 10 9
    raw 5 1
    raw 24 67
L7:
    INT -32768
    JFALSE L7

schedule
    0 0 255*3 1

outcomes
    2 0
";
    assert_eq!(listed(&bytes(text)), text);
}

#[test]
fn empty_sections_come_back() {
    let short = bytes(&main_of("    RET"));
    let text = listed(&short);
    assert_eq!(text, "method void main()\n    RET\n\nschedule\n\noutcomes\n");
    assert_eq!(bytes(&text), short);
}

#[test]
fn the_largest_table_comes_back() {
    let method = |number: usize| {
        let name = match number {
            0 => "main".to_string(),
            _ => format!("m{number}"),
        };
        format!("method void {name}()\n{}    RET\n\n", "    INT 7\n".repeat(127))
    };
    let methods: String = (0..32).map(method).collect();
    let text = format!("{methods}schedule\n    0*100\n\noutcomes\n");
    let file = bytes(&text);
    assert_eq!(file.len(), 24 + 2 * (2 + 20 * 32 + 2 * 4_096) + 100);
    assert_eq!(listed(&file), text);
}

#[test]
fn what_cannot_be_listed_is_said() {
    let file = bytes(&main_of("    RET"));
    let with = |place: usize, value: u8| {
        let mut file = file.clone();
        file[place] = value;
        list(&file).expect_err("not to be listed")
    };
    assert_eq!(list(&[]), Err("its length is 0, the header alone has 24 bytes".to_string()));
    assert_eq!(with(0, 23), "its program is said to start at byte 23, not 24");
    assert_eq!(with(4, 47), "its schedule is said to start at byte 72, not 71");
    assert_eq!(with(12, 1), "its schedule passes the end, with 1 bytes");
    assert_eq!(with(24, 33), "refused 1 0: M, the number of methods, is 33, not 1 to 32");
    assert_eq!(with(26, 2), "refused 1 0: the table has 24 words, for its M and N it must have 26");
    let start = "refused 2 0: the method is said to start at instruction 1, not 0, where the one before ends";
    assert_eq!(with(28, 1), start);
    assert_eq!(with(34, 17), "more parameters than slots");
}

/// The places of a listing are the lines of its text.
#[test]
fn a_listing_tells_its_lines() {
    for file in examples().iter().map(|example| bytes(&example.text)) {
        let program = Program::from(Parts::read(&file).expect("the file is well built").program);
        let listing = listing(&program.methods().expect("the table has methods"));
        let text = listing.text.expect("no method has more than 16 parameters");
        let lines: Vec<&str> = text.lines().collect();
        let code = cli::code::Code::of_table(program.methods().expect("the table has methods"));
        let count: usize = code.methods.iter().map(|method| method.code.len()).sum();
        for place in 0..count {
            let site = code.site(place).expect("an instruction");
            let (at, _) = site.written.expect("it is listed");
            assert_eq!(lines[at.line - 1][at.column - 1..], site.text);
        }
        for names in &listing.names {
            let header = names.header.expect("it is listed");
            assert!(lines[header.line - 1].contains(&format!(" {}(", names.name)));
        }
    }
}

#[test]
fn other_badly_built_files_are_said() {
    let mut longer = bytes(&main_of("    RET"));
    longer.push(0);
    assert_eq!(list(&longer), Err("its parts end at byte 72 of 73".to_string()));
    let long = vec![0; 65_537];
    assert_eq!(list(&long), Err("its length is 65537, at most 65536 bytes are read".to_string()));
    let mut odd = bytes(&main_of("    RET\nschedule 0"));
    odd[4] += 1;
    odd[8] += 1;
    odd[12] -= 1;
    assert_eq!(list(&odd), Err("its program has an odd length, 49".to_string()));
}
