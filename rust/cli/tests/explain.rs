//! Runs in words.

mod common;

use std::fs;

use cli::code::Code;
use cli::explain::explain;
use cli::holders::Holders;
use cli::input::case::{Case, CaseOptions};
use cli::input::file::Parts;
use cli::sentence::sentence;
use common::{assembled, bytes, example, examples, lanq, lanq_in, write};
use data::program::table;
use data::{Line, Side, Thing};
use generate::file;
use lanq::Program;
use model::owner::holder;
use model::print::print;

/// The case of a text, which has its own names.
fn case_of(text: &str) -> Case {
    let assembled = assembled(text);
    Case {
        name: "text".to_string(),
        text: None,
        program: table(&assembled.code.methods),
        code: Some(assembled.code),
        schedule: assembled.schedule.unwrap_or_default(),
        outcomes: assembled.outcomes.unwrap_or_default(),
        made: None,
        unscheduled: false,
    }
}

/// The case of a generated file, if it is one.
fn case_of_file(file: &[u8]) -> Option<Case> {
    let Parts { program, schedule, outcomes } = Parts::read(file).ok()?;
    let methods = Program::from(program.as_slice()).methods().ok();
    let code = methods.map(Code::of_table);
    Some(Case {
        name: "file".to_string(),
        program,
        text: None,
        code,
        schedule,
        outcomes,
        made: None,
        unscheduled: false,
    })
}

/// As the printing program runs it.
const PRINTED: CaseOptions = CaseOptions {
    path: None,
    program: None,
    schedule: None,
    outcomes: None,
    room: Some(4_096),
    machine: cli::machine::Machine::Proved,
    silent: true,
};

/// The explanation of a case that runs.
fn explained_case(case: &Case, all: bool) -> Option<String> {
    let run = PRINTED.run(case).ok()?;
    Some(explain(&PRINTED, case, case.code.as_ref()?, &run, all))
}

fn explained(text: &str) -> String {
    explained_case(&case_of(text), false).expect("the text runs")
}

/// Compares with a file of tests/expected.
fn expect(name: &str, text: &str) {
    let path = common::repository("rust/cli/tests/expected").join(name);
    let expected = fs::read_to_string(&path).unwrap_or_else(|error| panic!("{}: {error}", path.display()));
    assert_eq!(text, expected, "{name}");
}

#[test]
fn runs_in_words() {
    expect("two-names.explained", &lanq(&["explain", "two-names.lqa"]).quiet());
    expect("half-evaluated.explained", &lanq(&["explain", "half-evaluated.lqa"]).quiet());
}

/// With every entry: silent ones, idle ones with the reason, those not used.
#[test]
fn every_entry_in_words() {
    let called = lanq(&["explain", "given-whole.lqa", "--all", "--schedule", "round-robin:60"]);
    assert_eq!(called.status, Some(0));
    assert_eq!(called.notes, "given-whole.lqa: made --schedule '(0,1)*30'\n");
    expect("given-whole-in-turn.explained", &called.out);
}

/// The numbers at the start of the explanation's lines, as they are printed.
fn numbers_of(explained: &str) -> String {
    let lines = explained.lines().filter(|line| starts_with_numbers(line));
    let numbers = lines.map(|line| match line.split_once(" process ") {
        Some((numbers, _)) => numbers.trim_end(),
        None => line,
    });
    numbers.map(|line| format!("{line}\n")).collect()
}

/// A trace line, or the line of the end, which has no colon.
fn starts_with_numbers(line: &str) -> bool {
    let end = line.starts_with("end ") && !line.contains(':');
    end || line.starts_with(|c: char| c.is_ascii_digit()) && line.contains(" process ")
}

#[test]
fn the_numbers_are_the_printed_ones() {
    for example in examples() {
        let case = case_of(&example.text);
        for all in [false, true] {
            let explained = explained_case(&case, all).expect("an example runs");
            assert_eq!(numbers_of(&explained), example.expected, "{}", example.name);
        }
    }
    let mut ran = 0;
    for seed in 0..300 {
        let file = file(seed);
        if let Some(explained) = case_of_file(&file).and_then(|case| explained_case(&case, seed % 2 == 0)) {
            assert_eq!(numbers_of(&explained), print(&file), "seed {seed}");
            ran += 1;
        }
    }
    assert!(ran > 100, "{ran} files ran");
}

/// Each holder that the lines give, against the model's reading of them.
#[test]
fn holders_are_those_of_the_lines() {
    let files = examples().into_iter().map(|example| bytes(&example.text));
    for case in files.chain((0..400).map(file)).filter_map(|file| case_of_file(&file)) {
        let Ok(run) = PRINTED.run(&case) else { continue };
        let mut holders = Holders::default();
        for (index, line) in run.lines.iter().take(200).enumerate() {
            holders.read(line);
            let so_far = &run.lines[..=index];
            for qubit in 0..33 {
                let held = holders.qubits.get(&qubit).copied();
                assert_eq!(held, holder(so_far, Thing::Qubit(qubit)));
            }
            for channel in 0..17 {
                for side in [Side::Zero, Side::One] {
                    let held = holders.ends.get(&(channel, side)).copied();
                    assert_eq!(held, holder(so_far, Thing::End(channel, side)));
                }
            }
        }
    }
}

#[test]
fn a_channel_given_gives_its_ends() {
    let mut holders = Holders::default();
    assert_eq!(holders.text(), "nothing yet");
    holders.read(&Line::from_words([0, 0, 2, 0, 65535, 65535]));
    holders.read(&Line::from_words([1, 0, 1, 4, 65535, 65535]));
    assert_eq!(holders.text(), "by 0: q4 c0.0 c0.1");
    holders.read(&Line::from_words([2, 0, 6, 1, 4, 0]));
    holders.read(&Line::from_words([3, 0, 6, 2, 3, 4]));
    assert_eq!(holders.text(), "by 1: c0.0 c0.1; by 2: q4");
    holders.read(&Line::from_words([4, 1, 6, 2, 5, 0]));
    assert_eq!(holders.text(), "by 1: c0.1; by 2: q4 c0.0");
}

/// The sentence beside the numbers that start so.
fn sentence_of(explained: &str, numbers: &str) -> String {
    let mut lines = explained.lines();
    let line = lines.find(|line| line.starts_with(numbers)).unwrap_or_default();
    line[numbers.len()..].trim_start().to_string()
}

#[test]
fn every_kind_has_a_sentence() {
    let teleport = explained(&example("teleport").text);
    for (numbers, expected) in [
        ("0 0 2 0 - -", "process 0 makes channel 0"),
        ("19 0 5 1 1 2", "process 0 forks process 1 in method alice with 2 arguments"),
        ("19 0 6 1 5 2", "process 0 gives end 0 of channel 2 to process 1"),
        ("24 1 1 0 - -", "process 1 makes qubit 0"),
        ("26 1 3 4 0 -", "process 1 applies H to qubit 0"),
        ("39 0 3 6 1 2", "process 0 applies CX to qubit 2, controlled by qubit 1"),
        ("42 0 7 1 0 0", "process 0 meets process 1 over channel 0, sending from end 0"),
        ("42 0 6 1 3 1", "process 0 gives qubit 1 to process 1"),
        ("56 1 4 0 1 -", "process 1 measures qubit 0, outcome 1"),
        ("60 1 8 1 0 -", "process 1 sends the value 1"),
        ("94 2 9 - - -", "process 2 finishes"),
    ] {
        assert_eq!(sentence_of(&teleport, numbers), expected);
    }
}

/// Two-qubit gates, and a channel given whole.
const GATES_AND_CHANNEL: &str = "\
method void main()
    slots qbit a, qbit b
    NEWQ
    PUT a
    NEWQ
    PUT b
    GATE SWAP
    GET a
    GET b
    GATE CZ
    NEWC bool
    FORK keeper
    RET
method void keeper(channel(bool) c)
    RET
schedule 0*20
";

#[test]
fn the_other_sentences() {
    let explained = explained(GATES_AND_CHANNEL);
    for (numbers, expected) in [
        ("4 0 3 8 0 1", "process 0 applies SWAP to qubits 0 and 1"),
        ("7 0 3 7 0 1", "process 0 applies CZ to qubits 0 and 1"),
        ("9 0 6 1 4 0", "process 0 gives channel 0 to process 1"),
    ] {
        assert_eq!(sentence_of(&explained, numbers), expected);
    }
    let code = case_of(GATES_AND_CHANNEL).code.expect("the text has methods");
    let line = |words| sentence(&Line::from_words(words), &code);
    assert_eq!(line([0, 1, 8, 65_534, 65_535, 65_535]), "process 1 sends the value -2");
    assert_eq!(line([0, 1, 4, 3, 0, 65_535]), "process 1 measures qubit 3, outcome 0");
    assert_eq!(line([0, 1, 4, 3, 2, 65_535]), "process 1 measures qubit 3, outcome 2: no click");
    assert_eq!(line([0, 1, 11, 0, 0, 0]), "process 1 writes a line of kind 11");
}

/// The lines after the line of the end.
fn outro(explained: &str) -> Vec<&str> {
    let lines = explained.lines().skip_while(|line| !line.starts_with("end "));
    lines.skip(2).collect()
}

/// Main stands at SEND over an end of its own channel.
const ALONE: &str = "\
method void main()
    slots channel(int) c, end(int) e, bool flag
    BOOL true
    PUT flag
    DROP
    NEWC int
    PUT c
    END 0
    INT 5
    SEND
    RET
schedule 0*9
outcomes 0
";

#[test]
fn a_process_that_would_meet_itself() {
    let frame = [
        "    frame 0 stands at main 7 (table 7, line 10): SEND",
        "        slots: c = channel 0, flag = true",
        "        pending: end 0 of channel 0, 5",
    ];
    let stopped = [
        "end 1: every process made has finished or stopped",
        "entries used: 8 of 9, lines written: 2, outcomes used: 0 of 1",
        "process 0 was stopped by fault 33: the opposite end is held by the process itself, or by one that has \
         finished or stopped",
        "    end 1 of channel 0 is held by itself, and none meets itself",
    ];
    assert_eq!(outro(&explained(ALONE)), [&stopped[..], &frame].concat());
    // Before it is named there, nothing has stopped it.
    let cut = [
        "end 0: the schedule is used up",
        "entries used: 7 of 7, lines written: 1, outcomes used: 0 of 1",
        "process 0 is able to move, to be stopped by fault 33: end 1 of channel 0 is held by itself, and none meets \
         itself",
    ];
    assert_eq!(outro(&explained(&ALONE.replace("0*9", "0*7"))), [&cut[..], &frame].concat());
}

/// Main waits for the first station, which leaves; a second one waits for main.
const WAITING: &str = "\
method void main()
    slots channel(int) c, end(int) mine, channel(int) d, end(int) other
    NEWC int
    PUT c
    END 0
    PUT mine
    DROP
    GET c
    END 1
    FORK leaves
    NEWC int
    PUT d
    END 0
    PUT other
    DROP
    GET d
    END 1
    FORK waits
    GET mine
    RECV
    DROP
    RET
method void leaves(end(int) e)
    RET
method void waits(end(int) e)
    GET e
    RECV
    DROP
    RET
schedule 0*16 2 0 1 0 2
";

#[test]
fn who_waits_for_whom() {
    let of_schedule = |schedule: &str| explained(&WAITING.replace("2 0 1 0 2", schedule));
    let main = [
        "    frame 0 stands at main 17 (table 17, line 20): RECV",
        "        slots: mine = end 0 of channel 0, other = end 0 of channel 1",
        "        emptied: c (channel 0, whose end 1 was given to process 1 at entry 7), \
         d (channel 1, whose end 1 was given to process 2 at entry 15)",
        "        pending: end 0 of channel 0",
    ];
    let second = [
        "    frame 0 stands at waits 1 (table 22, line 27): RECV",
        "        slots: e = end 1 of channel 1",
        "        pending: end 1 of channel 1",
    ];
    // All who wait do so for one that runs.
    let waiting = of_schedule("2 0 2 0");
    assert_eq!(outro(&waiting)[..6], [
        &["end 0: the schedule is used up", "entries used: 20 of 20, lines written: 6, outcomes used: 0 of 0"][..],
        &["process 0 waits to receive over end 0 of channel 0, for process 1, which holds end 1 and stands at leaves 0 \
           (table 20, line 24): RET"],
        &main[..3],
    ]
    .concat());
    let for_main =
        "process 2 waits to receive over end 1 of channel 1, for process 0, which holds end 0 and waits too, \
                    at main 17 (table 17, line 20): RECV";
    assert!(waiting.lines().any(|line| line == for_main), "{waiting}");
    // The first station has left: main is to be stopped, and the second still
    // waits for main.
    let left = of_schedule("2 0 1 2");
    let to_be_stopped =
        "process 0 is able to move, to be stopped by fault 33: end 1 of channel 0 is held by process 1, \
                         which has finished";
    let for_main =
        "process 2 waits to receive over end 1 of channel 1, for process 0, which holds end 0 and stands at \
                    main 17 (table 17, line 20): RECV";
    for expected in [to_be_stopped, for_main] {
        assert!(left.lines().any(|line| line == expected), "{left}");
    }
    // One after the other.
    let fault = "33: the opposite end is held by the process itself, or by one that has finished or stopped";
    let stopped =
        [format!("process 0 was stopped by fault {fault}"), format!("process 2 was stopped by fault {fault}")];
    let gone = of_schedule("2 0 1 0 2");
    let expected = [
        &["end 1: every process made has finished or stopped"][..],
        &["entries used: 21 of 21, lines written: 9, outcomes used: 0 of 0", &stopped[0]],
        &["    end 1 of channel 0 is held by process 1, which has finished"],
        &main,
        &["process 1 has finished", &stopped[1]],
        &["    end 0 of channel 1 is held by process 0, which was stopped"],
        &second,
    ];
    assert_eq!(outro(&gone), expected.concat());
    // Cut before main gets there.
    let cut = of_schedule("1 2 2");
    let waits = "process 2 waits to receive over end 1 of channel 1, for process 0, which holds end 0 and stands at \
                 main 16 (table 16, line 19): GET mine";
    assert!(cut.contains("\nprocess 0 is able to move\n") && cut.contains(waits), "{cut}");
}

/// Two that wait for each other: end 2, and each is explained.
#[test]
fn waiting_for_each_other() {
    let text = WAITING.replace(
        "method void leaves(end(int) e)\n    RET",
        "method void leaves(end(int) e)\n    GET e\n    RECV\n    DROP\n    RET",
    );
    let stuck = explained(&text.replace("2 0 1 0 2", "0 1 2 0"));
    assert_eq!(outro(&stuck)[0], "end 2: no process is able to move");
    for (number, partner) in [(0, 1), (1, 0), (2, 0)] {
        let waits =
            stuck.lines().find(|line| line.starts_with(&format!("process {number} waits to receive"))).unwrap_or("");
        assert!(waits.contains(&format!("for process {partner}, which holds end")), "{stuck}");
        assert!(waits.contains("and waits too, at "), "{stuck}");
    }
}

#[test]
fn a_run_cut_short() {
    let text = "\
method void main()
    slots int n
    INT 3
    PUT n
    CALL down
    RET
method void down(int left)
    slots -, qbit q
    NEWQ
    PUT q
    DROP
    RET
schedule 0*4
";
    let case = case_of_file(&bytes(text)).expect("a file");
    assert_eq!(
        outro(&explained_case(&case, false).expect("it runs")),
        [
            "end 0: the schedule is used up",
            "entries used: 4 of 4, lines written: 1, outcomes used: 0 of 0",
            "process 0 is able to move",
            "    frame 0 goes on at main 3 (table 3, line 6 of the listing): RET",
            "        slots: s0 = 3",
            "        pending: none",
            "    frame 1 stands at m1 1 (table 5, line 11 of the listing): PUT s2",
            "        slots: s0 = 3",
            "        pending: qubit 0",
        ]
    );
}

/// What CLEAR has emptied, and a channel given with its ends.
#[test]
fn what_else_is_emptied() {
    let text = "\
method void main()
    slots qbit q, channel(int) c, end(int) a
    NEWQ
    PUT q
    DROP
    CLEAR q
    NEWC int
    PUT c
    END 0
    PUT a
    DROP
    GET c
    FORK other
    RET
method void other(channel(int) c)
    RET
schedule 0*11
";
    let explained = explained(text);
    let emptied = "        emptied: q (qubit 0, cleared at entry 3), c (channel 0, given to process 1 at entry 10), \
                   a (end 0 of channel 0, whose channel was given to process 1 at entry 10)";
    assert!(explained.lines().any(|line| line == emptied), "{explained}");
}

/// A run of many entries is not gone through unless that is asked for.
#[test]
fn long_runs() {
    let text = "method void main()\n    slots qbit q\n    NEWQ\n    PUT q\n    DROP\n    CLEAR q\nagain: JUMP again\n";
    let folder = common::folder("explain-long");
    write(&folder, "long.lqa", text);
    let short = lanq_in(&folder, &["explain", "long.lqa", "--schedule", "0*5000"]).quiet();
    assert!(short.contains("emptied: q (qubit 0, cleared at entry 3)"), "{short}");
    let long = lanq_in(&folder, &["explain", "long.lqa", "--schedule", "0*5001"]).quiet();
    assert!(
        long.ends_with("(why slots are empty is not worked out for so many entries, unless with --all)\n"),
        "{long}"
    );
}
