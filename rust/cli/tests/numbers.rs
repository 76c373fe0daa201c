//! Schedules, outcomes and traces as they are written.

use cli::input::numbers::{outcomes, schedule, Schedule};
use cli::input::trace::{csv, printed};
use cli::report;
use data::Line;

fn entries(text: &str) -> Vec<u8> {
    match schedule(text) {
        Ok(Schedule::Entries(entries)) => entries,
        other => panic!("{text}: {other:?}"),
    }
}

#[test]
fn schedules() {
    assert_eq!(entries("0,0,1*5"), [0, 0, 1, 1, 1, 1, 1]);
    assert_eq!(entries("0 255  3*2 # a comment\n# another\n1,"), [0, 255, 3, 3, 1]);
    assert_eq!(entries("(0,1)*3,2"), [0, 1, 0, 1, 0, 1, 2]);
    assert_eq!(entries("(0*2 1)*2"), [0, 0, 1, 0, 0, 1]);
    assert_eq!(entries(""), []);
    assert_eq!(schedule("round-robin:200"), Ok(Schedule::RoundRobin(200)));
    assert_eq!(schedule("# in turn\n  until-stuck\n"), Ok(Schedule::UntilStuck));
}

#[test]
fn wrong_schedules() {
    let process = "expected a process from 0 to 255, `round-robin:N` or `until-stuck`";
    let count = "expected a count from 1 to 65535";
    for (text, told) in [
        ("0,256", format!("1:3: {process}, found `256`")),
        ("0\n-1", format!("2:1: {process}, found `-1`")),
        ("0,x", format!("1:3: {process}, found `x`")),
        ("0,,1", format!("1:3: {process}, found `,`")),
        ("0*0", format!("1:3: {count}, found `0`")),
        ("0*", format!("1:3: {count}, found the end of the line")),
        ("(0,1", format!("1:5: {process}, found the end of the line")),
        ("(0,1)", "1:6: expected `*`, found the end of the line".to_string()),
        ("(0,(1)*2)*2", format!("1:4: {process}, found `(`")),
        ("0*60000,0*60000", "1:9: expected at most 100000 numbers, found more".to_string()),
        ("(0*1000)*1000", "1:9: expected at most 100000 numbers, found more".to_string()),
        (
            " round-robin:0",
            "1:2: expected `round-robin:` and a number of entries from 1 to 65535, found `round-robin:0`".to_string(),
        ),
        ("0 $", "1:3: expected a name, a number or one of ( ) , : * -, found '$'".to_string()),
    ] {
        assert_eq!(schedule(text).expect_err(text).to_string(), told);
    }
}

#[test]
fn outcome_lists() {
    assert_eq!(outcomes("0120"), Ok(vec![0, 1, 2, 0]));
    assert_eq!(outcomes("01,10 1*3 # three"), Ok(vec![0, 1, 1, 0, 1, 1, 1]));
    assert_eq!(outcomes("2 9"), Ok(vec![2, 9]));
    assert_eq!(outcomes(""), Ok(vec![]));
    let told = |text| outcomes(text).expect_err(text).to_string();
    assert_eq!(told("0 -1"), "1:3: expected outcomes, one digit each, found `-1`");
    assert_eq!(told("01*3"), "1:1: expected one digit before `*`, found `01`");
    assert_eq!(told("0,a"), "1:3: expected outcomes, one digit each, found `a`");
}

#[test]
fn traces() {
    let lines = [[0, 0, 1, 0, 65_535, 65_535], [9, 2, 3, 6, 4, 1], [14, 0, 8, 65_534, 65_535, 65_535]];
    let lines = lines.map(Line::from_words);
    let text: String = lines.iter().map(|line| format!("{line}\n")).collect();
    assert_eq!(printed(&format!("{text}end 0 20 3 0\n")), Ok(lines.to_vec()));
    let commas = report::csv(&lines);
    assert_eq!(
        commas,
        "entry,process,kind,a,b,c,event\n0,0,1,0,,,qubit made\n9,2,3,6,4,1,gate\n14,0,8,65534,65535,,value passed\n"
    );
    assert_eq!(csv(&commas), Ok(lines.to_vec()));
    let told = |text| printed(text).expect_err(text).to_string();
    assert_eq!(told("0 0 1 0 - -\n0 0 1 0 -"), "2:1: expected six columns, found 5");
    assert_eq!(told("0 0 1 x - -"), "1:7: expected a number from 0 to 65535, found `x`");
    assert_eq!(told("refused 4 2"), "1:1: expected a number from 0 to 65535, found `refused`");
    assert_eq!(
        csv("names\n0,0,1,70000,,").expect_err("too large").to_string(),
        "2:7: expected a number from 0 to 65535, found `70000`"
    );
}
