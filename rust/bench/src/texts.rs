//! LanQ texts to translate, and one to run.

use std::fmt::Write;
use std::hint::black_box;
use std::time::{Duration, Instant};

use lanq::{Answer, End, Translation, MOST_TABLE_WORDS, WORK_WORDS};

/// Bytes of a long text, unless another number is asked for.
pub const LONG: usize = 1_000_000;
/// Entries of the run, the most that there may be.
const ENTRIES: usize = 65_535;
/// A call is made again for so long, and so often at the most; the best counts.
const PATIENCE: Duration = Duration::from_millis(500);
const MOST_CALLS: usize = 50;

/// A text to translate.
struct Text {
    name: &'static str,
    text: String,
}

/// `before`, then the passages of the numbers from 0 on as long as there is room, then
/// `after`: a text of nearly so many bytes.
fn long(bytes: usize, before: &str, passage: impl Fn(usize) -> String, after: &str) -> String {
    let mut text = before.to_string();
    for number in 0.. {
        let next = passage(number);
        if text.len() + next.len() + after.len() > bytes {
            break;
        }
        text += &next;
    }
    text + after
}

/// An expression in as many brackets as there is room for.
fn nested(bytes: usize, before: &str, [open, close]: [&str; 2], after: &str) -> String {
    let inside = "1";
    let depth = (bytes - before.len() - inside.len() - after.len()) / (open.len() + close.len());
    format!("{before}{}{inside}{}{after}", open.repeat(depth), close.repeat(depth))
}

/// Printable bytes in an order of no kind, most of them in tokens.
fn noise(bytes: usize) -> String {
    let mut state: u64 = 1;
    let byte = |_| {
        state = state.wrapping_mul(6_364_136_223_846_793_005).wrapping_add(1_442_695_040_888_963_407);
        char::from(32 + (state >> 57) as u8 % 95)
    };
    (0..bytes).map(byte).collect()
}

/// The texts, the long ones of so many bytes.
fn all(bytes: usize) -> Vec<Text> {
    let text = |name, text| Text { name, text };
    let main = "void main() { ";
    let calls = "int f(int a) { return a; } void main() { int a; a = ";
    let declares = |n| format!("int v{n}; ");
    let assigns = |n: usize| ["a = b; ", "b = c; ", "c = a; "][n % 3].to_string();
    let half = long(bytes / 2, main, declares, "");
    // their time grows with the square of their length
    let short = bytes / 50;
    vec![
        text("4,096 instructions", format!("{main}int a; {}}}", "a = 1; ".repeat(1_365))),
        text("ordinary", ordinary()),
        text("names, few", long(bytes, "void main() { int a, b, c; ", assigns, "}")),
        text("names, declared", long(bytes, main, declares, "}")),
        text("names, far back", long(bytes, &half, |_| "v0 = v0; ".into(), "}")),
        text("brackets, plain", "(".repeat(bytes)),
        text("brackets, balanced", nested(bytes, "void main() { int a; a = ", ["(", ")"], "; }")),
        text("brackets, calls", nested(short, calls, ["f(", ")"], "; }")),
        text("brackets, assigned", nested(bytes, calls, ["(a = ", ")"], "; }")),
        text("blocks", long(bytes, main, |_| "{ int a; a = 1; } ".into(), "}")),
        text("methods", long(short, "void main() { } ", |n| format!("void f{n}() {{ f{}(); }} ", n / 2), "")),
        text("noise", noise(bytes)),
        text("noise, at the end", format!("{main}{}@", ";".repeat(bytes - main.len() - 1))),
        text("white space", " ".repeat(bytes)),
    ]
}

/// Three stations that main hands a qubit and an int to and gets them back from, again and
/// again, with methods that compute and that apply gates: some 300 lines.
fn ordinary() -> String {
    let mut text = String::new();
    for k in 0..12 {
        write!(text, "{}", WORK.replace('@', &k.to_string())).expect("a string takes it");
    }
    for k in 0..4 {
        write!(text, "{}", GATES.replace('@', &k.to_string())).expect("a string takes it");
    }
    for k in 0..3 {
        let station = STATION.replace('@', &k.to_string());
        write!(text, "{}", station.replace('%', &(4 * k).to_string())).expect("a string takes it");
    }
    text + MAIN
}

const WORK: &str = "\
int work@(int n) {
    int i, sum;
    i = 0;
    sum = n;
    while (i < 3) {
        int next;
        next = sum + i;
        if (next < 100) {
            sum = next + @;
        } else {
            sum = 0;
        }
        i = i + 1;
    }
    return sum;
}

";

const GATES: &str = "\
qbit gates@(qbit q) {
    H(q);
    if (measure(StdBasis, q) == 1) {
        X(q);
    }
    S(q);
    return q;
}

";

const STATION: &str = "\
void station@(channelEnd[qbit] line, channelEnd[int] wire) {
    qbit q;
    int n;
    while (true) {
        q = gates@(recv(line));
        n = recv(wire);
        n = work%(n) - work%(n - 1);
        send(wire, n);
        send(line, q);
    }
}

";

const MAIN: &str = "\
void main() {
    channel[qbit] lines withends [line0, other0];
    channel[int] wires withends [wire0, end0];
    channelEnd[qbit] line1, line2;
    channelEnd[int] wire1, wire2;
    qbit q;
    int n;
    lines = new channel[qbit]();
    wires = new channel[int]();
    line1 = line0;
    wire1 = wire0;
    fork station1(other0, end0);
    lines = new channel[qbit]();
    wires = new channel[int]();
    line2 = line0;
    wire2 = wire0;
    fork station2(other0, end0);
    lines = new channel[qbit]();
    wires = new channel[int]();
    fork station0(other0, end0);
    q = new qbit();
    n = 1;
    while (true) {
        send(line0, q);
        send(wire0, n);
        n = work9(recv(wire0));
        q = gates3(recv(line0));
        send(line1, q);
        send(wire1, n);
        n = work10(recv(wire1));
        q = recv(line1);
        send(line2, q);
        send(wire2, n);
        n = work11(recv(wire2));
        q = recv(line2);
    }
}
";

/// The best time of some calls, and what the last one answered.
fn best<T>(mut call: impl FnMut() -> T) -> (Duration, T) {
    let begun = Instant::now();
    let mut least = Duration::MAX;
    for number in 1.. {
        let start = Instant::now();
        let answer = call();
        least = least.min(start.elapsed());
        if begun.elapsed() > PATIENCE || number == MOST_CALLS {
            return (least, answer);
        }
    }
    unreachable!("the calls are bounded")
}

fn milliseconds(time: Duration) -> f64 {
    time.as_secs_f64() * 1_000.0
}

/// Every text, the long ones of so many bytes, with its size, its answer and the time of its
/// translation; then a run.
pub fn print(bytes: usize) -> Result<(), String> {
    if bytes < 1_000 {
        return Err(format!("{bytes}: a long text has 1000 bytes at least"));
    }
    println!("{:22} {:>9}  {:16} {:>12}", "translation of", "bytes", "answer", "ms");
    let mut table = vec![0; MOST_TABLE_WORDS];
    for Text { name, text } in all(bytes) {
        let (time, answer) = best(|| lanq::translate(black_box(text.as_bytes()), &mut table));
        let answer = match answer {
            Translation::Refused(refusal) => refusal.to_string(),
            Translation::Table(words) | Translation::Short(words) => format!("{words} words"),
        };
        println!("{name:22} {:9}  {answer:16} {:12.3}", text.len(), milliseconds(time));
    }
    print_run(1)?;
    print_run(64)
}

/// The run of the ordinary text beside its translation, by both functions: the processes in
/// turn, an entry each and 64 entries each.
fn print_run(turn: usize) -> Result<(), String> {
    let text = ordinary();
    let schedule: Vec<u8> = (0..ENTRIES).map(|entry| (entry / turn % 4) as u8).collect();
    let outcomes: Vec<u8> = (0..ENTRIES).map(|entry| (entry / 3 % 2) as u8).collect();
    let mut trace = vec![0; 6 * lanq::most_lines(ENTRIES)];
    let mut work = vec![0; WORK_WORDS];
    let (time, ran) = best(|| lanq::run_text(black_box(text.as_bytes()), &schedule, &outcomes, &mut trace, &mut work));
    let answer = match ran {
        Ok(answer @ Answer { end: End::ScheduleUsed, .. }) => answer,
        other => return Err(format!("the ordinary text's run: {other:?}")),
    };
    let program = lanq::Program::from_text(text.as_bytes()).map_err(|refusal| refusal.to_string())?;
    let (alone, _) = best(|| lanq::run_in(black_box(program.words()), &schedule, &outcomes, &mut trace, &mut work));
    let lines = text.lines().count();
    println!("run of the ordinary text, {lines} lines, {ENTRIES} entries, {turn} a turn: {answer}");
    println!("{:22} {:39.3}", "from the text", milliseconds(time));
    println!("{:22} {:39.3}", "from its table", milliseconds(alone));
    Ok(())
}
