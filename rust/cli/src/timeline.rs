//! A run as a drawing: who held each qubit and each channel end, entry by
//! entry, with gates, measurements, forks and meetings.
//!
//! There is one column for each entry that wrote lines, so that waiting takes
//! no room; the entry's number stands over it. A row is a process, a qubit or
//! an end. The row of a qubit or an end has its holder's colour and number.

use std::collections::BTreeMap;
use std::ops::RangeInclusive;

use data::{Event, Gate, Line, Run, Side, State, Thing, NO_CLICK};

use crate::code::Code;
use crate::svg::{Anchor, Svg};

/// Colours of the eight processes, apart for every eye; the numbers stand in
/// the rows too, in white or black.
const COLOURS: [(&str, &str); 8] = [
    ("#0072b2", "white"),
    ("#e69f00", "black"),
    ("#009e73", "white"),
    ("#cc79a7", "black"),
    ("#56b4e9", "black"),
    ("#b34700", "white"),
    ("#f0e442", "black"),
    ("#6e6e6e", "white"),
];
const INK: &str = "#222222";
const FAINT: &str = "#dddddd";
const ALARM: &str = "#c00000";

const LEFT: f64 = 76.0;
const TOP: f64 = 74.0;
const COLUMN: f64 = 30.0;
const ROW: f64 = 22.0;
const BAND: f64 = 16.0;
/// Between processes, qubits and ends.
const GAP: f64 = 26.0;
const SMALL: f64 = 9.0;
const NORMAL: f64 = 11.0;

/// A row of the drawing.
#[derive(Clone, Copy, Debug, PartialEq, Eq, PartialOrd, Ord)]
enum Row {
    Process(u16),
    Qubit(u16),
    End(u16, Side),
}

/// Draws the entries of a run that lie in a range.
pub fn timeline(name: &str, code: &Code, run: &Run, entries: RangeInclusive<usize>) -> String {
    let mut drawing = Drawing::new(code, run, entries);
    drawing.frame(name);
    drawing.bands();
    drawing.lanes();
    drawing.marks();
    drawing.svg.finish()
}

struct Drawing<'r> {
    code: &'r Code,
    run: &'r Run,
    /// The entries with lines, in their order: the columns.
    columns: Vec<u16>,
    /// Where each row's middle is.
    rows: BTreeMap<Row, f64>,
    /// The entries at which processes finished or stopped.
    over: BTreeMap<u16, u16>,
    svg: Svg,
}

impl<'r> Drawing<'r> {
    fn new(code: &'r Code, run: &'r Run, entries: RangeInclusive<usize>) -> Drawing<'r> {
        let mut columns: Vec<u16> = run.lines.iter().map(|line| line.entry).collect();
        columns.dedup();
        columns.retain(|entry| entries.contains(&usize::from(*entry)));
        let (rows, bottom) = rows(run);
        let width = LEFT + COLUMN * columns.len() as f64 + 200.0;
        let svg = Svg::new(width.max(560.0), bottom + 40.0);
        let over = run.lines.iter().filter(|line| is_over(line)).map(|line| (line.process, line.entry));
        Drawing { code, run, columns, rows, over: over.collect(), svg }
    }

    /// The middle of a column.
    fn x(&self, column: usize) -> f64 {
        LEFT + COLUMN * (column as f64 + 0.5)
    }

    /// The right end of the drawing.
    fn right(&self) -> f64 {
        LEFT + COLUMN * self.columns.len() as f64
    }

    /// The column of a line, where it is drawn.
    fn column(&self, line: &Line) -> Option<usize> {
        self.columns.binary_search(&line.entry).ok()
    }

    /// Where something starts that started at an entry: its column's middle, or
    /// the left edge where that entry lies before the range.
    fn start_x(&self, entry: u16) -> f64 {
        let column = self.columns.partition_point(|one| *one < entry);
        match self.columns.get(column) {
            Some(one) if *one == entry => self.x(column),
            Some(_) if column == 0 => LEFT,
            _ => self.right(),
        }
    }

    fn y(&self, row: Row) -> Option<f64> {
        self.rows.get(&row).copied()
    }

    /// Title, colours, numbers over the columns, names of the rows.
    fn frame(&mut self, name: &str) {
        let run = self.run;
        let title = format!("{name}: end {}, {}", run.end.number(), run.end);
        self.svg.text((12.0, 20.0), 13.0, Anchor::Start, INK, &title);
        for process in 0..run.configuration.processes.len() {
            let x = 12.0 + 92.0 * process as f64;
            self.svg.rect((x, 30.0), (12.0, 12.0), colour(process as u16), "none");
            self.svg.text((x + 17.0, 40.0), NORMAL, Anchor::Start, INK, &format!("process {process}"));
        }
        let bottom = self.rows.values().fold(TOP, |lowest, y| lowest.max(*y)) + ROW / 2.0;
        self.svg.text((12.0, TOP - 14.0), SMALL, Anchor::Start, INK, "entry");
        for (column, entry) in self.columns.clone().into_iter().enumerate() {
            let x = self.x(column);
            self.svg.line((x, TOP - 8.0), (x, bottom), FAINT, 1.0);
            self.svg.text((x, TOP - 14.0), SMALL, Anchor::Middle, INK, &entry.to_string());
            self.svg.text((x, bottom + 14.0), SMALL, Anchor::Middle, INK, &entry.to_string());
        }
        for (row, y) in self.rows.clone() {
            let name = match row {
                Row::Process(number) => format!("process {number}"),
                Row::Qubit(number) => format!("qubit {number}"),
                Row::End(channel, side) => format!("end {channel}.{side}"),
            };
            self.svg.text((LEFT - 8.0, y + 4.0), NORMAL, Anchor::End, INK, &name);
            let (ink, fate) = self.fate(row);
            self.svg.text((self.right() + 8.0, y + 4.0), NORMAL, Anchor::Start, ink, &format!("{name}{fate}"));
        }
    }

    /// What became of a process.
    fn fate(&self, row: Row) -> (&'static str, String) {
        let Row::Process(number) = row else { return (INK, String::new()) };
        let process = self.run.configuration.processes.get(usize::from(number));
        match process.map(|process| process.state) {
            Some(State::Finished) => (INK, " finished".to_string()),
            Some(State::Stopped(fault)) => (ALARM, format!(" stopped by fault {}", fault.number())),
            _ => (INK, " runs still".to_string()),
        }
    }

    /// The holders of qubits and ends, each from its line to the next.
    fn bands(&mut self) {
        let mut held: BTreeMap<Row, (f64, u16)> = BTreeMap::new();
        let mut bands = Vec::new();
        for line in &self.run.lines {
            let (holder, rows) = gained(line);
            let x = self.start_x(line.entry);
            for row in rows {
                if let Some((start, before)) = held.insert(row, (x, holder)) {
                    bands.push((row, before, start, x));
                }
            }
        }
        bands.extend(held.into_iter().map(|(row, (start, holder))| (row, holder, start, self.right())));
        for (row, holder, start, end) in bands {
            if let (Some(y), true) = (self.y(row), end > start) {
                self.band(y, holder, start, end);
            }
        }
    }

    /// One holder's band; it is pale from where the holder has finished or
    /// stopped.
    fn band(&mut self, y: f64, holder: u16, start: f64, end: f64) {
        let (fill, ink) = COLOURS[usize::from(holder) % COLOURS.len()];
        let over = self.over(holder).clamp(start, end);
        self.svg.rect((start, y - BAND / 2.0), (over - start, BAND), fill, "none");
        self.svg.pale_rect((over, y - BAND / 2.0), (end - over, BAND), fill);
        let ink = if over > start { ink } else { INK };
        self.svg.text((start + 5.0, y + 3.5), 10.0, Anchor::Start, ink, &holder.to_string());
    }

    /// Where a process finishes or stops, or the right end.
    fn over(&self, process: u16) -> f64 {
        self.over.get(&process).map_or(self.right(), |entry| self.start_x(*entry))
    }

    /// The processes, each from its start to its end.
    fn lanes(&mut self) {
        for number in (0..).take(self.run.configuration.processes.len()) {
            let Some(y) = self.y(Row::Process(number)) else { continue };
            let forked = self.run.lines.iter().find(|line| is_fork_of(line, number));
            let start = forked.map_or(LEFT, |line| self.start_x(line.entry));
            let end = self.over(number);
            self.svg.rect((start, y - 3.0), ((end - start).max(0.0), 6.0), colour(number), "none");
            let method = forked.map_or(0, |line| usize::from(line.b));
            let name = self.code.method_name(method);
            self.svg.text((start + 3.0, y - 6.0), 8.0, Anchor::Start, INK, &name);
        }
    }

    /// What the lines say, each at its column.
    fn marks(&mut self) {
        for line in &self.run.lines {
            if let (Some(column), Some(event)) = (self.column(line), line.event()) {
                self.mark(self.x(column), line, event);
                let hint = format!("{line}\n{}", crate::sentence::sentence(line, self.code));
                let rows: Vec<f64> = touched(line, event).into_iter().filter_map(|row| self.y(row)).collect();
                for y in rows {
                    self.svg.hint((self.x(column) - 12.0, y - ROW / 2.0), (24.0, ROW), &hint);
                }
            }
        }
    }

    fn mark(&mut self, x: f64, line: &Line, event: Event) {
        let own = self.y(Row::Process(line.process)).unwrap_or_default();
        match event {
            Event::QubitMade { qubit } => self.dot(x, Row::Qubit(qubit)),
            Event::ChannelMade { channel } => Side::ALL.iter().for_each(|side| self.dot(x, Row::End(channel, *side))),
            Event::Gate { gate, qubit, second } => self.gate(x, gate, qubit, second),
            Event::Measured { qubit, outcome: NO_CLICK } => self.boxed(x, Row::Qubit(qubit), "M \u{2205}", INK),
            Event::Measured { qubit, outcome } => self.boxed(x, Row::Qubit(qubit), &format!("M {outcome}"), INK),
            Event::Forked { child, .. } => {
                if let Some(y) = self.y(Row::Process(child)) {
                    self.svg.arrow((x, own), (x, y - 3.0), colour(line.process));
                }
            }
            Event::Met { receiver, channel, side } => self.meeting(x, own, receiver, channel, side),
            Event::Finished => self.svg.circle((x, own), 4.5, "white", colour(line.process)),
            Event::Stopped { .. } => {
                for (dx, dy) in [(-4.0, -4.0), (-4.0, 4.0)] {
                    self.svg.line((x + dx, own + dy), (x - dx, own - dy), ALARM, 2.0);
                }
            }
            // What a meeting passes stands beside its arrow; at a fork the
            // bands change their colours.
            Event::Gave { to, thing: Thing::Qubit(qubit) } if !self.starts(to, line.entry) => {
                self.passed(x, own, to, &format!("q{qubit}"))
            }
            Event::Gave { .. } => (),
            Event::Passed { value } => {
                self.svg.text((x + 4.0, own + 13.0), 8.0, Anchor::Start, INK, &value.to_string())
            }
        }
    }

    fn dot(&mut self, x: f64, row: Row) {
        if let Some(y) = self.y(row) {
            self.svg.circle((x, y), 3.0, "white", INK);
        }
    }

    fn boxed(&mut self, x: f64, row: Row, text: &str, ink: &str) {
        if let Some(y) = self.y(row) {
            let width = if text.chars().count() > 2 { 26.0 } else { 16.0 };
            self.svg.rect((x - width / 2.0, y - 7.0), (width, 14.0), "white", ink);
            self.svg.text((x, y + 3.2), SMALL, Anchor::Middle, ink, text);
        }
    }

    /// One box, or two with a line between them; CX has a dot at its control.
    fn gate(&mut self, x: f64, gate: Gate, qubit: u16, second: Option<u16>) {
        let rows = [Some(qubit), second].map(|qubit| qubit.and_then(|qubit| self.y(Row::Qubit(qubit))));
        let [Some(first), Some(other)] = rows else {
            return self.boxed(x, Row::Qubit(qubit), gate.name(), INK);
        };
        self.svg.line((x, first), (x, other), INK, 1.5);
        let names = match gate {
            Gate::Cx => ["", "X"],
            Gate::Cz => ["", "Z"],
            _ => ["\u{d7}", "\u{d7}"],
        };
        for (name, (qubit, y)) in names.into_iter().zip([(qubit, first), (second.unwrap_or(qubit), other)]) {
            match name {
                "" => self.svg.circle((x, y), 4.0, INK, INK),
                name => self.boxed(x, Row::Qubit(qubit), name, INK),
            }
        }
    }

    /// The process is forked at this entry.
    fn starts(&self, process: u16, entry: u16) -> bool {
        self.run.lines.iter().any(|line| line.entry == entry && is_fork_of(line, process))
    }

    /// A qubit given in a meeting, beside the arrow.
    fn passed(&mut self, x: f64, own: f64, to: u16, text: &str) {
        let below = self.y(Row::Process(to)).is_some_and(|y| y > own);
        let y = if below { own + 13.0 } else { own - 8.0 };
        self.svg.text((x + 4.0, y), 8.0, Anchor::Start, INK, text);
    }

    /// From the sender's row to the receiver's, and a mark on both ends.
    fn meeting(&mut self, x: f64, own: f64, receiver: u16, channel: u16, side: Side) {
        if let Some(y) = self.y(Row::Process(receiver)) {
            let reach = if y > own { y - 4.0 } else { y + 4.0 };
            self.svg.circle((x, own), 3.0, INK, INK);
            self.svg.arrow((x, own), (x, reach), INK);
        }
        self.boxed(x, Row::End(channel, side), "S", INK);
        self.boxed(x, Row::End(channel, side.other()), "R", INK);
    }
}

/// The rows that a run needs, and the lowest place.
fn rows(run: &Run) -> (BTreeMap<Row, f64>, f64) {
    let configuration = &run.configuration;
    let processes = (0..).take(configuration.processes.len()).map(Row::Process);
    let qubits = (0..configuration.qubits).map(Row::Qubit);
    let ends = (0..configuration.channels).flat_map(|channel| Side::ALL.map(|side| Row::End(channel, side)));
    let mut rows = BTreeMap::new();
    let mut y = TOP + ROW / 2.0;
    let groups: [Vec<Row>; 3] = [processes.collect(), qubits.collect(), ends.collect()];
    for group in groups.iter().filter(|group| !group.is_empty()) {
        for row in group {
            rows.insert(*row, y);
            y += ROW;
        }
        y += GAP - ROW / 2.0;
    }
    (rows, y)
}

fn colour(process: u16) -> &'static str {
    COLOURS[usize::from(process) % COLOURS.len()].0
}

/// Who gets which rows by a line.
fn gained(line: &Line) -> (u16, Vec<Row>) {
    let (holder, thing) = match line.event() {
        Some(Event::QubitMade { qubit }) => (line.process, Thing::Qubit(qubit)),
        Some(Event::ChannelMade { channel }) => (line.process, Thing::Channel(channel)),
        Some(Event::Gave { to, thing }) => (to, thing),
        _ => return (line.process, Vec::new()),
    };
    let rows = match thing {
        Thing::Qubit(qubit) => vec![Row::Qubit(qubit)],
        Thing::Channel(channel) => Side::ALL.map(|side| Row::End(channel, side)).to_vec(),
        Thing::End(channel, side) => vec![Row::End(channel, side)],
    };
    (holder, rows)
}

/// The rows on which a line has its mark.
fn touched(line: &Line, event: Event) -> Vec<Row> {
    match event {
        Event::Gate { qubit, second, .. } => [Some(qubit), second].into_iter().flatten().map(Row::Qubit).collect(),
        Event::Measured { qubit, .. } => vec![Row::Qubit(qubit)],
        Event::Met { receiver, .. } => vec![Row::Process(line.process), Row::Process(receiver)],
        Event::Forked { child, .. } => vec![Row::Process(child)],
        Event::Finished | Event::Stopped { .. } => vec![Row::Process(line.process)],
        _ => gained(line).1,
    }
}

fn is_fork_of(line: &Line, process: u16) -> bool {
    matches!(line.event(), Some(Event::Forked { child, .. }) if child == process)
}

fn is_over(line: &Line) -> bool {
    matches!(line.event(), Some(Event::Finished | Event::Stopped { .. }))
}
