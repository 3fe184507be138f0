//! Counts which answers, rules and lines of the paper the cases came to, on both sides of each line.

mod areas;
mod combinations;
mod dump;
mod indices;
mod intakes;
mod locations;
mod months;
mod nodes;
mod properties;
mod property_areas;
mod reading_records;
mod replays;
mod runs;
mod tables;
mod tallies;

use crate::buffers::{record_places, word_at};
use crate::case::{Asked, CallCase, ReadCase, StateCase, Step, TraceCase};
use crate::compare::CallResult;
use crate::library::month::{Added, Counted, Counting, Counts as TraceCounts, Merged, Share, Totals};
use crate::library::{Reading, Registration, Report};
use crate::session::Counts;
use crate::subject::Ran;
use combinations::Combinations;
pub use intakes::facts as burst_facts;

/// A line of the paper, as a condition on the facts of a case.
type Line<Facts> = (&'static str, fn(&Facts) -> bool);

/// Named counts in a fixed order. A name that never came up stays in the table with 0.
struct Table {
    title: &'static str,
    rows: Vec<(&'static str, u64)>,
}

impl Table {
    fn new(title: &'static str, names: impl Iterator<Item = &'static str>) -> Table {
        Table { title, rows: names.map(|name| (name, 0)).collect() }
    }

    fn of_lines<Facts>(title: &'static str, lines: &[Line<Facts>]) -> Table {
        Table::new(title, lines.iter().map(|line| line.0))
    }

    fn add(&mut self, name: &'static str, times: u64) {
        match self.rows.iter_mut().find(|row| row.0 == name) {
            Some(row) => row.1 += times,
            None => self.rows.push((name, times)),
        }
    }

    /// Counts every line that holds of the facts. The table was made of the same lines.
    fn count_lines<Facts>(&mut self, lines: &[Line<Facts>], facts: &Facts) {
        for (row, (_, holds)) in self.rows.iter_mut().zip(lines) {
            row.1 += u64::from(holds(facts));
        }
    }

    fn print(&self) {
        println!("\n{}", self.title);
        for (name, times) in &self.rows {
            println!("  {times:>9}  {name}");
        }
    }
}

const ANSWERS: [(&str, u32, i32); 11] = [
    ("number 10", 10, 0),
    ("number 11", 11, 0),
    ("number 12", 12, 0),
    ("number 13", 13, 0),
    ("status 0", 0, 0),
    ("status 1", 0, 1),
    ("status -1", 0, -1),
    ("status -3", 0, -3),
    ("status -4", 0, -4),
    ("status -9", 0, -9),
    ("status -10", 0, -10),
];

/// The answers that a token can have; the last column is for all other tokens and for buffers too short for one.
const POSSIBLE: [[bool; 5]; 11] = [
    [true, true, true, true, true],
    [true, true, true, true, true],
    [true, true, true, true, true],
    [true, true, true, true, true],
    [true, true, true, true, false],
    [true, true, false, true, false],
    [true, true, false, true, false],
    [true, true, true, true, true],
    [false, true, false, false, false],
    [false, false, true, false, false],
    [false, false, true, false, false],
];

const BUFFER_RULES: [&str; 7] = [
    "13: no registration",
    "10: under 12 bytes",
    "12: inputs or outputs above 16",
    "10: under the declared size",
    "11: no outputs",
    "-3: unknown token",
    "-3: counts unlike the call's own",
];

const SESSION_ROWS: [&str; 23] = [
    "update-nodes sessions to the end",
    "get-indices sessions to the end",
    "answered calls in sessions",
    "refused calls in sessions",
    "sessions of two or more answered calls",
    "sessions of five or more answered calls",
    "entries that update-nodes handed out",
    "entries that get-indices handed out",
    "update-nodes sessions of a unit to the end",
    "two units over one journal at the same time",
    "a unit and another scope over one journal at the same time",
    "update-properties sessions to the end",
    "properties that update-properties handed out",
    "two nodes' properties over one journal at the same time",
    "the same node's properties twice at the same time",
    "update-properties sessions of nine or more answered calls",
    "get-indices sessions to the end in one edition, with calls between",
    "get-indices sessions to the end after -4",
    "edits of an inventory between the calls of a session",
    "edits that were not taken, at the top",
    "calls of get-indices sessions with -4",
    "readings begun afresh, since the record was gone",
    "readings begun between the calls of a session",
];

pub struct Coverage {
    answers: [[u64; 5]; 11],
    buffer: Table,
    node_rules: Table,
    node_lines: Table,
    index_rules: Table,
    index_lines: Table,
    reading_records: Table,
    edits: Table,
    dump_rules: Table,
    dump_lines: Table,
    runs: [Table; 3],
    property_rules: Table,
    property_lines: Table,
    node_areas: Table,
    node_area_lines: Table,
    index_areas: Table,
    index_area_lines: Table,
    property_areas: Table,
    property_area_lines: Table,
    sessions: Table,
    traces: Table,
    trace_lines: Table,
    states: Table,
    state_lines: Table,
    months: [Table; 7],
    month_tables: [Table; 3],
    tallies: [Table; 7],
    intakes: [Table; 5],
    locations: [Table; 4],
    combinations: Combinations,
}

impl Coverage {
    pub fn new() -> Coverage {
        Coverage {
            answers: [[0; 5]; 11],
            buffer: Table::new("the argument buffer, by rule", BUFFER_RULES.into_iter()),
            node_rules: Table::new("update-nodes, by rule", nodes::RULES.into_iter()),
            node_lines: Table::of_lines("update-nodes, lines", nodes::LINES),
            index_rules: Table::new("get-indices, by rule", indices::RULES.into_iter()),
            index_lines: Table::of_lines("get-indices, lines", indices::LINES),
            reading_records: Table::of_lines("the record of the reading in progress", reading_records::LINES),
            edits: Table::of_lines("edits", reading_records::EDITS),
            dump_rules: Table::new("configure-kernel-dump, by rule", dump::RULES.into_iter()),
            dump_lines: Table::of_lines("configure-kernel-dump, lines", dump::LINES),
            runs: run_tables(),
            property_rules: Table::new("update-properties, by rule", properties::RULES.into_iter()),
            property_lines: Table::of_lines("update-properties, lines", properties::LINES),
            node_areas: Table::new("node areas read", areas::NODE_REFUSALS.iter().map(|row| row.1)),
            node_area_lines: Table::of_lines("node areas, lines", areas::NODE_LINES),
            index_areas: Table::new("index areas read", areas::INDEX_REFUSALS.iter().map(|row| row.1)),
            index_area_lines: Table::of_lines("index areas, lines", areas::INDEX_LINES),
            property_areas: Table::new("property areas read", property_areas::REFUSALS.iter().map(|row| row.1)),
            property_area_lines: Table::of_lines("property areas, lines", property_areas::LINES),
            sessions: Table::new("sessions", SESSION_ROWS.into_iter()),
            traces: Table::new("traces replayed", replays::RULES.into_iter().take(replays::TRACE_RULES)),
            trace_lines: Table::of_lines("traces, lines", replays::LINES),
            states: Table::new("replays fed that stand anywhere", replays::STATES.into_iter()),
            state_lines: Table::of_lines("such replays, lines", replays::STATE_LINES),
            months: month_tables(),
            month_tables: tables::tables(),
            tallies: tallies::tables(),
            intakes: intakes::tables(),
            locations: locations::tables(),
            combinations: Combinations::new(),
        }
    }

    pub fn call(&mut self, case: &CallCase, result: &CallResult) {
        let token = word_at(&case.args, 0);
        self.count_answer(token, result);
        self.reading_records.count_lines(reading_records::LINES, &reading_records::facts(case, result));
        if let Some(row) = buffer_rule(result.rule) {
            self.buffer.add(row, 1);
            return;
        }
        let inputs: Vec<u64> = case.args[12..].chunks_exact(4).map(big).collect();
        match token {
            Some(1) => {
                self.node_rules.add(rule_or_answered(result.rule), 1);
                self.node_lines.count_lines(nodes::LINES, &nodes::facts(case, result, &inputs));
                self.combinations.count(case, result, inputs[1]);
            }
            Some(2) => {
                self.index_rules.add(rule_or_answered(result.rule), 1);
                self.index_lines.count_lines(indices::LINES, &indices::facts(case, result, &inputs));
            }
            Some(4) => {
                self.property_rules.add(rule_or_answered(result.rule), 1);
                self.property_lines.count_lines(properties::LINES, &properties::facts(case, result, &inputs));
            }
            _ => {
                self.dump_rules.add(rule_or_answered(result.rule), 1);
                self.dump_lines.count_lines(dump::LINES, &dump::facts(case, result, &inputs));
            }
        }
    }

    /// What is done with a dump, behind the step before it.
    pub fn dump_step(&mut self, before: Option<Step>, step: Step) {
        runs::step_row(before, step).into_iter().for_each(|row| self.runs[2].add(row, 1));
    }

    /// A run of a dump, over the registration and the memory that it found.
    pub fn run(&mut self, registration: &Registration, memory: &[u8], platform: &[u8], told: &Ran) {
        self.runs[0].add(runs::row(registration, told), 1);
        self.runs[1].count_lines(runs::LINES, &runs::facts(memory, platform, told));
    }

    pub fn edit(&mut self, edition: u32) {
        self.edits.count_lines(reading_records::EDITS, &edition);
    }

    fn count_answer(&mut self, token: Option<u32>, result: &CallResult) {
        let status = if result.number == 0 { result.status().unwrap_or(0) } else { 0 };
        let column = match token {
            Some(token @ 1..=4) => token as usize - 1,
            _ => 4,
        };
        if let Some(row) = ANSWERS.iter().position(|answer| (answer.1, answer.2) == (result.number, status)) {
            self.answers[row][column] += 1;
        }
    }

    pub fn node_area(&mut self, scope: u32, case: &ReadCase, reading: &Reading) {
        count_refusal(&mut self.node_areas, areas::NODE_REFUSALS, reading.refusal);
        self.node_area_lines.count_lines(areas::NODE_LINES, &areas::facts(scope, case, reading));
    }

    pub fn index_area(&mut self, case: &ReadCase, reading: &Reading) {
        count_refusal(&mut self.index_areas, areas::INDEX_REFUSALS, reading.refusal);
        self.index_area_lines.count_lines(areas::INDEX_LINES, &areas::facts(0, case, reading));
    }

    pub fn property_area(&mut self, case: &ReadCase, reading: &Reading) {
        count_refusal(&mut self.property_areas, property_areas::REFUSALS, reading.refusal);
        self.property_area_lines.count_lines(property_areas::LINES, &areas::facts(0, case, reading));
    }

    /// Sessions over one journal or one inventory that came to their ends.
    pub fn session(&mut self, asked: &Asked, counts: &Counts) {
        let Counts { answered, refused, entries, .. } = *counts;
        self.sessions.add(SESSION_ROWS[2], answered);
        self.sessions.add(SESSION_ROWS[3], refused);
        match asked {
            Asked::Nodes(wanted) => {
                let sessions = wanted.len() as u64;
                let units = wanted.iter().filter(|wanted| wanted.scope == 3).count() as u64;
                let two_units = wanted.iter().any(|one| one.scope == 3 && wanted[0].scope == 3 && *one != wanted[0]);
                self.sessions.add(SESSION_ROWS[0], sessions);
                self.sessions.add(SESSION_ROWS[6], entries);
                self.sessions.add(SESSION_ROWS[8], units);
                self.sessions.add(SESSION_ROWS[9], u64::from(two_units));
                self.sessions.add(SESSION_ROWS[10], u64::from(units > 0 && units < sessions));
                self.calls_in_a_session(answered / sessions);
            }
            Asked::Indices(_) => {
                self.sessions.add(SESSION_ROWS[1], counts.to_the_end);
                self.sessions.add(SESSION_ROWS[7], entries);
                self.calls_in_a_session(answered);
                self.disturbed_session(counts);
            }
            Asked::Properties(phandles) => {
                let sessions = phandles.len() as u64;
                let other = phandles.iter().any(|&phandle| phandle != phandles[0]);
                self.sessions.add(SESSION_ROWS[11], sessions);
                self.sessions.add(SESSION_ROWS[12], entries);
                self.sessions.add(SESSION_ROWS[13], u64::from(other));
                self.sessions.add(SESSION_ROWS[14], u64::from(has_equals(phandles)));
                self.sessions.add(SESSION_ROWS[15], u64::from(answered / sessions >= 9));
                self.calls_in_a_session(answered / sessions);
            }
        }
    }

    /// The replay of a trace.
    pub fn trace(&mut self, case: &TraceCase, report: Report) {
        let facts = replays::facts(case, report);
        self.traces.add(facts.rule(), 1);
        self.trace_lines.count_lines(replays::LINES, &facts);
    }

    /// A feed of a replay that stands anywhere: its number, the rule that refuses it, and what it came to.
    pub fn state(&mut self, case: &StateCase, number: u32, rule: &'static str, report: Report) {
        self.states.add(replays::state_row(case, rule), 1);
        self.state_lines.count_lines(replays::STATE_LINES, &replays::state_facts(case, number, report));
    }

    /// A trace that ends, or that is asked in the middle, with its counts, and what came of adding it to totals.
    pub fn month_trace(&mut self, case: &TraceCase, counts: &TraceCounts, before: &Totals, added: &Added, whole: bool) {
        self.months[0].add(months::added_row(added, whole), 1);
        if whole {
            self.months[1].count_lines(months::LINES, &months::facts(case, counts, before, added));
        }
    }

    /// A feed of a replay with counts that stands anywhere, and what came of adding it to totals before that.
    pub fn month_state(&mut self, counting: &Counting, told: &Counted, before: &Totals, added: &Added) {
        self.months[2].add(months::state_row(counting, told), 1);
        self.months[3].count_lines(months::STATE_LINES, &months::state_facts(counting, told, before, added));
    }

    pub fn month_merge(&mut self, totals: &Totals, more: &Totals, merged: &Merged) {
        self.months[4].add(months::merge_row(merged), 1);
        self.months[5].count_lines(months::MERGE_LINES, &months::merge_facts(totals, more, merged));
    }

    pub fn month_share(&mut self, totals: &Totals, share: &Share) {
        self.months[6].count_lines(months::SHARE_LINES, &(*totals, *share));
    }

    /// A session of get-indices, by what came between its calls.
    fn disturbed_session(&mut self, counts: &Counts) {
        let in_one_edition = counts.edits == 0 && counts.refused > 0;
        self.sessions.add(SESSION_ROWS[16], counts.to_the_end * u64::from(in_one_edition));
        self.sessions.add(SESSION_ROWS[17], counts.to_the_end * u64::from(counts.changed > 0));
        self.sessions.add(SESSION_ROWS[18], counts.edits);
        self.sessions.add(SESSION_ROWS[19], counts.edits_at_the_top);
        self.sessions.add(SESSION_ROWS[20], counts.changed);
        self.sessions.add(SESSION_ROWS[21], counts.begun_afresh);
        self.sessions.add(SESSION_ROWS[22], counts.other_readings);
    }

    /// Counts by the answered calls of a session; of sessions at the same time, those that each has on the average.
    fn calls_in_a_session(&mut self, answered: u64) {
        self.sessions.add(SESSION_ROWS[4], u64::from(answered >= 2));
        self.sessions.add(SESSION_ROWS[5], u64::from(answered >= 5));
    }

    fn tables(&self) -> Vec<&Table> {
        let first = [
            &self.buffer,
            &self.node_rules,
            &self.node_lines,
            &self.index_rules,
            &self.index_lines,
            &self.reading_records,
            &self.edits,
            &self.dump_rules,
            &self.dump_lines,
            &self.property_rules,
            &self.property_lines,
            &self.node_areas,
            &self.node_area_lines,
            &self.index_areas,
            &self.index_area_lines,
            &self.property_areas,
            &self.property_area_lines,
            &self.sessions,
            &self.traces,
            &self.trace_lines,
            &self.states,
            &self.state_lines,
        ];
        let first = first.into_iter().chain(&self.runs).chain(&self.months).chain(&self.month_tables);
        first.chain(&self.tallies).chain(&self.intakes).chain(&self.locations).collect()
    }

    /// The rows that never came up.
    pub fn missing(&self) -> Vec<String> {
        let mut missing = Vec::new();
        for table in self.tables() {
            let zero = table.rows.iter().filter(|row| row.1 == 0);
            missing.extend(zero.map(|row| format!("{}: {}", table.title, row.0)));
        }
        for (row, answer) in ANSWERS.iter().enumerate() {
            let never = (0..5).filter(|&column| POSSIBLE[row][column] && self.answers[row][column] == 0);
            missing.extend(never.map(|column| format!("{} of column {}", answer.0, column + 1)));
        }
        missing.extend(self.combinations.missing());
        missing
    }

    pub fn print(&self) {
        println!("\nanswers           token 1    token 2    token 3    token 4     others");
        for (row, answer) in ANSWERS.iter().enumerate() {
            let cell = |column: usize| match (POSSIBLE[row][column], self.answers[row][column]) {
                (false, 0) => String::from("-"),
                (_, times) => times.to_string(),
            };
            let cells: Vec<String> = (0..5).map(|column| format!(" {:>10}", cell(column))).collect();
            println!("  {:<12}{}", answer.0, cells.concat());
        }
        self.tables().iter().for_each(|table| table.print());
        self.combinations.print();
        self.print_missing();
    }

    fn print_missing(&self) {
        let missing = self.missing();
        println!("\n{} rows never came up", missing.len());
        missing.iter().for_each(|row| println!("  {row}"));
    }
}

/// The tables of a dump's run.
fn run_tables() -> [Table; 3] {
    [
        Table::new("runs of a dump, by rule", runs::RULES.into_iter()),
        Table::of_lines("runs of a dump, lines", runs::LINES),
        Table::new("what is done with a dump", runs::STEPS.into_iter()),
    ]
}

/// The tables of the month.
fn month_tables() -> [Table; 7] {
    [
        Table::new("traces counted and added", months::ADDED.into_iter()),
        Table::of_lines("such traces, lines", months::LINES),
        Table::new("replays with counts fed that stand anywhere", months::STATES.into_iter()),
        Table::of_lines("such replays with counts, lines", months::STATE_LINES),
        Table::new("totals merged", months::MERGES.into_iter()),
        Table::of_lines("totals merged, lines", months::MERGE_LINES),
        Table::of_lines("shares", months::SHARE_LINES),
    ]
}

fn has_equals(list: &[u32]) -> bool {
    list.iter().enumerate().any(|(place, one)| list[..place].contains(one))
}

fn little(number: &[u8]) -> u64 {
    number.iter().rev().fold(0, |number, &byte| (number << 8) | u64::from(byte))
}

/// The first record of a small buffer, of at least a header, that is malformed by itself.
fn first_bad_record(buffer: &[u8], malformed: impl Fn(&[u8]) -> bool) -> Option<&[u8]> {
    if buffer.len() > 4096 {
        return None;
    }
    let places = record_places(buffer).into_iter();
    places.map(|(from, to)| &buffer[from..to]).find(|record| record.len() >= 4 && malformed(record))
}

fn big(word: &[u8]) -> u64 {
    word.iter().fold(0, |number, &byte| (number << 8) | u64::from(byte))
}

/// The row of a rule that decides before a call of its own is made.
fn buffer_rule(rule: &'static str) -> Option<&'static str> {
    BUFFER_RULES.into_iter().find(|row| row.split_once(": ").is_some_and(|(_, name)| name == rule))
}

fn rule_or_answered(rule: &'static str) -> &'static str {
    if rule.is_empty() {
        "answered"
    } else {
        rule
    }
}

fn count_refusal(table: &mut Table, refusals: &[(u32, &'static str)], refusal: u32) {
    if let Some(row) = refusals.iter().find(|row| row.0 == refusal) {
        table.add(row.1, 1);
    }
}
