//! The Markdown tables: best times with instructions, medians, and octets that fitness tests read.
//! Times are nanoseconds for one call.

use twin::table::BUFFER_OCTETS;

use crate::calls::{Crossing, Row};
use crate::clock::Times;
use crate::count::Counts;

/// The columns of contestants.
const PROVED: usize = 0;
const PLAIN: usize = 1;
const TUNED: usize = 2;

pub const WHO: [&str; 3] = ["proved", "plain", "tuned"];

/// Rows under their heading, with the times of each contestant.
pub struct Timed {
    pub heading: &'static str,
    pub rows: Vec<(Row, Vec<Times>)>,
}

pub fn bests(all: &[Timed], counts: &Counts) {
    let columns = [
        "best of all batches, ns for one call",
        "proved",
        "of it crossing",
        "plain",
        "tuned",
        "proved / plain",
        "proved / tuned",
        "without crossing / tuned",
        "instructions, proved",
        "plain",
        "tuned",
        "proved / tuned",
    ];
    head(&columns);
    for Timed { heading, rows } in all {
        println!("| **{heading}** {}|", "| ".repeat(columns.len() - 1));
        for (row, times) in rows {
            let times = [PROVED, PLAIN, TUNED].map(|who| times[who].best);
            let by_time = by_time(row, times, crossing(all, row.crossing));
            let by_count = by_count(row, WHO.map(|who| counts.of(row, who)));
            line(&row.name, &[by_time, by_count].concat());
        }
    }
}

fn by_time(row: &Row, [proved, plain, tuned]: [f64; 3], crossing: Option<f64>) -> Vec<String> {
    let times = [Some(proved), crossing, Some(plain), Some(tuned)];
    let times = times.map(|time| optional(time, number));
    let inner = crossing.map(|crossing| (proved - crossing) / tuned);
    let ratios = [Some(proved / plain), Some(proved / tuned), inner];
    let ratios = ratios.map(|ratio_of_two| compared(row, ratio_of_two));
    [&times[..], &ratios].concat()
}

fn by_count(row: &Row, counts: [Option<f64>; 3]) -> Vec<String> {
    let ratio_of_two = counts[PROVED].zip(counts[TUNED]).map(|(proved, tuned)| proved / tuned);
    [&counts.map(|count| optional(count, number))[..], &[compared(row, ratio_of_two)]].concat()
}

/// The twin has no crossing: nothing is to be compared where the proved call does nothing else.
fn compared(row: &Row, ratio_of_two: Option<f64>) -> String {
    optional(ratio_of_two.filter(|_| !row.is_crossing_alone()), ratio)
}

pub fn medians(all: &[Timed]) {
    head(&[
        "median of all batches, ns for one call",
        "proved",
        "plain",
        "tuned",
        "proved / plain",
        "proved / tuned",
        "batches of each",
    ]);
    for (row, times) in all.iter().flat_map(|section| &section.rows) {
        let medians = [PROVED, PLAIN, TUNED].map(|who| times[who].median);
        let ratios = [PLAIN, TUNED].map(|who| compared(row, Some(medians[PROVED] / medians[who])));
        let batches = times[PROVED].batches.to_string();
        line(&row.name, &[&medians.map(number)[..], &ratios, &[batches]].concat());
    }
}

/// How fast the buffer of an empty table is looked at (N5 b), beside an OR over as many octets.
pub fn octets(all: &[Timed], times: &[Times], by_or: &Times) {
    head(&["the buffer of an empty table, best of all batches", "ns", "octets for each ns"]);
    let shown = |what: &str, time: f64| {
        line(what, &[number(time), format!("{:.1}", BUFFER_OCTETS as f64 / time)]);
    };
    for (who, times) in WHO.iter().zip(times) {
        shown(&format!("how many, {who}"), times.best);
    }
    let inner = times[PROVED].best - crossing(all, Crossing::In).unwrap_or_default();
    shown("how many, proved, without crossing", inner);
    shown("an OR over all octets", by_or.best);
}

fn head(columns: &[&str]) {
    println!("| {} |", columns.join(" | "));
    println!("|---|{}", "---:|".repeat(columns.len() - 1));
}

fn line(name: &str, cells: &[String]) {
    println!("| {name} | {} |", cells.join(" | "));
}

/// By the row that makes this crossing alone; for calls that take no table it is not measured.
fn crossing(all: &[Timed], crossing: Crossing) -> Option<f64> {
    let alone = |row: &Row| row.crossing == crossing && row.is_crossing_alone();
    let mut rows = all.iter().flat_map(|section| &section.rows);
    rows.find(|(row, _)| alone(row)).map(|(_, times)| times[PROVED].best)
}

fn optional(number: Option<f64>, shown: fn(f64) -> String) -> String {
    number.map_or("–".to_string(), shown)
}

fn ratio(ratio: f64) -> String {
    format!("{ratio:.2}")
}

/// Thousands are parted by commas, as in the rules; small numbers have a decimal.
fn number(number: f64) -> String {
    if number > 0.0 && number < 100.0 {
        return format!("{number:.1}");
    }
    let digits = format!("{number:.0}");
    let from_the_end: Vec<_> = digits.as_bytes().rchunks(3).rev().collect();
    String::from_utf8_lossy(&from_the_end.join(&b',')).into_owned()
}
