//! Times the proved calls beside the twin's, in one process, and prints Markdown tables.
//! usage: speed table [COUNTS] | speed quick | speed count | speed frame NAME; `run` calls it.

mod announcement;
mod calls;
mod check;
mod clock;
mod contestants;
mod count;
mod frames;
mod plain;
mod proved;
mod report;
mod rows;
mod tables;
mod tuned;

// Shared with the test of the exports, which uses more of them.
#[allow(dead_code)]
#[path = "../../../tests/exports/src/described.rs"]
mod described;
#[allow(dead_code)]
#[path = "../../../tests/exports/src/octets.rs"]
mod octets;
#[path = "../../../tests/exports/src/parts.rs"]
mod parts;
#[allow(dead_code)]
#[path = "../../../tests/exports/src/raw.rs"]
mod raw;
#[allow(dead_code)]
#[path = "../../../tests/exports/src/sizes.rs"]
mod sizes;

use std::env;
use std::hint::black_box;
use std::io::{self, Write};
use std::process;
use std::time::Instant;

use calls::Row;
use clock::{Pace, Runner, Times};
use contestants::{Contestant, Ordinary};
use count::Counts;
use frames::{Announced, Later, FRAME_A};
use report::{Timed, WHO};

/// In the order of the columns.
type Contestants = [Box<dyn Contestant>; WHO.len()];

fn contestants(row: &Row) -> Contestants {
    [
        Box::new(proved::Proved::of(&row.held)),
        Box::new(Ordinary::<plain::Plain>::of(&row.held)),
        Box::new(Ordinary::<tuned::Tuned>::of(&row.held)),
    ]
}

fn main() {
    if let Err((name, said, due)) = sizes::compare() {
        stop(&format!("the size of {name}: due {due}, said {said}"));
    }
    let arguments: Vec<String> = env::args().skip(1).collect();
    let arguments: Vec<&str> = arguments.iter().map(String::as_str).collect();
    match arguments[..] {
        ["quick"] => quick(),
        ["count"] => count_all(),
        ["table"] => table(&Counts::default()),
        ["table", counts] => table(&Counts::read(counts).unwrap_or_else(|wrong| stop(&wrong))),
        ["frame", name] => frame(name),
        _ => stop("usage: speed table [COUNTS] | speed quick | speed count | speed frame NAME"),
    }
}

fn quick() {
    let all = timed(&clock::QUICK);
    let rows: usize = all.iter().map(|section| section.rows.len()).sum();
    println!("speed: {rows} rows, each answered alike by all three");
}

fn count_all() {
    for row in rows::all().iter().flat_map(|section| &section.rows) {
        for (who, mut contestant) in WHO.into_iter().zip(contestants(row)) {
            count::print(row, who, contestant.as_mut());
        }
    }
}

fn table(counts: &Counts) {
    let all = timed(&clock::THOROUGH);
    report::bests(&all, counts);
    println!();
    report::medians(&all);
    println!();
    let mut times = octets(&clock::THOROUGH);
    let by_or = times.pop().expect("the OR comes last");
    report::octets(&all, &times, &by_or);
}

/// The octets of a frame that is read, so that other programs can be given the same.
fn frame(name: &str) {
    let octets = match name {
        "a" => FRAME_A,
        "few" => Announced::with(Later::Few).frame(),
        "organization" => Announced::with(Later::Organization).frame(),
        _ => stop(&format!("there is no frame {name}")),
    };
    if let Err(error) = io::stdout().write_all(octets) {
        stop(&format!("the frame was not written: {error}"));
    }
}

fn timed(pace: &Pace) -> Vec<Timed> {
    let time_row = |row: Row| {
        let times = time(&row, pace);
        (row, times)
    };
    let time_section = |section: rows::Section| Timed {
        heading: section.heading,
        rows: section.rows.into_iter().map(time_row).collect(),
    };
    rows::all().into_iter().map(time_section).collect()
}

fn time(row: &Row, pace: &Pace) -> Vec<Times> {
    let mut contestants = contestants(row);
    if let Err(difference) = check::row(row, &mut contestants) {
        stop(&format!("{}: {difference}", row.name));
    }
    let mut runners = runners(row, &mut contestants);
    clock::by_turns(&mut runners, row.steps.len(), pace)
}

fn runners<'r>(row: &'r Row, contestants: &'r mut Contestants) -> Vec<Runner<'r>> {
    contestants.iter_mut().map(|contestant| clock::runner(row, contestant.as_mut())).collect()
}

/// The fitness test of an empty table, which how many begins with (N10), by each contestant; and
/// then an OR over as many octets.
fn octets(pace: &Pace) -> Vec<Times> {
    let row = rows::how_many(0);
    let mut contestants = contestants(&row);
    let mut runners = runners(&row, &mut contestants);
    runners.push(Box::new(|rounds| {
        let start = Instant::now();
        for _ in 0..rounds {
            black_box(black_box(&row.held.buffer).iter().fold(0, |all, octet| all | octet));
        }
        start.elapsed()
    }));
    clock::by_turns(&mut runners, 1, pace)
}

fn stop(message: &str) -> ! {
    eprintln!("speed: {message}");
    process::exit(1);
}
