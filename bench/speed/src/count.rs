//! Instructions, counted by callgrind: only inside `counted_rounds`, with a sum for each time.
//! The program says in which order the sums come, `run` puts them beside it, and both come back.

use std::collections::HashMap;
use std::fs;

use crate::calls::Row;
use crate::contestants::Contestant;

/// More calls make a sum less rough, as the loop around them is counted too.
const CALLS: usize = 40;

/// Callgrind knows this function by its name.
#[no_mangle]
#[inline(never)]
pub fn counted_rounds(contestant: &mut dyn Contestant, row: &Row, rounds: usize) {
    contestant.rounds(&row.steps, rounds);
}

/// Makes the rounds, and prints a line for their sum: row, contestant and calls, with tabs.
pub fn print(row: &Row, who: &str, contestant: &mut dyn Contestant) {
    let calls = row.steps.len();
    let rounds = if row.put_back { 1 } else { CALLS.div_ceil(calls) };
    // What the first round alone does, as to get memory, is not counted.
    contestant.rounds(&row.steps, 1);
    contestant.put_back(&row.held);
    counted_rounds(contestant, row, rounds);
    println!("{}\t{who}\t{}", row.name, rounds * calls);
}

/// Instructions of one call.
#[derive(Default)]
pub struct Counts(HashMap<(String, String), f64>);

impl Counts {
    /// From a file of such lines, each with its sum behind it.
    pub fn read(path: &str) -> Result<Counts, String> {
        let text = fs::read_to_string(path).map_err(|error| format!("{path}: {error}"))?;
        let counts: Option<HashMap<_, _>> = text.lines().map(parsed).collect();
        counts.map(Counts).ok_or(format!("{path} has a line that is no count"))
    }

    pub fn of(&self, row: &Row, who: &str) -> Option<f64> {
        self.0.get(&(row.name.clone(), who.to_string())).copied()
    }
}

fn parsed(line: &str) -> Option<((String, String), f64)> {
    let [row, who, calls, sum] = line.split('\t').collect::<Vec<_>>()[..] else { return None };
    let (calls, sum): (f64, f64) = (calls.parse().ok()?, sum.parse().ok()?);
    Some(((row.to_string(), who.to_string()), sum / calls))
}
