//! Before a row is timed: all contestants answer as is due and alike, and leave the same octets.
//! A round leaves the table as it was, so that each round of a batch is like the first.

use crate::calls::Row;
use crate::contestants::Contestant;
use crate::report::WHO;

/// Where they differ, what does.
pub fn row(row: &Row, contestants: &mut [Box<dyn Contestant>]) -> Result<(), String> {
    let before = contestants[0].left();
    for (i, step) in row.steps.iter().enumerate() {
        let due = step.due.as_ref();
        let told: Vec<_> = contestants.iter_mut().map(|one| one.told(&step.call)).collect();
        let left = contestants[0].left();
        for ((who, one), said) in WHO.iter().zip(&*contestants).zip(&told) {
            let as_due = match (said, due) {
                (Ok(said), Ok(due)) => said.starts_with(due),
                (said, due) => said.as_ref() == due,
            };
            if !as_due || *said != told[0] {
                return Err(format!("call {i}: {who} says {said:?}, due is {due:?}"));
            }
            if one.left() != left {
                return Err(format!("call {i}: {who} leaves other octets"));
            }
        }
    }
    for (who, one) in WHO.iter().zip(contestants) {
        if row.put_back {
            one.put_back(&row.held);
        }
        if one.left() != before {
            return Err(format!("a round of {who} does not leave the table as it was"));
        }
    }
    Ok(())
}
