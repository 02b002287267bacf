//! Compares every export with the twin, which is written from the same rules, octet for octet.
//! It prints a line for each export, or the first difference, and then its status is 1.

mod agents;
mod bench;
mod by_hand;
mod cell;
mod damage;
mod described;
mod due;
mod exports;
mod frames;
mod lengths;
mod lent;
mod looks;
mod octets;
mod parts;
mod raw;
mod replay;
mod sequences;
mod sizes;
mod spoils;
mod writes;

use std::process::ExitCode;

use bench::Bench;
use lengths::Among;

fn main() -> ExitCode {
    match sizes::compare() {
        Ok(compared) => println!("sizes: {compared} compared, each as due"),
        Err((name, said, due)) => {
            eprintln!("the size of {name}: due {due}, said {said}");
            return ExitCode::FAILURE;
        }
    }
    let mut bench = Bench::default();
    let frames = frames::stored();
    let stock = damage::stock(&frames::valid_lldpdus(&frames));
    by_hand::run(&mut bench);
    frames::run(&mut bench, &frames, &stock);
    let descriptions = writes::run(&mut bench);
    let reached = sequences::run(&mut bench, &stock);
    replay::run(&mut bench);
    looks::run(&mut bench, &reached, &stock);
    spoils::run(&mut bench, &reached, &stock);
    let among =
        Among { reached: &reached, frames: &frames, descriptions: &descriptions, stock: &stock };
    lengths::run(&mut bench, &among);
    if bench.report() {
        ExitCode::SUCCESS
    } else {
        ExitCode::FAILURE
    }
}
