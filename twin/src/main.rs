//! The command: it writes case files and the texts expected for them, or shows what a capture leads to.
//! All of it is made by the library; nothing is decided here.

use std::env;
use std::ffi::OsStr;
use std::fs;
use std::io;
use std::path::Path;
use std::process::ExitCode;

use twin::capture::{number_of, replay_text, ALL};
use twin::changes::changes_text;
use twin::{files, site};

const USAGE: &str = "\
usage: twin frames DIR          write the reader's cases to DIR/frames
       twin announcements DIR   write the writer's cases to DIR/announcements
       twin events DIR          write the table's events to DIR/events
       twin captures DIR        write the replay's captures to DIR/captures
       twin looks DIR           write the pairs of tables to DIR/looks
       twin replay FILE PORT [LIMIT]
                                replay a capture on a port and show the table;
                                with LIMIT, only so many of its frames
       twin changes FILE PORT LIMIT LIMIT
                                replay a capture up to each limit and show what changed
       twin site FILE           write a small capture of a site to FILE
       twin help                show this text
The text expected for the cases goes to DIR/stdout.";

fn main() -> ExitCode {
    let arguments: Vec<_> = env::args_os().skip(1).collect();
    let words: Vec<_> = arguments.iter().map(|word| word.to_str()).collect();
    match words[..] {
        [] | [Some("help")] => {
            println!("{USAGE}");
            ExitCode::SUCCESS
        }
        [Some("replay"), _, Some(port)] => {
            show(&arguments[1], [port], |file, [port]| replay_text(file, size(port), ALL))
        }
        [Some("replay"), _, Some(port), Some(limit)] => {
            show(&arguments[1], [port, limit], |file, [port, limit]| {
                replay_text(file, size(port), limit)
            })
        }
        [Some("changes"), _, Some(port), Some(first), Some(second)] => {
            show(&arguments[1], [port, first, second], |file, [port, limits @ ..]| {
                changes_text(file, size(port), limits)
            })
        }
        [Some("site"), _] => match fs::write(&arguments[1], site::capture()) {
            Ok(()) => ExitCode::SUCCESS,
            Err(error) => failed(&error),
        },
        [Some(kind), _] => match files(kind) {
            Some((case_file, expected)) => write_files(&arguments[1], kind, &case_file, &expected),
            None => misused(),
        },
        _ => misused(),
    }
}

fn misused() -> ExitCode {
    eprintln!("{USAGE}");
    ExitCode::from(2)
}

/// The text of a capture and these numbers. A file that cannot be read, and a port or a limit that is
/// no number, is misuse (J3, J4).
fn show<const N: usize>(
    file: &OsStr,
    words: [&str; N],
    text: impl Fn(&[u8], [u64; N]) -> String,
) -> ExitCode {
    let numbers: Option<Vec<u64>> = words.into_iter().map(number_of).collect();
    let Some(numbers) = numbers.and_then(|numbers| numbers.try_into().ok()) else {
        eprintln!("twin: a port and a limit have decimal digits alone");
        return ExitCode::from(2);
    };
    match fs::read(file) {
        Ok(octets) => {
            print!("{}", text(&octets, numbers));
            ExitCode::SUCCESS
        }
        Err(error) => {
            eprintln!("twin: {error}");
            ExitCode::from(2)
        }
    }
}

/// A port as the table takes it; one that is too large is none.
fn size(port: u64) -> usize {
    usize::try_from(port).unwrap_or(usize::MAX)
}

fn write_files(directory: &OsStr, name: &str, case_file: &[u8], expected: &str) -> ExitCode {
    let directory = Path::new(directory);
    let written = fs::create_dir_all(directory)
        .and_then(|()| fs::write(directory.join(name), case_file))
        .and_then(|()| fs::write(directory.join("stdout"), expected));
    match written {
        Ok(()) => ExitCode::SUCCESS,
        Err(error) => failed(&error),
    }
}

fn failed(error: &io::Error) -> ExitCode {
    eprintln!("twin: {error}");
    ExitCode::FAILURE
}
