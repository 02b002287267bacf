//! Links the archive whose folder TAMBOLUNE_LIB names, statically.
//! A folder without the archive is told in one line, before the linker can say it in many.

use std::env;
use std::path::Path;
use std::process;

const VARIABLE: &str = "TAMBOLUNE_LIB";
const ARCHIVE: &str = "libtambolune.a";

fn main() {
    println!("cargo::rerun-if-env-changed={VARIABLE}");
    let Some(folder) = env::var_os(VARIABLE).filter(|folder| !folder.is_empty()) else {
        stop(&format!("set {VARIABLE} to the folder that holds {ARCHIVE}"));
    };
    let archive = Path::new(&folder).join(ARCHIVE);
    println!("cargo::rerun-if-changed={}", archive.display());
    if !archive.is_file() {
        stop(&format!("{VARIABLE} names {}, where there is no {ARCHIVE}", folder.display()));
    }
    println!("cargo::rustc-link-search=native={}", folder.display());
    println!("cargo::rustc-link-lib=static=tambolune");
}

fn stop(message: &str) -> ! {
    eprintln!("{message}");
    process::exit(1);
}
