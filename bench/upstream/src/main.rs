//! The program `arrange` over upstream's code. `build.py` puts upstream's files beside these modules, some of which are
//! stand-ins for files of upstream that the program does not need as a whole.
#![allow(dead_code, unused_imports, unused_macros)]

extern crate alloc;

mod bench;
mod build;
mod commands;
mod core;
mod geom;
mod lines;
mod passes;
mod runs;
mod segm;
mod split;
mod string;
mod util;
mod words;

use std::io::Write;
use std::process::ExitCode;

/// A status, and the text of a fault.
struct Stop(u8, String);

type Outcome<T> = Result<T, Stop>;

fn main() -> ExitCode {
    let words: Vec<String> = std::env::args_os().skip(1).map(|word| word.to_string_lossy().into_owned()).collect();
    match commands::run(&words) {
        Ok(text) => print(&text),
        Err(Stop(status, text)) => {
            eprintln!("{text}");
            ExitCode::from(status)
        }
    }
}

fn print(text: &str) -> ExitCode {
    let mut out = std::io::stdout().lock();
    if out.write_all(text.as_bytes()).and_then(|()| out.flush()).is_err() {
        eprintln!("output failed");
        return ExitCode::from(5);
    }
    ExitCode::SUCCESS
}
