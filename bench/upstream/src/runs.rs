//! Many runs in one process: each is a line of words `name=value`, lines of segments, and an empty line. Of each the texts of
//! `split` and `graph` are printed, and then a line `end`; or a line `no end` alone, where a split takes too many passes.

use crate::core::integer::OverlayInt;
use crate::lines::{parse, Line};
use crate::passes;
use crate::words::{settings, Settings};
use crate::{commands, Outcome, Stop};
use i_float::int::number::int::IntNumber;
use std::io::Read;
use std::panic::{catch_unwind, AssertUnwindSafe};

/// Upstream has no bound on passes.
const MOST_PASSES: u64 = 256;

/// What all runs of standard input print.
pub(crate) fn run() -> Outcome<String> {
    let mut input = String::new();
    if std::io::stdin().lock().read_to_string(&mut input).is_err() {
        return Err(Stop(5, "input failed".to_string()));
    }
    passes::stop_after(MOST_PASSES);
    std::panic::set_hook(Box::new(|_| {}));
    let runs = input.split("\n\n").map(|run| run.trim_matches('\n')).filter(|run| !run.is_empty());
    runs.map(text_of).collect()
}

/// What one run prints.
fn text_of(run: &str) -> Outcome<String> {
    let (words, lines) = run.split_once('\n').unwrap_or((run, ""));
    let words: Vec<String> = words.split(' ').map(str::to_string).collect();
    let settings = settings(&words).ok_or_else(commands::usage)?;
    let lines = parse(lines.as_bytes(), settings.is_wide)?;
    let texts = catch_unwind(AssertUnwindSafe(|| {
        if settings.is_wide {
            both::<i32>(&settings, &lines)
        } else {
            both::<i16>(&settings, &lines)
        }
    }));
    match texts {
        Ok(text) => Ok(text? + "end\n"),
        Err(_) => Ok("no end\n".to_string()),
    }
}

fn both<I>(settings: &Settings, lines: &[Line]) -> Outcome<String>
where
    I: OverlayInt + IntNumber<Wide = i64, WideUInt = u64>,
{
    Ok(commands::text::<I>("split", settings, lines)? + &commands::text::<I>("graph", settings, lines)?)
}
