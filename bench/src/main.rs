//! The bench: the Rust gear and the proved record in one process, on the same session files.

mod judge;
mod lean;
mod mixes;
mod text;
mod time;

#[allow(dead_code, unused_imports, unreachable_code)]
mod gear;
#[allow(dead_code)]
mod switching {
    include!(concat!(env!("GEAR_SOURCE_ABS"), "/crates/dali2rust-gear-model/src/switching.rs"));
}

/// What the Rust leans on, and the oracle's generator of session files: the oracle's own sources.
macro_rules! of_the_oracle {
    ($($path:literal $name:ident),* $(,)?) => { $(#[path = $path] #[allow(dead_code)] mod $name;)* };
}
of_the_oracle! {
    "../../oracle/standins/luminaire.rs" luminaire,
    "../../oracle/standins/metering.rs" metering,
    "../../oracle/src/absent.rs" absent,
    "../../oracle/src/answer.rs" answer,
    "../../oracle/src/call.rs" call,
    "../../oracle/src/calls.rs" calls,
    "../../oracle/src/chance.rs" chance,
    "../../oracle/src/fit.rs" fit,
    "../../oracle/src/image.rs" image,
    "../../oracle/src/kinds.rs" kinds,
    "../../oracle/src/list.rs" list,
    "../../oracle/src/perform.rs" perform,
    "../../oracle/src/place.rs" place,
    "../../oracle/src/profile.rs" profile,
    "../../oracle/src/random/mod.rs" random,
    "../../oracle/src/session/mod.rs" session,
    "../../oracle/src/sessions/mod.rs" sessions,
    "../../oracle/src/tables.rs" tables,
}

use session::frames::{write_frame, Frames};
use std::io::{self, Read, Write};
use std::process::ExitCode;

const HELP: &str = "\
bench: the driver of bench/run. A mix is a stream of session files, each with its length before it.

  bench mix NAME               write the mix of this name; 'bench mix' lists the names. Four numbers with commas
                               between them name a session of 4,096 equal steps
  bench same                   read a mix, see that both sides write the same bytes for each of its files
  bench repeat SIDE WORK N     read a mix, see the same, and let one side do the work N times over the mix
  bench time N                 read a mix, see the same, and time both sides N times in turn
  bench session                read a session file, write its lines by the Rust: a program like session

SIDE: rust or ours. WORK: lines (whole runs), or steps (the same steps, and no lines).
Status: 0 done, 1 failed, and the two sides differ among the reasons, 2 wrong use.
";

fn main() -> ExitCode {
    let words: Vec<String> = std::env::args().skip(1).collect();
    let words: Vec<&str> = words.iter().map(String::as_str).collect();
    match run(&words) {
        Ok(()) => ExitCode::SUCCESS,
        Err((status, why)) => {
            eprintln!("bench: {why}");
            ExitCode::from(status)
        }
    }
}

type Trouble = (u8, String);

fn run(words: &[&str]) -> Result<(), Trouble> {
    match words {
        ["--help" | "-h" | "help"] => print!("{HELP}"),
        ["mix"] => mixes::MIXES.iter().for_each(|(name, _)| println!("{name}")),
        ["mix", name] => write_mix(name)?,
        ["same"] => println!("{} steps", checked_mix()?.steps),
        ["repeat", side, work, times] => repeat(side, work, times)?,
        ["time", times] => time::time(&checked_mix()?.files, number(times)?),
        ["session"] => one_session()?,
        _ => return Err((2, format!("not a command: {}; see bench --help", words.join(" ")))),
    }
    Ok(())
}

fn number(word: &str) -> Result<usize, Trouble> {
    word.parse().ok().filter(|n| *n > 0).ok_or((2, format!("not a number above 0: {word}")))
}

fn write_mix(name: &str) -> Result<(), Trouble> {
    let files = mixes::named(name).ok_or((2, format!("no mix is called {name}")))?;
    let mut out = io::stdout().lock();
    files.iter().try_for_each(|file| write_frame(&mut out, file)).map_err(|error| (1, error.to_string()))
}

struct Mix {
    files: Vec<Vec<u8>>,
    steps: usize,
}

/// Nothing is measured on files for which the two sides differ.
fn checked_mix() -> Result<Mix, Trouble> {
    let mut frames = Frames::new(io::stdin().lock());
    let mut mix = Mix { files: Vec::new(), steps: 0 };
    while let Some(file) = frames.next_file().map_err(|_| (1, "the mix is cut off".to_string()))? {
        mix.steps += judge::same(&file).map_err(|why| (1, format!("file {}: {why}", mix.files.len() + 1)))?;
        mix.files.push(file);
    }
    match mix.steps {
        0 => Err((1, "the mix has no steps".to_string())),
        _ => Ok(mix),
    }
}

fn repeat(side: &str, work: &str, times: &str) -> Result<(), Trouble> {
    let job = judge::job(side, work).ok_or((2, format!("no side does this work: {side} {work}")))?;
    let (times, mix) = (number(times)?, checked_mix()?);
    eprintln!("anchor {:x}", bench_anchor as *const () as usize);
    let mut out = vec![0; dali_gear::LINES_MAX];
    for _ in 0..times {
        mix.files.iter().for_each(|file| job(file, &mut out));
    }
    Ok(())
}

/// Where the program is loaded: bench/where finds the other functions by it.
#[no_mangle]
pub extern "C" fn bench_anchor() {}

fn one_session() -> Result<(), Trouble> {
    let (mut file, mut out) = (Vec::with_capacity(dali_gear::FILE_MAX + 1), vec![0; dali_gear::LINES_MAX]);
    io::stdin().lock().take(dali_gear::FILE_MAX as u64 + 1).read_to_end(&mut file).map_err(|e| (1, e.to_string()))?;
    let end = lean::run(&file, &mut out).ok_or((1, "the file is malformed".to_string()))?;
    io::stdout().lock().write_all(&out[..end]).map_err(|error| (1, error.to_string()))
}
