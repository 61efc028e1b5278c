//! The oracle: runs lists of calls on the Rust gear, which is built unchanged beside stand-ins.

/// The Rust itself. `access` is ours; it stands inside so that it can reach the private parts.
#[allow(dead_code, unused_imports, unreachable_code)]
mod gear {
    include!(concat!(env!("GEAR_SOURCE_ABS"), "/crates/dali2rust-gear-model/src/gear.rs"));
    pub mod access;
}

#[allow(dead_code)]
mod switching {
    include!(concat!(env!("GEAR_SOURCE_ABS"), "/crates/dali2rust-gear-model/src/switching.rs"));
}

#[path = "../standins/luminaire.rs"]
mod luminaire;
#[path = "../standins/metering.rs"]
mod metering;

mod absent;
mod answer;
mod call;
mod calls;
mod chance;
mod coverage;
mod fit;
mod fixed;
mod image;
mod kinds;
mod list;
mod perform;
mod place;
mod profile;
mod random;
mod reach;
mod session;
mod sessions;
mod show;
mod tables;

use list::{Fault, Reader, Recorder, Run};
use std::io::{self, BufReader, BufWriter, Read, Write};
use std::process::ExitCode;

const HELP: &str = "\
oracle: the Rust gear, asked call by call. A list or a session file is read from standard input; the
format of a list is in oracle/FORMAT.md, that of a session file in document 01.

  oracle answer                  read a list, write it with the answers and digests of the Rust
  oracle show [--changed] [FIRST [LAST]]
                                 read a list, write it as text with the whole record after each call;
                                 --changed: only the fields that the call changed
                                 FIRST LAST: only these calls, counted from 1
  oracle images                  read a list, write 4 answer bytes and 426 record bytes for each call
  oracle fixed                   write the fixed list (crates/replay/stdin)
  oracle fixed --sections        write how many calls each of its sections has
  oracle random SEED CALLS       write a list of CALLS random calls
  oracle coverage [--summary]    read a list, count what it reaches; status 1 where something is missed

  oracle session                 read a session file, write document 01's lines for it, as its program does:
                                 a line for each step and the end, or only 'bad' and the offset (status 0).
                                 A colour value that the gear is not capable of is '~' (document 02)
  oracle session --framed        read many session files, write the lines of each. Framed: before each file,
                                 and before its lines, stands their length in 4 bytes, high byte first
  oracle session --calls         read a session file, write its list of calls, for 'oracle show': call 1 is
                                 the gear, call n + 1 is step n. Status 1 where the file is malformed
  oracle sessions SEED COUNT     write COUNT session files made from the seed, framed. Nearly half are well
                                 formed: 0 to 4,096 steps, whose bytes fit the record that they meet. The
                                 others are cut off (short files after each byte in turn), have fields out
                                 of range, bytes too many, two faults or more, or consist of any bytes.
                                 Every hundredth asks for all colour value ids
  oracle reach [--summary]       read framed session files, count what they reach: faults, lengths, profiles,
                                 steps, answers; status 1 where something is missed

Status: 0 done, 1 failed (the reason is on standard error), 2 wrong use.
";

/// How a command ends when it does not simply end.
enum Trouble {
    Usage(String),
    Fault(Fault),
    Missed,
}

impl From<Fault> for Trouble {
    fn from(fault: Fault) -> Self {
        Trouble::Fault(fault)
    }
}

impl From<io::Error> for Trouble {
    fn from(error: io::Error) -> Self {
        Trouble::Fault(Fault::Io(error))
    }
}

fn main() -> ExitCode {
    list::name_calls_in_panics();
    let words: Vec<String> = std::env::args().skip(1).collect();
    let words: Vec<&str> = words.iter().map(String::as_str).collect();
    match run(&words) {
        Ok(()) => ExitCode::SUCCESS,
        Err(trouble) => report(trouble),
    }
}

fn report(trouble: Trouble) -> ExitCode {
    match trouble {
        Trouble::Usage(why) => {
            eprintln!("oracle: {why}; see oracle --help");
            return ExitCode::from(2);
        }
        Trouble::Fault(Fault::List(offset, what)) => eprintln!("oracle: bad list at byte {offset}: {what}"),
        Trouble::Fault(Fault::Stream(offset, what)) => eprintln!("oracle: bad stream at byte {offset}: {what}"),
        Trouble::Fault(Fault::Session(offset)) => eprintln!("oracle: the session file is malformed at byte {offset}"),
        Trouble::Fault(Fault::Io(error)) if error.kind() == io::ErrorKind::BrokenPipe => {}
        Trouble::Fault(Fault::Io(error)) => eprintln!("oracle: {error}"),
        Trouble::Missed => {}
    }
    ExitCode::FAILURE
}

fn run(words: &[&str]) -> Result<(), Trouble> {
    let input = BufReader::with_capacity(1 << 16, io::stdin().lock());
    let mut out = BufWriter::with_capacity(1 << 16, io::stdout().lock());
    match words {
        ["--help" | "-h" | "help"] => out.write_all(HELP.as_bytes())?,
        ["answer"] => answer(input, &mut out)?,
        ["show", rest @ ..] => show::show(input, &mut out, &show_options(rest)?)?,
        ["images"] => images(input, &mut out)?,
        ["fixed"] => out.write_all(&fixed::fixed())?,
        ["fixed", "--sections"] => sections(&mut out)?,
        ["random", seed, calls] => random(number(seed)?, number(calls)?, &mut out)?,
        ["coverage"] => all_reached(coverage::coverage(input, &mut out, false)?, &mut out)?,
        ["coverage", "--summary"] => all_reached(coverage::coverage(input, &mut out, true)?, &mut out)?,
        ["session"] => session::commands::run_one(input, &mut out)?,
        ["session", "--framed"] => session::commands::run_stream(input, &mut out)?,
        ["session", "--calls"] => session::commands::write_calls(input, &mut out)?,
        ["sessions", seed, count] => sessions::write_sessions(number(seed)?, number(count)?, &mut out)?,
        ["reach"] => all_reached(reach::reach(input, &mut out, false)?, &mut out)?,
        ["reach", "--summary"] => all_reached(reach::reach(input, &mut out, true)?, &mut out)?,
        [] => return Err(Trouble::Usage("no command".to_string())),
        _ => return Err(Trouble::Usage(format!("not a command: {}", words.join(" ")))),
    }
    Ok(out.flush()?)
}

fn number(word: &str) -> Result<u64, Trouble> {
    word.parse().map_err(|_| Trouble::Usage(format!("not a number: {word}")))
}

fn show_options(words: &[&str]) -> Result<show::Options, Trouble> {
    let (changed, rest) = match words {
        ["--changed", rest @ ..] => (true, rest),
        rest => (false, rest),
    };
    let (first, last) = match rest {
        [] => (1, u64::MAX),
        [first] => (number(first)?, u64::MAX),
        [first, last] => (number(first)?, number(last)?),
        _ => return Err(Trouble::Usage("show takes a first and a last call".to_string())),
    };
    Ok(show::Options { changed, first, last })
}

fn answer(input: impl Read, out: &mut impl Write) -> Result<(), Fault> {
    let mut reader = Reader::new(input);
    let mut run = Run::new();
    while let Some(entry) = reader.next_entry()? {
        let answer = run.step(&entry.call).map_err(|why| reader.malformed(why))?;
        out.write_all(&entry.call.0)?;
        out.write_all(&run.tail(answer))?;
    }
    Ok(())
}

fn images(input: impl Read, out: &mut impl Write) -> Result<(), Fault> {
    let mut reader = Reader::new(input);
    let mut run = Run::new();
    while let Some(entry) = reader.next_entry()? {
        let answer = run.step(&entry.call).map_err(|why| reader.malformed(why))?;
        out.write_all(&answer.bytes())?;
        out.write_all(&image::image(&run.gear))?;
    }
    Ok(())
}

fn all_reached(complete: bool, out: &mut impl Write) -> Result<(), Trouble> {
    out.flush()?;
    if complete {
        Ok(())
    } else {
        Err(Trouble::Missed)
    }
}

fn sections(out: &mut impl Write) -> io::Result<()> {
    let sections = fixed::sections();
    for (name, calls) in &sections {
        writeln!(out, "{calls:>7}  {name}")?;
    }
    let total: u64 = sections.iter().map(|(_, calls)| calls).sum();
    writeln!(out, "{total:>7}  together")
}

fn random(seed: u64, calls: u64, out: &mut impl Write) -> Result<(), Fault> {
    let mut generator = random::Generator::new(seed);
    let mut recorder = Recorder::new();
    for n in 0..calls {
        let call = if n == 0 { generator.first() } else { generator.next(recorder.gear()) };
        recorder.call(call);
        out.write_all(&recorder.entries)?;
        recorder.entries.clear();
    }
    Ok(())
}
