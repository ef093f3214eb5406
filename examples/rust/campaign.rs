//! A controller's loop in Rust, which power cuts do not make lie.
//!
//!     campaign PLAN STATE PANEL
//!
//! PLAN is a plan's file. STATE is the file that the campaign is kept in: without it a new campaign begins, else it
//! goes on. PANEL is the file that plays the cords (bench.rs). Kill it at any moment and start it again: it goes on.
//!
//! Prints the line of each order as it is handed out. The rule: the state that a call left is saved before anything is
//! done about its answer, and before the next call; but that of a seat only when the robot has seated the jack.
//! docs/USING.md says why.

mod bench;
mod jidrofex;
mod keep;

use bench::Bench;
use jidrofex::{State, END, MARK, SEAT, STATE_PANEL, STATE_PORTS, VERSION};
use std::io::{stdout, Write};
use std::path::{Path, PathBuf};
use std::process::ExitCode;

/// To which panel a technician sets the cords. Every fit state takes it: the pattern of the mark that stands, else of
/// the next, after the end of the last.
fn cords_to_set(state: &State) -> Result<String, String> {
    let pattern = jidrofex::unrank(jidrofex::status(state)?.rank, state[STATE_PORTS] as usize)?;
    let ports: Vec<String> = pattern.iter().map(u8::to_string).collect();
    Ok(format!("set the cords to {} and start again", ports.join(" ")))
}

/// Takes the campaign up, a new one as well as a saved one: the panel is read back and put into the state. A mark that
/// stands already may have met an error that was not saved: every jack is seated before its traffic is run again.
fn take_up(name: &Path, state: &mut State, bench: &Bench) -> Result<(), String> {
    let panel = bench.reads()?;
    if let Err(refusal) = jidrofex::resume(state, &panel) {
        return Err(format!("{refusal}\n{}", cords_to_set(state)?));
    }
    keep::write(name, state)?;
    if jidrofex::status(state)?.standing {
        for jack in 1..=state[STATE_PORTS] {
            bench.obeys(&[SEAT, jack, 0, 0, 0])?;
        }
    }
    Ok(())
}

/// Does what the state says until the end is shown.
fn go_on(name: &Path, state: &mut State, bench: &Bench) -> Result<(), String> {
    loop {
        let status = jidrofex::status(state)?;
        if status.standing {
            // its traffic is run, again if need be, and reported by the mark's number
            let kind = bench.runs(status.mark, status.rank)?;
            jidrofex::report_mark(state, status.mark, kind)?;
            keep::write(name, state)?;
        } else {
            // the next order is asked for, saved, shown and obeyed in turn; a seat is saved last
            let (order, line) = jidrofex::request(state)?;
            if order[0] != SEAT {
                keep::write(name, state)?;
            }
            let mut out = stdout();
            out.write_all(&line).and_then(|()| out.flush()).map_err(|error| format!("standard output: {error}"))?;
            match order[0] {
                END => return Ok(()),
                MARK => {}
                _ => bench.obeys(&order)?,
            }
            if order[0] == SEAT {
                keep::write(name, state)?; // no panel shows whether a seat was done
            }
        }
    }
}

fn run(plan: &Path, name: &Path, cords: PathBuf) -> Result<(), String> {
    let version = jidrofex::version()?;
    if version != VERSION {
        return Err(format!("the library is of version {version}, this program of {VERSION}"));
    }
    let text = std::fs::read(plan).map_err(|error| format!("{}: {error}", plan.display()))?;
    let first = jidrofex::begin(&text)?;
    let mut state = match keep::read(name)? {
        Some(saved) if saved[..STATE_PANEL] != first[..STATE_PANEL] => {
            return Err(format!("{} is the state of another plan", name.display()));
        }
        Some(saved) => saved,
        None => first,
    };
    let bench = Bench { cords, ports: state[STATE_PORTS] as usize };
    take_up(name, &mut state, &bench)?;
    go_on(name, &mut state, &bench)
}

fn main() -> ExitCode {
    let names: Vec<PathBuf> = std::env::args_os().skip(1).map(PathBuf::from).collect();
    let [plan, name, cords] = &names[..] else {
        eprintln!("usage: campaign PLAN STATE PANEL");
        return ExitCode::from(2);
    };
    match run(plan, name, cords.clone()) {
        Ok(()) => ExitCode::SUCCESS,
        Err(reason) => {
            eprintln!("{reason}");
            ExitCode::FAILURE
        }
    }
}
