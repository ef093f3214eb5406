//! Cases for `bin/benches`, written into a folder, and what the reference prints of them:
//!
//!     texts FOLDER
//!
//! - `texts/NAME`: the file that is added up, for those cases that have one
//! - `wanted/NAME`: what is to be printed of each, and the status on a last line
//! - `list`: of each case its name, its group and the arguments, with the file as it is named from the folder. Groups: `shares`, `plans`, and `plans-none` for
//!   benches without a plan; `refused-N` of arguments; of files `add`, `add-N-PLACE` with the number of the refusal and where the fault is in a word, `add-two`
//!   of more than one fault, `add-4096` of files about so long, `add-damaged` by chance

mod files;
#[allow(dead_code)]
#[path = "../reference/inputs/rng.rs"]
mod rng;

use reference::benches::{printed_plan, printed_shares, printed_sums, share};
use rng::Rng;
use std::env::args;
use std::fs;
use std::io;

const MOST: u64 = u64::MAX;

/// One form of the command.
enum Form {
    Shares,
    Plan(u64),
    Add(Vec<u8>),
}

/// A case, and where it is known the refusal that it must meet, with its place.
struct Case {
    group: String,
    ports: u64,
    benches: u64,
    form: Form,
    known: Option<(u8, u64)>,
}

fn case(group: &str, ports: u64, benches: u64, form: Form, known: Option<(u8, u64)>) -> Case {
    Case { group: group.into(), ports, benches, form, known }
}

fn add(group: &str, ports: u64, benches: u64, text: impl AsRef<[u8]>, known: Option<(u8, u64)>) -> Case {
    case(group, ports, benches, Form::Add(text.as_ref().to_vec()), known)
}

// ---- arguments

fn shares() -> Vec<Case> {
    (2..=20).flat_map(|ports| (1..=64).map(move |benches| case("shares", ports, benches, Form::Shares, None))).collect()
}

fn plans() -> Vec<Case> {
    let mut cases = vec![];
    for ports in 2..=20 {
        for benches in [1, 2, 3, 4, 10, 43, 44, 45, 64] {
            let mut some = vec![0, 1, benches / 2, benches - 1];
            some.sort();
            some.dedup();
            for bench in some.into_iter().filter(|&bench| bench < benches) {
                let planned = share(ports, benches, bench).expect("a good share").is_some();
                cases.push(case(if planned { "plans" } else { "plans-none" }, ports, benches, Form::Plan(bench), None));
            }
        }
    }
    cases
}

/// Refused by the arguments alone, in each form that reads them: 1, then 21, then 22. Some are good ones where only 8, 32 or 63 bits are looked at.
fn refused_arguments() -> Vec<Case> {
    let mut cases = vec![];
    let mut in_all_forms = |number: u8, ports: u64, benches: u64| {
        let group = format!("refused-{number}");
        let files: [&[u8]; 3] = [b"", b"0,0,0\n0,0,0\n0,0,0\n0,0,0\n", b"x"];
        let forms = [Form::Shares, Form::Plan(0), Form::Plan(1), Form::Plan(MOST)].into_iter().chain(files.map(|text| Form::Add(text.to_vec())));
        cases.extend(forms.map(|form| case(&group, ports, benches, form, Some((number, 0)))));
    };
    for ports in [0, 1, 21, 22, 99, 127, 128, 255, 256, 258, 262, 276, 65_542, 1 << 32, (1 << 32) + 6, 1 << 63, (1 << 63) + 6, MOST - 249, MOST] {
        for benches in [0, 1, 4, 64, 65, MOST] {
            in_all_forms(1, ports, benches);
        }
    }
    for benches in [0, 65, 66, 99, 127, 128, 192, 255, 256, 257, 260, 320, 65_540, 1 << 32, (1 << 32) + 4, 1 << 63, (1 << 63) + 4, MOST - 251, MOST] {
        for ports in [2, 6, 20] {
            in_all_forms(21, ports, benches);
        }
    }
    for (ports, benches) in [(2, 1), (2, 3), (2, 64), (5, 44), (5, 64), (6, 1), (6, 4), (20, 63), (20, 64)] {
        for bench in [benches, benches + 1, 64, 65, 256, 256 + benches - 1, 1 << 32, (1 << 32) + benches - 1, 1 << 63, MOST - 1, MOST] {
            if bench >= benches {
                cases.push(case("refused-22", ports, benches, Form::Plan(bench), Some((22, 0))));
            }
        }
    }
    cases
}

fn main() -> io::Result<()> {
    let folder = args().nth(1).expect("usage: texts FOLDER");
    let mut rng = Rng::of(20, "benches", 0);
    let cases: Vec<Case> = [shares(), plans(), refused_arguments(), files::files(&mut rng)].into_iter().flatten().collect();
    for made in ["texts", "wanted"] {
        fs::create_dir(format!("{folder}/{made}"))?;
    }
    let mut list = String::new();
    for (name, Case { group, ports, benches, form, known }) in cases.iter().enumerate() {
        let (mut wanted, status) = match form {
            Form::Shares => printed_shares(*ports, *benches),
            Form::Plan(bench) => printed_plan(*ports, *benches, *bench),
            Form::Add(text) => printed_sums(*ports, *benches, text),
        };
        // the reference is held to what is known of a case
        if let Some((number, place)) = known {
            assert_eq!((&wanted[..], status), (format!("refused={number}\nat={place}\n").as_bytes(), 65), "{group} {ports} {benches}");
        }
        wanted.extend(format!("status={status}\n").bytes());
        fs::write(format!("{folder}/wanted/{name}"), wanted)?;
        list += &format!("{name} {group} {ports} {benches}");
        match form {
            Form::Shares => {}
            Form::Plan(bench) => list += &format!(" {bench}"),
            Form::Add(text) => {
                fs::write(format!("{folder}/texts/{name}"), text)?;
                list += &format!(" --add texts/{name}");
            }
        }
        list += "\n";
    }
    fs::write(format!("{folder}/list"), list)
}
