//! Plans, and their texts.

use super::{damage_text, number_text, ports, rank, Rng};
use reference::list::count_of;
use reference::plan::{Leg, Plan};

/// A run within a leg's limits.
pub fn run(rng: &mut Rng, count: u128) -> i128 {
    let magnitude = match rng.below(4) {
        0 => rng.pick(&[0, 1, count - 1, count / 2]),
        1 => rng.below_wide(count),
        _ => rng.below_wide(6),
    }
    .min(count - 1) as i128;
    if rng.chance(50) {
        -magnitude
    } else {
        magnitude
    }
}

/// A plan of any ports and legs.
pub fn plan(rng: &mut Rng) -> Plan {
    let ports = ports(rng);
    let count = count_of(ports);
    let legs = rng.between(1, 16);
    Plan { ports, legs: (0..legs).map(|_| Leg { start: rank(rng, ports), run: run(rng, count) }).collect() }
}

/// A plan that a few calls bring to its end.
pub fn short_plan(rng: &mut Rng, most_run: u128) -> Plan {
    let ports = if rng.chance(80) { rng.between(2, 6) } else { ports(rng) };
    let count = count_of(ports);
    let legs = rng.between(1, 4);
    let mut leg = || {
        let start = rank(rng, ports);
        let magnitude = rng.below_wide(most_run + 1).min(count - 1) as i128;
        Leg { start, run: if rng.chance(50) { -magnitude } else { magnitude } }
    };
    Plan { ports, legs: (0..legs).map(|_| leg()).collect() }
}

/// The lines of a plan as keys and values.
fn plan_fields(plan: &Plan) -> Vec<(String, String)> {
    let mut fields = vec![("ports=".into(), plan.ports.to_string()), ("legs=".into(), plan.legs.len().to_string())];
    for leg in &plan.legs {
        fields.push(("start=".into(), leg.start.to_string()));
        fields.push(("run=".into(), leg.run.to_string()));
    }
    fields
}

fn joined(fields: &[(String, String)]) -> Vec<u8> {
    fields.iter().map(|(key, value)| format!("{key}{value}\n")).collect::<String>().into_bytes()
}

pub fn plan_text(plan: &Plan) -> Vec<u8> {
    joined(&plan_fields(plan))
}

/// The text of a plan with one field, one line or a few bytes wrong, or with more after its end.
pub fn damaged_plan_text(rng: &mut Rng) -> Vec<u8> {
    let plan = if rng.chance(50) { plan(rng) } else { short_plan(rng, 8) };
    let count = count_of(plan.ports);
    let mut fields = plan_fields(&plan);
    let at = rng.below(fields.len());
    match rng.below(8) {
        0 => {
            fields[at].1 = number_text(rng);
        }
        1 | 2 => {
            // a value at its limits
            let near = rng.pick(&[0, 1, count.saturating_sub(2), count - 1, count, count + 1, 1 << 63, (1 << 64) - 1, 1 << 64, 16, 17, 20, 21]);
            let sign = if at > 2 && rng.chance(60) { "-" } else { "" };
            fields[at].1 = format!("{sign}{near}");
        }
        3 => fields[at].0 = rng.pick(&["ports=", "legs=", "start=", "run=", "run", "Run=", " run=", "", "start =", "benches="]).into(),
        4 => {
            let other = rng.below(fields.len());
            fields.swap(at, other);
        }
        5 => {
            if rng.chance(50) {
                fields.remove(at);
            } else {
                fields.insert(at, fields[at].clone());
            }
        }
        6 => {
            let mut text = joined(&fields);
            match rng.below(4) {
                0 => {
                    text.pop();
                }
                1 => text.push(rng.pick(b"\n\r \0r1")),
                2 => text.extend(b"run=0\n"),
                _ => text = text.split_inclusive(|&b| b == b'\n').flat_map(|l| [&l[..l.len() - 1], b"\r\n"].concat()).collect(),
            }
            return text;
        }
        _ => {
            let mut text = joined(&fields);
            damage_text(rng, &mut text);
            return text;
        }
    }
    joined(&fields)
}
