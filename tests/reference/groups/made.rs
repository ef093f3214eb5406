//! Groups whose cases are made one by one: patterns, panels and lines.

use crate::calls::{Call, Name};
use crate::inputs::{self, Rng};
use crate::Harness;
use reference::campaign::WORDS;
use reference::list::count_of;
use reference::plan::{Leg, Plan};

/// Signed numbers and each kind of slice, with values that would show a number cut short, a sign lost or a slice read beside its place.
pub fn crossing(h: &mut Harness, rng: &mut Rng) {
    let k = rng.pick(&[i64::MIN, i64::MIN + 1, i64::MAX, -1, 0, 1, -(1 << 31), 1 << 31, -(1 << 32), 1 << 32, -256, 255]);
    h.compare(Call::plain(Name::Step { ports: 20, rank: inputs::rank(rng, 20) as u64, k }));
    let n = inputs::ports(rng);
    let rank = inputs::rank(rng, n) as u64;
    let pattern = h.compare(Call::on_bytes(Name::Unrank { rank }, rng.bytes(n))).bytes;
    h.compare(Call::on_bytes(Name::Rank, pattern.clone()));
    h.compare(Call::on_both(Name::Carry, pattern, vec![1, 1, n as u64, rng.next()]));
    let written = h.compare(Call::on_both(Name::WriteLine, rng.bytes(47), vec![3, u64::MAX - rank, rank, rng.next()]));
    h.compare(Call::on_bytes(Name::ReadLine { place: 0 }, written.bytes[..written.answer[0] as usize].to_vec()));
    let count = count_of(n) as i128;
    let plan = Plan { ports: n, legs: vec![Leg { start: rank.into(), run: 1 - count }, Leg { start: 0, run: count - 1 }] };
    let state = h.compare(Call::on_both(Name::Begin, inputs::plan_text(&plan), vec![u64::MAX; WORDS])).words;
    h.compare(Call::on_both(Name::Request, rng.bytes(45), state));
}

pub fn on_pattern(h: &mut Harness, rng: &mut Rng, name: Name) {
    h.compare(Call::on_bytes(name, inputs::any_pattern(rng)));
}

pub fn on_panel(h: &mut Harness, rng: &mut Rng, name: Name) {
    h.compare(Call::on_bytes(name, inputs::any_panel(rng)));
}

pub fn unrank(h: &mut Harness, rng: &mut Rng) {
    let length = if rng.chance(10) { rng.pick(&inputs::BAD_LENGTHS) } else { inputs::ports(rng) };
    let rank = inputs::any_rank(rng, length);
    h.compare(Call::on_bytes(Name::Unrank { rank }, rng.bytes(length)));
}

pub fn step(h: &mut Harness, rng: &mut Rng) {
    let ports = if rng.chance(10) { rng.byte() } else { inputs::ports(rng) as u8 };
    let rank = inputs::any_rank(rng, ports.into());
    let count = count_of(ports.clamp(2, 20).into()) as i64;
    let k = match rng.below(4) {
        0 => rng.pick(&[i64::MIN, i64::MIN + 1, -1, 0, 1, i64::MAX - 1, i64::MAX]),
        1 => rng.pick(&[count, -count, count - 1, 1 - count, count + 1, -1 - count]),
        2 => rng.below(200) as i64 - 100,
        _ => rng.next() as i64,
    };
    h.compare(Call::plain(Name::Step { ports, rank, k }));
}

/// A number that is mostly a jack or a port of the panel.
pub fn one_of(rng: &mut Rng, n: usize) -> u8 {
    match rng.below(5) {
        0 => rng.byte(),
        1 => rng.pick(&[0, 1, 20, 21, n as u8, (n as u8).wrapping_add(1)]),
        _ => rng.between(1, n.clamp(1, 20)) as u8,
    }
}

pub fn port_at(h: &mut Harness, rng: &mut Rng) {
    let panel = inputs::any_panel(rng);
    let jack = one_of(rng, panel.len());
    h.compare(Call::on_bytes(Name::PortAt { jack }, panel));
}

pub fn jack_of(h: &mut Harness, rng: &mut Rng) {
    let panel = inputs::any_panel(rng);
    let port = one_of(rng, panel.len());
    h.compare(Call::on_bytes(Name::JackOf { port }, panel));
}

pub fn carry(h: &mut Harness, rng: &mut Rng) {
    let panel = inputs::any_panel(rng);
    let line = inputs::line_words(rng, panel.len().clamp(2, 20));
    h.compare(Call::on_both(Name::Carry, panel, line.to_vec()));
}

pub fn write_line(h: &mut Harness, rng: &mut Rng) {
    let line = inputs::line_words(rng, 20);
    let length = if rng.chance(30) { rng.between(44, 50) } else { rng.between(0, 50) };
    h.compare(Call::on_both(Name::WriteLine, rng.bytes(length), line.to_vec()));
}

pub fn read_line(h: &mut Harness, rng: &mut Rng) {
    let (text, place) = inputs::lines_and_place(rng);
    h.compare(Call::on_bytes(Name::ReadLine { place }, text));
}
