//! A panel: look-ups, order lines carried out, and the carriage.

use crate::list::{apply, check_panel, Move};
use crate::text::Line;
use crate::{refusal, Refusal};

/// The port at a jack: 1, 3, 4 for the panel, then 17 for a jack outside 1 to n.
pub fn port_at(panel: &[u8], jack: u8) -> Result<u8, Refusal> {
    check_panel(panel)?;
    let j = usize::from(jack).checked_sub(1).ok_or(refusal(17))?;
    panel.get(j).copied().ok_or(refusal(17))
}

/// The jack that holds a port: 1, 3, 4 for the panel, then 17 for a port outside 1 to n.
pub fn jack_of(panel: &[u8], port: u8) -> Result<u8, Refusal> {
    check_panel(panel)?;
    let j = panel.iter().position(|&held| held == port).ok_or(refusal(17))?;
    Ok(j as u8 + 1)
}

/// 'The panel takes any permutation of 1 to n. Mark and end leave it as it is', and so does a seat. No line at all stands for one of no kind: out of shape.
pub fn carry(panel: &mut [u8], line: Option<Line>) -> Result<(), Refusal> {
    check_panel(panel)?;
    let line = line.filter(|line| line.in_shape(panel.len() as u64)).ok_or(refusal(17))?;
    obey(panel, line);
    Ok(())
}

/// What a line in shape does to a panel.
pub fn obey(panel: &mut [u8], line: Line) {
    match line {
        Line::Swap(a, b) => apply(Move::Swap(a as u8, b as u8), panel),
        Line::Turn(a, b, c) => apply(Move::Turn(a as u8, b as u8, c as u8), panel),
        Line::Mark(..) | Line::End(_) | Line::Seat(_) => {}
    }
}

/// The next order of the carriage: 'for jack 1, 2, .. in turn, if the wanted port is not there, swap with the jack that holds it.'
pub fn carriage(panel: &[u8], wanted: &[u8]) -> Option<Line> {
    let a = (0..panel.len()).find(|&j| panel[j] != wanted[j])?;
    let b = (0..panel.len()).find(|&j| panel[j] == wanted[a])?;
    Some(Line::Swap(a as u64 + 1, b as u64 + 1))
}

/// The orders that a move is: 'two swaps being two orders'.
pub fn orders(made: Move) -> Vec<Line> {
    match made {
        Move::Nothing => vec![],
        Move::Swap(a, b) => vec![Line::Swap(a.into(), b.into())],
        Move::Turn(a, b, c) => vec![Line::Turn(a.into(), b.into(), c.into())],
        Move::TwoSwaps(a, b, c, d) => vec![Line::Swap(a.into(), b.into()), Line::Swap(c.into(), d.into())],
    }
}
