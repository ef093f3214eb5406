//! The self test's part on ways between panels: the fewest swaps, by cycles, held to answers worked by hand, to a search over all panels and to the carriage;
//! and what turns would change.

use crate::Compared;
use reference::panel::{carriage, obey};
use reference::swaps::fewest;
use reference::text::Line;
use std::collections::BTreeMap;

/// An order by its jacks, from 0, two for a swap and three for a turn: each gets what the one after it held, the last what the first held. And its cost.
type Order = (Vec<usize>, usize);

/// Every swap of two jacks of n, for 1 each.
fn swaps(n: usize) -> Vec<Order> {
    (0..n).flat_map(|a| (a + 1..n).map(move |b| (vec![a, b], 1))).collect()
}

/// Every turn of three jacks of n, the smallest first, for so much each.
fn turns(n: usize, cost: usize) -> Vec<Order> {
    let mut turns = vec![];
    for a in 0..n {
        for b in a + 1..n {
            turns.extend((a + 1..n).filter(|&c| c != b).map(|c| (vec![a, b, c], cost)));
        }
    }
    turns
}

/// The panel after an order on these jacks, or after such a cycle of more.
fn after(panel: &[u8], jacks: &[usize]) -> Vec<u8> {
    let mut made = panel.to_vec();
    for (place, &jack) in jacks.iter().enumerate() {
        made[jack] = panel[jacks[(place + 1) % jacks.len()]];
    }
    made
}

/// The least cost of a way from a panel to each panel that there is a way to: breadth first, all panels of one cost after all of those before. Nothing is
/// asked of a panel on the way.
fn search(from: &[u8], orders: &[Order]) -> BTreeMap<Vec<u8>, usize> {
    let mut found = BTreeMap::new();
    let mut rings = vec![vec![from.to_vec()]];
    let mut cost = 0;
    while cost < rings.len() {
        for panel in std::mem::take(&mut rings[cost]) {
            if found.contains_key(&panel) {
                continue;
            }
            for (jacks, more) in orders {
                rings.resize(rings.len().max(cost + more + 1), vec![]);
                rings[cost + more].push(after(&panel, jacks));
            }
            found.insert(panel, cost);
        }
        cost += 1;
    }
    found
}

/// Every panel of n ports, as a search finds them: n! are all.
fn panels(n: usize, compared: &mut Compared) -> Vec<Vec<u8>> {
    let first: Vec<u8> = (1..=n as u8).collect();
    let panels: Vec<Vec<u8>> = search(&first, &swaps(n)).into_keys().collect();
    compared.same("the panels of so many ports", panels.len(), (1..=n).product());
    panels
}

/// Small panels with their cycles counted on paper.
pub fn by_hand(compared: &mut Compared) {
    let small: [(&[u8], &[u8], usize); 10] = [
        (&[1, 2], &[2, 1], 1),
        (&[2, 3, 1], &[3, 1, 2], 2),
        (&[2, 3, 1], &[1, 3, 2], 1),
        (&[4, 3, 2, 1], &[2, 1, 4, 3], 2),
        (&[2, 3, 4, 1], &[2, 1, 4, 3], 1),
        (&[2, 3, 4, 1], &[3, 4, 1, 2], 3),
        (&[2, 3, 4, 1], &[4, 1, 2, 3], 2),
        (&[1, 2, 3, 4, 5], &[2, 1, 4, 5, 3], 3),
        (&[1, 2, 3, 4, 5, 6], &[2, 1, 4, 3, 6, 5], 3),
        (&[2, 3, 4, 5, 6, 1], &[1, 2, 3, 4, 5, 6], 5),
    ];
    for (from, to, wanted) in small {
        compared.same("the fewest swaps, by hand", fewest(from, to), wanted);
        compared.same("as many back", fewest(to, from), wanted);
    }
}

/// Panels of 2 to 20 ports that differ in nothing, by one swap, by one turn, by one cycle of all jacks, by their order reversed, and by so many jacks further
/// round, which makes as many cycles as the greatest common divisor says.
pub fn known(compared: &mut Compared) {
    for n in 2..=20 {
        let all: Vec<usize> = (0..n).collect();
        let own: Vec<u8> = (1..=n as u8).collect();
        let home = after(&own, &all);
        let reversed: Vec<u8> = own.iter().rev().copied().collect();
        compared.same("swaps and turns in shape", (swaps(n).len(), turns(n, 2).len()), (n * (n - 1) / 2, n * (n - 1) * (n - 2) / 3));
        compared.same("half of the jacks", fewest(&own, &reversed), n / 2);
        for panel in [own, home, reversed] {
            compared.same("nothing to do", fewest(&panel, &panel), 0);
            swaps(n).iter().for_each(|(jacks, _)| compared.same("one swap", fewest(&panel, &after(&panel, jacks)), 1));
            turns(n, 2).iter().for_each(|(jacks, _)| compared.same("one turn", fewest(&panel, &after(&panel, jacks)), 2));
            compared.same("one cycle", fewest(&panel, &after(&panel, &all)), n - 1);
            for further in 1..n {
                let to = [&panel[further..], &panel[..further]].concat();
                let divisor = (1..=n).filter(|d| n % d == 0 && further % d == 0).max();
                compared.same("so many jacks further", Some(n - fewest(&panel, &to)), divisor);
            }
        }
    }
}

/// From every panel of 2 to 5 ports, and from one of 6 and 7, to every panel.
pub fn searched(compared: &mut Compared) {
    for n in 2..=7 {
        let panels = panels(n, compared);
        let from = if n <= 5 { &panels[..] } else { &panels[panels.len() / 3..][..1] };
        for from in from {
            let found = search(from, &swaps(n));
            compared.same("panels that there is a way to", found.len(), panels.len());
            for (to, orders) in found {
                compared.same("the fewest swaps, by a search", (from, &to, fewest(from, &to)), (from, &to, orders));
            }
        }
    }
}

/// The carriage from every panel of 2 to 5 ports to every panel, order by order.
pub fn carried(compared: &mut Compared) {
    for n in 2..=5 {
        let panels = panels(n, compared);
        for (from, to) in panels.iter().flat_map(|from| panels.iter().map(move |to| (from, to))) {
            let (mut panel, mut orders) = (from.clone(), 0);
            while let Some(order) = carriage(&panel, to) {
                obey(&mut panel, order);
                orders += 1;
            }
            compared.same("the carriage", (from, &panel, orders), (from, to, fewest(from, to)));
        }
    }
}

/// Turns beside swaps, from every panel of 2 to 5 ports to every panel. A turn does what two swaps do: no way with turns has fewer than half the orders, and
/// where a turn counts as two the cheapest way costs the fewest swaps. Fewer orders than swaps there are only from 3 ports and 2 swaps on.
pub fn with_turns(compared: &mut Compared) {
    for n in 2..=5 {
        for from in panels(n, compared) {
            let least = |cost: usize| search(&from, &[swaps(n), turns(n, cost)].concat());
            let (by_orders, by_swaps) = (least(1), least(2));
            compared.same("panels with turns", (by_orders.len(), by_swaps.len()), ((1..=n).product(), (1..=n).product()));
            for (to, orders) in by_orders {
                let swaps = fewest(&from, &to);
                compared.same("turns as two", (&from, &to, by_swaps[&to]), (&from, &to, swaps));
                compared.same("no more orders, nor fewer than half", (&from, &to, orders <= swaps && swaps <= 2 * orders), (&from, &to, true));
                compared.same("where orders are fewer", (&from, &to, orders == swaps || (n >= 3 && swaps >= 2)), (&from, &to, true));
            }
        }
    }
    let (from, to) = ([2, 3, 1], vec![3, 1, 2]);
    let mut turned = from;
    obey(&mut turned, Line::Turn(1, 2, 3));
    compared.same("turn=1,2,3", (turned.to_vec(), after(&from, &[0, 1, 2])), (to.clone(), to.clone()));
    compared.same("one order, two swaps", (search(&from, &[swaps(3), turns(3, 1)].concat())[&to], fewest(&from, &to)), (1, 2));
}
