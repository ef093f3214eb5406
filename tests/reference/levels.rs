//! The levels of a pattern: which part of relation (2) holds it in the list for its ports, which part of the shorter list holds the shorter pattern, and so on
//! down to 3 ports; and the whole output of the command that prints them. All is found from the list alone, by no rule on a pattern's entries. For 3 to 8
//! ports each list stands row by row as relation (2) makes it, and patterns are looked up in it. For more ports the place of a pattern is found among the
//! lengths of the parts. The self test holds the second to the first.

use crate::dictionary::MOST_LISTED;
use crate::list::{check, count_of, place, step_a, step_b, Way};
use crate::text::number;
use crate::Refusal;

/// How a list is read on the way from rank 0.
#[derive(Clone, Copy, Debug, PartialEq, Eq)]
pub enum Read {
    Forward,
    Backward,
}

impl Read {
    fn turned(self) -> Read {
        match self {
            Read::Forward => Read::Backward,
            Read::Backward => Read::Forward,
        }
    }
}

/// A part of relation (2): A(i) or B(i) over a shorter list. Each of its patterns has i at the last jack.
#[derive(Clone, Copy, Debug, PartialEq, Eq)]
pub struct Part {
    pub way: Way,
    pub i: u8,
    /// how the shorter list is read there
    pub read: Read,
}

impl Part {
    /// The ports of the shorter list, for a part of the list for n.
    pub fn shorter(self, n: usize) -> usize {
        match self.way {
            Way::A => n - 1,
            Way::B => n - 2,
        }
    }

    /// The pattern that the part makes of a shorter one.
    pub fn made_of(self, t: &[u8]) -> Vec<u8> {
        match self.way {
            Way::A => step_a(self.i, t),
            Way::B => step_b(self.i, t),
        }
    }

    fn turned(self) -> Part {
        Part { read: self.read.turned(), ..self }
    }
}

/// A level on the way to a pattern: the ports of the list, the part that holds the pattern there, and how many patterns are passed over before that part.
#[derive(Clone, Copy, Debug, PartialEq, Eq)]
pub struct Level {
    pub ports: usize,
    pub part: Part,
    pub over: u128,
}

/// Relation (2) of document 000: for odd i all of A(i) over the list for n - 1, and then B(i) over the list for n - 2 reversed; for even i all of B(i) over the
/// list for n - 2, and then A(i) over the list for n - 1 reversed. A list read backward has its parts in the opposite order, each shorter list turned.
pub fn parts(n: usize, read: Read) -> Vec<Part> {
    let block = |i: u8| {
        let [first, second] = if i % 2 == 1 { [Way::A, Way::B] } else { [Way::B, Way::A] };
        [Part { way: first, i, read: Read::Forward }, Part { way: second, i, read: Read::Backward }]
    };
    let forward = (1..n as u8).flat_map(block);
    match read {
        Read::Forward => forward.collect(),
        Read::Backward => forward.rev().map(Part::turned).collect(),
    }
}

// ---- in the lists

/// A pattern of a list, the part that holds it, and the shorter pattern that it is made of.
#[derive(Clone)]
struct Row {
    pattern: Vec<u8>,
    part: Part,
    shorter: Vec<u8>,
}

/// The patterns of the list for n: 'for n = 1 it is empty; for n = 2 it is (2,1)'; for more they are made of those of the shorter lists.
pub fn patterns(n: usize) -> Vec<Vec<u8>> {
    match n {
        1 => vec![],
        2 => vec![vec![2, 1]],
        _ => rows(n).into_iter().map(|row| row.pattern).collect(),
    }
}

/// The rows of the list for n of 3 or more, part by part.
fn rows(n: usize) -> Vec<Row> {
    let rows_of = |part: Part| {
        let mut list = patterns(part.shorter(n));
        if part.read == Read::Backward {
            list.reverse();
        }
        list.into_iter().map(move |t| Row { pattern: part.made_of(&t), part, shorter: t })
    };
    parts(n, Read::Forward).into_iter().flat_map(rows_of).collect()
}

/// The same rows from the last to the first, so that each shorter list is met the other way round.
fn reversed(rows: &[Row]) -> Vec<Row> {
    rows.iter().rev().map(|row| Row { part: row.part.turned(), ..row.clone() }).collect()
}

thread_local! {
    /// The rows for 3 ports and more, read forward and read backward, made once.
    static LISTS: Vec<[Vec<Row>; 2]> = (3..=MOST_LISTED).map(|n| [rows(n), reversed(&rows(n))]).collect();
}

/// What is found in the rows for n, read in one of the two ways.
fn in_list<T>(n: usize, read: Read, look: impl FnOnce(&[Row]) -> T) -> T {
    LISTS.with(|lists| look(&lists[n - 3][usize::from(read == Read::Backward)]))
}

/// The levels of a pattern of 2 to 8 ports: it is looked up in its list, the shorter one that it is made of in that one's list, and so on.
pub fn looked_up(p: &[u8]) -> Vec<Level> {
    let (mut p, mut read, mut levels) = (p.to_vec(), Read::Forward, vec![]);
    while p.len() > 2 {
        let ports = p.len();
        (p, read) = in_list(ports, read, |rows| {
            let row = rows.iter().find(|row| row.pattern == p).expect("every pattern is listed");
            let over = rows.iter().take_while(|before| before.part != row.part).count();
            levels.push(Level { ports, part: row.part, over: over as u128 });
            (row.shorter.clone(), row.part.read)
        });
    }
    levels
}

// ---- by the place

/// The part that holds a place of the list for n, read in one of the two ways: whole parts are passed over until the one that has it.
fn level_at(n: usize, read: Read, place: u128) -> Level {
    let mut over = 0;
    for part in parts(n, read) {
        let there = count_of(part.shorter(n));
        if place < over + there {
            return Level { ports: n, part, over };
        }
        over += there;
    }
    panic!("the list for {n} ports has no place {place}");
}

/// The levels of a pattern of any ports, from its place: the part that holds it, and on with the place inside that part in the shorter list.
pub fn by_place(p: &[u8]) -> Vec<Level> {
    let (mut ports, mut read, mut inside, mut levels) = (p.len(), Read::Forward, place(p), vec![]);
    while ports > 2 {
        let level = level_at(ports, read, inside);
        (ports, read, inside) = (level.part.shorter(ports), level.part.read, inside - level.over);
        levels.push(level);
    }
    levels
}

// ---- the command

/// One line of a level.
fn line(level: &Level) -> String {
    let Level { ports, part: Part { way, i, read }, over } = level;
    let read = if *read == Read::Forward { "forward" } else { "backward" };
    format!("level={ports} last={i} by={way:?} read={read} over={over}\n")
}

/// One line for each level met, from all ports down to 3, and then the rank.
fn accepted(p: &[u8]) -> String {
    let levels = if p.len() <= MOST_LISTED { looked_up(p) } else { by_place(p) };
    let lines: String = levels.iter().map(line).collect();
    format!("{lines}rank={}\n", place(p))
}

/// A refusal prints three lines, and nothing else.
fn refused(number: u8, at: u64, words: &str) -> String {
    format!("refused={number}\nat={at}\n{words}\n")
}

/// The pattern that an input is, or what is printed of its refusal: 11 of the newline, 8 of the entries, then as a pattern is checked.
fn judged(input: &[u8]) -> Result<Vec<u8>, String> {
    // the first 1,024 bytes of the input are judged
    let front = &input[..input.len().min(1024)];
    let end = front.iter().position(|&byte| byte == b'\n').filter(|end| end + 1 == front.len());
    let end = end.ok_or_else(|| refused(11, 0, "the newline is missing or not last"))?;
    let mut p = vec![];
    for (before, entry) in front[..end].split(|&byte| byte == b',').enumerate() {
        let not_plain = || refused(8, 0, &format!("jack {}: not a plain decimal number of at most 64 bits", before + 1));
        // an entry that no byte holds is as far outside the ports as 0 is
        p.push(u8::try_from(number(entry).ok_or_else(not_plain)?).unwrap_or(0));
    }
    let in_words = |Refusal { number, place, earlier }| match number {
        1 => refused(1, place, "a pattern has 2 to 20 entries"),
        3 => refused(3, place, &format!("jack {place}: its entry is none of the ports 1 to {}", p.len())),
        4 => refused(4, place, &format!("jack {place}: port {} is already at jack {earlier}", p[place as usize - 1])),
        5 => refused(5, place, &format!("jack {place}: port {place} has the jack's own number")),
        _ => panic!("a pattern is not refused with {number}"),
    };
    check(&p).map_err(in_words)?;
    Ok(p)
}

/// All that is printed of an input, and the exit status: 0 printed, 65 refused.
pub fn explained(input: &[u8]) -> (Vec<u8>, i32) {
    match judged(input) {
        Ok(p) => (accepted(&p).into_bytes(), 0),
        Err(refusal) => (refusal.into_bytes(), 65),
    }
}
