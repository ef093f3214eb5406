//! The self test's part on the seats after an error: the order lines, the campaign's lines worked by hand, what is refused while jacks are seated, which states
//! are fit, and going on after a power cut.

use crate::rules::at_mark;
use crate::{pattern, refused, Compared, PLAN};
use reference::campaign::{State, ERRORS, PANEL, SEAT, STANDING};
use reference::list::{at, count_of};
use reference::panel::{carry, obey};
use reference::plan::read_plan;
use reference::text::{read_line, write_line, Line};
use reference::told;

/// The lines `seat=j`, read, written and carried out: jacks 1 to 20 in a line, 1 to n on the panel.
pub fn lines(compared: &mut Compared) {
    for (text, j) in [(&b"seat=1\n"[..], 1), (b"seat=9\n", 9), (b"seat=10\n", 10), (b"seat=20\n", 20)] {
        compared.same("a seat read", read_line(text, 0), Ok((Line::Seat(j), text.len())));
        compared.same("a seat as text", &Line::Seat(j).text()[..], text);
    }
    let refusals: [(&[u8], u8); 18] = [
        (b"seat=0\n", 17),
        (b"seat=21\n", 17),
        (b"seat=257\n", 17),
        (b"seat=4294967297\n", 17),
        (b"seat=18446744073709551615\n", 17),
        (b"seat=18446744073709551616\n", 8),
        (b"seat=\n", 8),
        (b"seat=01\n", 8),
        (b"seat=-1\n", 8),
        (b"seat=1 \n", 8),
        (b"seat=1\r\n", 8),
        (b"seat=1,2\n", 8),
        (b"seat=1,\n", 8),
        (b"seat\n", 7),
        (b"seat1\n", 7),
        (b"Seat=1\n", 7),
        (b"eat=1\n", 7),
        (b"seat=1", 11),
    ];
    for (text, number) in refusals {
        compared.same("a refused seat", read_line(text, 0), refused(number, 0));
    }
    for j in [0, 21, 256, u64::MAX] {
        compared.same("no jack to write: 17 before 2", write_line(Some(Line::Seat(j)), &mut []), refused(17, 0));
    }
    for row in ["2341", "1234", "2143"] {
        for (j, wanted) in [(0, refused(17, 0)), (1, Ok(())), (4, Ok(())), (5, refused(17, 0)), (20, refused(17, 0)), (256, refused(17, 0))] {
            let mut panel = pattern(row);
            compared.same("a seat on a panel of 4", (carry(&mut panel, Some(Line::Seat(j))), panel), (wanted, pattern(row)));
        }
    }
    let (mut answer, mut buffer) = ([7; 5], [b'.'; 9]);
    compared.same("a seat in words", (told::read_line(b"seat=20\n", 0, &mut answer), answer), (0, [6, 20, 0, 0, 8]));
    compared.same("words of no use to it", (told::write_line(&[6, 7, 8, 9], &mut buffer, &mut answer), answer[0], &buffer), (0, 7, b"seat=7\n.."));
    compared.same("two swaps are no line", told::write_line(&[5, 1, 2, 3], &mut buffer, &mut answer), 17);
    compared.same("no kind beyond it", told::write_line(&[7, 1, 2, 3], &mut buffer, &mut answer), 17);
}

fn first(text: &[u8]) -> State {
    State::first(read_plan(text).expect("a plan"))
}

/// Every line of a campaign up to its end, each mark taking the next of the reports: 0 ran, 1 error, 2 gave up.
fn campaign(text: &[u8], reports: &[u8]) -> String {
    let (mut state, mut lines, mut reports) = (first(text), vec![], reports.iter());
    loop {
        let (line, after) = state.request(45).expect("a line");
        lines.extend(line.text());
        state = match line {
            Line::Mark(..) => after.report(*reports.next().expect("a report for each mark")).expect("a mark stands"),
            Line::End(_) => {
                assert_eq!(reports.next(), None, "each report was made");
                return String::from_utf8(lines).expect("plain letters");
            }
            _ => after,
        };
    }
}

const FOUR_SEATS: &str = "seat=1\nseat=2\nseat=3\nseat=4\n";

/// 'For each jack from 1 to n, one per request, and then the mark again.'
pub fn after_errors(compared: &mut Compared) {
    let worked: [(&[u8], &[u8], String); 7] = [
        // the paper's plan: an error at its first mark
        (
            PLAN,
            &[1, 0, 0, 0, 0, 0],
            format!("mark=0,0\n{FOUR_SEATS}mark=0,0\nturn=1,2,3\nmark=1,1\nswap=1,2\nmark=2,2\nswap=1,3\nswap=2,4\nmark=3,8\nswap=1,3\nmark=4,7\nend=5\n"),
        ),
        // at the first mark of its second leg, twice in a row, which is then given up
        (
            PLAN,
            &[0, 0, 0, 1, 1, 2, 0],
            format!(
                "mark=0,0\nturn=1,2,3\nmark=1,1\nswap=1,2\nmark=2,2\nswap=1,3\nswap=2,4\nmark=3,8\n{FOUR_SEATS}mark=3,8\n{FOUR_SEATS}mark=3,8\nswap=1,3\n\
                 mark=4,7\nend=5\n"
            ),
        ),
        // inside a leg, and at the plan's last mark
        (
            PLAN,
            &[0, 1, 0, 0, 0, 1, 0],
            format!(
                "mark=0,0\nturn=1,2,3\nmark=1,1\n{FOUR_SEATS}mark=1,1\nswap=1,2\nmark=2,2\nswap=1,3\nswap=2,4\nmark=3,8\nswap=1,3\nmark=4,7\n{FOUR_SEATS}\
                 mark=4,7\nend=5\n"
            ),
        ),
        // 2 ports, where the circuit has one pattern: the marks differ in their numbers
        (
            b"ports=2\nlegs=2\nstart=0\nrun=0\nstart=0\nrun=0\n",
            &[1, 2, 1, 1, 0],
            "mark=0,0\nseat=1\nseat=2\nmark=0,0\nmark=1,0\nseat=1\nseat=2\nmark=1,0\nseat=1\nseat=2\nmark=1,0\nend=2\n".into(),
        ),
        // a mark given up, or run, is followed by no seat
        (b"ports=2\nlegs=2\nstart=0\nrun=0\nstart=0\nrun=0\n", &[2, 0], "mark=0,0\nmark=1,0\nend=2\n".into()),
        // 3 ports, backward from rank 0, 231, past the list's first pattern to its last, 312: a turn
        (
            b"ports=3\nlegs=1\nstart=0\nrun=-1\n",
            &[0, 1, 0],
            "mark=0,0\nturn=1,2,3\nmark=1,1\nseat=1\nseat=2\nseat=3\nmark=1,1\nend=2\n".into(),
        ),
        // 10 ports: the last seat has one byte more
        (
            b"ports=10\nlegs=1\nstart=0\nrun=0\n",
            &[1, 0],
            "mark=0,0\nseat=1\nseat=2\nseat=3\nseat=4\nseat=5\nseat=6\nseat=7\nseat=8\nseat=9\nseat=10\nmark=0,0\nend=1\n".into(),
        ),
    ];
    for (text, reports, wanted) in worked {
        compared.same("the lines of a campaign with errors", campaign(text, reports), wanted);
    }
    // the words of the state: a seat changes that of the next jack, and nothing else
    let mark = at_mark(&first(PLAN));
    let mut words = mark.to_words();
    let mut state = mark.report(1).expect("a report");
    (words[ERRORS], words[STANDING], words[SEAT]) = (1, 0, 1);
    compared.same("after an error", state.to_words(), words);
    for (j, next) in [(1, 2), (2, 3), (3, 4), (4, 0)] {
        let (line, after) = state.request(45).expect("a seat");
        words[SEAT] = next;
        compared.same("after a seat", (line, after.to_words()), (Line::Seat(j), words));
        state = after;
    }
    words[STANDING] = 1;
    compared.same("the mark again", state.request(45).map(|(line, after)| (line, after.to_words())), Ok((Line::Mark(0, 0), words)));
}

/// While jacks are seated: 15, 14, 12 and 2, and at the limit of errors 16, which leaves no seating.
pub fn refusals(compared: &mut Compared) {
    let mut state = at_mark(&first(PLAN)).report(1).expect("a report");
    for j in 1..=5 {
        for (kind, number) in [(0, 12), (1, 12), (2, 12), (3, 14), (255, 14)] {
            compared.same("a report while seating", state.report(kind), refused(number, 0));
            compared.same("by number", state.report_mark(0, kind), refused(number, 0));
        }
        if j <= 4 {
            for room in [0, 6] {
                compared.same("no room for the seat", state.request(room), refused(2, 0));
            }
            state = state.request(7).expect("just room").1;
        }
    }
    let mut unfit = state.to_words();
    unfit[SEAT] = 5;
    compared.same("15 before 14", told::report(&mut unfit, 3, &mut [0; 5]), 15);
    // a request that is refused leaves the words and the buffer
    let tenth = State { seat: 10, ..first(b"ports=10\nlegs=1\nstart=0\nrun=0\n") };
    let (mut words, mut buffer, mut answer) = (tenth.to_words(), [b'.'; 9], [7; 5]);
    compared.same("a byte short", (told::request(&mut words, &mut buffer[..7], &mut answer), answer, words), (2, [0; 5], tenth.to_words()));
    compared.same("nothing is written", buffer, [b'.'; 9]);
    compared.same("just room", (told::request(&mut words, &mut buffer[..8], &mut answer), answer, words[SEAT]), (0, [6, 10, 0, 0, 8], 0));
    compared.same("the line", &buffer, b"seat=10\n.");
    // the last error that is counted is followed by seats, the one after it is refused and leaves the mark standing
    let mark = at_mark(&first(PLAN));
    let last = State { errors: 65_534, ..mark.clone() }.report(1).expect("the last error");
    compared.same("the last error", (last.errors, last.standing, last.seat), (65_535, false, 1));
    let again = at_mark(&last);
    compared.same("the same mark", (again.errors, again.standing, again.seat, again.step), (65_535, true, 0, 0));
    compared.same("one error more", again.report(1), refused(16, 0));
    compared.same("a request then", again.request(45), refused(13, 0));
    compared.same("closed then", again.report(0).map(|after| (after.covered, after.seat, after.step)), Ok((1, 0, 1)));
}

/// Which states with a jack to seat are fit, each with what stands against it; errors may be 0.
pub fn fitness(compared: &mut Compared) {
    let mut fit = |what: &str, state: State, wanted: bool| {
        let read = State::from_words(&state.to_words());
        compared.same(what, read, if wanted { Ok(state) } else { refused(15, 0) });
    };
    let home = first(PLAN);
    for (seat, wanted) in [(0, true), (1, true), (2, true), (3, true), (4, true), (5, false), (20, false), (255, false), (256, false), (u64::MAX, false)] {
        fit("a seat number at the first mark, no error counted", State { seat, ..home.clone() }, wanted);
        fit("and while it stands", State { seat, standing: true, ..home.clone() }, seat == 0);
    }
    // the second leg's first mark: any permutation, but while seating its pattern 2143 alone
    let second = State { leg: 1, covered: 2, open: 1, ..home.clone() };
    for row in ["2143", "1234", "4321", "2134"] {
        for seat in 0..=4 {
            fit("before a leg's first mark", State { panel: pattern(row), seat, ..second.clone() }, seat == 0 || row == "2143");
        }
    }
    // inside the first leg: on the way from 2341 to 3421, but while seating 3421 alone
    let inside = State { step: 1, covered: 1, ..home.clone() };
    for (row, on_the_way) in [("2341", true), ("3421", true), ("3241", false)] {
        for seat in 0..=4 {
            fit("inside a leg", State { panel: pattern(row), seat, ..inside.clone() }, on_the_way && (seat == 0 || row == "3421"));
        }
    }
    // at the end, where the panel has the last mark's pattern 4123
    let last = State { leg: 1, step: 1, covered: 4, panel: pattern("4123"), ..home };
    for seat in 0..=4 {
        fit("at the last mark", State { seat, ..last.clone() }, true);
        fit("after the end", State { seat, covered: 5, ended: true, ..last.clone() }, seat == 0);
    }
}

/// Going on while jacks are seated: the seats start anew. The panel is the mark's pattern, or going on is refused; so is a seat above the ports.
pub fn resumed(compared: &mut Compared) {
    let mark = at_mark(&first(PLAN));
    let error = mark.report(1).expect("a report");
    for seat in 1..=4 {
        let state = State { seat, ..error.clone() };
        compared.same("while seating", state.resume(&pattern("2341")), Ok(error.clone()));
        for row in ["1234", "3421", "3241", "2143"] {
            compared.same("with another panel", state.resume(&pattern(row)), refused(15, 0));
        }
    }
    compared.same("a seat above the ports", State { seat: 5, ..error.clone() }.resume(&pattern("2341")), refused(15, 0));
    compared.same("a seat and a standing mark", State { seat: 1, ..mark.clone() }.resume(&pattern("2341")), refused(15, 0));
    compared.same("no seat, and none after it", mark.resume(&pattern("2341")), Ok(mark.clone()));
    let seated = State { seat: 0, ..error.clone() };
    let other = State { panel: pattern("1234"), ..seated.clone() };
    compared.same("all seated, and the mark not yet handed out", seated.resume(&pattern("1234")), Ok(other));
    // by words: the saved panel is not looked at; refused, nothing is changed
    let mut words = State { seat: 3, ..error.clone() }.to_words();
    words[PANEL] = 0;
    let mut refused = words;
    compared.same("a panel that is not the mark's", (told::resume(&mut refused, &[2, 3, 1, 4], &mut [0; 5]), refused), (15, words));
    compared.same("its own panel", (told::resume(&mut words, &[2, 3, 4, 1], &mut [0; 5]), words), (0, error.to_words()));
    words[SEAT] = 5;
    let mut refused = words;
    compared.same("a seat above the ports, by words", (told::resume(&mut refused, &[2, 3, 4, 1], &mut [0; 5]), refused), (15, words));
    compared.same("one panel's refusals before it", told::resume(&mut refused, &[2, 2, 4, 1], &mut [0; 5]), 4);
}

/// Full circuits of 2 to 5 ports, forward and backward, with none, one or two errors at each mark by turns. A bench reads each line and obeys it: demand three
/// reads on, and what follows an error is one seat of each jack, in turn, and the same mark, with no cord moved.
pub fn circuits_with_errors(compared: &mut Compared) {
    for n in 2..=5 {
        for direction in [1, -1] {
            let count = count_of(n) as i128;
            let run = direction * (count - 1);
            let mut state = first(format!("ports={n}\nlegs=1\nstart={}\nrun={run}\n", count / 2).as_bytes());
            let (mut bench, mut met, mut made, mut counted) = (state.panel.clone(), 0, 0, 0);
            while !state.ended {
                let (given, after) = state.request(45).expect("a line");
                let (line, _) = read_line(&given.text(), 0).expect("the line is read back");
                obey(&mut bench, line);
                state = after;
                let Line::Mark(number, rank) = line else { continue };
                compared.same("a mark's number", i128::from(number), met);
                compared.same("the bench at a mark", &bench, &at(n, rank.into()));
                if made == met % 3 {
                    state = state.report(if met % 2 == 0 { 0 } else { 2 }).expect("a report");
                    (met, made) = (met + 1, 0);
                    continue;
                }
                state = state.report(1).expect("an error");
                (made, counted) = (made + 1, counted + 1);
                for j in 1..=n as u64 {
                    let (seat, after) = state.request(45).expect("a seat");
                    compared.same("a seat of each jack", (seat, &after.panel), (Line::Seat(j), &bench));
                    state = after;
                }
                compared.same("the same mark", state.request(45).map(|given| given.0), Ok(line));
            }
            compared.same("a circuit with errors", (state.covered, state.open, state.errors), (((count + 1) / 2) as u128, (count / 2) as u128, counted));
            compared.same("each mark once", met, count);
        }
    }
}
