//! The list as document 000 generates it: the procedures gen_up and gen_down of its figure 2 and appendix, which call each other and change one
//! pattern in place. Each relation acts on the active jacks, so n reads as the tail, 1 as the head and i as the run; the others are reached from these.
//! Row i = n-2 of relation (8) is the paper's: the turn n-4, n-2, n-1.

/// The way in which a call's list comes from the calling one.
#[derive(Clone, Copy, PartialEq, Eq)]
enum Letter {
    Phi,
    Psi,
}

struct Generator<Visit: FnMut(&[u8])> {
    /// The current pattern; entry 0 is not used, so that jacks count from 1.
    d: Vec<u8>,
    head: usize,
    tail: usize,
    succ: Vec<usize>,
    pred: Vec<usize>,
    visit: Visit,
}

/// Every pattern of the list for n of 2 or more, in order, handed to `visit`.
pub fn each_pattern<Visit: FnMut(&[u8])>(n: usize, visit: Visit) {
    let mut d = vec![0];
    d.extend(2..=n as u8);
    d.push(1); // first(D_n) = (2, 3, .., n, 1)
    let succ = (1..=n + 2).collect();
    let pred = (0..=n + 1).map(|j: usize| j.saturating_sub(1)).collect();
    let mut all = Generator { d, head: 1, tail: n + 1, succ, pred, visit };
    (all.visit)(&all.d[1..]);
    if n >= 3 {
        all.gen_up(n, Letter::Phi, 0);
    }
}

impl<Visit: FnMut(&[u8])> Generator<Visit> {
    fn gen_up(&mut self, n: usize, t: Letter, r: usize) {
        self.tail = self.pred[self.tail];
        if t == Letter::Psi {
            self.remove(r);
        }
        if n == 3 {
            self.turn(self.head, self.succ[self.head], self.tail);
        } else {
            let mut run = self.head;
            for i in 1..n {
                if i % 2 == 1 {
                    self.gen_up(n - 1, Letter::Phi, run);
                    self.relation_7_or_8(n, i, run);
                    if n > 4 {
                        self.gen_down(n - 2, Letter::Psi, run);
                    }
                    if i != n - 1 {
                        self.relation_3(i, run);
                        run = self.succ[run];
                    }
                } else {
                    if n > 4 {
                        self.gen_up(n - 2, Letter::Psi, run);
                    }
                    self.relation_9(n, i, run);
                    self.gen_down(n - 1, Letter::Phi, run);
                    if i != n - 1 {
                        self.relation_5(i, run);
                        run = self.succ[run];
                    }
                }
            }
        }
        if t == Letter::Psi {
            self.append(r);
        }
        self.tail = self.succ[self.tail];
    }

    fn gen_down(&mut self, n: usize, t: Letter, r: usize) {
        self.tail = self.pred[self.tail];
        if t == Letter::Psi {
            self.remove(r);
        }
        if n == 3 {
            self.turn(self.head, self.tail, self.succ[self.head]);
        } else {
            let mut run = self.pred[self.tail];
            for i in (1..n).rev() {
                if i % 2 == 1 {
                    if n > 4 {
                        self.gen_up(n - 2, Letter::Psi, run);
                    }
                    self.relation_9(n, i, run);
                    self.gen_down(n - 1, Letter::Phi, run);
                    if i != 1 {
                        self.relation_6(i, run);
                        run = self.pred[run];
                    }
                } else {
                    self.gen_up(n - 1, Letter::Phi, run);
                    self.relation_7_or_8(n, i, run);
                    if n > 4 {
                        self.gen_down(n - 2, Letter::Psi, run);
                    }
                    self.relation_4(i, run);
                    run = self.pred[run];
                }
            }
        }
        if t == Letter::Psi {
            self.append(r);
        }
        self.tail = self.succ[self.tail];
    }

    fn remove(&mut self, r: usize) {
        if r == self.head {
            self.head = self.succ[r];
        } else if r == self.tail {
            self.tail = self.pred[self.tail];
        } else {
            self.succ[self.pred[r]] = self.succ[r];
            self.pred[self.succ[r]] = self.pred[r];
        }
    }

    fn append(&mut self, r: usize) {
        if r < self.head {
            self.head = self.pred[self.head];
        } else if r > self.tail {
            self.tail = self.succ[self.tail];
        } else {
            self.succ[self.pred[r]] = r;
            self.pred[self.succ[r]] = r;
        }
    }

    /// The active jack k before the tail: position n-k of a relation.
    fn before_tail(&self, k: usize) -> usize {
        (0..k).fold(self.tail, |jack, _| self.pred[jack])
    }

    /// d := d · ⟨a, b, c⟩: jack a gets what b held, b what c held, c what a held. The new pattern is visited.
    fn turn(&mut self, a: usize, b: usize, c: usize) {
        (self.d[a], self.d[b], self.d[c]) = (self.d[b], self.d[c], self.d[a]);
        (self.visit)(&self.d[1..]);
    }

    /// d := d · ⟨a, b⟩
    fn swap(&mut self, a: usize, b: usize) {
        self.d.swap(a, b);
        (self.visit)(&self.d[1..]);
    }

    /// d := d · ⟨a, b⟩ · ⟨c, e⟩
    fn swaps(&mut self, a: usize, b: usize, c: usize, e: usize) {
        self.d.swap(a, b);
        self.d.swap(c, e);
        (self.visit)(&self.d[1..]);
    }

    fn relation_3(&mut self, i: usize, run: usize) {
        if i == 1 {
            self.swaps(self.head, self.succ[self.head], self.before_tail(1), self.tail);
        } else {
            self.swaps(self.pred[run], self.tail, run, self.succ[run]);
        }
    }

    fn relation_4(&mut self, i: usize, run: usize) {
        if i == 2 {
            self.swaps(self.head, self.succ[self.head], self.before_tail(1), self.tail);
        } else {
            self.swaps(self.pred[self.pred[run]], self.tail, self.pred[run], run);
        }
    }

    /// As document 000 writes it out. The procedures come to relation (5) for even i and to (6) for odd i alone, so not to the first row of either.
    fn relation_5(&mut self, i: usize, run: usize) {
        if i == 1 {
            self.turn(self.head, self.before_tail(1), self.tail);
        } else {
            self.turn(self.tail, run, self.pred[run]);
        }
    }

    fn relation_6(&mut self, i: usize, run: usize) {
        if i == 2 {
            self.turn(self.tail, self.before_tail(1), self.head);
        } else {
            self.turn(self.pred[self.pred[run]], self.pred[run], self.tail);
        }
    }

    fn relation_7_or_8(&mut self, n: usize, i: usize, run: usize) {
        self.between_a_and_b(n, i, run, false);
    }

    fn relation_9(&mut self, n: usize, i: usize, run: usize) {
        self.between_a_and_b(n, i, run, true);
    }

    /// Relations (7) and (8); backwards, relation (9): the inverse of each. A turn's inverse names its jacks in the other order.
    fn between_a_and_b(&mut self, n: usize, i: usize, run: usize, backwards: bool) {
        // positions n-1 to n-4; for n = 4 the last is no position, and no row names it
        let [m1, m2, m3, m4] = [1, 2, 3, 4].map(|k| self.before_tail(k));
        let even = n % 2 == 0;
        let (a, b, c) = match (n, i) {
            (4, 3) => return self.swap(self.head, m1),
            (4, _) => return self.swap(run, self.succ[run]),
            (_, 1) if even => (m2, m3, self.head),
            (_, 1) => (self.head, m3, m2),
            _ if i + 4 <= n => return self.swaps(self.pred[run], run, m3, m2),
            _ if i + 3 == n => (m2, m3, m4),
            _ if i + 2 == n => (m4, m2, m1),
            _ if even => return self.swaps(m4, m2, m3, m1),
            _ => (m1, m2, m4),
        };
        if backwards {
            self.turn(c, b, a);
        } else {
            self.turn(a, b, c);
        }
    }
}
