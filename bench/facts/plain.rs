//! The algorithm of crates/facts for one TAD and its entailment in plain Rust, for timing beside it: sets of 64 lanes
//! of 64 bits, and a view on the fact that the step came from. usage: plain PAIRS THOUSANDS

type Set = [u64; 64];
const ALL: Set = [u64::MAX; 64];

#[derive(Clone, Copy, PartialEq)]
enum Name {
    Accumulator,
    Cell(u16),
}

#[derive(Clone, Copy, PartialEq)]
struct Equation {
    left: Name,
    right: u16,
    more: u16,
}

struct Fact {
    ac: Set,
    mq: Set,
    cells: Vec<(u16, Set)>,
    equations: Vec<Equation>,
}

/// What is known after a step.
struct Known<'a> {
    base: &'a Fact,
    ac: Set,
    mq: Set,
    equations: [Equation; 64],
    count: usize,
}

const NONE: Equation = Equation { left: Name::Accumulator, right: 0, more: 0 };

fn range(low: u16, high: u16) -> Set {
    let mut set = [0; 64];
    for word in low..=high {
        set[usize::from(word >> 6)] |= 1 << (word & 63);
    }
    set
}

fn meet(a: &Set, b: &Set) -> Set {
    std::array::from_fn(|lane| a[lane] & b[lane])
}

fn is_within(a: &Set, b: &Set) -> bool {
    (0..64).fold(0, |rest, lane| rest | a[lane] & !b[lane]) == 0
}

fn is_empty(a: &Set) -> bool {
    a.iter().all(|lane| *lane == 0)
}

fn shift(a: &Set, by: u16) -> Set {
    let (lanes, bits) = (usize::from(by >> 6), u32::from(by & 63));
    std::array::from_fn(|lane| {
        let high = a[(lane + 64 - lanes) & 63];
        let low = a[(lane + 63 - lanes) & 63];
        if bits == 0 { high } else { high << bits | low >> (64 - bits) }
    })
}

fn only(a: &Set) -> Option<u16> {
    let count: u32 = a.iter().map(|lane| lane.count_ones()).sum();
    let lane = a.iter().position(|lane| *lane != 0)?;
    (count == 1).then(|| (lane * 64) as u16 + a[lane].trailing_zeros() as u16)
}

/// The sums, for few words of the one.
fn sums(a: &Set, b: &Set) -> Set {
    let (few, many) = if only(a).is_some() { (a, b) } else { (b, a) };
    let mut found = [0; 64];
    for (lane, bits) in few.iter().enumerate() {
        let mut left = *bits;
        while left != 0 {
            let moved = shift(many, (lane * 64) as u16 + left.trailing_zeros() as u16);
            found = std::array::from_fn(|lane| found[lane] | moved[lane]);
            left &= left - 1;
        }
    }
    found
}

impl Known<'_> {
    fn of(fact: &Fact) -> Known<'_> {
        let mut known = Known { base: fact, ac: fact.ac, mq: fact.mq, equations: [NONE; 64], count: 0 };
        for equation in &fact.equations {
            known.equations[known.count] = *equation;
            known.count += 1;
        }
        known
    }

    fn set(&self, name: Name) -> &Set {
        match name {
            Name::Accumulator => &self.ac,
            Name::Cell(cell) => self.base.cells.iter().find(|entry| entry.0 == cell).map_or(&ALL, |entry| &entry.1),
        }
    }

    fn narrowed(&self, name: Name) -> Set {
        let mut set = *self.set(name);
        for e in &self.equations[..self.count] {
            if e.left == name {
                set = meet(&shift(self.set(Name::Cell(e.right)), e.more), &set);
            }
            if Name::Cell(e.right) == name {
                set = meet(&shift(self.set(e.left), 4096u16.wrapping_sub(e.more) & 4095), &set);
            }
        }
        set
    }

    /// TAD of one variable.
    fn add(&self, cell: u16) -> Option<Known<'_>> {
        let ac = self.narrowed(Name::Accumulator);
        let seen = self.narrowed(Name::Cell(cell));
        let mut after = Known { base: self.base, ac: sums(&ac, &seen), mq: self.mq, equations: [NONE; 64], count: 0 };
        if let Some(more) = only(&ac) {
            after.equations[0] = Equation { left: Name::Accumulator, right: cell, more };
            after.count = 1;
        }
        for e in &self.equations[..self.count] {
            if e.left != Name::Accumulator {
                after.equations[after.count] = *e;
                after.count += 1;
            }
        }
        (!is_empty(&ac) && !is_empty(&after.ac) && !is_empty(&after.mq)).then_some(after)
    }

    fn knows(&self, e: &Equation) -> bool {
        self.equations[..self.count].contains(e)
            || match (only(&self.narrowed(e.left)), only(&self.narrowed(Name::Cell(e.right)))) {
                (Some(x), Some(y)) => x == (y + e.more) & 4095,
                _ => false,
            }
    }

    fn entails(&self, fact: &Fact) -> bool {
        is_within(&self.mq, &fact.mq)
            && is_within(&self.narrowed(Name::Accumulator), &fact.ac)
            && fact.cells.iter().all(|(cell, set)| is_within(&self.narrowed(Name::Cell(*cell)), set))
            && fact.equations.iter().all(|e| self.knows(e))
    }
}

fn before(pairs: u16) -> Fact {
    let mut fact = Fact { ac: range(0, 0), mq: ALL, cells: Vec::new(), equations: Vec::new() };
    for pair in 0..pairs {
        let (left, right) = (0o10 + 2 * pair, 0o11 + 2 * pair);
        fact.cells.push((left, range(0o225, 0o231)));
        fact.cells.push((right, range(0o7773, 0o7777)));
        fact.equations.push(Equation { left: Name::Cell(left), right, more: 0o232 });
    }
    fact
}

#[inline(never)]
fn hit(fact: &Fact, cell: u16, next: &Fact) -> bool {
    Known::of(fact).add(cell).is_some_and(|known| known.entails(next))
}

fn main() {
    let numbers: Vec<u32> = std::env::args().skip(1).map(|word| word.parse().unwrap()).collect();
    let fact = before(numbers[0] as u16);
    let mut next = before(numbers[0] as u16);
    next.ac = range(0o225, 0o231);
    if next.equations.len() < 32 {
        next.equations.push(Equation { left: Name::Accumulator, right: 0o10, more: 0 });
    }
    let rounds = numbers[1] * 1000;
    let hits = (0..rounds).filter(|_| hit(std::hint::black_box(&fact), 0o10, std::hint::black_box(&next))).count();
    println!("plain pairs {} outcomes {rounds} entailed {hits}", numbers[0]);
}
