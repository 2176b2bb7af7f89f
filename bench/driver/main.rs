//! Measures the crates beside the peer, in one process and alternately, and prints how long both take.
//!
//! Usage: driver FOLDER ROUNDS [WORD..], with the plans' folder, how many measurements the least is taken of, and words of the rows that are wanted.

mod crates;
mod of_peer;

/// How long something took, how many of the measured units that was, and what came of it.
#[repr(C)]
#[derive(Clone, Copy)]
struct Measured {
    nanos: u64,
    units: u64,
    sum: u64,
}

impl Measured {
    fn per_unit(&self) -> f64 {
        self.nanos as f64 / self.units.max(1) as f64
    }
}

/// A plan that is measured.
struct Subject {
    name: String,
    plan: Vec<u8>,
    holds: Vec<u16>,
}

impl Subject {
    fn read(folder: &str, name: &str) -> Subject {
        let bytes = |ending| {
            std::fs::read(format!("{folder}/{name}.{ending}")).expect("a plan that plans.py wrote")
        };
        let holds = bytes("holds")
            .chunks(2)
            .map(|pair| u16::from_be_bytes([pair[0], pair[1]]))
            .collect();
        Subject {
            name: name.to_string(),
            plan: bytes("plan"),
            holds,
        }
    }
}

#[derive(Clone, Copy, Debug)]
enum List {
    Heap,
    Stack,
    Dive,
}

/// Something that both are measured at, so many times; the crates by one of their copies.
struct Row<'a> {
    name: String,
    most: u32,
    crates: Box<dyn Fn(usize, u32) -> Measured + 'a>,
    peer: Box<dyn Fn(u32) -> Measured + 'a>,
}

fn entry_ticks(subject: &Subject, leave_out: bool) -> Row<'_> {
    let kind = if leave_out {
        "one left out"
    } else {
        "in force"
    };
    Row {
        name: format!("entry ticks, {kind}: {}", subject.name),
        most: 1_000_000,
        crates: Box::new(move |copy, times| unsafe {
            let (plan, holds) = (&subject.plan, &subject.holds);
            crates::ENTRY_TICKS[copy](
                plan.as_ptr(),
                plan.len(),
                holds.as_ptr(),
                holds.len(),
                leave_out,
                times,
            )
        }),
        peer: Box::new(move |times| of_peer::entry_ticks(subject, leave_out, times)),
    }
}

fn ticks(subject: &Subject) -> Row<'_> {
    // as many runs as take some microseconds
    let count = if subject.plan.len() < 1000 { 64 } else { 1 };
    Row {
        name: format!("tick: {}", subject.name),
        most: 8,
        crates: Box::new(move |copy, times| unsafe {
            let (plan, holds) = (&subject.plan, &subject.holds);
            crates::TICKS[copy](
                plan.as_ptr(),
                plan.len(),
                holds.as_ptr(),
                holds.len(),
                count,
                times,
            )
        }),
        peer: Box::new(move |times| of_peer::ticks(subject, count, times)),
    }
}

fn opening(subject: &Subject, in_pair_loops: bool) -> Row<'_> {
    let kind = if in_pair_loops {
        "opening, pair loops"
    } else {
        "opening"
    };
    Row {
        name: format!("{kind}: {}", subject.name),
        most: 1_000_000,
        crates: Box::new(move |copy, times| unsafe {
            crates::OPENING[copy](subject.plan.as_ptr(), subject.plan.len(), times)
        }),
        peer: Box::new(move |times| of_peer::opening(subject, in_pair_loops, times)),
    }
}

/// The memory that a list is lent, in nodes.
const ROOM: usize = 16_384;

fn searching(subject: &Subject, kind: List, budget: u32) -> Row<'_> {
    Row {
        name: format!("node, {kind:?}, {budget} at most: {}", subject.name).to_lowercase(),
        most: 1_000,
        crates: Box::new(move |copy, times| {
            let (plan, holds) = (&subject.plan, &subject.holds);
            let search = crates::SEARCH.expect("a row of crates that search")[copy];
            unsafe {
                search(
                    plan.as_ptr(),
                    plan.len(),
                    holds.as_ptr(),
                    holds.len(),
                    kind as u32,
                    ROOM,
                    budget,
                    times,
                )
            }
        }),
        peer: Box::new(move |times| of_peer::search_with(subject, kind, ROOM, budget, times)),
    }
}

/// How long one measurement of the slower is to take, about: so short that many are made with nothing else in between.
const NANOS: f64 = 1_000_000.0;

/// The measurements of a row so far: per unit, of the crates' two copies and of the peer.
struct Measurements<'a> {
    row: Row<'a>,
    times: u32,
    rounds: Vec<[f64; 3]>,
}

impl<'a> Measurements<'a> {
    fn new(row: Row<'a>) -> Measurements<'a> {
        let once = (0..3).map(|_| (row.crates)(0, 2).nanos).min().unwrap_or(0);
        let times = (2.0 * NANOS / once as f64).clamp(2.0, f64::from(row.most)) as u32;
        Measurements {
            row,
            times,
            rounds: Vec::new(),
        }
    }

    /// Measures both once more.
    fn add(&mut self) {
        let Row {
            name, crates, peer, ..
        } = &self.row;
        let [one, other, expected] = [
            crates(0, self.times),
            crates(1, self.times),
            peer(self.times),
        ];
        for found in [one, other] {
            assert_eq!(
                (found.sum, found.units),
                (expected.sum, expected.units),
                "{name}: the crates and the peer differ"
            );
        }
        self.rounds
            .push([one, other, expected].map(|measured| measured.per_unit()));
    }

    /// The least of both and their ratio, for the better of the two copies; the middle ratio of a round; and the ratio of the other copy.
    fn report(&self) -> String {
        let least = |of: usize| {
            self.rounds
                .iter()
                .map(|round| round[of])
                .fold(f64::INFINITY, f64::min)
        };
        let (copy, other) = if least(0) <= least(1) { (0, 1) } else { (1, 0) };
        let (crates, peer) = (least(copy), least(2));
        let mut ratios: Vec<f64> = self
            .rounds
            .iter()
            .map(|round| round[copy] / round[2])
            .collect();
        ratios.sort_by(f64::total_cmp);
        let middle = ratios[ratios.len() / 2];
        format!(
            "{:38} {crates:11.1} {peer:11.1} {:7.2} {middle:7.2} {:7.2}",
            self.row.name,
            crates / peer,
            least(other) / peer
        )
    }
}

fn main() {
    let mut arguments = std::env::args().skip(1);
    let folder = arguments.next().expect("the folder of the plans");
    let rounds: u32 = arguments
        .next()
        .and_then(|word| word.parse().ok())
        .expect("the number of rounds");
    let words: Vec<String> = arguments.collect();
    let subjects =
        ["small", "large", "open64", "chain", "walls"].map(|name| Subject::read(&folder, name));
    let searched = ["search40", "search64"].map(|name| Subject::read(&folder, name));
    let mut rows: Vec<Row> = Vec::new();
    rows.extend(subjects.iter().map(|subject| entry_ticks(subject, false)));
    rows.extend(subjects.iter().map(|subject| entry_ticks(subject, true)));
    rows.extend(subjects.iter().map(ticks));
    rows.extend(subjects.iter().map(|subject| opening(subject, false)));
    rows.extend(subjects.iter().map(|subject| opening(subject, true)));
    if crates::SEARCH.is_some() {
        for (budget, kind) in [1_000, 100_000]
            .into_iter()
            .flat_map(|budget| [List::Heap, List::Stack, List::Dive].map(|kind| (budget, kind)))
        {
            rows.extend(
                searched
                    .iter()
                    .map(|subject| searching(subject, kind, budget)),
            );
        }
    }
    rows.retain(|row| words.iter().all(|word| row.name.contains(word.as_str())));
    let mut measured: Vec<Measurements> = rows.into_iter().map(Measurements::new).collect();
    // round after round over all rows, so that a slow spell of the machine falls on few rounds of each
    for _ in 0..rounds {
        measured.iter_mut().for_each(Measurements::add);
    }
    println!(
        "{:38} {:>11} {:>11} {:>7} {:>7} {:>7}",
        "", "crates, ns", "peer, ns", "ratio", "middle", "other"
    );
    for row in &measured {
        println!("{}", row.report());
    }
}
