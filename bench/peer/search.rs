//! The search for cheaper orders, steps 1 to 7 of its rule, by the sum of arrivals.

use crate::lists::{Full, Node, WaitingList};
use crate::meetings::{First, Orders};
use crate::run::Run;
use crate::timetable::{Ring, Timetable};

/// Why no orders were found, with how many nodes were taken.
#[derive(Clone, Copy, Debug, PartialEq, Eq)]
pub enum Refused {
    TooManyOpen,
    Full { taken: u32 },
    Budget { taken: u32 },
}

/// The cheapest orders, their cost, and how many nodes were taken.
#[derive(Clone, Debug, PartialEq, Eq)]
pub struct Found {
    pub cost: u64,
    pub taken: u32,
    pub orders: Orders,
}

/// An open meeting: who goes first in force, that shuttle's following stop, and the second's stop.
struct Open {
    meeting: usize,
    first: First,
    leave: u16,
    enter: u16,
}

/// The open meetings of a run, and memory for what is asked of it.
struct Problem<'a> {
    run: &'a Run,
    opens: Vec<Open>,
    orders: Orders,
    timetable: Timetable,
}

fn has(word: u64, bit: usize) -> bool {
    word >> bit & 1 != 0
}

impl<'a> Problem<'a> {
    fn new(run: &'a Run) -> Problem<'a> {
        let opens = (0..run.plan.meetings.len())
            .filter(|&meeting| run.is_open(meeting))
            .map(|meeting| {
                let first = run.orders[meeting].unwrap_or(run.plan.meetings[meeting].first);
                let (leaves, waits) = run.plan.meetings[meeting].sides(first);
                Open {
                    meeting,
                    first,
                    leave: leaves.following,
                    enter: waits.stop,
                }
            });
        Problem {
            run,
            opens: opens.collect(),
            orders: run.orders,
            timetable: Timetable::new(),
        }
    }

    /// Makes the orders of a node, the undecided meetings left out.
    fn decide(&mut self, decided: u64, turned: u64) {
        for (bit, open) in self.opens.iter().enumerate() {
            self.orders[open.meeting] = if !has(decided, bit) {
                None
            } else if has(turned, bit) {
                Some(open.first.turned())
            } else {
                Some(open.first)
            };
        }
    }

    /// What arrivals cost with so much decided.
    fn cost(&mut self, decided: u64, turned: u64) -> Result<u64, Ring> {
        self.decide(decided, turned);
        self.run.entry_ticks(&self.orders, &mut self.timetable)?;
        let arrivals = self.timetable.arrivals(&self.run.plan);
        Ok(arrivals.iter().fold(0, |total: u64, &arrival| {
            total.saturating_add(u64::from(arrival))
        }))
    }

    /// The lowest undecided meeting at which the first in force does not leave before the second enters.
    fn lowest_violated(&self, decided: u64) -> Option<usize> {
        self.opens.iter().enumerate().position(|(bit, open)| {
            !has(decided, bit) && self.timetable.tick(open.leave) >= self.timetable.tick(open.enter)
        })
    }
}

/// The best so far.
struct Best {
    cost: u64,
    turned: u64,
}

fn visit(
    problem: &mut Problem,
    list: &mut impl WaitingList,
    node: Node,
    best: &mut Best,
) -> Result<(), Full> {
    if node.bound >= best.cost {
        return Ok(());
    }
    let Ok(cost) = problem.cost(node.decided, node.turned) else {
        return Ok(());
    };
    if cost >= best.cost {
        return Ok(());
    }
    let Some(bit) = problem.lowest_violated(node.decided) else {
        *best = Best {
            cost,
            turned: node.turned,
        };
        return Ok(());
    };
    let kept = Node {
        bound: cost,
        decided: node.decided | 1 << bit,
        turned: node.turned,
    };
    list.put(kept)?;
    list.put(Node {
        turned: node.turned | 1 << bit,
        ..kept
    })
}

fn go_through(
    problem: &mut Problem,
    list: &mut impl WaitingList,
    budget: u32,
) -> Result<(Best, u32), Refused> {
    let cost = problem
        .cost(u64::MAX, 0)
        .expect("the orders in force close no ring");
    let mut best = Best { cost, turned: 0 };
    list.put(Node::default())
        .map_err(|Full| Refused::Full { taken: 0 })?;
    let mut taken = 0;
    while !list.is_empty() {
        if taken == budget {
            return Err(Refused::Budget { taken });
        }
        let Some(node) = list.take() else { break };
        taken += 1;
        visit(problem, list, node, &mut best).map_err(|Full| Refused::Full { taken })?;
    }
    Ok((best, taken))
}

/// The lawful orders that cost least, unless the list or the budget is too small.
pub fn search(run: &Run, list: &mut impl WaitingList, budget: u32) -> Result<Found, Refused> {
    let mut problem = Problem::new(run);
    if problem.opens.len() > 64 {
        return Err(Refused::TooManyOpen);
    }
    list.clear();
    let gone = go_through(&mut problem, list, budget);
    list.clear();
    let (best, taken) = gone?;
    problem.decide(u64::MAX, best.turned);
    Ok(Found {
        cost: best.cost,
        taken,
        orders: problem.orders,
    })
}
