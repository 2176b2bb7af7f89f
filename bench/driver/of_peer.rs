//! What the peer is measured at: the same steps as the exports of the static library.

use crate::{List, Measured, Subject};
use peer::lists::{Dive, Heap, Stack, WaitingList};
use peer::meetings::First;
use peer::run::Run;
use peer::search::{Refused, search};
use peer::timetable::Timetable;
use std::time::Instant;

#[repr(C)]
struct Timespec {
    seconds: i64,
    nanos: i64,
}

unsafe extern "C" {
    fn clock_gettime(clock: i32, time: &mut Timespec) -> i32;
}

/// The time that this thread has used, in nanoseconds: what others do meanwhile does not count. To ask for it takes long.
fn used() -> u64 {
    let mut time = Timespec {
        seconds: 0,
        nanos: 0,
    };
    unsafe { clock_gettime(CLOCK_THREAD_CPUTIME_ID, &mut time) };
    time.seconds as u64 * 1_000_000_000 + time.nanos as u64
}

const CLOCK_THREAD_CPUTIME_ID: i32 = 3;

fn mix(sum: u64, number: u64) -> u64 {
    sum.wrapping_mul(31).wrapping_add(number)
}

fn held(subject: &Subject) -> Run {
    let mut run = Run::open(&subject.plan).expect("a plan that opening takes");
    for (shuttle, hold) in subject.holds.iter().enumerate() {
        let _ = run.hold(shuttle, u32::from(*hold));
    }
    run
}

#[inline(never)]
pub fn entry_ticks(subject: &Subject, leave_out: bool, times: u32) -> Measured {
    let run = held(subject);
    let mut orders = run.orders;
    let meetings = run.plan.meetings.len();
    let mut timetable = Timetable::new();
    let start = used();
    let mut sum: u64 = 0;
    let mut meeting = 0;
    for _ in 0..times {
        let first = run.orders[meeting];
        orders[meeting] = if leave_out { None } else { first };
        sum = match run.entry_ticks(&orders, &mut timetable) {
            Ok(()) => timetable
                .arrivals(&run.plan)
                .iter()
                .fold(sum, |sum, &arrival| sum.wrapping_add(u64::from(arrival))),
            Err(_) => sum.wrapping_add(1),
        };
        orders[meeting] = first;
        meeting = if meeting + 1 < meetings {
            meeting + 1
        } else {
            0
        };
    }
    Measured {
        nanos: used() - start,
        units: u64::from(times),
        sum,
    }
}

#[inline(never)]
pub fn opening(subject: &Subject, in_pair_loops: bool, times: u32) -> Measured {
    let start = used();
    let mut sum = 0;
    for meeting in 0..times as usize {
        let run = if in_pair_loops {
            Run::open_in_pair_loops(&subject.plan)
        } else {
            Run::open(&subject.plan)
        };
        let run = run.expect("a plan that opening takes");
        let first = match run.orders.get(meeting) {
            Some(Some(First::Lower)) => 1,
            Some(Some(First::Other)) => 2,
            _ => 0,
        };
        sum = mix(sum, first);
    }
    Measured {
        nanos: used() - start,
        units: u64::from(times),
        sum,
    }
}

#[inline(never)]
pub fn ticks(subject: &Subject, count: u32, times: u32) -> Measured {
    let run = held(subject);
    let mut timetable = Timetable::new();
    run.entry_ticks(&run.orders, &mut timetable)
        .expect("the plan's orders close no ring");
    let last = timetable
        .arrivals(&run.plan)
        .iter()
        .fold(0, |last, &arrival| last.max(arrival));
    let mut measured = Measured {
        nanos: 0,
        units: 0,
        sum: 0,
    };
    for _ in 0..times {
        let mut runs: Vec<Run> = (0..count).map(|_| held(subject)).collect();
        let start = Instant::now();
        for run in &mut runs {
            for _ in 0..last {
                measured.sum = mix(measured.sum, run.tick(0).map_or(1, u64::from));
            }
        }
        measured.nanos += start.elapsed().as_nanos() as u64;
        measured.units += u64::from(count) * u64::from(last);
    }
    measured
}

fn search_by(run: &Run, list: &mut impl WaitingList, budget: u32, times: u32) -> Measured {
    let mut measured = Measured {
        nanos: 0,
        units: 0,
        sum: 0,
    };
    for _ in 0..times {
        let start = used();
        let found = search(run, list, budget);
        measured.nanos += used() - start;
        let (sum, taken) = match found {
            Ok(found) => {
                let orders = found.orders.iter().flatten();
                (
                    orders.fold(found.cost, |sum, first| {
                        mix(sum, if *first == First::Lower { 1 } else { 2 })
                    }),
                    found.taken,
                )
            }
            Err(Refused::TooManyOpen) => (10, 0),
            Err(Refused::Full { taken }) => (12, taken),
            Err(Refused::Budget { taken }) => (13, taken),
        };
        measured.units += u64::from(taken);
        measured.sum = mix(measured.sum, sum);
    }
    measured
}

#[inline(never)]
pub fn search_with(
    subject: &Subject,
    kind: List,
    room: usize,
    budget: u32,
    times: u32,
) -> Measured {
    let run = held(subject);
    match kind {
        List::Heap => search_by(&run, &mut Heap::new(room), budget, times),
        List::Stack => search_by(&run, &mut Stack::new(room), budget, times),
        List::Dive => search_by(&run, &mut Dive::new(Heap::new(room)), budget, times),
    }
}
