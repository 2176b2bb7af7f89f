//! Entry ticks, by a worklist of shuttles that can go on.

use crate::meetings::Orders;
use crate::plan::{MOST_SHUTTLES, MOST_STOPS_IN_ALL, Plan};
use crate::run::Record;

/// The orders close a ring.
#[derive(Clone, Copy, Debug, PartialEq, Eq)]
pub struct Ring;

/// The entry tick of a stop that has none yet.
const UNKNOWN: u32 = u32::MAX;

/// How far a shuttle has come: the stop that it is to enter, the touch that it is to look at, and the latest tick so far.
#[derive(Clone, Copy, Default)]
struct Progress {
    stop: u32,
    touch: u32,
    latest: u32,
}

/// The entry ticks of a run, and the memory that they are worked out in.
pub struct Timetable {
    /// By stop; one more for the stop behind a last one, which is never entered.
    ticks: [u32; MOST_STOPS_IN_ALL + 1],
    /// For each stop the shuttles that are blocked until it is entered.
    noted: [u32; MOST_STOPS_IN_ALL + 1],
    progress: [Progress; MOST_SHUTTLES],
    arrivals: [u32; MOST_SHUTTLES],
}

impl Timetable {
    #[allow(clippy::new_without_default)]
    pub fn new() -> Timetable {
        Timetable {
            ticks: [UNKNOWN; MOST_STOPS_IN_ALL + 1],
            noted: [0; MOST_STOPS_IN_ALL + 1],
            progress: [Progress::default(); MOST_SHUTTLES],
            arrivals: [0; MOST_SHUTTLES],
        }
    }

    pub fn tick(&self, stop: u16) -> u32 {
        self.ticks[usize::from(stop)]
    }

    pub fn arrivals(&self, plan: &Plan) -> &[u32] {
        &self.arrivals[..plan.paths.count()]
    }

    /// Works out the entry ticks under orders, of which some may be left out.
    pub fn work_out(
        &mut self,
        plan: &Plan,
        records: &[Record],
        orders: &Orders,
    ) -> Result<(), Ring> {
        self.begin(plan, records);
        let mut ready = ((1_u64 << records.len()) - 1) as u32;
        let mut home = 0;
        while ready != 0 {
            let shuttle = ready.trailing_zeros() as usize;
            ready &= ready - 1;
            if self.run_ahead(plan, shuttle, orders, &mut ready) {
                home += 1;
            }
        }
        if home == records.len() {
            Ok(())
        } else {
            Err(Ring)
        }
    }

    /// Only the stops that have been entered are known.
    fn begin(&mut self, plan: &Plan, records: &[Record]) {
        let stops = plan.paths.stops.len();
        self.ticks[..stops].fill(UNKNOWN);
        self.noted[..stops].fill(0);
        for (shuttle, record) in records.iter().enumerate() {
            let stop = record.stop + 1;
            self.ticks[plan.paths.begins[shuttle]..stop].fill(0);
            self.progress[shuttle] = Progress {
                stop: stop as u32,
                touch: plan.touches.begins[stop].into(),
                latest: record.hold.into(),
            };
        }
    }

    /// A shuttle goes on until it has to wait for a stop that is not known; answers whether it came home.
    #[inline(always)]
    fn run_ahead(&mut self, plan: &Plan, shuttle: usize, orders: &Orders, ready: &mut u32) -> bool {
        let Progress {
            mut stop,
            mut touch,
            mut latest,
        } = self.progress[shuttle];
        let end = plan.paths.begins[shuttle + 1] as u32;
        while stop < end {
            let until = u32::from(plan.touches.begins[stop as usize + 1]);
            while touch < until {
                let here = plan.touches.all[touch as usize];
                if orders[usize::from(here.meeting)] == Some(here.first) {
                    let tick = self.ticks[usize::from(here.awaited)];
                    if tick == UNKNOWN {
                        self.noted[usize::from(here.awaited)] |= 1 << shuttle;
                        self.progress[shuttle] = Progress {
                            stop,
                            touch,
                            latest,
                        };
                        return false;
                    }
                    latest = latest.max(tick);
                }
                touch += 1;
            }
            latest += 1;
            self.ticks[stop as usize] = latest;
            *ready |= self.noted[stop as usize];
            stop += 1;
        }
        self.arrivals[shuttle] = self.ticks[end as usize - 1];
        true
    }
}
