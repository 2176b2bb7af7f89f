//! A run of a plan: hold, tick, entry ticks.

use crate::meetings::{Meeting, Orders, Side, find_meetings, find_meetings_in_pair_loops};
use crate::plan::{Fault, MOST_MEETINGS, Paths, Plan};
use crate::timetable::{Ring, Timetable};

/// The last stop that a shuttle has entered, and its hold.
#[derive(Clone, Copy, Debug, PartialEq, Eq)]
pub struct Record {
    pub stop: usize,
    pub hold: u16,
}

#[derive(Clone, Copy, Debug, PartialEq, Eq)]
pub enum Refusal {
    NoShuttle,
    AtLastStop,
    LongHold,
}

pub struct Run {
    pub plan: Plan,
    pub records: Vec<Record>,
    pub orders: Orders,
}

impl Run {
    pub fn open(bytes: &[u8]) -> Result<Run, Fault> {
        Run::open_by(bytes, find_meetings)
    }

    pub fn open_in_pair_loops(bytes: &[u8]) -> Result<Run, Fault> {
        Run::open_by(bytes, find_meetings_in_pair_loops)
    }

    fn open_by(
        bytes: &[u8],
        find_meetings: impl Fn(&Paths) -> Result<Vec<Meeting>, Fault>,
    ) -> Result<Run, Fault> {
        let plan = Plan::open(bytes, find_meetings)?;
        let starts = &plan.paths.begins[..plan.paths.count()];
        let records = starts
            .iter()
            .map(|&stop| Record { stop, hold: 0 })
            .collect();
        let mut orders = [None; MOST_MEETINGS];
        for (order, meeting) in orders.iter_mut().zip(&plan.meetings) {
            *order = Some(meeting.first);
        }
        Ok(Run {
            plan,
            records,
            orders,
        })
    }

    pub fn hold(&mut self, shuttle: usize, ticks: u32) -> Result<(), Refusal> {
        let record = self.records.get_mut(shuttle).ok_or(Refusal::NoShuttle)?;
        if record.stop == self.plan.paths.last(shuttle) {
            return Err(Refusal::AtLastStop);
        }
        if ticks > 4095 {
            return Err(Refusal::LongHold);
        }
        record.hold = ticks as u16;
        Ok(())
    }

    fn moves(&self, shuttle: usize, standing: u32) -> bool {
        let record = self.records[shuttle];
        if record.hold > 0
            || standing >> shuttle & 1 != 0
            || record.stop == self.plan.paths.last(shuttle)
        {
            return false;
        }
        self.plan.touches.of(record.stop + 1).iter().all(|touch| {
            self.orders[usize::from(touch.meeting)] != Some(touch.first)
                || usize::from(touch.awaited) <= self.records[usize::from(touch.shuttle)].stop
        })
    }

    /// One tick; the word of those that moved.
    pub fn tick(&mut self, standing: u32) -> Result<u32, Refusal> {
        let count = self.records.len();
        if u64::from(standing) >> count != 0 {
            return Err(Refusal::NoShuttle);
        }
        let moved = (0..count).fold(0, |word, shuttle| {
            word | u32::from(self.moves(shuttle, standing)) << shuttle
        });
        for (shuttle, record) in self.records.iter_mut().enumerate() {
            record.stop += (moved >> shuttle & 1) as usize;
            record.hold = record.hold.saturating_sub(1);
        }
        Ok(moved)
    }

    /// Works out entry ticks under orders, of which some may be left out.
    pub fn entry_ticks(&self, orders: &Orders, timetable: &mut Timetable) -> Result<(), Ring> {
        timetable.work_out(&self.plan, &self.records, orders)
    }

    pub fn is_open(&self, meeting: usize) -> bool {
        let meeting = &self.plan.meetings[meeting];
        let is_ahead = |side: Side| {
            let (shuttle, stop) = (usize::from(side.shuttle), usize::from(side.stop));
            self.records[shuttle].stop < stop && stop < self.plan.paths.last(shuttle)
        };
        let place = self.plan.paths.stops[usize::from(meeting.lower.stop)].place;
        is_ahead(meeting.lower)
            && is_ahead(meeting.other)
            && self.plan.tables.binary_search(&place).is_err()
    }
}
