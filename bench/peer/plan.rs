//! Plan files, and the rules of paths.

use crate::meetings::{Meeting, Touches};

pub const MOST_SHUTTLES: usize = 32;
pub const MOST_STOPS: usize = 64;
pub const MOST_STOPS_IN_ALL: usize = 512;
pub const MOST_TABLES: usize = 64;
pub const MOST_MEETINGS: usize = 256;

#[derive(Clone, Copy, Debug, PartialEq, Eq)]
pub struct Stop {
    pub place: u16,
    pub tick: u16,
}

/// Why a plan is refused. Stops are given by shuttle and number.
#[derive(Clone, Copy, Debug, PartialEq, Eq)]
pub enum Fault {
    Torn(usize),
    Path {
        shuttle: usize,
        stop: usize,
    },
    Clash {
        lower: (usize, usize),
        other: (usize, usize),
    },
    TooManyMeetings,
}

/// An opened plan. Its stops have one numbering, path after path.
#[derive(Debug)]
pub struct Plan {
    pub paths: Paths,
    pub tables: Vec<u16>,
    pub meetings: Vec<Meeting>,
    pub touches: Touches,
}

/// The stops of all paths with their shuttles, and where each path begins; after the last, where it ends.
#[derive(Debug)]
pub struct Paths {
    pub begins: Vec<usize>,
    pub stops: Vec<Stop>,
    pub shuttles: Vec<u8>,
}

impl Paths {
    pub fn count(&self) -> usize {
        self.begins.len() - 1
    }

    pub fn of(&self, shuttle: usize) -> &[Stop] {
        &self.stops[self.begins[shuttle]..self.begins[shuttle + 1]]
    }

    pub fn last(&self, shuttle: usize) -> usize {
        self.begins[shuttle + 1] - 1
    }

    pub fn shuttle(&self, stop: usize) -> usize {
        usize::from(self.shuttles[stop])
    }

    /// The shuttle of a stop, and the stop's number on its path.
    pub fn at(&self, stop: usize) -> (usize, usize) {
        let shuttle = self.shuttle(stop);
        (shuttle, stop - self.begins[shuttle])
    }
}

struct Reader<'a> {
    bytes: &'a [u8],
    at: usize,
}

impl Reader<'_> {
    fn number(&mut self, low: usize, high: usize) -> Result<u16, Fault> {
        let &[high_byte, low_byte, ..] = &self.bytes[self.at..] else {
            return Err(Fault::Torn(self.bytes.len()));
        };
        let number = u16::from_be_bytes([high_byte, low_byte]);
        if !(low..=high).contains(&usize::from(number)) {
            return Err(Fault::Torn(self.at));
        }
        self.at += 2;
        Ok(number)
    }

    fn any(&mut self) -> Result<u16, Fault> {
        self.number(0, usize::from(u16::MAX))
    }
}

/// The paths and tables in a plan file.
fn read_file(bytes: &[u8]) -> Result<(Paths, Vec<u16>), Fault> {
    let mut reader = Reader { bytes, at: 0 };
    let shuttles = usize::from(reader.number(1, MOST_SHUTTLES)?);
    let places = usize::from(reader.number(0, MOST_TABLES)?);
    let first_body = 4 + 4 * shuttles + 2 * places;

    let mut begins = Vec::with_capacity(shuttles + 1);
    let mut owners = Vec::with_capacity(MOST_STOPS_IN_ALL);
    let mut count = 0;
    for shuttle in 0..shuttles {
        begins.push(count);
        let begin = first_body + 4 * count;
        reader.number(begin, begin)?;
        count += usize::from(reader.number(1, MOST_STOPS.min(MOST_STOPS_IN_ALL - count))?);
        owners.resize(count, shuttle as u8);
    }
    begins.push(count);

    let mut tables = Vec::with_capacity(places);
    let mut low = 0;
    for _ in 0..places {
        let place = reader.number(low, usize::from(u16::MAX))?;
        low = usize::from(place) + 1;
        tables.push(place);
    }

    let mut stops = Vec::with_capacity(count);
    for _ in 0..count {
        let place = reader.any()?;
        let tick = reader.any()?;
        stops.push(Stop { place, tick });
    }
    if reader.at < bytes.len() {
        return Err(Fault::Torn(reader.at));
    }
    Ok((
        Paths {
            begins,
            stops,
            shuttles: owners,
        },
        tables,
    ))
}

fn check_paths(paths: &Paths) -> Result<(), Fault> {
    for shuttle in 0..paths.count() {
        let stops = paths.of(shuttle);
        if stops[0].tick != 0 {
            return Err(Fault::Path { shuttle, stop: 0 });
        }
        for (before, pair) in stops.windows(2).enumerate() {
            if pair[0].tick >= pair[1].tick || pair[0].place == pair[1].place {
                return Err(Fault::Path {
                    shuttle,
                    stop: before + 1,
                });
            }
        }
    }
    Ok(())
}

impl Plan {
    /// Opens a plan file, given the way to find meetings.
    pub fn open(
        bytes: &[u8],
        find_meetings: impl Fn(&Paths) -> Result<Vec<Meeting>, Fault>,
    ) -> Result<Plan, Fault> {
        let (paths, tables) = read_file(bytes)?;
        check_paths(&paths)?;
        let meetings = find_meetings(&paths)?;
        let touches = Touches::new(&paths, &meetings);
        Ok(Plan {
            paths,
            tables,
            meetings,
            touches,
        })
    }
}
