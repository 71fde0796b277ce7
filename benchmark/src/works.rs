//! The works of the table: what one call does, and how much slower than the
//! second implementation it may be.

use couplingnut_tests::several::Given;
use second::reader::RECORD;
use second::sender::{self, Order};

use crate::inputs;
use crate::setups::Setup;
use crate::several;
use crate::sides::{read_by, read_older_by, send_by, send_older_by, test_by, Side, Space, FILLED};

/// The most samples of one call.
pub const SAMPLES: usize = 65_536;
/// The recordings of a work that are read one after the other. A capture is read
/// once: one alone, again and again, is what a branch predictor knows by heart.
const RECORDINGS: u64 = 16;
const REGISTERS: usize = 512;
const MOST_REGISTERS: usize = 8_192;
/// The longest order, its samples in single instruction, and where it starts.
const ORDERED: usize = 1_000;
const ORDERED_SAMPLES: usize = 48_003;
const START: u64 = 0x2000;
/// The last address of the older chip that is read, and of the one that is sent to.
const TOP: u64 = REGISTERS as u64 - 1;
const MOST_TOP: u64 = 0x1FFF;
const OLDER_START: u64 = 0x0100;

/// How much of the second implementation's time a work may take, and is hoped to.
#[derive(Clone, Copy)]
pub struct Limit {
    pub most: f64,
    pub stretch: f64,
}

impl Limit {
    /// Of a row that is to reach this ratio, and may miss it by 0.05.
    const fn near(goal: f64) -> Limit {
        Limit { most: goal + 0.05, stretch: goal }
    }
}

/// A dense recording sampled more often than its clock: how many times, and the part of the second implementation's time that it is
/// to be read in.
const OFTEN: [(&str, f64, f64); 10] = [
    ("read-1.3-times", 1.3, 0.75),
    ("read-1.5-times", 1.5, 0.75),
    ("read-two-times", 2.0, 0.65),
    ("read-three-times", 3.0, 0.6),
    ("read-four-times", 4.0, 0.6),
    ("read-five-times", 5.0, 0.6),
    ("read-eight-times", 8.0, 0.6),
    ("read-ten-times", 10.0, 0.5),
    ("read-sixteen-times", 16.0, 0.5),
    ("read-32-times", 32.0, 0.5),
];

/// The same where each level lasts a number of samples at random: the least and the most.
const UNEVEN: [(&str, usize, usize, f64); 3] = [
    ("read-uneven-1-2", 1, 2, 0.5),
    ("read-uneven-3-5", 3, 5, 0.5),
    ("read-uneven-6-10", 6, 10, 0.5),
];

/// A setup in one call, its orders one by one, and how many bytes each of them has.
pub const SETUPS: [(&str, &str, usize); 3] =
    [("setup-1", "each-1", 1), ("setup-16", "each-16", 16), ("setup-60", "each-60", 60)];

/// Of every work that sends to a newer chip.
const SENT: Limit = Limit { most: 1.2, stretch: 1.0 };

/// Of every work of the older chips.
const OLDER: Limit = Limit { most: 1.2, stretch: 1.0 };

pub struct Work {
    pub name: &'static str,
    pub limit: Limit,
    /// What the cost is divided by: samples, or registers of a map.
    pub units: usize,
    job: Job,
}

/// Samples, and the bytes lent for their records.
struct Recording {
    samples: Vec<u8>,
    room: usize,
}

enum Job {
    /// By an AD9557 with this top, or by a newer chip.
    Read {
        top: Option<u64>,
        map: Vec<u8>,
        recordings: Vec<Recording>,
    },
    Send {
        top: Option<u64>,
        settings: u64,
        data: Vec<u8>,
    },
    Setup {
        setup: Setup,
        joined: bool,
    },
    Test {
        map: Vec<u8>,
    },
    Several {
        given: Given,
    },
}

impl Work {
    /// Reading with room that is sure to suffice.
    fn read(name: &'static str, limit: Limit, recordings: Vec<Recording>) -> Self {
        let job = Job::Read { top: None, map: inputs::map(REGISTERS), recordings };
        Work { name, limit, units: SAMPLES, job }
    }

    /// The same by an older chip.
    fn read_older(name: &'static str, recordings: Vec<Recording>) -> Self {
        let job = Job::Read { top: Some(TOP), map: inputs::older_map(), recordings };
        Work { name, limit: OLDER, units: SAMPLES, job }
    }

    /// Reading with the room that the records take and no more, so that they
    /// have to be counted first.
    fn read_counted(name: &'static str, limit: Limit, mut recordings: Vec<Recording>) -> Self {
        let map = inputs::map(REGISTERS);
        for recording in &mut recordings {
            recording.room = RECORD * inputs::records(&map, &recording.samples);
        }
        Work { name, limit, units: SAMPLES, job: Job::Read { top: None, map, recordings } }
    }

    /// Its samples are counted by the second implementation alone: a call of the
    /// library here would be counted with the one that is measured.
    fn send(name: &'static str, settings: u64) -> Self {
        let data = inputs::bytes(ORDERED);
        let units = sender::send(&order(settings, &data), &mut [0; ORDERED_SAMPLES]).count;
        Work { name, limit: SENT, units, job: Job::Send { top: None, settings, data } }
    }

    fn send_older(name: &'static str, settings: u64) -> Self {
        let data = inputs::bytes(ORDERED);
        let order = older_order(settings, &data);
        let units = sender::send_older(MOST_TOP, &order, &mut [0; ORDERED_SAMPLES]).count;
        Work { name, limit: OLDER, units, job: Job::Send { top: Some(MOST_TOP), settings, data } }
    }

    /// Orders of so many bytes each, in one call or one by one.
    fn setup(name: &'static str, bytes: usize, joined: bool) -> Self {
        let setup = Setup::new(bytes);
        let units = setup.samples;
        Work { name, limit: SENT, units, job: Job::Setup { setup, joined } }
    }

    pub fn test(registers: usize) -> Self {
        let limit = Limit { most: 1.5, stretch: 1.0 };
        let job = Job::Test { map: inputs::map(registers) };
        Work { name: "map-test", limit, units: registers, job }
    }

    /// Frames to those of eight chips whose bits are set. A chip is taken out of
    /// the lent list and put back at each sample: the limit keeps that from
    /// growing, and promises nothing.
    fn several(name: &'static str, addressed: u8) -> Self {
        let limit = Limit { most: 6.0, stretch: 1.0 };
        let given = several::dense(addressed, REGISTERS, SAMPLES);
        Work { name, limit, units: SAMPLES, job: Job::Several { given } }
    }

    pub fn space(&self) -> Space {
        match &self.job {
            Job::Read { map, recordings, .. } => {
                Space::new((map.len() - 5) / 3, recordings[0].room)
            }
            Job::Send { .. } => Space::new(0, ORDERED_SAMPLES),
            Job::Setup { setup, .. } => Space::new(0, setup.samples),
            Job::Test { .. } => Space::new(0, 0),
            Job::Several { given } => several::space(given),
        }
    }

    /// One call by one side. Who reads takes the next recording.
    pub fn call(&self, side: Side, space: &mut Space) {
        match &self.job {
            Job::Read { top, map, recordings } => {
                let Recording { samples, room } = &recordings[space.calls % recordings.len()];
                space.calls += 1;
                space.out.resize(*room, FILLED);
                match top {
                    None => read_by(side, map, samples, space),
                    Some(top) => read_older_by(side, *top, map, samples, space),
                }
            }
            Job::Send { top: None, settings, data } => {
                send_by(side, &order(*settings, data), space)
            }
            Job::Send { top: Some(top), settings, data } => {
                send_older_by(side, *top, &older_order(*settings, data), space)
            }
            Job::Setup { setup, joined: true } => setup.send_by(side, space),
            Job::Setup { setup, joined: false } => setup.each_by(side, space),
            Job::Test { map } => test_by(side, map, space),
            Job::Several { given } => several::read_by(side, given, space),
        }
    }

    /// The symbol of the function that the call is.
    pub fn symbol(&self, side: Side) -> &'static str {
        match (&self.job, side) {
            (Job::Read { top: None, .. }, Side::Proved) => "benchmark_read",
            (Job::Read { top: None, .. }, Side::Second) => "second_read",
            (Job::Read { .. }, Side::Proved) => "benchmark_read_older",
            (Job::Read { .. }, Side::Second) => "second_read_older",
            (Job::Send { top: None, .. }, Side::Proved) => "couplingnut_send",
            (Job::Send { top: None, .. }, Side::Second) => "second_send",
            (Job::Send { .. }, Side::Proved) => "couplingnut_send_older",
            (Job::Send { .. }, Side::Second) => "second_send_older",
            (Job::Setup { joined: true, .. }, Side::Proved) => "couplingnut_send_setup",
            (Job::Setup { joined: true, .. }, Side::Second) => "second_send_setup",
            (Job::Setup { .. }, Side::Proved) => "proved_each",
            (Job::Setup { .. }, Side::Second) => "second_each",
            (Job::Test { .. }, Side::Proved) => "couplingnut_map_test",
            (Job::Test { .. }, Side::Second) => "second_map_test",
            (Job::Several { .. }, Side::Proved) => "couplingnut_read_several",
            (Job::Several { .. }, Side::Second) => "second_read_several",
        }
    }

    /// Both sides on the same input, each that there is: what they answer and
    /// leave is the same, byte for byte, and no refusal.
    pub fn compare(&self) {
        let inputs = match &self.job {
            Job::Read { recordings, .. } => recordings.len(),
            _ => 1,
        };
        let (mut proved, mut second) = (self.space(), self.space());
        for _ in 0..inputs {
            self.call(Side::Proved, &mut proved);
            self.call(Side::Second, &mut second);
            assert!(proved == second, "{}: the two sides differ", self.name);
            assert_eq!(proved.number, 0, "{}: refused", self.name);
        }
    }
}

/// So many recordings, each with room that is sure to suffice.
fn recorded(recordings: u64, record: impl Fn(u64) -> Vec<u8>) -> Vec<Recording> {
    let roomy = |samples: Vec<u8>| Recording { room: RECORD * samples.len().div_ceil(3), samples };
    (0..recordings).map(|number| roomy(record(number))).collect()
}

fn order(settings: u64, data: &[u8]) -> Order<'_> {
    Order { direction: 0, settings, start: START, count: data.len() as u64, data }
}

/// To an older chip a run may not wrap; lowest bit first it goes up from here,
/// and highest first down from its end.
fn older_order(settings: u64, data: &[u8]) -> Order<'_> {
    let start = if settings == 1 { OLDER_START } else { OLDER_START + ORDERED as u64 };
    Order { direction: 0, settings, start, count: data.len() as u64, data }
}

/// The works of one call each, in the order of the table.
const NAMES: [&str; 23] = [
    "read-dense",
    "read-dense-lsb",
    "read-single",
    "read-mixed",
    "read-random",
    "counted-dense",
    "counted-random",
    "send-msb",
    "send-lsb",
    "send-single-msb",
    "send-single-lsb",
    "setup-1",
    "setup-16",
    "setup-60",
    "map-test",
    "older-dense",
    "older-counted",
    "older-ten-times",
    "older-random",
    "older-send-msb",
    "older-send-lsb",
    "several-one",
    "several-eight",
];

pub fn works() -> impl Iterator<Item = Work> {
    let often = OFTEN.iter().map(|row| row.0).chain(UNEVEN.iter().map(|row| row.0));
    let names = NAMES[..4].iter().copied().chain(often).chain(NAMES[4..].iter().copied());
    names.map(|name| work(name, RECORDINGS).expect("each name has its work"))
}

/// The work of this name on recordings sampled more often than their clock.
fn often(name: &str, recordings: u64) -> Option<Work> {
    if let Some(&(name, times, goal)) = OFTEN.iter().find(|row| row.0 == name) {
        let record = |number| inputs::oversampled(number, times, SAMPLES);
        return Some(Work::read(name, Limit::near(goal), recorded(recordings, record)));
    }
    let &(name, least, most, goal) = UNEVEN.iter().find(|row| row.0 == name)?;
    let record = |number| inputs::uneven(number, least, most, SAMPLES);
    Some(Work::read(name, Limit::near(goal), recorded(recordings, record)))
}

/// The work of this name that sends a setup.
fn setup(name: &str) -> Option<Work> {
    let &(joined, each, bytes) = SETUPS.iter().find(|row| row.0 == name || row.1 == name)?;
    let is_joined = name == joined;
    Some(Work::setup(if is_joined { joined } else { each }, bytes, is_joined))
}

/// The work of this name, with so many recordings if it reads.
pub fn work(name: &str, recordings: u64) -> Option<Work> {
    if let Some(work) = often(name, recordings).or_else(|| setup(name)) {
        return Some(work);
    }
    let name = *NAMES.iter().find(|known| **known == name)?;
    let frames = Limit { most: 0.9, stretch: 0.7 };
    let noise = Limit { most: 1.5, stretch: 0.75 };
    let counted = Limit { most: 2.0, stretch: 0.75 };
    let dense = |settings| recorded(recordings, |number| inputs::dense(number, settings, SAMPLES));
    let mixed = || recorded(recordings, |number| inputs::mixed(number, SAMPLES));
    let random = || recorded(recordings, |number| inputs::noise(number, SAMPLES));
    let older =
        |least, most| recorded(recordings, |number| inputs::older(number, least, most, SAMPLES));
    let older_ten_times =
        || recorded(recordings, |number| inputs::older_oversampled(number, 10, SAMPLES));
    Some(match name {
        "read-dense" => Work::read(name, frames, dense(0)),
        "read-dense-lsb" => Work::read(name, frames, dense(1)),
        "read-single" => Work::read(name, frames, dense(4)),
        "read-mixed" => Work::read(name, frames, mixed()),
        "read-random" => Work::read(name, noise, random()),
        "counted-dense" => Work::read_counted(name, counted, dense(0)),
        "counted-random" => Work::read_counted(name, counted, random()),
        "send-msb" => Work::send(name, 0),
        "send-lsb" => Work::send(name, 1),
        "send-single-msb" => Work::send(name, 4),
        "send-single-lsb" => Work::send(name, 5),
        "map-test" => Work::test(MOST_REGISTERS),
        "older-dense" => Work::read_older(name, older(4, 16)),
        "older-counted" => Work::read_older(name, older(1, 3)),
        "older-ten-times" => Work::read_older(name, older_ten_times()),
        "older-random" => Work::read_older(name, random()),
        "older-send-msb" => Work::send_older(name, 0),
        "older-send-lsb" => Work::send_older(name, 1),
        "several-one" => Work::several(name, 0b0000_1000),
        "several-eight" => Work::several(name, 0b1111_1111),
        _ => return None,
    })
}
