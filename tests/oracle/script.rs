// Random scripts: the devices, and a list of calls and cuts.

use crate::rng::Rng;
use crate::tables::{Call, Mode, Tables};
use std::fmt;

// The devices that a first line names: a memory, or a mirror with a log of so many records.
#[derive(Clone, Copy)]
pub struct Devices {
    pub blocks: u64,
    pub width: u64,
    pub records: Option<u64>,
}

impl fmt::Display for Devices {
    fn fmt(&self, f: &mut fmt::Formatter<'_>) -> fmt::Result {
        let Devices {
            blocks,
            width,
            records,
        } = self;
        match records {
            None => write!(f, "memory {blocks} {width}"),
            Some(records) => write!(f, "mirror {blocks} {width} {records}"),
        }
    }
}

pub struct Script {
    pub devices: Devices,
    pub calls: Vec<Call>,
}

// How likely each kind of call is while the volume is mounted.
#[derive(Clone, Copy)]
struct Weights {
    create: u64,
    clone: u64,
    delete: u64,
    put: u64,
    remove: u64,
    read: u64,
    seal: u64,
    // Calls out of turn, mounts, lines that are no calls.
    odd: u64,
    cut: u64,
}

const PHASES: [Weights; 6] = [
    // Everything.
    Weights {
        create: 6,
        clone: 6,
        delete: 3,
        put: 40,
        remove: 15,
        read: 25,
        seal: 4,
        odd: 3,
        cut: 1,
    },
    // Filling.
    Weights {
        create: 1,
        clone: 1,
        delete: 0,
        put: 90,
        remove: 2,
        read: 5,
        seal: 1,
        odd: 0,
        cut: 0,
    },
    // Clearing.
    Weights {
        create: 0,
        clone: 1,
        delete: 1,
        put: 5,
        remove: 80,
        read: 10,
        seal: 1,
        odd: 0,
        cut: 0,
    },
    // Copying.
    Weights {
        create: 10,
        clone: 40,
        delete: 15,
        put: 20,
        remove: 5,
        read: 8,
        seal: 2,
        odd: 0,
        cut: 0,
    },
    // Committing, and losing power.
    Weights {
        create: 3,
        clone: 3,
        delete: 2,
        put: 20,
        remove: 8,
        read: 10,
        seal: 30,
        odd: 5,
        cut: 15,
    },
    // Reading.
    Weights {
        create: 1,
        clone: 1,
        delete: 1,
        put: 5,
        remove: 2,
        read: 80,
        seal: 1,
        odd: 2,
        cut: 0,
    },
];

// Where the speeds of puts come from.
#[derive(Clone, Copy)]
enum Speeds {
    Any,
    Few(u64),
    Up(u32),
    Down(u32),
}

const BAD: [&str; 12] = [
    "",
    "   ",
    "put 0 1",
    "put 0 1 2 3",
    "get 4294967296 0",
    "put 0 0 2147483648",
    "put 0 -1 0",
    "create",
    "CREATE 0",
    "cut",
    "cut half",
    "raw 0 xyz",
];

const WRONG: [u32; 5] = [24, 10_000, 9_001, 255, u32::MAX];

const WRONG_ANGLES: [i32; 4] = [9_001, -9_001, i32::MAX, i32::MIN];

struct Maker<'a> {
    rng: &'a mut Rng,
    // What the tables are if no call is refused for blocks or writes.
    tables: Tables,
    speeds: Speeds,
    // The clone that most calls name.
    favourite: u32,
}

impl Maker<'_> {
    // A clone number: mostly one that is there.
    fn clone(&mut self) -> u32 {
        let rng = &mut *self.rng;
        if rng.once_in(60) {
            return rng.pick(&WRONG);
        }
        if rng.once_in(20) {
            return rng.below(24) as u32;
        }
        let there = |n: &u32| self.tables.working[*n as usize].is_some();
        if there(&self.favourite) && rng.once_in(2) {
            return self.favourite;
        }
        let there: Vec<u32> = (0..24).filter(there).collect();
        if there.is_empty() {
            rng.below(24) as u32
        } else {
            rng.pick(&there)
        }
    }

    // A clone number: mostly one that is not there.
    fn vacant(&mut self) -> u32 {
        let rng = &mut *self.rng;
        if rng.once_in(40) {
            return rng.pick(&WRONG);
        }
        if rng.once_in(8) {
            return rng.below(24) as u32;
        }
        let absent: Vec<u32> = (0..24)
            .filter(|n| self.tables.working[*n as usize].is_none())
            .collect();
        if absent.is_empty() {
            rng.below(24) as u32
        } else {
            rng.pick(&absent)
        }
    }

    fn new_speed(&mut self) -> u32 {
        if self.rng.once_in(80) {
            return self.rng.pick(&[10_000, 9_999, u32::MAX, 0]);
        }
        match self.speeds {
            Speeds::Any => self.rng.below(10_000) as u32,
            Speeds::Few(n) => (self.rng.below(n) * 9_999 / n) as u32,
            Speeds::Up(s) => {
                self.speeds = Speeds::Up(if s >= 9_999 {
                    0
                } else {
                    s + 1 + self.rng.below(3) as u32
                });
                s.min(9_999)
            }
            Speeds::Down(s) => {
                self.speeds = Speeds::Down(if s < 3 {
                    9_999
                } else {
                    s - 1 - self.rng.below(3) as u32
                });
                s
            }
        }
    }

    // A speed: mostly that of a row of the clone, or one beside it.
    fn speed(&mut self, n: u32) -> u32 {
        if self.rng.once_in(6) {
            return self.new_speed();
        }
        let beside = self.rng.below(8);
        let from = self.rng.below(10_000) as u32;
        let Some(Some(map)) = self.tables.working.get(n as usize) else {
            return from;
        };
        let row = map.range(from..).next().or(map.range(..from).next_back());
        match (row, beside) {
            (None, _) => from,
            (Some((s, _)), 0) => s + 1,
            (Some((s, _)), 1) => s.saturating_sub(1),
            (Some((s, _)), _) => *s,
        }
    }

    fn read(&mut self) -> Call {
        let n = self.clone();
        let s = self.speed(n);
        match self.rng.below(16) {
            0..=4 => Call::Get(n, s),
            5..=9 => Call::At(n, s),
            10 | 11 => {
                let k = self.rng.pick(&[0, 1, 7, 20, 10_000, u32::MAX]);
                Call::List(
                    n,
                    s,
                    k.min(if self.rng.once_in(10) { u32::MAX } else { 30 }),
                )
            }
            12 => Call::Count(n),
            13 => Call::Span(n),
            _ => Call::Sum(n),
        }
    }

    fn odd(&mut self) -> Call {
        match self.rng.below(6) {
            0 => Call::Finish,
            1 => Call::Reopen,
            2 => Call::Mount,
            3 => Call::CutFinish(self.rng.once_in(2)),
            4 => Call::Raw(self.rng.below(4) as u32),
            _ => Call::Bad(self.rng.pick(&BAD)),
        }
    }

    fn cut(&mut self) -> Call {
        self.rng.pick(&[Call::CutOld, Call::CutNew, Call::CutTorn])
    }

    fn while_mounted(&mut self, w: Weights) -> Call {
        if self.rng.once_in(3) && self.tables.working.iter().all(Option::is_none) {
            return Call::Create(self.vacant());
        }
        let all =
            w.create + w.clone + w.delete + w.put + w.remove + w.read + w.seal + w.odd + w.cut;
        let mut at = self.rng.below(all);
        let mut is = |weight: u64| {
            let here = at < weight;
            at = at.wrapping_sub(weight);
            here
        };
        if is(w.create) {
            Call::Create(self.vacant())
        } else if is(w.clone) {
            Call::Clone(self.clone(), self.vacant())
        } else if is(w.delete) {
            Call::Delete(self.clone())
        } else if is(w.put) {
            let n = self.clone();
            let s = if self.rng.once_in(5) {
                self.speed(n)
            } else {
                self.new_speed()
            };
            let a = if self.rng.once_in(60) {
                self.rng.pick(&WRONG_ANGLES)
            } else {
                self.rng.angle()
            };
            Call::Put(n, s, a)
        } else if is(w.remove) {
            let n = self.clone();
            Call::Remove(n, self.speed(n))
        } else if is(w.read) {
            self.read()
        } else if is(w.seal) {
            Call::Seal
        } else if is(w.odd) {
            self.odd()
        } else {
            self.cut()
        }
    }

    fn next(&mut self, w: Weights) -> Call {
        match self.tables.mode {
            Mode::Mounted => self.while_mounted(w),
            Mode::Sealed => match self.rng.below(20) {
                0..=10 => Call::Finish,
                11..=13 => Call::Reopen,
                14 => Call::CutFinish(false),
                15 => Call::CutFinish(true),
                16 => self.cut(),
                17 => self.odd(),
                _ => self.while_mounted(w),
            },
            Mode::Down => match self.rng.below(12) {
                0 => self.cut(),
                1 => Call::Bad(self.rng.pick(&BAD)),
                2 => match self.while_mounted(w) {
                    // A block that is overwritten while the machine is down may be no volume's any more.
                    Call::Raw(_) => Call::Mount,
                    call => call,
                },
                _ => Call::Mount,
            },
        }
    }
}

// The devices: crowded or large, with a log that is worn soon or late.
fn devices(rng: &mut Rng, crowded: bool) -> Devices {
    let blocks = match (crowded, rng.below(3)) {
        (true, _) => rng.range(16, 64),
        (false, 0) => rng.range(64, 512),
        (false, _) => rng.range(512, 4_096),
    };
    let width = rng.range(32, 40);
    let records = match rng.below(6) {
        0 => Some(rng.range(2, 60)),
        1 => Some(rng.range(60, 1_500)),
        2 => Some(rng.range(3_000, 30_000)),
        _ => None,
    };
    Devices {
        blocks,
        width,
        records,
    }
}

fn speeds(rng: &mut Rng) -> Speeds {
    match rng.below(5) {
        0 => Speeds::Any,
        1 => Speeds::Few(rng.pick(&[3, 20, 60, 400])),
        2 => Speeds::Up(rng.below(10_000) as u32),
        3 => Speeds::Up(0),
        _ => Speeds::Down(9_999),
    }
}

// A list of calls on what the tables hold.
pub fn calls(rng: &mut Rng, tables: Tables, length: u64) -> Vec<Call> {
    let mut maker = Maker {
        tables,
        speeds: Speeds::Any,
        favourite: 0,
        rng,
    };
    let mut calls = Vec::new();
    while (calls.len() as u64) < length {
        let weights = maker.rng.pick(&PHASES);
        maker.speeds = speeds(maker.rng);
        maker.favourite = maker.rng.below(24) as u32;
        let end = calls.len() as u64 + maker.rng.range(1, 1 + length / 3);
        while (calls.len() as u64) < end.min(length) {
            let call = maker.next(weights);
            maker.tables.answer(call, None);
            calls.push(call);
        }
    }
    calls
}

// One clone is filled in order until its tree is as high as it gets, and then anything happens.
fn make_tall(rng: &mut Rng) -> Script {
    let mut tables = Tables::new();
    let mut first = vec![Call::Create(0)];
    let step = rng.range(1, 3) as usize;
    let mut speeds: Vec<u32> = (0..10_000).step_by(step).collect();
    if rng.once_in(2) {
        speeds.reverse();
    }
    first.extend(speeds.iter().map(|s| Call::Put(0, *s, rng.angle())));
    for call in &first {
        tables.answer(*call, None);
    }
    let devices = Devices {
        blocks: 4_096,
        width: rng.range(32, 40),
        records: if rng.once_in(2) { Some(150_000) } else { None },
    };
    let length = rng.range(200, 4_000);
    first.append(&mut calls(rng, tables, length));
    Script {
        devices,
        calls: first,
    }
}

pub fn make(rng: &mut Rng) -> Script {
    if rng.once_in(60) {
        return make_tall(rng);
    }
    let crowded = !rng.once_in(3);
    let length = match rng.below(8) {
        0..=3 => rng.range(10, 200),
        4..=6 => rng.range(200, 3_000),
        _ => rng.range(3_000, 12_000),
    };
    Script {
        devices: devices(rng, crowded),
        calls: calls(rng, Tables::new(), length),
    }
}

// The same calls with other angles where the angles are legal.
pub fn other_angles(rng: &mut Rng, calls: &[Call]) -> Vec<Call> {
    let other = |call: &Call| match *call {
        Call::Put(n, s, a) if (-9_000..=9_000).contains(&a) => Call::Put(n, s, rng.angle()),
        call => call,
    };
    calls.iter().map(other).collect()
}
