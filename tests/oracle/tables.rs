// What every answer is held to: 24 maps that are changed, and 24 that were committed. Nothing here knows of trees or blocks.

use std::collections::BTreeMap;
use std::fmt;

pub type Map = BTreeMap<u32, i32>;
pub type Maps = Vec<Option<Map>>;

#[derive(Clone, Copy, PartialEq, Eq, Debug)]
pub enum Call {
    Create(u32),
    Clone(u32, u32),
    Delete(u32),
    Put(u32, u32, i32),
    Remove(u32, u32),
    Get(u32, u32),
    At(u32, u32),
    List(u32, u32, u32),
    Count(u32),
    Span(u32),
    Sum(u32),
    Seal,
    Finish,
    Reopen,
    Mount,
    CutOld,
    CutNew,
    CutTorn,
    CutFinish(bool),
    // Overwrites the first word of a block, where that is out of turn.
    Raw(u32),
    // A line that is no call.
    Bad(&'static str),
}

impl fmt::Display for Call {
    fn fmt(&self, f: &mut fmt::Formatter<'_>) -> fmt::Result {
        match self {
            Call::Create(n) => write!(f, "create {n}"),
            Call::Clone(n, m) => write!(f, "clone {n} {m}"),
            Call::Delete(n) => write!(f, "delete {n}"),
            Call::Put(n, s, a) => write!(f, "put {n} {s} {a}"),
            Call::Remove(n, s) => write!(f, "remove {n} {s}"),
            Call::Get(n, s) => write!(f, "get {n} {s}"),
            Call::At(n, s) => write!(f, "at {n} {s}"),
            Call::List(n, s, k) => write!(f, "list {n} {s} {k}"),
            Call::Count(n) => write!(f, "count {n}"),
            Call::Span(n) => write!(f, "span {n}"),
            Call::Sum(n) => write!(f, "sum {n}"),
            Call::Seal => write!(f, "seal"),
            Call::Finish => write!(f, "finish"),
            Call::Reopen => write!(f, "reopen"),
            Call::Mount => write!(f, "mount"),
            Call::CutOld => write!(f, "cut old"),
            Call::CutNew => write!(f, "cut new"),
            Call::CutTorn => write!(f, "cut torn"),
            Call::CutFinish(false) => write!(f, "cutfinish old"),
            Call::CutFinish(true) => write!(f, "cutfinish new"),
            Call::Raw(b) => write!(f, "raw {b} 0x60000000"),
            Call::Bad(text) => write!(f, "{text}"),
        }
    }
}

#[derive(Clone, PartialEq, Eq, Debug)]
pub enum Answer {
    Ok,
    None,
    Angle(i32),
    Rows(Vec<(u32, i32)>),
    Count(usize),
    Span(i32, i32),
    Sum(i32),
    OutOfTurn,
    BadLine,
    // A refusal as it is printed.
    Refused(String),
}

impl fmt::Display for Answer {
    fn fmt(&self, f: &mut fmt::Formatter<'_>) -> fmt::Result {
        match self {
            Answer::Ok => write!(f, "ok"),
            Answer::None => write!(f, "none"),
            Answer::Angle(a) => write!(f, "angle {a}"),
            Answer::Rows(rows) => {
                write!(f, "rows {}", rows.len())?;
                for (s, a) in rows {
                    write!(f, "\n{s} {a}")?;
                }
                Ok(())
            }
            Answer::Count(n) => write!(f, "count {n}"),
            Answer::Span(a, b) => write!(f, "span {a} {b}"),
            Answer::Sum(n) => write!(f, "sum {n}"),
            Answer::OutOfTurn => write!(f, "out of turn"),
            Answer::BadLine => write!(f, "bad line"),
            Answer::Refused(text) => write!(f, "{text}"),
        }
    }
}

#[derive(Clone, Copy, PartialEq, Eq, Debug)]
pub enum Mode {
    Mounted,
    Sealed,
    Down,
}

pub struct Tables {
    pub working: Maps,
    pub committed: Maps,
    pub mode: Mode,
    // The generation that was committed last.
    pub generation: u32,
    pub room: Room,
}

// What there is of blocks and writes, as far as maps can tell.
#[derive(Clone, Copy, Default)]
pub struct Room {
    pub blocks: u64,
    // The records of a log.
    pub records: Option<u64>,
    // So many records were written at most.
    pub written: u64,
}

// A call needs no more blocks, and makes no more writes.
const NEEDED: u64 = 11;

// The last generation.
const LAST: u32 = 268_435_455;

fn refused(number: u32) -> Answer {
    Answer::Refused(format!("refused {number}"))
}

// The rule of docs/tables.md, in numbers so wide that nothing wraps.
fn angle_at(map: &Map, s: u32) -> Option<i32> {
    let before = map.range(..=s).next_back();
    let after = map.range(s + 1..).next();
    match (before, after) {
        (None, None) => None,
        (Some((_, a)), None) => Some(*a),
        (None, Some((_, b))) => Some(*b),
        (Some((p, a)), Some((r, b))) => {
            let (p, a, r, b, s) = (*p as i64, *a as i64, *r as i64, *b as i64, s as i64);
            Some((a + ((b - a) * (s - p)) / (r - p)) as i32)
        }
    }
}

impl Tables {
    // A formatted volume.
    pub fn new() -> Tables {
        Tables {
            working: vec![None; 24],
            committed: vec![None; 24],
            mode: Mode::Mounted,
            generation: 1,
            room: Room::default(),
        }
    }

    // A volume that was mounted.
    pub fn mounted(maps: &Maps, generation: u32) -> Tables {
        Tables {
            working: maps.clone(),
            committed: maps.clone(),
            mode: Mode::Mounted,
            generation,
            room: Room::default(),
        }
    }

    // Tables on so many blocks and, where there is a log, records, of which the format took two.
    pub fn on(self, blocks: u64, records: Option<u64>) -> Tables {
        Tables {
            room: Room {
                blocks,
                records,
                written: 2,
            },
            ..self
        }
    }

    // May blocks or writes be wanting? A map of r rows takes at most 1 + r / 6 blocks, since no block but the uppermost has fewer
    // than 7 entries.
    fn may_lack(&self, text: &str) -> bool {
        if text == "refused 10" {
            let maps = self.working.iter().chain(&self.committed).flatten();
            let taken: u64 = maps.map(|map| 1 + map.len() as u64 / 6).sum();
            return self.room.blocks < 2 + taken + NEEDED;
        }
        match self.room.records {
            Some(records) => records < self.room.written + NEEDED,
            None => false,
        }
    }

    fn commit(&mut self) {
        self.room.written += 1;
        self.committed = self.working.clone();
        self.generation += 1;
    }

    fn map(&self, n: u32) -> Option<&Map> {
        self.working[n as usize].as_ref()
    }

    // The answer that is due. `late` is a refusal for want of blocks or writes that the program gave: it is taken where it may
    // come, and changes nothing.
    pub fn answer(&mut self, call: Call, late: Option<&str>) -> Answer {
        match call {
            Call::Bad(_) => return Answer::BadLine,
            Call::CutOld | Call::CutNew | Call::CutTorn => {
                self.mode = Mode::Down;
                return Answer::Ok;
            }
            Call::CutFinish(kept) => {
                if self.mode != Mode::Sealed {
                    return Answer::OutOfTurn;
                }
                if kept {
                    self.commit();
                }
                self.mode = Mode::Down;
                return Answer::Ok;
            }
            Call::Raw(_) => return Answer::OutOfTurn,
            Call::Mount => {
                if self.mode == Mode::Sealed {
                    return Answer::OutOfTurn;
                }
                self.working = self.committed.clone();
                self.mode = Mode::Mounted;
                return Answer::Ok;
            }
            Call::Finish => {
                if self.mode != Mode::Sealed {
                    return Answer::OutOfTurn;
                }
                self.commit();
                self.mode = Mode::Mounted;
                return Answer::Ok;
            }
            Call::Reopen => {
                if self.mode != Mode::Sealed {
                    return Answer::OutOfTurn;
                }
                self.mode = Mode::Mounted;
                return Answer::Ok;
            }
            _ => {}
        }
        if self.mode != Mode::Mounted {
            return Answer::OutOfTurn;
        }
        if let Some(number) = self.early(call) {
            return refused(number);
        }
        if let Call::Remove(n, s) = call {
            if !self.map(n).unwrap().contains_key(&s) {
                return Answer::None;
            }
        }
        if let Some(text) = late {
            if may_come(call, text) && self.may_lack(text) {
                return Answer::Refused(text.to_string());
            }
        }
        self.done(call)
    }

    // The refusals 5 to 9, in the order of their numbers.
    fn early(&self, call: Call) -> Option<u32> {
        let numbers: &[u32] = match &call {
            Call::Clone(n, m) => &[*n, *m],
            Call::Create(n) | Call::Delete(n) | Call::Count(n) | Call::Span(n) | Call::Sum(n) => {
                &[*n]
            }
            Call::Put(n, _, _) | Call::Remove(n, _) | Call::Get(n, _) | Call::At(n, _) => &[*n],
            Call::List(n, _, _) => &[*n],
            _ => return None,
        };
        if numbers.iter().any(|n| *n > 23) {
            return Some(5);
        }
        match call {
            Call::Put(_, s, _)
            | Call::Remove(_, s)
            | Call::Get(_, s)
            | Call::At(_, s)
            | Call::List(_, s, _)
                if s > 9_999 =>
            {
                return Some(6);
            }
            _ => {}
        }
        if let Call::Put(_, _, a) = call {
            if !(-9_000..=9_000).contains(&a) {
                return Some(7);
            }
        }
        if !matches!(call, Call::Create(_)) && self.map(numbers[0]).is_none() {
            return Some(8);
        }
        if let Call::Create(n) | Call::Clone(_, n) = call {
            if self.map(n).is_some() {
                return Some(9);
            }
        }
        None
    }

    fn done(&mut self, call: Call) -> Answer {
        if let Call::Create(_) | Call::Put(..) | Call::Remove(..) = call {
            self.room.written += NEEDED;
        }
        match call {
            Call::Create(n) => {
                self.working[n as usize] = Some(Map::new());
                Answer::Ok
            }
            Call::Clone(n, m) => {
                self.working[m as usize] = self.working[n as usize].clone();
                Answer::Ok
            }
            Call::Delete(n) => {
                self.working[n as usize] = None;
                Answer::Ok
            }
            Call::Put(n, s, a) => {
                self.working[n as usize].as_mut().unwrap().insert(s, a);
                Answer::Ok
            }
            Call::Remove(n, s) => {
                let angle = self.working[n as usize].as_mut().unwrap().remove(&s);
                Answer::Angle(angle.unwrap())
            }
            Call::Get(n, s) => match self.map(n).unwrap().get(&s) {
                None => Answer::None,
                Some(a) => Answer::Angle(*a),
            },
            Call::At(n, s) => match angle_at(self.map(n).unwrap(), s) {
                None => Answer::None,
                Some(a) => Answer::Angle(a),
            },
            Call::List(n, s, k) => {
                let rows = self.map(n).unwrap().range(s..);
                Answer::Rows(rows.map(|(s, a)| (*s, *a)).take(k as usize).collect())
            }
            Call::Count(n) => Answer::Count(self.map(n).unwrap().len()),
            Call::Span(n) => {
                let angles = self.map(n).unwrap().values();
                match (angles.clone().min(), angles.max()) {
                    (Some(a), Some(b)) => Answer::Span(*a, *b),
                    _ => Answer::None,
                }
            }
            Call::Sum(n) => {
                let angles = self.map(n).unwrap().values();
                Answer::Sum(angles.fold(0, |sum: i32, a| sum.wrapping_add(*a)))
            }
            Call::Seal if self.generation == LAST => refused(12),
            Call::Seal => {
                self.mode = Mode::Sealed;
                Answer::Ok
            }
            _ => unreachable!(),
        }
    }
}

// May a call be refused so? Which layer is worn is the pile's: only the log of a mirror ever is.
fn may_come(call: Call, text: &str) -> bool {
    match call {
        Call::Create(n) | Call::Put(n, _, _) | Call::Remove(n, _) => {
            text == "refused 10" || text == format!("refused 11 clone {n} layer 2 depth 2")
        }
        Call::Seal => text == "refused 11 layer 2 depth 2",
        _ => false,
    }
}
