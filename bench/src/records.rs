//! The bytes of requests and answers.

/// The longest input that is read.
pub const INPUT_LIMIT: usize = 60_000;

#[derive(Clone, Copy, Debug, PartialEq, Eq)]
pub enum Request {
    Begin,
    Read { t: u16, item: u16 },
    Write { t: u16, item: u16, value: i32 },
    Commit { t: u16 },
    Abort { t: u16 },
    Retry { t: u16 },
}

#[derive(Clone, Copy, Debug, PartialEq, Eq)]
pub enum Answer {
    Opened { t: u16 },
    Value { t: u16, item: u16, value: i32 },
    Written { t: u16, item: u16 },
    Committed { t: u16 },
    Aborted { t: u16 },
    Wait { t: u16, blocker: u16 },
    Deadlock { t: u16 },
}

#[derive(Clone, Copy, Debug, PartialEq, Eq)]
pub enum Refusal {
    UnknownKind = 1,
    CutShort = 2,
    InputTooLong = 3,
    NotOpen = 4,
    Waiting = 5,
    NotWaiting = 6,
    NoSuchItem = 7,
    TooManyOpen = 8,
    NumbersSpent = 9,
    LockListFull = 10,
    NoRoom = 11,
}

impl Request {
    /// The request at the start of `input`, and what is behind it.
    pub fn read(input: &[u8]) -> Result<(Request, &[u8]), Refusal> {
        let short = |high, low| u16::from_be_bytes([high, low]);
        Ok(match *input {
            [1, ref rest @ ..] => (Request::Begin, rest),
            [2, a, b, c, d, ref rest @ ..] => {
                let (t, item) = (short(a, b), short(c, d));
                (Request::Read { t, item }, rest)
            }
            [3, a, b, c, d, e, f, g, h, ref rest @ ..] => {
                let (t, item) = (short(a, b), short(c, d));
                let value = i32::from_be_bytes([e, f, g, h]);
                (Request::Write { t, item, value }, rest)
            }
            [4, a, b, ref rest @ ..] => (Request::Commit { t: short(a, b) }, rest),
            [5, a, b, ref rest @ ..] => (Request::Abort { t: short(a, b) }, rest),
            [6, a, b, ref rest @ ..] => (Request::Retry { t: short(a, b) }, rest),
            [] | [2..=6, ..] => return Err(Refusal::CutShort),
            _ => return Err(Refusal::UnknownKind),
        })
    }

    pub fn write(self, out: &mut Vec<u8>) {
        match self {
            Request::Begin => out.push(1),
            Request::Read { t, item } => put_two(out, 2, t, item),
            Request::Write { t, item, value } => put_value(out, 3, t, item, value),
            Request::Commit { t } => put_one(out, 4, t),
            Request::Abort { t } => put_one(out, 5, t),
            Request::Retry { t } => put_one(out, 6, t),
        }
    }
}

impl Answer {
    pub fn write(self, out: &mut Vec<u8>) {
        match self {
            Answer::Opened { t } => put_one(out, 17, t),
            Answer::Value { t, item, value } => put_value(out, 18, t, item, value),
            Answer::Written { t, item } => put_two(out, 19, t, item),
            Answer::Committed { t } => put_one(out, 20, t),
            Answer::Aborted { t } => put_one(out, 21, t),
            Answer::Wait { t, blocker } => put_two(out, 22, t, blocker),
            Answer::Deadlock { t } => put_one(out, 23, t),
        }
    }
}

impl Refusal {
    fn layer(self) -> u8 {
        match self {
            Refusal::UnknownKind | Refusal::CutShort | Refusal::InputTooLong => 1,
            Refusal::NoRoom => 3,
            _ => 2,
        }
    }

    pub fn write(self, place: usize, out: &mut Vec<u8>) {
        let [p3, p2, p1, p0] = (place as u32).to_be_bytes();
        out.extend_from_slice(&[24, self.layer(), self as u8, p3, p2, p1, p0]);
    }
}

pub fn write_open(t: u16, waiting: bool, out: &mut Vec<u8>) {
    let [t1, t0] = t.to_be_bytes();
    out.extend_from_slice(&[25, t1, t0, u8::from(waiting)]);
}

pub fn write_committed_value(item: u16, value: i32, out: &mut Vec<u8>) {
    let [i1, i0] = item.to_be_bytes();
    let [v3, v2, v1, v0] = value.to_be_bytes();
    out.extend_from_slice(&[26, i1, i0, v3, v2, v1, v0]);
}

fn put_one(out: &mut Vec<u8>, kind: u8, a: u16) {
    let [a1, a0] = a.to_be_bytes();
    out.extend_from_slice(&[kind, a1, a0]);
}

fn put_two(out: &mut Vec<u8>, kind: u8, a: u16, b: u16) {
    let [a1, a0] = a.to_be_bytes();
    let [b1, b0] = b.to_be_bytes();
    out.extend_from_slice(&[kind, a1, a0, b1, b0]);
}

fn put_value(out: &mut Vec<u8>, kind: u8, t: u16, item: u16, value: i32) {
    let [t1, t0] = t.to_be_bytes();
    let [i1, i0] = item.to_be_bytes();
    let [v3, v2, v1, v0] = value.to_be_bytes();
    out.extend_from_slice(&[kind, t1, t0, i1, i0, v3, v2, v1, v0]);
}
