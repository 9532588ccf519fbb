//! Requests and answers, and their bytes.

/// The longest request file that is read.
pub const INPUT_LIMIT: usize = 60_000;

#[derive(Clone, Copy, Debug, PartialEq, Eq)]
pub enum Request {
    Begin,
    Read { t: u16, item: u16 },
    Write { t: u16, item: u16, value: i32 },
    Commit { t: u16 },
    Abort { t: u16 },
    Retry { t: u16 },
}

#[derive(Clone, Copy, Debug, PartialEq, Eq, PartialOrd, Ord)]
pub enum Answer {
    Opened { t: u16 },
    Value { t: u16, item: u16, value: i32 },
    Written { t: u16, item: u16 },
    Committed { t: u16 },
    Aborted { t: u16 },
    Wait { t: u16, blocker: u16 },
    Deadlock { t: u16 },
    Refused { layer: u8, number: u8, place: u32 },
    StillOpen { t: u16, waiting: bool },
    Holds { item: u16, value: i32 },
}

#[derive(Clone, Copy, Debug, PartialEq, Eq)]
pub enum Refusal {
    UnknownKind,
    CutShort,
    InputTooLong,
    NotOpen,
    Waiting,
    NotWaiting,
    NoSuchItem,
    TooManyOpen,
    NumbersSpent,
    LockListFull,
    NoRoom,
}

impl Refusal {
    pub fn number(self) -> u8 {
        match self {
            Refusal::UnknownKind => 1,
            Refusal::CutShort => 2,
            Refusal::InputTooLong => 3,
            Refusal::NotOpen => 4,
            Refusal::Waiting => 5,
            Refusal::NotWaiting => 6,
            Refusal::NoSuchItem => 7,
            Refusal::TooManyOpen => 8,
            Refusal::NumbersSpent => 9,
            Refusal::LockListFull => 10,
            Refusal::NoRoom => 11,
        }
    }

    pub fn layer(self) -> u8 {
        match self {
            Refusal::UnknownKind | Refusal::CutShort | Refusal::InputTooLong => 1,
            Refusal::NoRoom => 3,
            _ => 2,
        }
    }

    pub fn at(self, place: usize) -> Answer {
        Answer::Refused {
            layer: self.layer(),
            number: self.number(),
            place: place as u32,
        }
    }
}

/// The body behind a kind byte, taken from the front.
struct Body<'a>(&'a [u8]);

impl Body<'_> {
    fn bytes<const N: usize>(&mut self) -> Result<[u8; N], Refusal> {
        let (head, rest) = self.0.split_first_chunk().ok_or(Refusal::CutShort)?;
        self.0 = rest;
        Ok(*head)
    }

    fn byte(&mut self) -> Result<u8, Refusal> {
        self.bytes::<1>().map(|[byte]| byte)
    }

    fn short(&mut self) -> Result<u16, Refusal> {
        self.bytes().map(u16::from_be_bytes)
    }

    fn place(&mut self) -> Result<u32, Refusal> {
        self.bytes().map(u32::from_be_bytes)
    }

    fn value(&mut self) -> Result<i32, Refusal> {
        self.bytes().map(i32::from_be_bytes)
    }
}

impl Request {
    /// The request at the start of `input`, and how many bytes it takes.
    pub fn read(input: &[u8]) -> Result<(Request, usize), Refusal> {
        let (kind, rest) = input.split_first().ok_or(Refusal::CutShort)?;
        let mut body = Body(rest);
        let request = match kind {
            1 => Request::Begin,
            2 => Request::Read {
                t: body.short()?,
                item: body.short()?,
            },
            3 => Request::Write {
                t: body.short()?,
                item: body.short()?,
                value: body.value()?,
            },
            4 => Request::Commit { t: body.short()? },
            5 => Request::Abort { t: body.short()? },
            6 => Request::Retry { t: body.short()? },
            _ => return Err(Refusal::UnknownKind),
        };
        Ok((request, input.len() - body.0.len()))
    }

    pub fn write(self, out: &mut Vec<u8>) {
        match self {
            Request::Begin => out.push(1),
            Request::Read { t, item } => {
                put_shorts(out, 2, &[t, item]);
            }
            Request::Write { t, item, value } => {
                put_shorts(out, 3, &[t, item]);
                out.extend(value.to_be_bytes());
            }
            Request::Commit { t } => put_shorts(out, 4, &[t]),
            Request::Abort { t } => put_shorts(out, 5, &[t]),
            Request::Retry { t } => put_shorts(out, 6, &[t]),
        }
    }
}

impl Answer {
    /// The answer at the start of `input`, and how many bytes it takes.
    pub fn read(input: &[u8]) -> Result<(Answer, usize), Refusal> {
        let (kind, rest) = input.split_first().ok_or(Refusal::CutShort)?;
        let mut body = Body(rest);
        let answer = match kind {
            17 => Answer::Opened { t: body.short()? },
            18 => Answer::Value {
                t: body.short()?,
                item: body.short()?,
                value: body.value()?,
            },
            19 => Answer::Written {
                t: body.short()?,
                item: body.short()?,
            },
            20 => Answer::Committed { t: body.short()? },
            21 => Answer::Aborted { t: body.short()? },
            22 => Answer::Wait {
                t: body.short()?,
                blocker: body.short()?,
            },
            23 => Answer::Deadlock { t: body.short()? },
            24 => Answer::Refused {
                layer: body.byte()?,
                number: body.byte()?,
                place: body.place()?,
            },
            25 => Answer::StillOpen {
                t: body.short()?,
                waiting: read_state(body.byte()?)?,
            },
            26 => Answer::Holds {
                item: body.short()?,
                value: body.value()?,
            },
            _ => return Err(Refusal::UnknownKind),
        };
        Ok((answer, input.len() - body.0.len()))
    }

    pub fn write(self, out: &mut Vec<u8>) {
        match self {
            Answer::Opened { t } => put_shorts(out, 17, &[t]),
            Answer::Value { t, item, value } => {
                put_shorts(out, 18, &[t, item]);
                out.extend(value.to_be_bytes());
            }
            Answer::Written { t, item } => put_shorts(out, 19, &[t, item]),
            Answer::Committed { t } => put_shorts(out, 20, &[t]),
            Answer::Aborted { t } => put_shorts(out, 21, &[t]),
            Answer::Wait { t, blocker } => put_shorts(out, 22, &[t, blocker]),
            Answer::Deadlock { t } => put_shorts(out, 23, &[t]),
            Answer::Refused {
                layer,
                number,
                place,
            } => {
                out.extend([24, layer, number]);
                out.extend(place.to_be_bytes());
            }
            Answer::StillOpen { t, waiting } => {
                put_shorts(out, 25, &[t]);
                out.push(u8::from(waiting));
            }
            Answer::Holds { item, value } => {
                put_shorts(out, 26, &[item]);
                out.extend(value.to_be_bytes());
            }
        }
    }

    pub fn to_bytes(self) -> Vec<u8> {
        let mut out = Vec::with_capacity(9);
        self.write(&mut out);
        out
    }
}

fn read_state(byte: u8) -> Result<bool, Refusal> {
    match byte {
        0 => Ok(false),
        1 => Ok(true),
        _ => Err(Refusal::UnknownKind),
    }
}

fn put_shorts(out: &mut Vec<u8>, kind: u8, shorts: &[u16]) {
    out.push(kind);
    out.extend(shorts.iter().flat_map(|short| short.to_be_bytes()));
}

/// A request file as it was read: its requests with their places, and the
/// refusal at which the reading stopped, if it did.
#[derive(Debug)]
pub struct RequestFile {
    pub requests: Vec<(usize, Request)>,
    pub stopped: Option<(usize, Refusal)>,
}

impl RequestFile {
    pub fn read(input: &[u8]) -> RequestFile {
        let mut requests = Vec::new();
        let mut place = 0;
        if input.len() > INPUT_LIMIT {
            let stopped = Some((0, Refusal::InputTooLong));
            return RequestFile { requests, stopped };
        }
        while place < input.len() {
            match Request::read(&input[place..]) {
                Ok((request, length)) => {
                    requests.push((place, request));
                    place += length;
                }
                Err(refusal) => {
                    let stopped = Some((place, refusal));
                    return RequestFile { requests, stopped };
                }
            }
        }
        RequestFile {
            requests,
            stopped: None,
        }
    }
}

/// The bytes of a row of requests.
pub fn request_bytes(requests: &[Request]) -> Vec<u8> {
    let mut out = Vec::new();
    requests.iter().for_each(|request| request.write(&mut out));
    out
}
