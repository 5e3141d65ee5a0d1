//! The layouts of docs/FRAMES.md: a payload is read as a value, or refused by its first bad field.

pub type Addr = [u8; 6];

/// The address that every station hears.
pub const EVERYONE: Addr = [0x09, 0x00, 0x2b, 0x00, 0x00, 0x0f];

/// The most bytes of a payload.
pub const MOST: usize = 1500;

/// The fewest bytes of a payload that is written.
const LEAST: usize = 46;

/// The first bad field of a payload, and its place.
#[derive(Clone, Copy, Debug, PartialEq, Eq)]
pub struct Bad {
    pub field: &'static str,
    pub at: usize,
}

type Read<T> = Result<T, Bad>;

fn bad<T>(field: &'static str, at: usize) -> Read<T> {
    Err(Bad { field, at })
}

#[derive(Clone, Copy, Debug)]
pub enum Body<'a> {
    Start {
        credits: u8,
        size: u8,
        service: &'a [u8],
        request: Option<u16>,
    },
    Data {
        credits: u8,
        bytes: &'a [u8],
    },
    Setting {
        credits: u8,
        setting: [u8; 5],
    },
    Attention,
    Reject {
        reason: u8,
    },
    Stop,
}

#[derive(Clone, Copy, Debug)]
pub struct Slot<'a> {
    pub to: u8,
    pub from: u8,
    pub body: Body<'a>,
}

#[derive(Debug)]
pub struct Run<'a> {
    pub wide: bool,
    pub master: bool,
    pub ask: bool,
    pub to: u16,
    pub from: u16,
    pub sequence: u16,
    pub acknowledgement: u16,
    pub slots: Vec<Slot<'a>>,
}

#[derive(Debug)]
pub struct Start {
    pub master: bool,
    pub to: u16,
    pub from: u16,
    pub size: u16,
    pub sessions: u8,
    pub extra: u8,
    pub timer: u8,
    pub keepalive: u8,
    pub wide: bool,
}

#[derive(Debug)]
pub struct Announcement<'a> {
    pub timer: u8,
    pub groups: &'a [u8],
    pub node: &'a [u8],
    pub services: Vec<(u8, &'a [u8])>,
}

#[derive(Debug)]
pub struct Command<'a> {
    pub incarnation: u16,
    pub id: u16,
    pub asks: bool,
    pub node: &'a [u8],
    pub service: &'a [u8],
}

#[derive(Debug)]
pub enum Value<'a> {
    Run(Run<'a>),
    Start(Start),
    Stop { to: u16, from: u16, reason: u8 },
    Announcement(Announcement<'a>),
    Command(Command<'a>),
    Status,
    Solicit { id: u16, service: &'a [u8] },
    Response,
}

struct Reader<'a> {
    bytes: &'a [u8],
    at: usize,
    end: usize,
}

impl<'a> Reader<'a> {
    fn byte(&mut self, field: &'static str, good: impl Fn(u8) -> bool) -> Read<u8> {
        if self.at < self.end && good(self.bytes[self.at]) {
            self.at += 1;
            Ok(self.bytes[self.at - 1])
        } else {
            bad(field, self.at)
        }
    }

    fn word(&mut self, field: &'static str, good: impl Fn(u16) -> bool) -> Read<u16> {
        if self.at + 2 <= self.end {
            let word = u16::from_le_bytes([self.bytes[self.at], self.bytes[self.at + 1]]);
            if good(word) {
                self.at += 2;
                return Ok(word);
            }
        }
        bad(field, self.at)
    }

    fn text(&mut self, field: &'static str, good: impl Fn(&[u8]) -> bool) -> Read<&'a [u8]> {
        if self.at < self.end {
            let begin = self.at + 1;
            let behind = begin + usize::from(self.bytes[self.at]);
            if behind <= self.end && good(&self.bytes[begin..behind]) {
                self.at = behind;
                return Ok(&self.bytes[begin..behind]);
            }
        }
        bad(field, self.at)
    }

    fn name(&mut self, field: &'static str) -> Read<&'a [u8]> {
        self.text(field, is_name)
    }

    fn parameters(&mut self, mut each: impl FnMut(u8, &'a [u8])) -> Read<()> {
        loop {
            if self.at >= self.end {
                return bad("parameters", self.at);
            }
            let code = self.bytes[self.at];
            if code == 0 {
                self.at += 1;
                return Ok(());
            }
            let begin = self.at + 2;
            if begin > self.end {
                return bad("parameters", self.at);
            }
            let behind = begin + usize::from(self.bytes[self.at + 1]);
            if behind > self.end {
                return bad("parameters", self.at);
            }
            each(code, &self.bytes[begin..behind]);
            self.at = behind;
        }
    }

    fn slot(&mut self) -> Read<Slot<'a>> {
        let p = self.at;
        if p + 4 > self.end || !matches!(self.bytes[p + 3] >> 4, 0 | 9..=13) {
            return bad("slot-type", p + 3);
        }
        let (to, from, count) = (self.bytes[p], self.bytes[p + 1], self.bytes[p + 2]);
        let (kind, low) = (self.bytes[p + 3] >> 4, self.bytes[p + 3] & 15);
        if to == 0 && kind != 9 {
            return bad("destination-slot", p);
        }
        if from == 0 && !matches!(kind, 12 | 13) {
            return bad("source-slot", p + 1);
        }
        let right = match kind {
            10 => count == 5,
            11 => count == 1,
            12 | 13 => count == 0,
            _ => true,
        };
        let behind = p + 4 + usize::from(count);
        if !right || behind > self.end {
            return bad("byte-count", p + 2);
        }
        let bytes = &self.bytes[p + 4..behind];
        let body = match kind {
            0 => Body::Data {
                credits: low,
                bytes,
            },
            9 => Reader {
                bytes: self.bytes,
                at: p + 4,
                end: behind,
            }
            .start_body(low)?,
            10 => Body::Setting {
                credits: low,
                setting: [bytes[0], bytes[1], bytes[2], bytes[3], bytes[4]],
            },
            11 => Body::Attention,
            12 => Body::Reject { reason: low },
            _ => Body::Stop,
        };
        self.at = behind;
        if count % 2 == 1 {
            self.byte("slot-pad", |_| true)?;
        }
        Ok(Slot { to, from, body })
    }

    fn start_body(mut self, credits: u8) -> Read<Body<'a>> {
        self.byte("service-class", |b| b == 1)?;
        self.byte("attention-size", |_| true)?;
        let size = self.byte("data-size", |b| b != 0)?;
        let service = self.name("service")?;
        self.text("subject", |_| true)?;
        let mut request = None;
        self.parameters(|code, value| {
            if code == 5 && request.is_none() {
                if let &[low, high] = value {
                    request = Some(u16::from_le_bytes([low, high]));
                }
            }
        })?;
        if self.at != self.end {
            return bad("slot-end", self.at);
        }
        Ok(Body::Start {
            credits,
            size,
            service,
            request,
        })
    }

    fn run(&mut self, wide: bool, master: bool, ask: bool) -> Read<Value<'a>> {
        let count = self.byte("slot-count", |_| true)?;
        let to = self.word("destination-circuit", |w| w != 0)?;
        let from = self.word("source-circuit", |w| w != 0)?;
        let mut number = |field| {
            if wide {
                self.word(field, |_| true)
            } else {
                self.byte(field, |_| true).map(u16::from)
            }
        };
        let sequence = number("sequence")?;
        let acknowledgement = number("acknowledgement")?;
        let mut slots = Vec::with_capacity(usize::from(count));
        for _ in 0..count {
            slots.push(self.slot()?);
        }
        Ok(Value::Run(Run {
            wide,
            master,
            ask,
            to,
            from,
            sequence,
            acknowledgement,
            slots,
        }))
    }

    fn start(&mut self, master: bool) -> Read<Value<'a>> {
        self.byte("slot-count", |_| true)?;
        let to = self.word("destination-circuit", |w| (w == 0) == master)?;
        let from = self.word("source-circuit", |w| w != 0)?;
        self.byte("sequence", |_| true)?;
        self.byte("acknowledgement", |_| true)?;
        let size = self.word("frame-size", |w| (576..=1518).contains(&w))?;
        self.byte("version", |b| b == 5)?;
        self.byte("eco", |_| true)?;
        let sessions = self.byte("sessions", |b| b != 0)?;
        let extra = self.byte("extra", |_| true)?;
        let timer = self.byte("timer", |b| !master || (1..=100).contains(&b))?;
        let keepalive = self.byte("keep-alive", |b| !master || b != 0)?;
        self.word("facility", |_| true)?;
        self.byte("product-type", |_| true)?;
        self.byte("product-version", |_| true)?;
        self.name("slave-name")?;
        self.name("master-name")?;
        self.text("location", |_| true)?;
        let mut span = None;
        self.parameters(|code, value| {
            if code == 200 && span.is_none() {
                span = Some(value == [2]);
            }
        })?;
        let wide = span == Some(true);
        Ok(Value::Start(Start {
            master,
            to,
            from,
            size,
            sessions,
            extra,
            timer,
            keepalive,
            wide,
        }))
    }

    fn stop(&mut self) -> Read<Value<'a>> {
        self.byte("slot-count", |_| true)?;
        let to = self.word("destination-circuit", |w| w != 0)?;
        let from = self.word("source-circuit", |_| true)?;
        self.byte("sequence", |_| true)?;
        self.byte("acknowledgement", |_| true)?;
        let reason = self.byte("reason", |_| true)?;
        self.text("text", |_| true)?;
        Ok(Value::Stop { to, from, reason })
    }

    fn announcement(&mut self) -> Read<Value<'a>> {
        let timer = self.byte("timer", |b| b != 0)?;
        self.byte("version", |b| b == 5)?;
        self.word("incarnation", |_| true)?;
        let groups = self.text("groups", |t| t.len() <= 32)?;
        let node = self.name("node-name")?;
        self.text("description", |_| true)?;
        let count = self.byte("service-count", |_| true)?;
        let mut services = Vec::with_capacity(usize::from(count));
        for _ in 0..count {
            let rating = self.byte("rating", |_| true)?;
            let service = self.name("service")?;
            self.text("service-description", |_| true)?;
            services.push((rating, service));
        }
        Ok(Value::Announcement(Announcement {
            timer,
            groups,
            node,
            services,
        }))
    }

    fn command(&mut self) -> Read<Value<'a>> {
        self.byte("version", |b| b == 5)?;
        let incarnation = self.word("incarnation", |_| true)?;
        let id = self.word("request-id", |_| true)?;
        let asks = self.byte("action", |b| matches!(b, 1 | 2))? == 1;
        let node = self.name("node-name")?;
        let service = self.name("service")?;
        Ok(Value::Command(Command {
            incarnation,
            id,
            asks,
            node,
            service,
        }))
    }

    fn status(&mut self) -> Read<Value<'a>> {
        self.byte("version", |b| b == 5)?;
        self.word("incarnation", |_| true)?;
        self.word("request-id", |_| true)?;
        let outcome = self.byte("outcome", |b| (1..=8).contains(&b))?;
        self.word("place", |w| (w != 0) == (outcome == 1))?;
        self.name("node-name")?;
        Ok(Value::Status)
    }

    fn solicit(&mut self) -> Read<Value<'a>> {
        self.byte("version", |b| b == 5)?;
        let id = self.word("solicit-id", |_| true)?;
        self.name("node-name")?;
        let service = self.name("service")?;
        Ok(Value::Solicit { id, service })
    }

    fn response(&mut self) -> Read<Value<'a>> {
        self.byte("version", |b| b == 5)?;
        self.word("solicit-id", |_| true)?;
        self.name("node-name")?;
        self.name("service")?;
        self.byte("rating", |_| true)?;
        self.byte("timer", |b| b != 0)?;
        Ok(Value::Response)
    }
}

pub fn is_name(text: &[u8]) -> bool {
    (1..=16).contains(&text.len()) && text.iter().all(|b| matches!(b, 0x21..=0x7e | 0xa1..=0xfe))
}

pub fn read(payload: &[u8]) -> Read<Value<'_>> {
    let kind = payload.first().map(|b| b >> 2);
    if !matches!(kind, Some(0 | 1 | 2 | 4 | 10 | 12..=15)) {
        return bad("kind", 0);
    }
    if payload.len() > MOST {
        return bad("size", MOST);
    }
    let (master, ask) = (payload[0] & 2 != 0, payload[0] & 1 != 0);
    let mut reader = Reader {
        bytes: payload,
        at: 1,
        end: payload.len(),
    };
    let value = match kind {
        Some(0) => reader.run(false, master, ask),
        Some(4) => reader.run(true, master, ask),
        Some(1) => reader.start(master),
        Some(2) => reader.stop(),
        Some(10) => reader.announcement(),
        Some(12) => reader.command(),
        Some(13) => reader.status(),
        Some(14) => reader.solicit(),
        _ => reader.response(),
    }?;
    if reader.at < payload.len() && payload.len() > LEAST {
        return bad("trailing", reader.at);
    }
    Ok(value)
}

// Writing.

pub fn pad(mut payload: Vec<u8>) -> Vec<u8> {
    if payload.len() < LEAST {
        payload.resize(LEAST, 0);
    }
    payload
}

pub fn put_text(payload: &mut Vec<u8>, text: &[u8]) {
    payload.push(text.len() as u8);
    payload.extend_from_slice(text);
}

pub fn put_word(payload: &mut Vec<u8>, word: u16) {
    payload.extend_from_slice(&word.to_le_bytes());
}

/// The length of a slot with a body of so many bytes, its pad counted.
pub fn slot_len(body: usize) -> usize {
    4 + body + body % 2
}

pub fn put_slot(payload: &mut Vec<u8>, to: u8, from: u8, kind: u8, low: u8, body: &[u8]) {
    payload.extend_from_slice(&[to, from, body.len() as u8, kind << 4 | low]);
    payload.extend_from_slice(body);
    if body.len() % 2 == 1 {
        payload.push(0);
    }
}

pub fn fold(name: &[u8]) -> Vec<u8> {
    name.to_ascii_uppercase()
}

pub fn same(a: &[u8], b: &[u8]) -> bool {
    a.eq_ignore_ascii_case(b)
}
