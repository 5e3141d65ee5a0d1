//! The world of a schedule: a server, a node, and all frames between them.

use crate::core::{Answer, Core, Numbers, Refusal};
use crate::layout::{self, Addr, Value, EVERYONE};
use crate::node::Node;
use crate::server::Server;

/// How many frames may have been sent before an event.
const FRAMES: usize = 199_744;

#[derive(Clone, Copy, Debug, PartialEq, Eq)]
pub enum Side {
    Server,
    Node,
}

#[derive(Debug)]
pub struct Frame {
    pub by: Side,
    pub to: Addr,
    pub circuit: Option<usize>,
    pub numbers: Option<Numbers>,
    begin: usize,
    end: usize,
}

#[derive(Debug, PartialEq, Eq)]
pub enum Fault {
    Frames,
    Backward { to: u64, last: u64 },
    OwnAddress,
    NoFrame { index: u64, sent: usize },
    OldNumber { number: u64, newest: u64 },
    OldAcknowledgement { number: u64, newest: u64 },
}

#[derive(Debug)]
pub enum Note {
    Bad(layout::Bad),
    Broke(u8),
    Refused(Refusal),
}

#[derive(Debug)]
pub enum Local<'a> {
    Connect(u8, &'a [u8]),
    Put(u8, &'a [u8]),
    Set(u8, [u8; 5]),
    Take(u8, u16),
    Attend(u8, u8),
    Close(u8),
    Time(u64),
    Request(u16, &'a [u8]),
    Cancel(u16),
    Announce,
    Halt,
    Avoid(u8),
    Ready(u8, bool),
}

#[derive(Debug)]
pub struct World {
    pub server: Server,
    pub node: Node,
    pub frames: Vec<Frame>,
    payloads: Vec<u8>,
    pub notes: Vec<(u32, Note)>,
    pub events: u32,
    moment: u64,
    /// By line session of the server: the place of the node's session that answered it.
    pub mates: Vec<Option<usize>>,
    /// By place of a server's session: its number among the line sessions.
    rows: Vec<usize>,
}

impl World {
    pub fn new(server: Server, node: Node) -> Self {
        World {
            server,
            node,
            frames: Vec::new(),
            payloads: Vec::new(),
            notes: Vec::new(),
            events: 0,
            moment: 0,
            mates: Vec::new(),
            rows: Vec::new(),
        }
    }

    pub fn core(&self, side: Side) -> &Core {
        match side {
            Side::Server => &self.server.core,
            Side::Node => &self.node.core,
        }
    }

    fn check_room(&self) -> Result<(), Fault> {
        if self.frames.len() > FRAMES {
            Err(Fault::Frames)
        } else {
            Ok(())
        }
    }

    /// Behind each event of a side: its frames are kept, its answer is noted, its new sessions are matched.
    fn behind(&mut self, side: Side, answer: Answer) -> Answer {
        let core = match side {
            Side::Server => {
                self.server.follow();
                &mut self.server.core
            }
            Side::Node => {
                self.node.follow();
                &mut self.node.core
            }
        };
        for frame in core.out.drain(..) {
            let begin = self.payloads.len();
            self.payloads.extend_from_slice(&frame.payload);
            self.frames.push(Frame {
                by: side,
                to: frame.to,
                circuit: frame.circuit,
                numbers: frame.numbers,
                begin,
                end: self.payloads.len(),
            });
        }
        self.match_sessions(side);
        self.events += 1;
        let note = match answer {
            Answer::Bad(bad) => Note::Bad(bad),
            Answer::Broke(reason) => Note::Broke(reason),
            Answer::Refused(refusal) => Note::Refused(refusal),
            _ => return answer,
        };
        self.notes.push((self.events, note));
        answer
    }

    fn match_sessions(&mut self, side: Side) {
        match side {
            Side::Server => {
                let core = &self.server.core;
                while self.mates.len() < core.seated.len() {
                    let place = core.seated[self.mates.len()];
                    self.rows.resize(core.sessions.len(), usize::MAX);
                    self.rows[place] = self.mates.len();
                    self.mates.push(None);
                }
            }
            Side::Node => {
                let core = &self.node.core;
                // The sessions accepted in this event stand last, and none of them has a mate yet.
                for &place in core
                    .seated
                    .iter()
                    .rev()
                    .take_while(|&&place| core.sessions[place].start_due)
                {
                    let session = &core.sessions[place];
                    let circuit = &core.circuits[session.circuit];
                    if circuit.to != self.server.core.own {
                        continue;
                    }
                    if let Some(row) = row_of(
                        &self.server.core,
                        &self.rows,
                        core.own,
                        circuit.peer,
                        session.peer,
                    ) {
                        if self.mates[row].is_none() {
                            self.mates[row] = Some(place);
                        }
                    }
                }
            }
        }
    }

    pub fn local(&mut self, side: Side, event: &Local) -> Result<Answer, Fault> {
        self.check_room()?;
        if let Local::Time(now) = *event {
            if now < self.moment {
                return Err(Fault::Backward {
                    to: now,
                    last: self.moment,
                });
            }
            self.moment = now;
        }
        let answer = match side {
            Side::Server => self.at_server(event),
            Side::Node => self.at_node(event),
        };
        Ok(self.behind(side, answer))
    }

    fn at_server(&mut self, event: &Local) -> Answer {
        let server = &mut self.server;
        match *event {
            Local::Connect(line, service) => server.connect(line, service),
            Local::Put(line, bytes) => server.core.put(line, bytes),
            Local::Set(line, setting) => server.core.set(line, setting),
            Local::Take(line, most) => server.core.take(line, most),
            Local::Attend(line, flag) => server.core.attend(line, flag),
            Local::Close(line) => server.core.close(line),
            Local::Time(now) => server.time(now),
            Local::Avoid(line) => server.avoid(line),
            Local::Ready(line, ready) => server.set_ready(line, ready),
            Local::Halt => {
                server.core.halt();
                Answer::Done
            }
            Local::Request(..) | Local::Cancel(_) | Local::Announce => Answer::NotHere,
        }
    }

    fn at_node(&mut self, event: &Local) -> Answer {
        let to = self.server.core.own;
        let node = &mut self.node;
        match *event {
            Local::Put(line, bytes) => node.core.put(line, bytes),
            Local::Set(line, setting) => node.core.set(line, setting),
            Local::Take(line, most) => node.core.take(line, most),
            Local::Attend(line, flag) => node.core.attend(line, flag),
            Local::Close(line) => node.core.close(line),
            Local::Time(now) => {
                node.core.time(now);
                Answer::Done
            }
            Local::Request(id, service) => node.request(to, id, service),
            Local::Cancel(id) => node.cancel(id),
            Local::Announce => node.announce(),
            Local::Halt => node.halt(),
            Local::Connect(..) | Local::Avoid(_) | Local::Ready(..) => Answer::NotHere,
        }
    }

    fn hear(&mut self, side: Side, from: Addr, payload: &[u8]) -> Answer {
        let (server, node, now) = (&mut self.server, &mut self.node, self.moment);
        let core = match side {
            Side::Server => &mut server.core,
            Side::Node => &mut node.core,
        };
        core.now = core.now.max(now);
        let value = match layout::read(payload) {
            Ok(value) => value,
            Err(bad) => return Answer::Bad(bad),
        };
        if from == EVERYONE {
            return Answer::Done;
        }
        match side {
            Side::Server => server.hear(from, &value),
            Side::Node => node.hear(from, &value, || master_name(payload)),
        }
    }

    /// Whether a frame is for the other end.
    pub fn is_for_other(&self, frame: &Frame) -> bool {
        frame.to == EVERYONE || frame.to == self.core(other(frame.by)).own
    }

    pub fn deliver(&mut self, index: u64) -> Result<(), Fault> {
        self.check_room()?;
        let sent = self.frames.len();
        let Some(frame) = usize::try_from(index)
            .ok()
            .and_then(|index| self.frames.get(index))
        else {
            return Err(Fault::NoFrame { index, sent });
        };
        if !self.is_for_other(frame) {
            self.events += 1;
            return Ok(());
        }
        self.check_young(frame)?;
        let (by, from) = (frame.by, self.core(frame.by).own);
        // The payload is lent to the end that hears it.
        let payloads = std::mem::take(&mut self.payloads);
        let (begin, end) = (
            self.frames[index as usize].begin,
            self.frames[index as usize].end,
        );
        let answer = self.hear(other(by), from, &payloads[begin..end]);
        self.payloads = payloads;
        self.behind(other(by), answer);
        Ok(())
    }

    fn check_young(&self, frame: &Frame) -> Result<(), Fault> {
        let (Some(circuit), Some(numbers)) = (frame.circuit, frame.numbers) else {
            return Ok(());
        };
        let (sender, hearer) = (self.core(frame.by), self.core(other(frame.by)));
        let Ok(Value::Run(run)) = head_of(&self.payloads[frame.begin..frame.end]) else {
            return Ok(());
        };
        let Some(heard) = hearer.circuit_of_run(sender.own, &run) else {
            return Ok(());
        };
        let (own, half) = (&sender.circuits[circuit], heard.half());
        if numbers.number + half <= own.sent {
            return Err(Fault::OldNumber {
                number: numbers.number,
                newest: own.sent,
            });
        }
        if numbers.acknowledgement + half <= own.shown {
            return Err(Fault::OldAcknowledgement {
                number: numbers.acknowledgement,
                newest: own.shown,
            });
        }
        Ok(())
    }

    pub fn inject(&mut self, side: Side, from: Addr, payload: &[u8]) -> Result<Answer, Fault> {
        self.check_room()?;
        if from == self.server.core.own || from == self.node.core.own {
            return Err(Fault::OwnAddress);
        }
        let answer = self.hear(side, from, payload);
        Ok(self.behind(side, answer))
    }
}

pub fn other(side: Side) -> Side {
    match side {
        Side::Server => Side::Node,
        Side::Node => Side::Server,
    }
}

/// A RUN without its slots.
fn head_of(payload: &[u8]) -> Result<Value<'_>, layout::Bad> {
    let word = |at: usize| u16::from_le_bytes([payload[at], payload[at + 1]]);
    Ok(Value::Run(layout::Run {
        wide: payload[0] >> 2 == 4,
        master: payload[0] & 2 != 0,
        ask: payload[0] & 1 != 0,
        to: word(2),
        from: word(4),
        sequence: 0,
        acknowledgement: 0,
        slots: Vec::new(),
    }))
}

/// The server's name in a START.
fn master_name(payload: &[u8]) -> Vec<u8> {
    let begin = 21 + usize::from(payload[20]);
    payload[begin + 1..begin + 1 + usize::from(payload[begin])].to_vec()
}

/// The newest line session of the server on its circuit of this id to this station, under this id.
fn row_of(server: &Core, rows: &[usize], node: Addr, circuit: u16, session: u8) -> Option<usize> {
    let at = server
        .circuits
        .iter()
        .position(|c| c.id == circuit && c.to == node)?;
    let place = server.circuits[at].newest_of(session)?;
    rows.get(place).copied().filter(|&row| row != usize::MAX)
}
