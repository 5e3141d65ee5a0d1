//! What a server and a node have in common: circuits, sessions, lines.

use crate::layout::{self, Addr, Body, Run, Slot, Start};
use crate::session::{Item, Session, SessionEnd, State, UNFRAMED};
use std::collections::VecDeque;

/// How many circuits live at most.
pub const CIRCUITS: usize = 8;

#[derive(Clone, Copy, Debug)]
pub struct Timing {
    pub timer: u8,
    pub keepalive: u8,
    pub sessions: u8,
    pub extra: u8,
    pub ceiling: u8,
    pub wide: bool,
}

/// The unbounded numbers of a frame of a circuit.
#[derive(Clone, Copy, Debug)]
pub struct Numbers {
    pub number: u64,
    pub acknowledgement: u64,
}

#[derive(Debug)]
pub struct OutFrame {
    pub to: Addr,
    /// The sender's circuit, by its place; a RUN has numbers.
    pub circuit: Option<usize>,
    pub numbers: Option<Numbers>,
    pub payload: Vec<u8>,
}

#[derive(Clone, Copy, Debug, PartialEq, Eq)]
pub enum Refusal {
    NoLine,
    Busy,
    NoService,
    SessionsFull,
    CircuitsFull,
    IdsOut,
    Closed,
    Full,
    IdUsed,
    DirectoryFull,
    StartRefused,
    RecordsFull,
    Halted,
}

#[derive(Clone, Copy, Debug, PartialEq, Eq)]
pub enum Answer {
    Done,
    Put(usize),
    Took(usize),
    Broke(u8),
    Bad(layout::Bad),
    Refused(Refusal),
    NotHere,
}

#[derive(Debug)]
struct Kept {
    payload: Vec<u8>,
    formed_at: u64,
}

#[derive(Debug)]
pub struct Circuit {
    pub master: bool,
    pub to: Addr,
    pub name: Vec<u8>,
    pub id: u16,
    pub peer: u16,
    pub running: bool,
    pub lives: bool,
    pub wide: bool,
    agreed: u8,
    window: u64,
    limit: usize,
    timer: u8,
    keepalive: u8,
    /// By id, from 1 on: the place of the newest session of this id.
    by_id: Vec<Option<usize>>,
    /// How many sessions aren't free.
    pub held: u8,
    served: u8,
    rejects: VecDeque<(u8, u8)>,
    /// The messages that aren't known to be taken.
    kept: VecDeque<Kept>,
    pub sent: u64,
    known: u64,
    got: u64,
    /// The greatest acknowledgement on its frames.
    pub shown: u64,
    rounds: u8,
    owed: bool,
    run_heard: bool,
    moment: u64,
    due_at: u64,
    acknowledged_at: u64,
    round_at: u64,
    heard_at: u64,
    idle_at: u64,
    sent_at: u64,
    start_at: u64,
}

impl Circuit {
    fn new(master: bool, to: Addr, name: &[u8], id: u16, timing: Timing, now: u64) -> Self {
        Circuit {
            master,
            to,
            name: name.to_vec(),
            id,
            peer: 0,
            running: !master,
            lives: true,
            wide: false,
            agreed: timing.sessions,
            window: 8,
            limit: layout::MOST,
            timer: timing.timer,
            keepalive: timing.keepalive,
            by_id: Vec::new(),
            held: 0,
            served: 0,
            rejects: VecDeque::new(),
            kept: VecDeque::new(),
            sent: 0,
            known: 0,
            got: 0,
            shown: 0,
            rounds: 0,
            owed: false,
            run_heard: false,
            moment: now,
            due_at: now,
            acknowledged_at: now,
            round_at: now,
            heard_at: now,
            idle_at: now,
            sent_at: now,
            start_at: now,
        }
    }

    /// Half the range of its numbers.
    pub fn half(&self) -> u64 {
        if self.wide {
            32_768
        } else {
            128
        }
    }

    fn agree(&mut self, timing: Timing, start: &Start) {
        self.agreed = timing.sessions.min(start.sessions);
        self.limit = layout::MOST.min(usize::from(start.size));
        self.window = 8.min(1 + u64::from(start.extra));
        self.wide = timing.wide && start.wide;
    }

    pub fn is_full(&self) -> bool {
        self.held >= self.agreed
    }

    fn free_id(&self, sessions: &[Session]) -> u8 {
        let free = self
            .by_id
            .iter()
            .position(|at| at.is_none_or(|at| sessions[at].is_free()));
        free.unwrap_or(self.by_id.len()) as u8 + 1
    }

    fn set_session(&mut self, id: u8, at: usize) {
        let place = usize::from(id) - 1;
        if place == self.by_id.len() {
            self.by_id.push(Some(at));
        } else {
            self.by_id[place] = Some(at);
        }
        self.held += 1;
    }

    fn session(&self, id: u8) -> Option<usize> {
        self.by_id
            .get(usize::from(id).wrapping_sub(1))
            .copied()
            .flatten()
    }

    /// The place of the newest session of this id.
    pub fn newest_of(&self, id: u8) -> Option<usize> {
        self.session(id)
    }

    /// The unbounded number that a field says, near a known one.
    fn near(&self, field: u16, known: u64) -> Option<u64> {
        let (half, known) = (self.half() as i64, known as i64);
        let number = known - half + (i64::from(field) - (known - half)).rem_euclid(2 * half);
        u64::try_from(number).ok()
    }

    fn begin_run(&self, ask: bool, slots: usize, number: u64) -> Vec<u8> {
        let kind = if self.wide { 16 } else { 0 };
        let mut payload = vec![
            kind | u8::from(self.master) << 1 | u8::from(ask),
            slots as u8,
        ];
        layout::put_word(&mut payload, self.peer);
        layout::put_word(&mut payload, self.id);
        if self.wide {
            layout::put_word(&mut payload, number as u16);
            layout::put_word(&mut payload, self.got as u16);
        } else {
            payload.extend_from_slice(&[number as u8, self.got as u8]);
        }
        payload
    }

    fn emit_run(&mut self, at: usize, mut payload: Vec<u8>, number: u64, out: &mut Vec<OutFrame>) {
        if self.wide {
            payload[8..10].copy_from_slice(&(self.got as u16).to_le_bytes());
        } else {
            payload[7] = self.got as u8;
        }
        self.shown = self.shown.max(self.got);
        let numbers = Some(Numbers {
            number,
            acknowledgement: self.got,
        });
        self.emit(at, layout::pad(payload), numbers, out);
    }

    fn emit(
        &mut self,
        at: usize,
        payload: Vec<u8>,
        numbers: Option<Numbers>,
        out: &mut Vec<OutFrame>,
    ) {
        self.owed = false;
        self.sent_at = self.moment;
        out.push(OutFrame {
            to: self.to,
            circuit: Some(at),
            numbers,
            payload,
        });
    }

    fn emit_bare(&mut self, at: usize, ask: bool, out: &mut Vec<OutFrame>) {
        let payload = self.begin_run(ask, 0, self.sent);
        self.emit_run(at, payload, self.sent, out);
    }

    fn emit_start(&mut self, at: usize, timing: Timing, own: &[u8], out: &mut Vec<OutFrame>) {
        let (to, timer, keepalive, wide) = if self.master {
            (0, timing.timer, timing.keepalive, timing.wide)
        } else {
            (self.peer, 0, 0, self.wide)
        };
        let (slave, server) = if self.master {
            (&self.name[..], own)
        } else {
            (own, &self.name[..])
        };
        let mut payload = vec![4 | u8::from(self.master) << 1, 0];
        layout::put_word(&mut payload, to);
        layout::put_word(&mut payload, self.id);
        payload.extend_from_slice(&[0, 0]);
        layout::put_word(&mut payload, layout::MOST as u16);
        payload.extend_from_slice(&[
            5,
            1,
            timing.sessions,
            timing.extra,
            timer,
            keepalive,
            0,
            0,
            0,
            0,
        ]);
        layout::put_text(&mut payload, slave);
        layout::put_text(&mut payload, server);
        layout::put_text(&mut payload, &[]);
        if wide {
            payload.extend_from_slice(&[200, 1, 2]);
        }
        payload.push(0);
        self.emit(at, layout::pad(payload), None, out);
    }
}

/// A STOP.
pub fn stop_payload(master: bool, to: u16, from: u16, reason: u8) -> Vec<u8> {
    let mut payload = vec![8 | u8::from(master) << 1, 0];
    layout::put_word(&mut payload, to);
    layout::put_word(&mut payload, from);
    payload.extend_from_slice(&[0, 0, reason, 0]);
    layout::pad(payload)
}

#[derive(Debug)]
pub struct Core {
    pub server: bool,
    pub own: Addr,
    pub name: Vec<u8>,
    pub timing: Timing,
    pub prompt: bool,
    pub halted: bool,
    pub now: u64,
    first: u16,
    drawn: u16,
    pub circuits: Vec<Circuit>,
    /// The places of those that live, by rising id.
    pub living: Vec<usize>,
    pub sessions: Vec<Session>,
    /// By line, from 1 on: the place of its session.
    pub lines: Vec<Option<usize>>,
    /// By line, from 1 on: the place of its present or last session.
    pub newest: Vec<Option<usize>>,
    /// The places of the line sessions, in the order of connecting or accepting.
    pub seated: Vec<usize>,
    /// The places of the sessions that became free in this event.
    pub freed: Vec<usize>,
    /// The places of the sessions that were asked for in this event.
    pub asked: Vec<usize>,
    pub out: Vec<OutFrame>,
}

impl Core {
    pub fn new(
        server: bool,
        own: Addr,
        name: &[u8],
        timing: Timing,
        lines: u8,
        first: u16,
        prompt: bool,
    ) -> Self {
        Core {
            server,
            own,
            name: name.to_vec(),
            timing,
            prompt,
            halted: false,
            now: 0,
            first,
            drawn: 0,
            circuits: Vec::new(),
            living: Vec::new(),
            sessions: Vec::new(),
            lines: vec![None; usize::from(lines)],
            newest: vec![None; usize::from(lines)],
            seated: Vec::new(),
            freed: Vec::new(),
            asked: Vec::new(),
            out: Vec::new(),
        }
    }

    pub fn send(&mut self, to: Addr, payload: Vec<u8>) {
        self.out.push(OutFrame {
            to,
            circuit: None,
            numbers: None,
            payload: layout::pad(payload),
        });
    }

    pub fn has_ids(&self) -> bool {
        self.drawn < u16::MAX
    }

    pub fn has_place(&self) -> bool {
        self.living.len() < CIRCUITS && self.has_ids()
    }

    fn draw(&mut self) -> u16 {
        let id = (u32::from(self.first) - 1 + u32::from(self.drawn)) % 65_535 + 1;
        self.drawn += 1;
        id as u16
    }

    pub fn circuit_to(&self, to: Addr) -> Option<usize> {
        self.living
            .iter()
            .copied()
            .find(|&at| self.circuits[at].to == to)
    }

    fn add_circuit(&mut self, master: bool, to: Addr, name: &[u8]) -> usize {
        let id = self.draw();
        let at = self.circuits.len();
        self.circuits
            .push(Circuit::new(master, to, name, id, self.timing, self.now));
        let place = self
            .living
            .partition_point(|&other| self.circuits[other].id < id);
        self.living.insert(place, at);
        at
    }

    pub fn call(&mut self, to: Addr, name: &[u8]) -> usize {
        let at = self.add_circuit(true, to, name);
        self.circuits[at].emit_start(at, self.timing, &self.name, &mut self.out);
        at
    }

    pub fn make_slave(&mut self, from: Addr, name: &[u8], start: &Start) {
        let at = self.add_circuit(false, from, name);
        let circuit = &mut self.circuits[at];
        circuit.peer = start.from;
        circuit.agree(self.timing, start);
        (circuit.timer, circuit.keepalive) = (start.timer, start.keepalive);
        circuit.emit_start(at, self.timing, &self.name, &mut self.out);
    }

    /// A session of a circuit that has room for it.
    pub fn connect(&mut self, at: usize, service: &[u8], request: Option<u16>) -> usize {
        let id = self.circuits[at].free_id(&self.sessions);
        let place = self.sessions.len();
        self.sessions
            .push(Session::new(at, id, State::Calling, service, request));
        self.circuits[at].set_session(id, place);
        place
    }

    pub fn seat(&mut self, line: u8, session: usize) {
        self.sessions[session].line = line;
        self.lines[usize::from(line) - 1] = Some(session);
        self.newest[usize::from(line) - 1] = Some(session);
        self.seated.push(session);
    }

    pub fn has_line(&self, line: u8) -> bool {
        (1..=self.lines.len()).contains(&usize::from(line))
    }

    /// Lets lines go of the sessions that became free.
    pub fn reap(&mut self) {
        for &place in &self.freed {
            let line = usize::from(self.sessions[place].line);
            if line > 0 && self.lines[line - 1] == Some(place) {
                self.lines[line - 1] = None;
            }
        }
    }

    fn free(&mut self, place: usize, end: SessionEnd) {
        let session = &mut self.sessions[place];
        session.state = State::Free;
        session.end = Some(end);
        session.drop_heard();
        let circuit = &mut self.circuits[session.circuit];
        circuit.held -= 1;
        if circuit.held == 0 {
            circuit.idle_at = circuit.moment;
        }
        self.freed.push(place);
    }

    /// Ends a circuit; its STOP goes where one is to go and the peer's id is known.
    pub fn end(&mut self, at: usize, reason: u8, stop: bool) {
        let circuit = &mut self.circuits[at];
        if stop && circuit.peer != 0 {
            let payload = stop_payload(circuit.master, circuit.peer, circuit.id, reason);
            circuit.emit(at, payload, None, &mut self.out);
        }
        circuit.lives = false;
        circuit.kept = VecDeque::new();
        self.living.retain(|&other| other != at);
        for id in 0..self.circuits[at].by_id.len() {
            if let Some(place) = self.circuits[at].by_id[id] {
                if !self.sessions[place].is_free() {
                    self.free(place, SessionEnd::Circuit(reason));
                }
            }
        }
    }

    pub fn halt(&mut self) {
        for at in self.living.clone() {
            self.end(at, 3, true);
        }
        self.halted = true;
    }

    // Packing.

    fn pack(&mut self, at: usize) -> Option<Vec<u8>> {
        let Core {
            circuits,
            sessions,
            freed,
            timing,
            ..
        } = self;
        let circuit = &mut circuits[at];
        let mut payload = circuit.begin_run(false, 0, circuit.sent + 1);
        let mut slots = 0usize;
        while slots < 255 && circuit.limit - payload.len() >= 4 {
            let Some((to, reason)) = circuit.rejects.pop_front() else {
                break;
            };
            layout::put_slot(&mut payload, to, 0, 12, reason, &[]);
            slots += 1;
        }
        if circuit.rejects.is_empty() {
            let ids = circuit.by_id.len();
            let begin = usize::from(circuit.served);
            for place in (begin..ids).chain(0..begin.min(ids)) {
                if slots == 255 {
                    break;
                }
                let Some(session) = circuit.by_id[place] else {
                    continue;
                };
                match pack_one(
                    circuit.master,
                    &mut sessions[session],
                    timing.ceiling,
                    circuit.limit - payload.len(),
                    &mut payload,
                ) {
                    Packed::Nothing => {}
                    Packed::Full => break,
                    Packed::Slot { frees } => {
                        slots += 1;
                        circuit.served = place as u8 + 1;
                        if frees {
                            let session = &mut sessions[session];
                            session.state = State::Free;
                            session.end = Some(SessionEnd::Closed);
                            circuit.held -= 1;
                            if circuit.held == 0 {
                                circuit.idle_at = circuit.moment;
                            }
                            freed.push(circuit.by_id[place].unwrap());
                        }
                    }
                }
            }
        }
        payload[1] = slots as u8;
        (slots > 0).then_some(payload)
    }

    fn occasion(&mut self, at: usize) {
        let circuit = &self.circuits[at];
        if circuit.sent - circuit.known < circuit.window {
            if let Some(payload) = self.pack(at) {
                let circuit = &mut self.circuits[at];
                circuit.sent += 1;
                circuit.kept.push_back(Kept {
                    payload: payload.clone(),
                    formed_at: circuit.moment,
                });
                circuit.emit_run(at, payload, circuit.sent, &mut self.out);
                return;
            }
        }
        if self.circuits[at].owed {
            self.circuits[at].emit_bare(at, false, &mut self.out);
        }
    }

    // Hearing.

    fn named(&self, from: Addr, to: u16, source: u16) -> Option<usize> {
        self.living.iter().copied().find(|&at| {
            let circuit = &self.circuits[at];
            circuit.to == from && circuit.id == to && circuit.peer == source && circuit.running
        })
    }

    /// The living circuit that a RUN names, for the test of old numbers.
    pub fn circuit_of_run(&self, from: Addr, run: &Run) -> Option<&Circuit> {
        self.named(from, run.to, run.from)
            .map(|at| &self.circuits[at])
    }

    pub fn hear_run(&mut self, from: Addr, run: &Run) -> Answer {
        let Some(at) = self.named(from, run.to, run.from) else {
            if self.prompt {
                self.out.push(OutFrame {
                    to: from,
                    circuit: None,
                    numbers: None,
                    payload: stop_payload(self.server, run.from, run.to, 5),
                });
            }
            return Answer::Done;
        };
        let now = self.now;
        let circuit = &mut self.circuits[at];
        circuit.moment = now;
        if run.master == circuit.master || run.wide != circuit.wide {
            return Answer::Done;
        }
        let number = circuit.near(run.sequence, circuit.got);
        let acknowledgement = circuit
            .near(run.acknowledgement, circuit.known)
            .unwrap_or(0);
        if acknowledgement > circuit.sent {
            circuit.heard_at = now;
            self.end(at, 2, true);
            return Answer::Broke(2);
        }
        if acknowledgement > circuit.known {
            circuit
                .kept
                .drain(..(acknowledgement - circuit.known) as usize);
            circuit.known = acknowledgement;
            circuit.rounds = 0;
            circuit.acknowledged_at = now;
        }
        if !run.slots.is_empty() {
            if number == Some(circuit.got + 1) {
                for slot in &run.slots {
                    if self.is_bad(at, slot) {
                        self.end(at, 2, true);
                        return Answer::Broke(2);
                    }
                    self.apply(at, slot);
                }
                self.circuits[at].got += 1;
            }
            self.circuits[at].owed = true;
        }
        let circuit = &mut self.circuits[at];
        circuit.owed |= run.ask;
        circuit.heard_at = now;
        if !circuit.master {
            circuit.run_heard = true;
            self.occasion(at);
        }
        Answer::Done
    }

    fn is_bad(&self, at: usize, slot: &Slot) -> bool {
        let circuit = &self.circuits[at];
        let sessions = || {
            circuit
                .by_id
                .iter()
                .flatten()
                .map(|&place| &self.sessions[place])
        };
        match slot.body {
            Body::Start { credits: _, .. } if slot.to == 0 => {
                circuit.master
                    || sessions().any(|s| s.has_peer(slot.from))
                    || circuit.rejects.iter().any(|&(to, _)| to == slot.from)
            }
            Body::Start { .. } | Body::Reject { .. } => {
                let Some(place) = circuit.session(slot.to) else {
                    return true;
                };
                !circuit.master
                    || self.sessions[place].state != State::Calling
                    || matches!(slot.body, Body::Start { .. })
                        && sessions().any(|s| s.id != slot.to && s.has_peer(slot.from))
            }
            _ => {
                let Some(place) = circuit.session(slot.to) else {
                    return true;
                };
                let session = &self.sessions[place];
                if !matches!(session.state, State::Live | State::Closing) || session.stop_heard {
                    return true;
                }
                let is_peer = slot.from == session.peer;
                let (credits, items) = match slot.body {
                    Body::Stop => return !is_peer && slot.from != 0,
                    Body::Data { credits, bytes } => (credits, !bytes.is_empty()),
                    Body::Setting { credits, .. } => (credits, true),
                    _ => (0, false),
                };
                !is_peer
                    || items && session.outstanding == 0
                    || u64::from(credits) + session.granted - session.used > 255
            }
        }
    }

    fn apply(&mut self, at: usize, slot: &Slot) {
        if let (
            Body::Start {
                credits,
                size,
                service,
                request,
            },
            0,
        ) = (slot.body, slot.to)
        {
            if self.circuits[at].is_full() {
                self.circuits[at].rejects.push_back((slot.from, 7));
                return;
            }
            let id = self.circuits[at].free_id(&self.sessions);
            let place = self.sessions.len();
            let mut session = Session::new(at, id, State::Asked, service, request);
            session.peer = slot.from;
            session.granted = u64::from(credits);
            session.size = size;
            self.sessions.push(session);
            self.circuits[at].set_session(id, place);
            self.asked.push(place);
            return;
        }
        let Some(place) = self.circuits[at].session(slot.to) else {
            return;
        };
        let session = &mut self.sessions[place];
        match slot.body {
            Body::Start { credits, size, .. } => {
                session.peer = slot.from;
                session.granted += u64::from(credits);
                session.answered = true;
                session.size = size;
                session.state = if session.closed {
                    State::Closing
                } else {
                    State::Live
                };
            }
            Body::Reject { reason } => self.free(place, SessionEnd::Rejected(reason)),
            Body::Attention => {}
            Body::Stop => {
                session.stop_heard = true;
                session.dropped = true;
                session.state = State::Closing;
                if session.stop_formed {
                    self.part(place);
                }
            }
            Body::Data { credits, bytes } => {
                session.granted += u64::from(credits);
                if !bytes.is_empty() {
                    session.outstanding -= 1;
                    if !session.closed {
                        session.heard.extend(bytes.iter().map(|&b| Item::Byte(b)));
                        session.held.push_back(bytes.len() as u16);
                    }
                }
            }
            Body::Setting { credits, setting } => {
                session.granted += u64::from(credits);
                session.outstanding -= 1;
                if !session.closed {
                    session.heard.push_back(Item::Setting(setting));
                    session.held.push_back(1);
                }
            }
        }
    }

    // Both stops were formed and heard.
    fn part(&mut self, place: usize) {
        if self.sessions[place].heard.is_empty() {
            self.free(place, SessionEnd::Closed);
        } else {
            self.sessions[place].state = State::Left;
        }
    }

    pub fn hear_stop(&mut self, from: Addr, to: u16, source: u16, reason: u8) -> Answer {
        let named = self.living.iter().copied().find(|&at| {
            let circuit = &self.circuits[at];
            circuit.to == from && circuit.id == to && (circuit.peer == source || source == 0)
        });
        if let Some(at) = named {
            self.circuits[at].moment = self.now;
            self.end(at, reason, false);
        }
        Answer::Done
    }

    /// A reply, at a server.
    pub fn hear_reply(&mut self, from: Addr, start: &Start) -> Answer {
        let named = self.living.iter().copied().find(|&at| {
            let circuit = &self.circuits[at];
            circuit.to == from
                && circuit.id == start.to
                && (!circuit.running || circuit.peer == start.from)
        });
        if let Some(at) = named {
            let circuit = &mut self.circuits[at];
            circuit.moment = self.now;
            circuit.heard_at = self.now;
            if !circuit.running {
                circuit.running = true;
                circuit.peer = start.from;
                circuit.rounds = 0;
                if circuit.held == 0 {
                    circuit.idle_at = self.now;
                }
                circuit.agree(self.timing, start);
                circuit.owed = true;
            }
        }
        Answer::Done
    }

    /// The living slave whose master has this address and id.
    pub fn slave_of(&self, from: Addr, source: u16) -> Option<usize> {
        self.living
            .iter()
            .copied()
            .find(|&at| self.circuits[at].to == from && self.circuits[at].peer == source)
    }

    pub fn hear_start_again(&mut self, at: usize) {
        let circuit = &mut self.circuits[at];
        circuit.moment = self.now;
        circuit.heard_at = self.now;
        if !circuit.run_heard {
            circuit.emit_start(at, self.timing, &self.name, &mut self.out);
        }
    }

    /// Ends the living slaves of an address that an id follows, without a STOP.
    pub fn outlive(&mut self, from: Addr, source: u16) {
        for at in self.living.clone() {
            let circuit = &self.circuits[at];
            let distance = (u32::from(source) + 65_535 - u32::from(circuit.peer)) % 65_535;
            if circuit.to == from && (1..=32_767).contains(&distance) {
                self.end(at, 5, false);
            }
        }
    }

    // Time.

    pub fn time(&mut self, now: u64) {
        self.now = self.now.max(now);
        let mut place = 0;
        while place < self.living.len() {
            let at = self.living[place];
            self.time_at(at);
            place += usize::from(self.circuits[at].lives);
        }
    }

    fn time_at(&mut self, at: usize) {
        let now = self.now;
        let circuit = &mut self.circuits[at];
        circuit.moment = now;
        let keepalive = 1000 * u64::from(circuit.keepalive);
        if circuit.running && now - circuit.heard_at >= 3 * keepalive {
            return self.end(at, 6, true);
        }
        if circuit.master
            && circuit.running
            && circuit.held == 0
            && now - circuit.idle_at >= keepalive
        {
            return self.end(at, 3, true);
        }
        if circuit.master && !circuit.running {
            if now - circuit.start_at >= 1000 {
                if circuit.rounds == 8 {
                    return self.end(at, 6, true);
                }
                circuit.rounds += 1;
                circuit.start_at = now;
                circuit.emit_start(at, self.timing, &self.name, &mut self.out);
            }
        } else if let Some(kept) = circuit.kept.front() {
            let since = kept
                .formed_at
                .max(circuit.acknowledged_at)
                .max(circuit.round_at);
            if now - since >= 1000 {
                if circuit.rounds == 8 {
                    return self.end(at, 6, true);
                }
                circuit.rounds += 1;
                circuit.round_at = now;
                for turn in 0..circuit.kept.len() {
                    let payload = circuit.kept[turn].payload.clone();
                    circuit.emit_run(at, payload, circuit.known + 1 + turn as u64, &mut self.out);
                }
            }
        }
        if now - circuit.due_at < 10 * u64::from(circuit.timer) {
            return;
        }
        circuit.due_at = now;
        if circuit.master && circuit.running || !circuit.master && circuit.run_heard {
            self.occasion(at);
        }
        let circuit = &mut self.circuits[at];
        if circuit.master && circuit.running && now - circuit.sent_at >= keepalive {
            circuit.emit_bare(at, true, &mut self.out);
        }
    }

    // Lines.

    fn of_line(&mut self, line: u8) -> Result<usize, Answer> {
        if !self.has_line(line) {
            return Err(Answer::Refused(Refusal::NoLine));
        }
        self.lines[usize::from(line) - 1].ok_or(Answer::Refused(Refusal::Closed))
    }

    pub fn put(&mut self, line: u8, bytes: &[u8]) -> Answer {
        let place = match self.of_line(line) {
            Ok(place) => place,
            Err(answer) => return answer,
        };
        let session = &mut self.sessions[place];
        if !session.takes_items() {
            return Answer::Refused(Refusal::Closed);
        }
        let count = bytes.len().min(UNFRAMED - session.unframed().len());
        session
            .put
            .extend(bytes[..count].iter().map(|&b| Item::Byte(b)));
        Answer::Put(count)
    }

    pub fn set(&mut self, line: u8, setting: [u8; 5]) -> Answer {
        let place = match self.of_line(line) {
            Ok(place) => place,
            Err(answer) => return answer,
        };
        let session = &mut self.sessions[place];
        if !session.takes_items() {
            return Answer::Refused(Refusal::Closed);
        }
        if session.unframed().len() >= UNFRAMED {
            return Answer::Refused(Refusal::Full);
        }
        session.put.push(Item::Setting(setting));
        Answer::Done
    }

    pub fn attend(&mut self, line: u8, flag: u8) -> Answer {
        let place = match self.of_line(line) {
            Ok(place) => place,
            Err(answer) => return answer,
        };
        let session = &mut self.sessions[place];
        if !session.takes_items() {
            return Answer::Refused(Refusal::Closed);
        }
        session.attention = Some(flag);
        Answer::Done
    }

    fn may_take(session: &Session) -> bool {
        !matches!(session.state, State::Free | State::Asked) && !session.closed
    }

    pub fn take(&mut self, line: u8, most: u16) -> Answer {
        let place = match self.of_line(line) {
            Ok(place) => place,
            Err(answer) => return answer,
        };
        let session = &mut self.sessions[place];
        if !Core::may_take(session) {
            return Answer::Refused(Refusal::Closed);
        }
        let count = session.take(usize::from(most));
        if session.state == State::Left && session.heard.is_empty() {
            self.free(place, SessionEnd::Closed);
        }
        Answer::Took(count)
    }

    pub fn close(&mut self, line: u8) -> Answer {
        let place = match self.of_line(line) {
            Ok(place) => place,
            Err(answer) => return answer,
        };
        let session = &mut self.sessions[place];
        if !Core::may_take(session) {
            return Answer::Refused(Refusal::Closed);
        }
        session.closed = true;
        session.drop_heard();
        match session.state {
            State::Live => session.state = State::Closing,
            State::Left => self.free(place, SessionEnd::Closed),
            _ => {}
        }
        Answer::Done
    }

    /// A session that is asked for is answered.
    pub fn accept(&mut self, place: usize) {
        let session = &mut self.sessions[place];
        session.state = State::Live;
        session.answered = true;
        session.start_due = true;
    }

    pub fn reject(&mut self, place: usize, reason: u8) {
        let (at, peer) = (self.sessions[place].circuit, self.sessions[place].peer);
        self.circuits[at].rejects.push_back((peer, reason));
        self.free(place, SessionEnd::Rejected(reason));
    }
}

enum Packed {
    Nothing,
    Full,
    Slot { frees: bool },
}

/// The slot that a session has for a message with so much room.
fn pack_one(
    master: bool,
    s: &mut Session,
    ceiling: u8,
    room: usize,
    payload: &mut Vec<u8>,
) -> Packed {
    const SLOT: Packed = Packed::Slot { frees: false };
    if s.is_free() {
        return Packed::Nothing;
    }
    if s.start_due {
        let mut body = vec![1, 1, 255];
        layout::put_text(&mut body, &s.service);
        body.push(0);
        if let (true, Some(request)) = (master, s.request) {
            body.extend_from_slice(&[5, 2]);
            layout::put_word(&mut body, request);
        }
        body.push(0);
        if layout::slot_len(body.len()) > room {
            return Packed::Full;
        }
        let to = if master { 0 } else { s.peer };
        let credits = s.give(ceiling);
        layout::put_slot(payload, to, s.id, 9, credits, &body);
        s.start_due = false;
        return SLOT;
    }
    if !s.answered
        || s.stop_formed
        || matches!(s.state, State::Asked | State::Left | State::Calling)
    {
        return Packed::Nothing;
    }
    if let Some(flag) = s.attention {
        if layout::slot_len(1) > room {
            return Packed::Full;
        }
        layout::put_slot(payload, s.peer, s.id, 11, 0, &[flag]);
        s.attention = None;
        return SLOT;
    }
    if s.closed && s.unframed().is_empty() || s.stop_heard {
        if layout::slot_len(0) > room {
            return Packed::Full;
        }
        layout::put_slot(payload, s.peer, s.id, 13, 1, &[]);
        s.stop_formed = true;
        if s.stop_heard && s.state == State::Closing {
            if s.heard.is_empty() {
                return Packed::Slot { frees: true };
            }
            s.state = State::Left;
        }
        return SLOT;
    }
    if s.granted > s.used && !s.unframed().is_empty() {
        return pack_data(s, ceiling, room, payload);
    }
    if s.due(ceiling) > 0 {
        if layout::slot_len(0) > room {
            return Packed::Full;
        }
        let credits = s.give(ceiling);
        layout::put_slot(payload, s.peer, s.id, 0, credits, &[]);
        return SLOT;
    }
    Packed::Nothing
}

fn pack_data(s: &mut Session, ceiling: u8, room: usize, payload: &mut Vec<u8>) -> Packed {
    let unframed = s.unframed();
    if let Item::Setting(setting) = unframed[0] {
        if layout::slot_len(5) > room {
            return Packed::Full;
        }
        let credits = s.give(ceiling);
        layout::put_slot(payload, s.peer, s.id, 10, credits, &setting);
        s.framed += 1;
        s.used += 1;
        return Packed::Slot { frees: false };
    }
    // The greatest body that fits with its pad.
    let fits = room.saturating_sub(4) & !1;
    let most = usize::from(s.size).min(fits);
    let mut body = [0; 255];
    let mut count = 0;
    for item in unframed.iter().take(most) {
        let Item::Byte(byte) = *item else { break };
        body[count] = byte;
        count += 1;
    }
    if count == 0 {
        return Packed::Full;
    }
    let credits = s.give(ceiling);
    layout::put_slot(payload, s.peer, s.id, 0, credits, &body[..count]);
    s.framed += count;
    s.used += 1;
    Packed::Slot { frees: false }
}
