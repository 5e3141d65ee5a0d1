//! The server: its directory and its queue.

use crate::core::{Answer, Core, Refusal};
use crate::layout::{self, fold, same, Addr, Announcement, Command, Value, EVERYONE};
use std::collections::{BTreeMap, HashMap, VecDeque};

const NODES: usize = 256;
const WAITING: usize = 64;
const RECORDS: usize = 65_536;

#[derive(Clone, Copy, Debug, PartialEq, Eq)]
pub enum Status {
    Waiting,
    Granted,
    Cancelled,
    QueueFull,
    NoService,
    Done,
}

#[derive(Debug)]
pub struct Record {
    pub node: Vec<u8>,
    pub incarnation: u16,
    pub id: u16,
    pub service: Vec<u8>,
    pub status: Status,
    from: Addr,
}

#[derive(Debug)]
struct Known {
    from: Addr,
    name: Vec<u8>,
    timer: u8,
    heard_at: u64,
    services: Vec<(u8, Vec<u8>)>,
}

impl Known {
    fn is_live(&self, now: u64) -> bool {
        now < self.heard_at + 3000 * u64::from(self.timer)
    }
}

#[derive(Debug)]
pub struct Server {
    pub core: Core,
    groups: Vec<u8>,
    directory: BTreeMap<Vec<u8>, Known>,
    solicits: u16,
    /// By rising line.
    offers: Vec<(u8, Vec<u8>)>,
    ready: Vec<bool>,
    pub records: Vec<Record>,
    keys: HashMap<(Vec<u8>, u16, u16), usize>,
    /// By service in upper case, who waits.
    waiting: HashMap<Vec<u8>, VecDeque<usize>>,
    pub grants: Vec<usize>,
}

fn meets(own: &[u8], groups: &[u8]) -> bool {
    groups.is_empty() || own.iter().zip(groups).any(|(a, b)| a & b != 0)
}

impl Server {
    pub fn new(core: Core, groups: Vec<u8>, mut offers: Vec<(u8, Vec<u8>)>) -> Self {
        offers.sort();
        let ready = vec![true; core.lines.len()];
        Server {
            core,
            groups,
            directory: BTreeMap::new(),
            solicits: 0,
            offers,
            ready,
            records: Vec::new(),
            keys: HashMap::new(),
            waiting: HashMap::new(),
            grants: Vec::new(),
        }
    }

    pub fn hear(&mut self, from: Addr, value: &Value) -> Answer {
        match value {
            Value::Run(run) => self.core.hear_run(from, run),
            Value::Start(start) if !start.master => self.core.hear_reply(from, start),
            Value::Stop {
                to,
                from: source,
                reason,
            } => self.core.hear_stop(from, *to, *source, *reason),
            Value::Announcement(announcement) => self.hear_announcement(from, announcement),
            Value::Command(command) => self.hear_command(from, command),
            _ => Answer::Done,
        }
    }

    pub fn time(&mut self, now: u64) -> Answer {
        self.core.time(now);
        self.expire();
        Answer::Done
    }

    /// What follows every event.
    pub fn follow(&mut self) {
        self.core.reap();
        for &place in &self.core.freed {
            if let Some(record) = self.core.sessions[place].record {
                self.records[record].status = Status::Done;
            }
        }
        self.core.freed.clear();
        if !self.core.halted {
            for turn in 0..self.offers.len() {
                self.grant(turn);
            }
        }
    }

    fn expire(&mut self) {
        let now = self.core.now;
        self.directory.retain(|_, known| known.is_live(now));
    }

    fn hear_announcement(&mut self, from: Addr, heard: &Announcement) -> Answer {
        let key = fold(heard.node);
        if !meets(&self.groups, heard.groups) {
            self.directory.remove(&key);
            return Answer::Done;
        }
        self.expire();
        if self.directory.len() >= NODES && !self.directory.contains_key(&key) {
            return Answer::Refused(Refusal::DirectoryFull);
        }
        let known = Known {
            from,
            name: heard.node.to_vec(),
            timer: heard.timer,
            heard_at: self.core.now,
            services: heard
                .services
                .iter()
                .map(|&(rating, name)| (rating, name.to_vec()))
                .collect(),
        };
        self.directory.insert(key, known);
        Answer::Done
    }

    fn best(&self, service: &[u8]) -> Option<&Known> {
        let mut best: Option<(u8, &Known)> = None;
        for known in self
            .directory
            .values()
            .filter(|known| known.is_live(self.core.now))
        {
            let rating = known
                .services
                .iter()
                .find(|(_, name)| same(name, service))
                .map_or(0, |&(rating, _)| rating);
            if rating > best.map_or(0, |(rating, _)| rating) {
                best = Some((rating, known));
            }
        }
        best.map(|(_, known)| known)
    }

    pub fn connect(&mut self, line: u8, service: &[u8]) -> Answer {
        if self.core.halted {
            return Answer::Refused(Refusal::Halted);
        }
        if !self.core.has_line(line) {
            return Answer::Refused(Refusal::NoLine);
        }
        if self.core.lines[usize::from(line) - 1].is_some() {
            return Answer::Refused(Refusal::Busy);
        }
        let Some((to, name)) = self
            .best(service)
            .map(|known| (known.from, known.name.clone()))
        else {
            self.solicit(service);
            return Answer::Refused(Refusal::NoService);
        };
        let at = match self.core.circuit_to(to) {
            Some(at) if self.core.circuits[at].is_full() => {
                return Answer::Refused(Refusal::SessionsFull)
            }
            Some(at) => at,
            None if !self.core.has_place() => {
                let refusal =
                    if self.core.has_ids() || self.core.living.len() >= crate::core::CIRCUITS {
                        Refusal::CircuitsFull
                    } else {
                        Refusal::IdsOut
                    };
                return Answer::Refused(refusal);
            }
            None => self.core.call(to, &name),
        };
        let session = self.core.connect(at, service, None);
        self.core.seat(line, session);
        Answer::Done
    }

    fn solicit(&mut self, service: &[u8]) {
        self.solicits = self.solicits.wrapping_add(1);
        let mut payload = vec![14 << 2, 5];
        layout::put_word(&mut payload, self.solicits);
        layout::put_text(&mut payload, &self.core.name);
        layout::put_text(&mut payload, service);
        self.core.send(EVERYONE, payload);
    }

    pub fn avoid(&mut self, line: u8) -> Answer {
        if !self.core.has_line(line) {
            return Answer::Refused(Refusal::NoLine);
        }
        let Some(place) = self.core.newest[usize::from(line) - 1] else {
            return Answer::Refused(Refusal::Closed);
        };
        let to = self.core.circuits[self.core.sessions[place].circuit].to;
        self.directory.retain(|_, known| known.from != to);
        Answer::Done
    }

    pub fn set_ready(&mut self, line: u8, ready: bool) -> Answer {
        if !self.core.has_line(line) {
            return Answer::Refused(Refusal::NoLine);
        }
        self.ready[usize::from(line) - 1] = ready;
        Answer::Done
    }

    fn hear_command(&mut self, from: Addr, heard: &Command) -> Answer {
        let key = (fold(heard.node), heard.incarnation, heard.id);
        let known = self.keys.get(&key).copied();
        match known {
            None if !heard.asks => {
                self.status(from, heard, 8, 0);
                Answer::Done
            }
            None if self.records.len() >= RECORDS => {
                self.status(from, heard, 6, 0);
                Answer::Refused(Refusal::RecordsFull)
            }
            None => {
                let place = self.record(from, heard);
                self.keys.insert(key, place);
                self.tell(from, heard, place)
            }
            Some(place) => {
                if !heard.asks && self.records[place].status == Status::Waiting {
                    self.records[place].status = Status::Cancelled;
                    self.leave(place);
                }
                self.tell(from, heard, place)
            }
        }
    }

    fn leave(&mut self, place: usize) {
        if let Some(waiting) = self.waiting.get_mut(&fold(&self.records[place].service)) {
            waiting.retain(|&other| other != place);
        }
    }

    fn record(&mut self, from: Addr, heard: &Command) -> usize {
        let place = self.records.len();
        let waiting = self.waiting.entry(fold(heard.service)).or_default();
        let status = if !self
            .offers
            .iter()
            .any(|(_, service)| same(service, heard.service))
        {
            Status::NoService
        } else if waiting.len() >= WAITING {
            Status::QueueFull
        } else {
            waiting.push_back(place);
            Status::Waiting
        };
        self.records.push(Record {
            node: heard.node.to_vec(),
            incarnation: heard.incarnation,
            id: heard.id,
            service: heard.service.to_vec(),
            status,
            from,
        });
        place
    }

    fn tell(&mut self, from: Addr, heard: &Command, place: usize) -> Answer {
        let (outcome, turn) = match self.records[place].status {
            Status::Waiting => {
                let waiting = &self.waiting[&fold(&self.records[place].service)];
                let turn = waiting
                    .iter()
                    .position(|&other| other == place)
                    .map_or(0, |turn| turn + 1);
                (1, turn as u16)
            }
            Status::Granted => (2, 0),
            Status::Cancelled => (3, 0),
            Status::QueueFull => (4, 0),
            Status::NoService => (5, 0),
            Status::Done => (7, 0),
        };
        self.status(from, heard, outcome, turn);
        Answer::Done
    }

    fn status(&mut self, to: Addr, heard: &Command, outcome: u8, place: u16) {
        let payload = status_payload(heard.incarnation, heard.id, outcome, place, heard.node);
        self.core.send(to, payload);
    }

    fn grant(&mut self, turn: usize) {
        let (line, service) = &self.offers[turn];
        let line = *line;
        let there = usize::from(line) - 1;
        if there >= self.ready.len()
            || self.core.lines[there].is_some()
            || !self.ready[there]
            || self.waiting.is_empty()
        {
            return;
        }
        let Some(&place) = self
            .waiting
            .get(&fold(service))
            .and_then(|waiting| waiting.front())
        else {
            return;
        };
        let service = service.clone();
        let (to, id, incarnation, node) = {
            let record = &self.records[place];
            (
                record.from,
                record.id,
                record.incarnation,
                record.node.clone(),
            )
        };
        let circuit = self.core.circuit_to(to);
        let fits = circuit.map_or(self.core.has_place(), |at| {
            !self.core.circuits[at].is_full()
        });
        if !fits {
            return;
        }
        self.leave(place);
        self.records[place].status = Status::Granted;
        self.grants.push(place);
        self.core
            .send(to, status_payload(incarnation, id, 2, 0, &node));
        let at = circuit.unwrap_or_else(|| self.core.call(to, &node));
        let session = self.core.connect(at, &service, Some(id));
        self.core.sessions[session].record = Some(place);
        self.core.seat(line, session);
    }
}

fn status_payload(incarnation: u16, id: u16, outcome: u8, place: u16, node: &[u8]) -> Vec<u8> {
    let mut payload = vec![13 << 2, 5];
    layout::put_word(&mut payload, incarnation);
    layout::put_word(&mut payload, id);
    payload.push(outcome);
    layout::put_word(&mut payload, place);
    layout::put_text(&mut payload, node);
    payload
}
