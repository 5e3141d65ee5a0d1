//! The node: its services and its requests.

use crate::core::{stop_payload, Answer, Core, OutFrame, Refusal};
use crate::layout::{self, same, Addr, Value, EVERYONE};
use std::collections::{HashMap, HashSet};

#[derive(Debug)]
pub struct Node {
    pub core: Core,
    incarnation: u16,
    timer: u8,
    groups: Vec<u8>,
    services: Vec<Vec<u8>>,
    requests: HashMap<u16, (Addr, Vec<u8>)>,
    accepted: HashSet<u16>,
}

impl Node {
    pub fn new(
        core: Core,
        incarnation: u16,
        timer: u8,
        groups: Vec<u8>,
        services: Vec<Vec<u8>>,
    ) -> Self {
        Node {
            core,
            incarnation,
            timer,
            groups,
            services,
            requests: HashMap::new(),
            accepted: HashSet::new(),
        }
    }

    fn rating(&self) -> u8 {
        self.core
            .lines
            .iter()
            .filter(|line| line.is_none())
            .count()
            .min(255) as u8
    }

    fn offered(&self, service: &[u8]) -> Option<&Vec<u8>> {
        self.services.iter().find(|other| same(other, service))
    }

    fn announcement(&self, services: &[Vec<u8>]) -> Vec<u8> {
        let mut payload = vec![10 << 2, self.timer, 5];
        layout::put_word(&mut payload, self.incarnation);
        layout::put_text(&mut payload, &self.groups);
        layout::put_text(&mut payload, &self.core.name);
        payload.extend_from_slice(&[0, services.len() as u8]);
        for service in services {
            payload.push(self.rating());
            layout::put_text(&mut payload, service);
            payload.push(0);
        }
        payload
    }

    pub fn announce(&mut self) -> Answer {
        if !self.core.halted {
            let payload = self.announcement(&self.services);
            self.core.send(EVERYONE, payload);
        }
        Answer::Done
    }

    pub fn halt(&mut self) -> Answer {
        let first = !self.core.halted;
        self.core.halt();
        if first {
            let payload = self.announcement(&[]);
            self.core.send(EVERYONE, payload);
        }
        Answer::Done
    }

    pub fn hear(&mut self, from: Addr, value: &Value, names: impl Fn() -> Vec<u8>) -> Answer {
        match value {
            Value::Run(run) => self.core.hear_run(from, run),
            Value::Start(start) if start.master => self.hear_start(from, start, names),
            Value::Stop {
                to,
                from: source,
                reason,
            } => self.core.hear_stop(from, *to, *source, *reason),
            Value::Solicit { id, service } => self.hear_solicit(from, *id, service),
            _ => Answer::Done,
        }
    }

    fn hear_start(
        &mut self,
        from: Addr,
        start: &layout::Start,
        names: impl Fn() -> Vec<u8>,
    ) -> Answer {
        if self.core.halted {
            return self.turn_away(from, start.from, 3);
        }
        if self.core.prompt {
            self.core.outlive(from, start.from);
        }
        if let Some(at) = self.core.slave_of(from, start.from) {
            self.core.hear_start_again(at);
            return Answer::Done;
        }
        if !self.core.has_place() {
            return self.turn_away(from, start.from, 7);
        }
        self.core.make_slave(from, &names(), start);
        Answer::Done
    }

    fn turn_away(&mut self, to: Addr, circuit: u16, reason: u8) -> Answer {
        let payload = stop_payload(false, circuit, 0, reason);
        self.core.out.push(OutFrame {
            to,
            circuit: None,
            numbers: None,
            payload,
        });
        Answer::Refused(Refusal::StartRefused)
    }

    fn hear_solicit(&mut self, from: Addr, id: u16, service: &[u8]) -> Answer {
        if self.core.halted {
            return Answer::Done;
        }
        if let Some(offered) = self.offered(service) {
            let mut payload = vec![15 << 2, 5];
            layout::put_word(&mut payload, id);
            layout::put_text(&mut payload, &self.core.name);
            layout::put_text(&mut payload, offered);
            payload.extend_from_slice(&[self.rating(), self.timer]);
            self.core.send(from, payload);
            self.announce();
        }
        Answer::Done
    }

    pub fn request(&mut self, to: Addr, id: u16, service: &[u8]) -> Answer {
        match self.requests.get(&id) {
            Some((other, name)) if *other != to || !same(name, service) => {
                Answer::Refused(Refusal::IdUsed)
            }
            _ => {
                self.requests
                    .entry(id)
                    .or_insert_with(|| (to, service.to_vec()));
                self.command(to, id, 1, service);
                Answer::Done
            }
        }
    }

    pub fn cancel(&mut self, id: u16) -> Answer {
        let Some((to, service)) = self.requests.get(&id).cloned() else {
            return Answer::Refused(Refusal::Closed);
        };
        self.command(to, id, 2, &service);
        Answer::Done
    }

    fn command(&mut self, to: Addr, id: u16, action: u8, service: &[u8]) {
        let mut payload = vec![12 << 2, 5];
        layout::put_word(&mut payload, self.incarnation);
        layout::put_word(&mut payload, id);
        payload.push(action);
        layout::put_text(&mut payload, &self.core.name);
        layout::put_text(&mut payload, service);
        self.core.send(to, payload);
    }

    /// What follows every event: lines let go, and the sessions that were asked for are answered by rising id.
    pub fn follow(&mut self) {
        self.core.reap();
        let mut asked = std::mem::take(&mut self.core.asked);
        asked.sort_by_key(|&place| self.core.sessions[place].id);
        for &place in &asked {
            if !self.core.sessions[place].is_free() {
                self.answer(place);
            }
        }
        asked.clear();
        self.core.asked = asked;
        self.core.freed.clear();
    }

    fn answer(&mut self, place: usize) {
        let session = &self.core.sessions[place];
        let request = session.request;
        let free = self.core.lines.iter().position(|line| line.is_none());
        let reason = match request {
            None => self.offered(&session.service).is_none().then_some(4),
            Some(id) => {
                let fits = self
                    .requests
                    .get(&id)
                    .is_some_and(|(_, name)| same(name, &session.service));
                (!fits || self.accepted.contains(&id)).then_some(5)
            }
        };
        match (reason, free) {
            (Some(reason), _) => self.core.reject(place, reason),
            (None, None) => self.core.reject(place, 7),
            (None, Some(line)) => {
                self.core.accept(place);
                self.core.seat(line as u8 + 1, place);
                self.accepted.extend(request);
            }
        }
    }
}
