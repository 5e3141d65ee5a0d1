//! Sessions at one end of a circuit.

use std::collections::VecDeque;

/// How many items wait at most to be framed.
pub const UNFRAMED: usize = 4096;

#[derive(Clone, Copy, Debug, PartialEq, Eq)]
pub enum Item {
    Byte(u8),
    Setting([u8; 5]),
}

#[derive(Clone, Copy, Debug, PartialEq, Eq)]
pub enum State {
    Free,
    Calling,
    Asked,
    Live,
    Closing,
    Left,
}

#[derive(Clone, Copy, Debug, PartialEq, Eq)]
pub enum SessionEnd {
    Closed,
    Rejected(u8),
    Circuit(u8),
}

#[derive(Debug)]
pub struct Session {
    /// Its place among the circuits of the core.
    pub circuit: usize,
    pub id: u8,
    /// 0 where it has none.
    pub line: u8,
    pub peer: u8,
    pub state: State,
    pub end: Option<SessionEnd>,
    pub service: Vec<u8>,
    pub request: Option<u16>,
    /// The place of the record that it was granted for.
    pub record: Option<usize>,
    /// All that was put, and how many of it were framed.
    pub put: Vec<Item>,
    pub framed: usize,
    /// What was heard and not yet taken, and how many of each held slot are left.
    pub heard: VecDeque<Item>,
    pub held: VecDeque<u16>,
    /// All that was taken.
    pub taken: Vec<Item>,
    /// Credits: given to the peer, given by it and used here, and given and not yet used by the peer.
    pub given: u64,
    pub granted: u64,
    pub used: u64,
    pub outstanding: u8,
    pub size: u8,
    pub answered: bool,
    pub closed: bool,
    pub dropped: bool,
    pub start_due: bool,
    pub stop_formed: bool,
    pub stop_heard: bool,
    pub attention: Option<u8>,
}

impl Session {
    pub fn new(circuit: usize, id: u8, state: State, service: &[u8], request: Option<u16>) -> Self {
        Session {
            circuit,
            id,
            line: 0,
            peer: 0,
            state,
            end: None,
            service: service.to_vec(),
            request,
            record: None,
            put: Vec::new(),
            framed: 0,
            heard: VecDeque::new(),
            held: VecDeque::new(),
            taken: Vec::new(),
            given: 0,
            granted: 0,
            used: 0,
            outstanding: 0,
            size: 255,
            answered: false,
            closed: false,
            dropped: false,
            start_due: state == State::Calling,
            stop_formed: false,
            stop_heard: false,
            attention: None,
        }
    }

    pub fn unframed(&self) -> &[Item] {
        if self.dropped {
            &[]
        } else {
            &self.put[self.framed..]
        }
    }

    pub fn is_free(&self) -> bool {
        self.state == State::Free
    }

    /// Whether it is neither free nor left, so that its peer's id is in use.
    pub fn has_peer(&self, peer: u8) -> bool {
        !matches!(self.state, State::Free | State::Left) && self.peer == peer
    }

    pub fn takes_items(&self) -> bool {
        matches!(self.state, State::Calling | State::Live) && !self.closed
    }

    pub fn due(&self, ceiling: u8) -> u8 {
        ceiling - self.outstanding - self.held.len() as u8
    }

    pub fn give(&mut self, ceiling: u8) -> u8 {
        let due = self.due(ceiling);
        self.outstanding += due;
        self.given += u64::from(due);
        due
    }

    pub fn drop_heard(&mut self) {
        self.heard = VecDeque::new();
        self.held = VecDeque::new();
    }

    /// Takes so many items at most, and says how many.
    pub fn take(&mut self, most: usize) -> usize {
        let count = most.min(self.heard.len());
        self.taken.extend(self.heard.drain(..count));
        let mut left = count;
        while left > 0 {
            let slot = &mut self.held[0];
            let some = left.min(usize::from(*slot));
            *slot -= some as u16;
            left -= some;
            if *slot == 0 {
                self.held.pop_front();
            }
        }
        count
    }
}
