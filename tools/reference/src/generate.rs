//! The schedules of `gen N`.

use crate::schedule::{hex_onto, rows, world_of};
use crate::world::{Local, Side, World};
use std::fmt::Write;

const HEAD: &str = "lat 1\nserver aa0004000104 TS1 8\nnode aa0004000204 VAX1 8 1 255\ncircuit 8 20 64 7 4\nservice VAX\ngo\n";

const TURNS: usize = 4000;

struct Draws(u64);

impl Draws {
    fn draw(&mut self, below: u64) -> u64 {
        self.0 = self
            .0
            .wrapping_mul(6_364_136_223_846_793_005)
            .wrapping_add(1_442_695_040_888_963_407);
        (self.0 >> 33) % below
    }
}

pub struct Generated {
    /// None where it isn't wanted.
    text: Option<String>,
    pub world: World,
    pub events: u32,
    moment: u64,
}

impl Generated {
    fn local(&mut self, side: Side, event: &Local, line: impl FnOnce(&mut String)) {
        if self.world.local(side, event).is_ok() {
            self.events += 1;
            if let Some(text) = &mut self.text {
                line(text);
            }
        }
    }

    fn deliver(&mut self, index: u64) {
        match self.world.deliver(index) {
            Ok(()) => {
                self.events += 1;
                if let Some(text) = &mut self.text {
                    let _ = writeln!(text, "deliver {index}");
                }
            }
            Err(_) => {}
        }
    }

    fn recent(&mut self, draws: &mut Draws) {
        let frames = self.world.frames.len() as u64;
        let back = draws.draw(frames.min(8));
        self.deliver(frames - 1 - back);
    }

    fn time(&mut self, side: Side, word: &str) {
        self.moment += 80;
        let moment = self.moment;
        self.local(side, &Local::Time(moment), |text| {
            let _ = writeln!(text, "{word} time {moment}");
        });
    }

    fn put(&mut self, side: Side, word: &str, most: u64, draws: &mut Draws) {
        let line = 1 + draws.draw(8);
        let count = 1 + draws.draw(most);
        let bytes: Vec<u8> = (0..count).map(|_| draws.draw(256) as u8).collect();
        self.local(side, &Local::Put(line as u8, &bytes), |text| {
            let _ = write!(text, "{word} put {line} ");
            hex_onto(text, &bytes);
            text.push('\n');
        });
    }

    fn close(&mut self, side: Side, word: &str, draws: &mut Draws) {
        if draws.draw(8) != 0 {
            return self.recent(draws);
        }
        let line = 1 + draws.draw(8);
        self.local(side, &Local::Close(line as u8), |text| {
            let _ = writeln!(text, "{word} close {line}");
        });
    }

    fn take(&mut self, side: Side, word: &str, draws: &mut Draws) {
        let line = 1 + draws.draw(8);
        self.local(side, &Local::Take(line as u8, 1024), |text| {
            let _ = writeln!(text, "{word} take {line} 1024");
        });
    }

    fn turn(&mut self, draws: &mut Draws) {
        match draws.draw(12) {
            0 => {
                let line = 1 + draws.draw(8);
                self.local(Side::Server, &Local::Connect(line as u8, b"VAX"), |text| {
                    let _ = writeln!(text, "s connect {line} VAX");
                });
            }
            1 => self.put(Side::Server, "s", 64, draws),
            2 => self.put(Side::Node, "n", 512, draws),
            3 => self.take(Side::Server, "s", draws),
            4 => self.take(Side::Node, "n", draws),
            5 => self.time(Side::Server, "s"),
            6 => self.time(Side::Node, "n"),
            10 => self.close(Side::Server, "s", draws),
            11 => self.close(Side::Node, "n", draws),
            _ => self.recent(draws),
        }
    }
}

pub fn generate(seed: u64, wants_text: bool) -> Generated {
    let mut made = Generated {
        text: wants_text.then(|| HEAD.to_string()),
        world: world_of(HEAD),
        events: 0,
        moment: 0,
    };
    made.local(Side::Node, &Local::Announce, |text| {
        text.push_str("n announce\n")
    });
    made.deliver(0);
    let mut draws = Draws(seed);
    for _ in 0..TURNS {
        made.turn(&mut draws);
    }
    made
}

pub fn gen(seed: u64) -> String {
    let mut text = generate(seed, true).text.unwrap_or_default();
    text.push_str("end\n");
    text
}

pub fn bench(seed: u64) -> String {
    let made = generate(seed, false);
    let (mut sessions, mut put, mut taken) = (0, 0, 0);
    for (own, mate) in rows(&made.world) {
        sessions += 1;
        put += own.put.len() + mate.map_or(0, |mate| mate.put.len());
        taken += own.taken.len() + mate.map_or(0, |mate| mate.taken.len());
    }
    let (events, frames) = (made.events, made.world.frames.len());
    format!("bench {seed} events {events} frames {frames} sessions {sessions} put {put} taken {taken}\n")
}
