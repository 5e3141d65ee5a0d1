//! The text of a schedule, and of its report.

use crate::core::{Core, Refusal, Timing};
use crate::layout::{is_name, same, Addr, EVERYONE};
use crate::node::Node;
use crate::server::{Server, Status};
use crate::session::{Item, Session, SessionEnd};
use crate::world::{Fault, Local, Note, Side, World};
use std::fmt::Write;

const EVENTS: usize = 100_000;

/// What a schedule comes to.
pub enum Played {
    Report(String),
    Wrong(usize),
    TooMany,
    Refused(usize, Fault),
}

pub fn number(word: &str, least: u64, most: u64) -> Option<u64> {
    let plain = word.bytes().all(|b| b.is_ascii_digit()) && (word == "0" || !word.starts_with('0'));
    let value = word.parse::<u64>().ok()?;
    (plain && (least..=most).contains(&value)).then_some(value)
}

fn digit(byte: u8) -> Option<u8> {
    (byte as char).to_digit(16).map(|d| d as u8)
}

pub fn hex(word: &str, least: usize, most: usize, out: &mut Vec<u8>) -> Option<()> {
    out.clear();
    let bytes = word.as_bytes();
    if bytes.len() % 2 != 0 || !(least..=most).contains(&(bytes.len() / 2)) {
        return None;
    }
    out.reserve(bytes.len() / 2);
    for pair in bytes.chunks_exact(2) {
        out.push(digit(pair[0])? << 4 | digit(pair[1])?);
    }
    Some(())
}

fn address(word: &str) -> Option<Addr> {
    let mut bytes = Vec::new();
    hex(word, 6, 6, &mut bytes)?;
    bytes.try_into().ok()
}

pub fn name(word: &str) -> Option<Vec<u8>> {
    let mut bytes = Vec::new();
    let mut rest = word.as_bytes();
    while let [first, behind @ ..] = rest {
        rest = match (first, behind) {
            (b'%', [high, low, behind @ ..]) => {
                bytes.push(digit(*high)? << 4 | digit(*low)?);
                behind
            }
            (b'%', _) => return None,
            (0x21..=0x7e, _) => {
                bytes.push(*first);
                behind
            }
            _ => return None,
        };
    }
    is_name(&bytes).then_some(bytes)
}

fn side(word: &str) -> Option<Side> {
    match word {
        "s" => Some(Side::Server),
        "n" => Some(Side::Node),
        _ => None,
    }
}

struct Lines<'a> {
    rest: &'a str,
    line: usize,
    form: u8,
}

impl<'a> Lines<'a> {
    /// The next line that says something.
    fn next(&mut self) -> Result<&'a str, usize> {
        loop {
            self.line += 1;
            let Some((line, rest)) = self.rest.split_once('\n') else {
                return Err(self.line);
            };
            self.rest = rest;
            if self.form == 3 && (line.is_empty() || line.starts_with('#')) {
                continue;
            }
            return Ok(line);
        }
    }
}

/// `first N` and `prompt`, each or not.
fn extras(words: &[&str], form: u8) -> Option<(u16, bool)> {
    match words {
        [] => Some((1, false)),
        _ if form < 3 => None,
        ["prompt"] => Some((1, true)),
        ["first", n] => Some((number(n, 1, 65_535)? as u16, false)),
        ["first", n, "prompt"] => Some((number(n, 1, 65_535)? as u16, true)),
        _ => None,
    }
}

fn timing(line: &str, form: u8) -> Option<(Timing, Timing)> {
    let words: Vec<_> = line.split(' ').collect();
    let spans = match (form, &words[..]) {
        (1, ["circuit", _, _, _, _, _]) => [false, false],
        (2 | 3, ["circuit", _, _, _, _, _, server, node]) => {
            let span = |word: &str| match word {
                "byte" => Some(false),
                "word" => Some(true),
                _ => None,
            };
            [span(server)?, span(node)?]
        }
        _ => return None,
    };
    let of = |wide| {
        Some(Timing {
            timer: number(words[1], 1, 100)? as u8,
            keepalive: number(words[2], 1, 255)? as u8,
            sessions: number(words[3], 1, 64)? as u8,
            extra: number(words[4], 0, 255)? as u8,
            ceiling: number(words[5], 1, 15)? as u8,
            wide,
        })
    };
    Some((of(spans[0])?, of(spans[1])?))
}

fn mask(word: &str) -> Option<Vec<u8>> {
    let mut bytes = Vec::new();
    hex(word, 1, 32, &mut bytes)?;
    Some(bytes)
}

fn make(lines: &mut Lines) -> Result<World, usize> {
    // The first line that says something decides about silent lines.
    let first = lines
        .rest
        .split('\n')
        .find(|line| !line.is_empty() && !line.starts_with('#'));
    if first == Some("lat 3") {
        lines.form = 3;
    }
    lines.form = match lines.next()? {
        "lat 1" => 1,
        "lat 2" => 2,
        "lat 3" => 3,
        _ => return Err(lines.line),
    };
    let form = lines.form;
    let server_line: Vec<_> = lines.next()?.split(' ').collect();
    let server = match &server_line[..] {
        ["server", own, server, count, rest @ ..] => (|| {
            let own = address(own).filter(|&own| own != EVERYONE)?;
            Some((
                own,
                name(server)?,
                number(count, 1, 32)? as u8,
                extras(rest, form)?,
            ))
        })(),
        _ => None,
    }
    .ok_or(lines.line)?;
    let node_line: Vec<_> = lines.next()?.split(' ').collect();
    let node = match &node_line[..] {
        ["node", own, node, count, incarnation, timer, rest @ ..] => (|| {
            let own = address(own).filter(|&own| own != EVERYONE && own != server.0)?;
            let numbers = (
                number(count, 1, 64)? as u8,
                number(incarnation, 0, 65_535)? as u16,
                number(timer, 1, 255)? as u8,
            );
            Some((own, name(node)?, numbers, extras(rest, form)?))
        })(),
        _ => None,
    }
    .ok_or(lines.line)?;
    let timing = timing(lines.next()?, form).ok_or(lines.line)?;
    let (mut server_groups, mut node_groups) = (None, None);
    let (mut services, mut offers): (Vec<Vec<u8>>, Vec<(u8, Vec<u8>)>) = (Vec::new(), Vec::new());
    // How far the head has come: groups of the server, of the node, services, offers.
    let mut stage = 0;
    loop {
        let line = lines.next()?;
        let words: Vec<_> = line.split(' ').collect();
        let at = lines.line;
        let next = match &words[..] {
            ["server-groups", groups] if form > 1 && stage < 1 => {
                server_groups = Some(mask(groups).ok_or(at)?);
                1
            }
            ["node-groups", groups] if form > 1 && stage < 2 => {
                node_groups = Some(mask(groups).ok_or(at)?);
                2
            }
            ["service", service] if stage < 4 => {
                let service = name(service).ok_or(at)?;
                if services.len() == 32 || services.iter().any(|other| same(other, &service)) {
                    return Err(at);
                }
                services.push(service);
                3
            }
            ["offer", line, service] => {
                let line = number(line, 1, u64::from(server.2)).ok_or(at)? as u8;
                let service = name(service).ok_or(at)?;
                if offers.iter().any(|&(other, _)| other == line) {
                    return Err(at);
                }
                offers.push((line, service));
                4
            }
            ["go"] => break,
            _ => return Err(at),
        };
        stage = next;
    }
    let (own, label, count, (first, prompt)) = server;
    let core = Core::new(true, own, &label, timing.0, count, first, prompt);
    let server = Server::new(core, server_groups.unwrap_or_else(|| vec![255; 32]), offers);
    let (own, label, (count, incarnation, timer), (first, prompt)) = node;
    let core = Core::new(false, own, &label, timing.1, count, first, prompt);
    let node = Node::new(
        core,
        incarnation,
        timer,
        node_groups.unwrap_or_default(),
        services,
    );
    Ok(World::new(server, node))
}

/// One event line. None: it is wrong.
fn event(
    world: &mut World,
    line: &str,
    form: u8,
    bytes: &mut Vec<u8>,
    told: bool,
) -> Option<Result<(), Fault>> {
    let mut words = line.split(' ');
    let mut next = || words.next();
    let line_of = |word: Option<&str>| number(word?, 0, 255).map(|line| line as u8);
    let first = next()?;
    let label;
    let event = match first {
        "deliver" => {
            let index = number(next()?, 0, 999_999_999)?;
            return next()
                .is_none()
                .then(|| if told { world.deliver(index) } else { Ok(()) });
        }
        "inject" => {
            let (to, from, payload) = (side(next()?)?, address(next()?)?, next()?);
            if payload == "-" {
                bytes.clear();
            } else {
                hex(payload, 1, 4096, bytes)?;
            }
            return next().is_none().then(|| {
                if told {
                    world.inject(to, from, bytes).map(|_| ())
                } else {
                    Ok(())
                }
            });
        }
        _ => {
            let of_server = side(first)? == Side::Server;
            match next()? {
                "connect" if of_server => {
                    let line = line_of(next())?;
                    label = name(next()?)?;
                    Local::Connect(line, &label)
                }
                "put" => {
                    let line = line_of(next())?;
                    hex(next()?, 1, 4096, bytes)?;
                    Local::Put(line, bytes)
                }
                "set" => {
                    let line = line_of(next())?;
                    hex(next()?, 5, 5, bytes)?;
                    Local::Set(line, [bytes[0], bytes[1], bytes[2], bytes[3], bytes[4]])
                }
                "take" => Local::Take(line_of(next())?, number(next()?, 0, 4096)? as u16),
                "attend" => {
                    let line = line_of(next())?;
                    hex(next()?, 1, 1, bytes)?;
                    Local::Attend(line, bytes[0])
                }
                "close" => Local::Close(line_of(next())?),
                "time" => Local::Time(number(next()?, 0, 999_999_999_999_999)?),
                "request" if !of_server => {
                    let id = number(next()?, 0, 65_535)? as u16;
                    label = name(next()?)?;
                    Local::Request(id, &label)
                }
                "cancel" if !of_server => Local::Cancel(number(next()?, 0, 65_535)? as u16),
                "announce" if !of_server => Local::Announce,
                "halt" if form == 3 => Local::Halt,
                "avoid" if form == 3 && of_server => Local::Avoid(line_of(next())?),
                "ready" if form == 3 && of_server => {
                    let line = line_of(next())?;
                    Local::Ready(line, number(next()?, 0, 1)? == 1)
                }
                _ => return None,
            }
        }
    };
    if next().is_some() {
        return None;
    }
    Some(if told {
        world.local(side(first)?, &event).map(|_| ())
    } else {
        Ok(())
    })
}

pub fn play(text: &str) -> Played {
    let mut lines = Lines {
        rest: text,
        line: 0,
        form: 1,
    };
    let mut world = match make(&mut lines) {
        Ok(world) => world,
        Err(line) => return Played::Wrong(line),
    };
    let mut bytes = Vec::new();
    let mut events = 0;
    let mut refused = None;
    loop {
        let line = match lines.next() {
            Ok("end") => break,
            Ok(line) => line,
            Err(at) => return Played::Wrong(at),
        };
        let told = refused.is_none() && events < EVENTS;
        match event(&mut world, line, lines.form, &mut bytes, told) {
            None => return Played::Wrong(lines.line),
            Some(Err(fault)) => refused = Some((lines.line, fault)),
            Some(Ok(())) => {}
        }
        events += 1;
    }
    let at = lines.line;
    match lines.next() {
        Ok(_) => return Played::Wrong(lines.line),
        Err(_) if !lines.rest.is_empty() => return Played::Wrong(at + 1),
        Err(_) => {}
    }
    if events > EVENTS {
        return Played::TooMany;
    }
    match refused {
        Some((line, fault)) => Played::Refused(line, fault),
        None => Played::Report(report(&world)),
    }
}

const DIGITS: &[u8; 16] = b"0123456789abcdef";

pub fn hex_onto(text: &mut String, bytes: &[u8]) {
    for &byte in bytes {
        text.push(DIGITS[usize::from(byte >> 4)] as char);
        text.push(DIGITS[usize::from(byte & 15)] as char);
    }
}

fn items_onto(text: &mut String, items: &[Item]) {
    if items.is_empty() {
        text.push('-');
    }
    for item in items {
        match item {
            Item::Byte(byte) => hex_onto(text, &[*byte]),
            Item::Setting(setting) => {
                text.push('(');
                hex_onto(text, setting);
                text.push(')');
            }
        }
    }
}

fn name_onto(text: &mut String, name: &[u8]) {
    for &byte in name {
        if (0x21..=0x7e).contains(&byte) && byte != b'%' {
            text.push(byte as char);
        } else {
            text.push('%');
            hex_onto(text, &[byte]);
        }
    }
}

fn way_onto(text: &mut String, way: &str, put: &[Item], taken: &[Item], given: u64, used: u64) {
    text.push_str(way);
    text.push_str(" put ");
    items_onto(text, put);
    text.push_str(" taken ");
    items_onto(text, taken);
    let _ = writeln!(text, " given {given} used {used}");
}

fn refusal_word(refusal: Refusal) -> &'static str {
    match refusal {
        Refusal::NoLine => "no-line",
        Refusal::Busy => "busy",
        Refusal::NoService => "no-service",
        Refusal::SessionsFull => "sessions-full",
        Refusal::CircuitsFull => "circuits-full",
        Refusal::IdsOut => "ids-out",
        Refusal::Closed => "closed",
        Refusal::Full => "full",
        Refusal::IdUsed => "id-used",
        Refusal::DirectoryFull => "directory-full",
        Refusal::StartRefused => "start-refused",
        Refusal::RecordsFull => "records-full",
        Refusal::Halted => "halted",
    }
}

fn status_word(status: Status) -> &'static str {
    match status {
        Status::Waiting => "waiting",
        Status::Granted => "granted",
        Status::Cancelled => "cancelled",
        Status::QueueFull => "queue-full",
        Status::NoService => "no-service",
        Status::Done => "done",
    }
}

fn end_onto(text: &mut String, end: Option<SessionEnd>) {
    let _ = match end {
        None => write!(text, "open"),
        Some(SessionEnd::Closed) => write!(text, "closed"),
        Some(SessionEnd::Rejected(reason)) => write!(text, "rejected {reason}"),
        Some(SessionEnd::Circuit(reason)) => write!(text, "circuit {reason}"),
    };
}

/// The two sessions of each row, the node's where there is one.
pub fn rows(world: &World) -> impl Iterator<Item = (&Session, Option<&Session>)> {
    let (server, node) = (&world.server.core, &world.node.core);
    server
        .seated
        .iter()
        .zip(&world.mates)
        .map(|(&place, mate)| {
            (
                &server.sessions[place],
                mate.map(|mate| &node.sessions[mate]),
            )
        })
}

pub fn report(world: &World) -> String {
    let mut text = String::new();
    let _ = writeln!(text, "frames {}", world.frames.len());
    for (row, (own, mate)) in rows(world).enumerate() {
        let _ = write!(
            text,
            "session {} server-line {} node-line ",
            row + 1,
            own.line
        );
        let _ = match mate {
            None => write!(text, "-"),
            Some(mate) => write!(text, "{}", mate.line),
        };
        text.push_str(" end ");
        end_onto(&mut text, own.end);
        text.push('\n');
        let (taken, put, given, used) = mate.map_or((&[][..], &[][..], 0, 0), |m| {
            (&m.taken[..], &m.put[..], m.given, m.used)
        });
        way_onto(&mut text, "up", &own.put, taken, given, own.used);
        way_onto(&mut text, "down", put, &own.taken, own.given, used);
    }
    for record in &world.server.records {
        text.push_str("request ");
        name_onto(&mut text, &record.node);
        let _ = write!(text, " {} {} ", record.incarnation, record.id);
        name_onto(&mut text, &record.service);
        let _ = writeln!(text, " {}", status_word(record.status));
    }
    for &place in &world.server.grants {
        let record = &world.server.records[place];
        text.push_str("grant ");
        name_onto(&mut text, &record.node);
        let _ = writeln!(text, " {} {}", record.incarnation, record.id);
    }
    for (event, note) in &world.notes {
        let _ = match note {
            Note::Bad(bad) => writeln!(text, "event {event} bad {} {}", bad.field, bad.at),
            Note::Broke(reason) => writeln!(text, "event {event} broke {reason}"),
            Note::Refused(refusal) => {
                writeln!(text, "event {event} refused {}", refusal_word(*refusal))
            }
        };
    }
    text.push_str("done\n");
    text
}

pub fn fault_text(line: usize, fault: &Fault) -> String {
    match fault {
        Fault::Frames => format!("line {line} limit frames\n"),
        Fault::Backward { to, last } => format!("line {line} backward {to} {last}\n"),
        Fault::OwnAddress => format!("line {line} own-address\n"),
        Fault::NoFrame { index, sent } => format!("line {line} noframe {index} {sent}\n"),
        Fault::OldNumber { number, newest } => {
            format!("line {line} old number {number} {newest}\n")
        }
        Fault::OldAcknowledgement { number, newest } => {
            format!("line {line} old acknowledgement {number} {newest}\n")
        }
    }
}

/// The world of a head that is right.
pub fn world_of(head: &str) -> World {
    match make(&mut Lines {
        rest: head,
        line: 0,
        form: 1,
    }) {
        Ok(world) => world,
        Err(line) => unreachable!("line {line} of a head"),
    }
}
