//! Random tapes: mixed ones of any length, whose events the rival accepts, and damaged ones.

use crate::random::Random;
use crate::rival::{Action, Rival};

/// What a mixed tape is to be like.
#[derive(Clone, Copy)]
pub struct Mix {
    /// How many tasks begin.
    pub tasks: usize,
    /// How many events the tape has, if it fits into the room for tapes.
    pub events: usize,
    /// How many tasks may come to be named.
    pub named: u32,
    /// How many tasks stay Running at least, so that the tape can go on.
    pub running: u32,
    /// A task may finish once in so many events.
    pub finish: usize,
}

const TAPE_ROOM: usize = 65_536;

fn spell(actor: usize, action: Action) -> String {
    match action {
        Action::Begin { child, entries } => format!("N,{actor},{child},{entries}\n"),
        Action::OpenBlock => format!("B,{actor}\n"),
        Action::LeaveBlock => format!("L,{actor}\n"),
        Action::Call { server, entry } => format!("C,{actor},{server},{entry}\n"),
        Action::Accept { mask } => format!("A,{actor},{mask}\n"),
        Action::EndRendezvous => format!("E,{actor}\n"),
        Action::Finish => format!("F,{actor}\n"),
    }
}

/// The members of a set of tasks.
fn members(set: u64) -> impl Iterator<Item = usize> {
    (0..64).filter(move |t| set >> t & 1 != 0)
}

/// A Running task for which the test holds.
fn actor(random: &mut Random, rival: &Rival, test: impl Fn(usize) -> bool) -> Option<usize> {
    let set = members(rival.running())
        .filter(|t| test(*t))
        .fold(0, |set, t| set | 1 << t);
    (set != 0).then(|| random.member(set))
}

/// What some task might do next.
fn choose(random: &mut Random, rival: &Rival, mix: Mix) -> Option<(usize, Action)> {
    let begun = rival.begun();
    if begun < mix.tasks && random.once_in(3) {
        let entries = if random.once_in(3) {
            0
        } else {
            1 + random.below(8) as u16
        };
        let flat = !random.once_in(4);
        return Some((
            actor(random, rival, |t| !flat || rival.depth(t) == 0)?,
            Action::Begin {
                child: begun as u16,
                entries,
            },
        ));
    }
    if random.once_in(mix.finish) {
        return Some((
            actor(random, rival, |t| rival.depth(t) == 0)?,
            Action::Finish,
        ));
    }
    match random.below(12) {
        0 => {
            let room = if random.once_in(8) { 8 } else { 2 };
            Some((
                actor(random, rival, |t| rival.depth(t) < room)?,
                Action::OpenBlock,
            ))
        }
        1 => Some((
            actor(random, rival, |t| rival.in_block(t))?,
            Action::LeaveBlock,
        )),
        2..=4 => Some((
            actor(random, rival, |t| rival.depth(t) > 0 && !rival.in_block(t))?,
            Action::EndRendezvous,
        )),
        5..=7 => accept(random, rival),
        _ => call(random, rival),
    }
}

/// An accept: more often than not by a task that has a caller.
fn accept(random: &mut Random, rival: &Rival) -> Option<(usize, Action)> {
    let called = !random.once_in(4);
    let a = actor(random, rival, |t| {
        rival.entries(t) > 0 && (!called || rival.called(t) != 0)
    })?;
    let all = (1usize << rival.entries(a)) - 1;
    let mask = if random.once_in(2) {
        all
    } else {
        1 + random.below(all)
    };
    Some((a, Action::Accept { mask: mask as u16 }))
}

/// A call: more often than not of a task that accepts, or else of one that runs.
fn call(random: &mut Random, rival: &Rival) -> Option<(usize, Action)> {
    let a = actor(random, rival, |_| true)?;
    let accepting = rival.accepting();
    if accepting != 0 && !random.once_in(3) {
        let server = random.member(accepting);
        let entry = rival.open(server).trailing_zeros() as u16;
        return Some((
            a,
            Action::Call {
                server: server as u16,
                entry,
            },
        ));
    }
    let server = if random.once_in(6) {
        random.below(rival.begun())
    } else {
        random.member(rival.running())
    };
    let entry = random.below(rival.entries(server).max(1) as usize) as u16;
    Some((
        a,
        Action::Call {
            server: server as u16,
            entry,
        },
    ))
}

/// A tape of accepted events.
pub fn mixed(seed: u64, mix: Mix) -> Vec<u8> {
    let mut random = Random::new(seed);
    let mut rival = Rival::new();
    let mut tape = Vec::new();
    let mut told = 0;
    let mut tries = 0;
    while told < mix.events && tries < 40 * mix.events {
        tries += 1;
        let Some((a, action)) = choose(&mut random, &rival, mix) else {
            continue;
        };
        let mut after = rival.clone();
        if !after.tell(a as u16, action) {
            continue;
        }
        if after.leaving().count_ones() > rival.leaving().count_ones() && !random.once_in(20) {
            continue;
        }
        if after.named().count_ones() > mix.named
            || after.running().count_ones() < mix.running.min(after.begun() as u32)
        {
            continue;
        }
        let line = spell(a, action);
        if tape.len() + line.len() > TAPE_ROOM {
            break;
        }
        tape.extend_from_slice(line.as_bytes());
        rival = after;
        told += 1;
        if rival.running() == 0 {
            break;
        }
    }
    tape
}

/// The tape with something wrong, or only different, somewhere.
pub fn damaged(seed: u64, tape: &[u8]) -> Vec<u8> {
    let mut random = Random::new(seed);
    let mut bad = tape.to_vec();
    for _ in 0..1 + random.below(3) {
        let i = random.below(bad.len() + 1);
        match random.below(6) {
            0 if i < bad.len() => bad[i] = random.below(256) as u8,
            1 if i < bad.len() => bad[i] = b"0123456789,,\nNBLCAEFW"[random.below(21)],
            2 if i < bad.len() => {
                bad.remove(i);
            }
            3 => bad.insert(i, b"0123456789,\nNBLCAEF"[random.below(19)]),
            4 => bad.truncate(i),
            _ => {
                let lines: Vec<&[u8]> = bad.split_inclusive(|b| *b == b'\n').collect();
                if lines.len() > 1 {
                    let from = random.below(lines.len());
                    let to = random.below(lines.len());
                    let mut lines = lines;
                    lines.swap(from, to);
                    bad = lines.concat();
                }
            }
        }
    }
    bad
}
