//! Compares the proved monitor with the rival: first what they write, then what they cost.
//!
//!     bench compare COUNT                           random tapes: both must write the same report, or refuse alike
//!     bench time                                    nanoseconds per event of both, and their ratio
//!     bench play ours|rival TIMES EVENTS NAMED      plays one long mixed tape so many times, to be counted from outside

mod ours;
mod random;
mod rival;
mod tapes;

use random::Random;
use std::time::Instant;
use tapes::Mix;

/// The long mixed tape: all 64 tasks, up to eight of them named.
const LONG: Mix = Mix {
    tasks: 64,
    events: 8_000,
    named: 8,
    running: 12,
    finish: 400,
};

fn mix_of(random: &mut Random) -> Mix {
    Mix {
        tasks: 1 + random.below(64),
        events: if random.once_in(20) {
            8_000
        } else {
            1 + random.below(300)
        },
        named: [0, 1, 4, 16, 64][random.below(5)],
        running: [0, 1, 2, 8][random.below(4)],
        finish: [5, 20, 100, 1_000][random.below(4)],
    }
}

/// Both on one tape, into buffers that hold the same bytes before. What differs, if anything.
fn difference(tape: &[u8], room: usize) -> Option<String> {
    let mut ours_buffer = vec![7u8; room];
    let mut rival_buffer = vec![7u8; room];
    let ours = ours::report_of_tape(tape, &mut ours_buffer);
    let rival = rival::report_of_tape(tape, &mut rival_buffer).map_err(|refused| refused as u8);
    if ours == rival && ours_buffer == rival_buffer {
        return None;
    }
    Some(format!(
        "ours {ours:?} {}\nrival {rival:?} {}\ntape:\n{}",
        String::from_utf8_lossy(&ours_buffer),
        String::from_utf8_lossy(&rival_buffer),
        String::from_utf8_lossy(tape)
    ))
}

fn compare(count: u64) {
    let mut events = 0;
    let mut names = 0;
    for seed in 1..=count {
        let mut random = Random::new(seed);
        let mut tape = tapes::mixed(seed, mix_of(&mut random));
        if random.once_in(2) {
            tape = tapes::damaged(seed, &tape);
        }
        if random.once_in(500) {
            tape.resize(65_530 + random.below(12), b'\n');
        }
        let room = if random.once_in(10) {
            random.below(64)
        } else {
            4_096
        };
        events += tape.iter().filter(|b| **b == b'\n').count();
        let mut buffer = vec![0; 4_096];
        if let Ok(n) = rival::report_of_tape(&tape, &mut buffer) {
            names += buffer[..n].iter().filter(|b| **b == b'D').count();
        }
        if let Some(difference) = difference(&tape, room) {
            println!("seed {seed}: {difference}");
            std::process::exit(1);
        }
    }
    println!("{count} tapes, {events} lines, {names} names reported: the same from both");
}

fn lines(tape: &[u8]) -> usize {
    tape.iter().filter(|b| **b == b'\n').count()
}

fn nanoseconds(tape: &[u8], play: impl Fn(&[u8], &mut [u8])) -> f64 {
    let mut buffer = vec![0; 4_096];
    let mut best = f64::MAX;
    for _ in 0..15 {
        let start = Instant::now();
        for _ in 0..20 {
            play(std::hint::black_box(tape), &mut buffer);
        }
        best = best.min(start.elapsed().as_nanos() as f64 / 20.0);
    }
    best / lines(tape) as f64
}

fn time() {
    println!("events  named  ours ns/event  rival ns/event  ratio");
    for (events, named) in [
        (500, 8),
        (1_000, 8),
        (2_000, 8),
        (4_000, 8),
        (8_000, 8),
        (8_000, 0),
        (8_000, 40),
    ] {
        let tape = tapes::mixed(
            11,
            Mix {
                events,
                named,
                ..LONG
            },
        );
        let ours = nanoseconds(&tape, |tape, buffer| {
            let _ = ours::report_of_tape(tape, buffer);
        });
        let rival = nanoseconds(&tape, |tape, buffer| {
            let _ = rival::report_of_tape(tape, buffer);
        });
        println!(
            "{:6}  {named:5}  {ours:13.1}  {rival:14.1}  {:5.2}",
            lines(&tape),
            ours / rival
        );
    }
}

fn play(who: &str, times: usize, events: usize, named: u32) {
    let tape = tapes::mixed(
        11,
        Mix {
            events,
            named,
            ..LONG
        },
    );
    let mut buffer = vec![0; 4_096];
    for _ in 0..times {
        if who == "ours" {
            let _ = ours::report_of_tape(std::hint::black_box(&tape), &mut buffer);
        } else {
            let _ = rival::report_of_tape(std::hint::black_box(&tape), &mut buffer);
        }
    }
    println!("{} events", lines(&tape) * times);
}

/// The number that a word of the command line is.
fn number<N: std::str::FromStr>(word: &str) -> N {
    word.parse().unwrap_or_else(|_| {
        eprintln!("bench: '{word}' is no number that fits here");
        std::process::exit(2);
    })
}

fn main() {
    let words: Vec<String> = std::env::args().skip(1).collect();
    let words: Vec<&str> = words.iter().map(String::as_str).collect();
    match words[..] {
        ["compare", count] => compare(number(count)),
        ["time"] => time(),
        ["play", who @ ("ours" | "rival"), times, events, named] => {
            play(who, number(times), number(events), number(named))
        }
        _ => {
            eprintln!("bench: compare COUNT, time, or play ours|rival TIMES EVENTS NAMED");
            std::process::exit(2);
        }
    }
}
