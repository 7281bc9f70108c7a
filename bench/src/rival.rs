//! The rival: the rules of docs/RULES.md written by hand for speed, in plain Rust, with nothing taken from the proved code.
//! Sets of tasks are words (bit t is task t), queues are linked lists, and judging looks only where a name could be new.

const TASKS: usize = 64;
const ENTRIES: usize = 8;
const BLOCK_ROOM: u8 = 8;
const FRAME_ROOM: u8 = 12;
const TAPE_ROOM: usize = 65_536;
const NOBODY: u8 = 255;

/// Why a tape has no report.
#[derive(Debug, PartialEq, Eq)]
pub enum Refused {
    ReportTooLong = 18,
    TapeTooLong = 20,
}

/// What a line asks for.
#[derive(Clone, Copy)]
pub enum Action {
    Begin { child: u16, entries: u16 },
    OpenBlock,
    LeaveBlock,
    Call { server: u16, entry: u16 },
    Accept { mask: u16 },
    EndRendezvous,
    Finish,
}

#[derive(Clone)]
pub struct Rival {
    begun: usize,
    // what tasks are doing; each task that has begun is in one of these
    running: u64,
    queued: u64,
    engaged: u64,
    accepting: u64,
    leaving: u64,
    completed: u64,
    terminated: u64,
    named: u64,
    // of a queued or engaged task
    server: [u8; TASKS],
    // the mask of an accepting task
    open: [u8; TASKS],
    entries: [u8; TASKS],
    // how many frames are open; which levels, from 0, are blocks; who is met in the others
    depth: [u8; TASKS],
    blocks: [u16; TASKS],
    callers: [[u8; FRAME_ROOM as usize]; TASKS],
    creator: [u8; TASKS],
    level: [u8; TASKS],
    // all dependents of a task, and those of its block at a level from 1
    dependents: [u64; TASKS],
    in_block: [[u64; BLOCK_ROOM as usize + 1]; TASKS],
    // entries that have a caller; the queues; all callers of a task
    called: [u8; TASKS],
    first: [[u8; ENTRIES]; TASKS],
    last: [[u8; ENTRIES]; TASKS],
    next: [u8; TASKS],
    callers_of: [u64; TASKS],
}

#[inline]
fn bit(t: usize) -> u64 {
    1 << t
}

#[inline]
fn has(set: u64, t: usize) -> bool {
    set >> t & 1 != 0
}

impl Rival {
    pub fn new() -> Rival {
        Rival {
            begun: 1,
            running: 1,
            queued: 0,
            engaged: 0,
            accepting: 0,
            leaving: 0,
            completed: 0,
            terminated: 0,
            named: 0,
            server: [0; TASKS],
            open: [0; TASKS],
            entries: [0; TASKS],
            depth: [0; TASKS],
            blocks: [0; TASKS],
            callers: [[0; FRAME_ROOM as usize]; TASKS],
            creator: [NOBODY; TASKS],
            level: [0; TASKS],
            dependents: [0; TASKS],
            in_block: [[0; BLOCK_ROOM as usize + 1]; TASKS],
            called: [0; TASKS],
            first: [[0; ENTRIES]; TASKS],
            last: [[0; ENTRIES]; TASKS],
            next: [0; TASKS],
            callers_of: [0; TASKS],
        }
    }

    pub fn begun(&self) -> usize {
        self.begun
    }

    pub fn running(&self) -> u64 {
        self.running
    }

    pub fn named(&self) -> u64 {
        self.named
    }

    pub fn entries(&self, t: usize) -> u8 {
        self.entries[t]
    }

    pub fn accepting(&self) -> u64 {
        self.accepting
    }

    pub fn leaving(&self) -> u64 {
        self.leaving
    }

    pub fn open(&self, t: usize) -> u8 {
        self.open[t]
    }

    /// The entries of a task that have a caller.
    pub fn called(&self, t: usize) -> u8 {
        self.called[t]
    }

    pub fn depth(&self, t: usize) -> u8 {
        self.depth[t]
    }

    pub fn in_block(&self, t: usize) -> bool {
        let depth = self.depth[t];
        depth > 0 && self.blocks[t] >> (depth - 1) & 1 != 0
    }

    /// Whether the event was accepted.
    #[inline]
    pub fn tell(&mut self, actor: u16, action: Action) -> bool {
        let a = actor as usize;
        if a >= self.begun || !has(self.running, a) {
            return false;
        }
        match action {
            Action::Begin { child, entries } => self.begin(a, child, entries),
            Action::OpenBlock => self.open_block(a),
            Action::LeaveBlock => self.leave_block(a),
            Action::Call { server, entry } => self.call(a, server, entry),
            Action::Accept { mask } => self.accept(a, mask),
            Action::EndRendezvous => self.end_rendezvous(a),
            Action::Finish => self.finish(a),
        }
    }

    fn begin(&mut self, a: usize, child: u16, entries: u16) -> bool {
        let c = self.begun;
        if c >= TASKS || child as usize != c || entries as usize > ENTRIES {
            return false;
        }
        let level = 16 - self.blocks[a].leading_zeros() as usize;
        self.begun += 1;
        self.running |= bit(c);
        self.entries[c] = entries as u8;
        self.creator[c] = a as u8;
        self.level[c] = level as u8;
        self.dependents[a] |= bit(c);
        self.in_block[a][level] |= bit(c);
        true
    }

    fn open_block(&mut self, a: usize) -> bool {
        let depth = self.depth[a];
        if depth >= BLOCK_ROOM {
            return false;
        }
        self.blocks[a] |= 1 << depth;
        self.depth[a] = depth + 1;
        true
    }

    fn leave_block(&mut self, a: usize) -> bool {
        if !self.in_block(a) {
            return false;
        }
        let level = self.depth[a] as usize;
        if self.in_block[a][level] & !self.terminated == 0 {
            self.close_block(a);
            return true;
        }
        self.running &= !bit(a);
        self.leaving |= bit(a);
        self.judge();
        true
    }

    fn close_block(&mut self, a: usize) {
        let level = self.depth[a] as usize;
        self.in_block[a][level] = 0;
        self.depth[a] -= 1;
        self.blocks[a] &= !(1 << (level - 1));
    }

    fn call(&mut self, a: usize, server: u16, entry: u16) -> bool {
        let s = server as usize;
        if s >= self.begun || entry >= self.entries[s] as u16 {
            return false;
        }
        let e = entry as usize;
        if has(self.completed | self.terminated, s) {
            return true;
        }
        if has(self.accepting, s) && self.open[s] >> e & 1 != 0 {
            self.accepting &= !bit(s);
            self.running |= bit(s);
            self.engage(a, s);
            return true;
        }
        self.running &= !bit(a);
        self.queued |= bit(a);
        self.server[a] = s as u8;
        self.callers_of[s] |= bit(a);
        if self.called[s] >> e & 1 == 0 {
            self.called[s] |= 1 << e;
            self.first[s][e] = a as u8;
        } else {
            self.next[self.last[s][e] as usize] = a as u8;
        }
        self.last[s][e] = a as u8;
        if !self.plainly_runs(a) {
            self.judge();
        }
        true
    }

    /// A rendezvous begins: the caller, until now Running or Queued, is Engaged.
    fn engage(&mut self, caller: usize, server: usize) {
        self.running &= !bit(caller);
        self.queued &= !bit(caller);
        self.engaged |= bit(caller);
        self.server[caller] = server as u8;
        let depth = self.depth[server];
        self.callers[server][depth as usize] = caller as u8;
        self.depth[server] = depth + 1;
    }

    fn accept(&mut self, a: usize, mask: u16) -> bool {
        if mask == 0 || mask >> self.entries[a] != 0 || self.depth[a] >= FRAME_ROOM {
            return false;
        }
        let ready = mask as u8 & self.called[a];
        if ready == 0 {
            self.running &= !bit(a);
            self.accepting |= bit(a);
            self.open[a] = mask as u8;
            if self.running == 0 {
                self.judge();
            }
            return true;
        }
        let e = ready.trailing_zeros() as usize;
        let caller = self.first[a][e];
        if caller == self.last[a][e] {
            self.called[a] &= !(1 << e);
        } else {
            self.first[a][e] = self.next[caller as usize];
        }
        self.callers_of[a] &= !bit(caller as usize);
        self.engage(caller as usize, a);
        true
    }

    fn end_rendezvous(&mut self, a: usize) -> bool {
        let depth = self.depth[a];
        if depth == 0 || self.blocks[a] >> (depth - 1) & 1 != 0 {
            return false;
        }
        let caller = self.callers[a][depth as usize - 1] as usize;
        self.depth[a] = depth - 1;
        self.engaged &= !bit(caller);
        self.running |= bit(caller);
        true
    }

    fn finish(&mut self, a: usize) -> bool {
        if self.depth[a] != 0 {
            return false;
        }
        let callers = self.callers_of[a];
        self.queued &= !callers;
        self.running |= callers;
        self.callers_of[a] = 0;
        self.called[a] = 0;
        self.running &= !bit(a);
        if self.dependents[a] & !self.terminated == 0 {
            self.terminated |= bit(a);
            self.settle(a);
        } else {
            self.completed |= bit(a);
        }
        self.judge();
        true
    }

    fn settle(&mut self, ended: usize) {
        let mut t = ended;
        while self.creator[t] != NOBODY {
            let m = self.creator[t] as usize;
            if has(self.leaving, m) {
                let level = self.depth[m] as usize;
                if self.level_of(t, m) == level && self.in_block[m][level] & !self.terminated == 0 {
                    self.leaving &= !bit(m);
                    self.running |= bit(m);
                    self.close_block(m);
                }
                return;
            }
            if !has(self.completed, m) || self.dependents[m] & !self.terminated != 0 {
                return;
            }
            self.completed &= !bit(m);
            self.terminated |= bit(m);
            t = m;
        }
    }

    /// The level of the block of m on which its dependent t depends; 0 once that block has closed.
    fn level_of(&self, t: usize, m: usize) -> usize {
        let level = self.level[t] as usize;
        if has(self.in_block[m][level], t) {
            level
        } else {
            0
        }
    }

    /// Whether a queued task waits, through any chain of queues, for a task that runs, or that accepts while one runs. If so
    /// no name is new: everything that could go on before can go on still.
    fn plainly_runs(&self, caller: usize) -> bool {
        let mut t = caller;
        for _ in 0..TASKS {
            t = self.server[t] as usize;
            if has(self.running, t) {
                return true;
            }
            if has(self.accepting, t) {
                return self.running != 0;
            }
            if !has(self.queued, t) {
                return false;
            }
        }
        false
    }

    /// Adds the names of the tasks that can never go on. Names are never withdrawn, so those that have one are not looked at.
    fn judge(&mut self) {
        let mut run = self.running;
        let mut end = self.terminated;
        let asked = self.queued | self.engaged | self.leaving;
        loop {
            let (run_before, end_before) = (run, end);
            if run != 0 {
                run |= self.accepting;
            }
            let mut rest = asked & !run & !self.named;
            while rest != 0 {
                let t = rest.trailing_zeros() as usize;
                rest &= rest - 1;
                if self.can_run(t, run, end) {
                    run |= bit(t);
                }
            }
            let mut rest = (run | self.completed) & !end & !self.named;
            while rest != 0 {
                let t = rest.trailing_zeros() as usize;
                rest &= rest - 1;
                if self.dependents[t] & !end == 0 {
                    end |= bit(t);
                }
            }
            if run == run_before && end == end_before {
                break;
            }
        }
        let begun = u64::MAX >> (TASKS - self.begun);
        self.named = begun & !run & !end;
    }

    #[inline]
    fn can_run(&self, t: usize, run: u64, end: u64) -> bool {
        if has(self.leaving, t) {
            return self.in_block[t][self.depth[t] as usize] & !end == 0;
        }
        let s = self.server[t] as usize;
        has(run, s) && (has(self.queued, t) || self.inside(t, s) & !end == 0)
    }

    /// The dependents of each block that the server opened inside its rendezvous with the caller.
    fn inside(&self, caller: usize, server: usize) -> u64 {
        let mut tasks = 0;
        let mut l = self.depth[server] as usize;
        while l > 0 {
            if self.blocks[server] >> (l - 1) & 1 == 0 {
                if self.callers[server][l - 1] as usize == caller {
                    break;
                }
            } else {
                tasks |= self.in_block[server][l];
            }
            l -= 1;
        }
        tasks
    }

    fn wait_of(&self, t: usize) -> (u8, u8) {
        let unfinished = |tasks: u64| (tasks & !self.terminated).count_ones() as u8;
        if has(self.queued, t) {
            (b'Q', self.server[t])
        } else if has(self.engaged, t) {
            (b'R', self.server[t])
        } else if has(self.accepting, t) {
            (b'A', self.open[t])
        } else if has(self.leaving, t) {
            (b'L', unfinished(self.in_block[t][self.depth[t] as usize]))
        } else {
            (b'W', unfinished(self.dependents[t]))
        }
    }

    fn report(&self, told: usize, stopped: bool) -> Vec<u8> {
        let mut text = Vec::with_capacity(1024);
        let mut rest = self.named;
        while rest != 0 {
            let t = rest.trailing_zeros() as usize;
            rest &= rest - 1;
            let (letter, other) = self.wait_of(t);
            text.extend_from_slice(b"D,");
            put_number(&mut text, t);
            text.extend_from_slice(&[b',', letter, b',']);
            put_number(&mut text, other as usize);
            text.push(b'\n');
        }
        text.extend_from_slice(if stopped { b"S," } else { b"T," });
        put_number(&mut text, told);
        text.push(b',');
        put_number(&mut text, self.named.count_ones() as usize);
        text.push(b'\n');
        text
    }
}

fn put_number(text: &mut Vec<u8>, n: usize) {
    if n >= 10 {
        put_number(text, n / 10);
    }
    text.push(b'0' + (n % 10) as u8);
}

/// The event that a line spells.
#[inline]
fn read_event(line: &[u8]) -> Option<(u16, Action)> {
    if line.len() < 3 || line.len() > 32 || line[1] != b',' {
        return None;
    }
    let mut numbers = [0u16; 3];
    let mut count = 0;
    let mut i = 2;
    loop {
        let start = i;
        let mut n = 0;
        while i < line.len() && line[i] != b',' {
            let digit = line[i].wrapping_sub(b'0');
            if digit > 9 {
                return None;
            }
            n = n * 10 + digit as u16;
            i += 1;
            if i - start > 3 {
                return None;
            }
        }
        if i == start || count == 3 || (line[start] == b'0' && i - start > 1) {
            return None;
        }
        numbers[count] = n;
        count += 1;
        if i == line.len() {
            break;
        }
        i += 1;
    }
    let [actor, x, y] = numbers;
    let action = match (line[0], count) {
        (b'N', 3) => Action::Begin {
            child: x,
            entries: y,
        },
        (b'B', 1) => Action::OpenBlock,
        (b'L', 1) => Action::LeaveBlock,
        (b'C', 3) => Action::Call {
            server: x,
            entry: y,
        },
        (b'A', 2) => Action::Accept { mask: x },
        (b'E', 1) => Action::EndRendezvous,
        (b'F', 1) => Action::Finish,
        _ => return None,
    };
    Some((actor, action))
}

/// Plays the tape on a new monitor and writes the report into the buffer. Answers its length.
pub fn report_of_tape(tape: &[u8], buffer: &mut [u8]) -> Result<usize, Refused> {
    if tape.len() > TAPE_ROOM {
        return Err(Refused::TapeTooLong);
    }
    let mut rival = Rival::new();
    let mut told = 0;
    let mut stopped = false;
    let mut rest = tape;
    while !rest.is_empty() {
        let end = rest.iter().position(|b| *b == b'\n').unwrap_or(rest.len());
        let accepted = match read_event(&rest[..end]) {
            Some((actor, action)) => rival.tell(actor, action),
            None => false,
        };
        if !accepted {
            stopped = true;
            break;
        }
        told += 1;
        rest = if end < rest.len() {
            &rest[end + 1..]
        } else {
            &[]
        };
    }
    let text = rival.report(told, stopped);
    if text.len() > buffer.len() {
        return Err(Refused::ReportTooLong);
    }
    buffer[..text.len()].copy_from_slice(&text);
    Ok(text.len())
}
