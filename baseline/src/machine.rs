//! The machine: how a reference is judged, and what each line of a script does.

use crate::session::{Base, Line, Operand, Process, Request, Session};
use crate::supervisor::{Aim, Descriptor, Reply, Supervisor};
use std::sync::{Condvar, Mutex, MutexGuard};

/// A request of the journal: the text of its line, or one that a line makes besides.
pub enum Asked<'a> {
    Line(&'a str),
    Link(u16, u16),
    Resume,
}

pub struct Entry<'a> {
    pub process: u8,
    pub ring: u8,
    pub asked: Asked<'a>,
    pub reply: Reply,
}

#[derive(Clone, Copy, PartialEq, Eq)]
pub enum Op {
    Read,
    Indirect,
    Write,
    Fetch,
    Call,
    Return,
}

#[derive(Clone, Copy)]
pub enum Outcome {
    Read { value: u64, writer: u8, stamp: u32 },
    Written(u64),
    Entered(u8),
    Denied(&'static str),
}

#[derive(Clone, Copy)]
pub enum Event {
    Entry(u32),
    Reference { op: Op, ring: u8, segno: u16, word: u16, point: u32, outcome: Outcome },
}

#[derive(Clone, Copy, Default)]
pub struct Pointer {
    pub ring: u8,
    pub segno: u16,
    pub word: u16,
}

#[derive(Clone, Copy)]
pub enum Ended {
    Done,
    A(u64),
    Pr(usize, Pointer),
    Moved(Pointer),
    Denied(&'static str),
    Refused,
    HistoryFull,
}

/// What was recorded of a process: its events, and for each line how many there were when it had ended.
#[derive(Default)]
pub struct Transcript {
    pub events: Vec<Event>,
    pub lines: Vec<(u32, Ended)>,
}

/// What is behind the lock.
pub struct World<'a> {
    pub journal: Vec<Entry<'a>>,
    limit: usize,
    supervisor: Supervisor,
    /// The value of each cell, with its stamp from bit 36 and its writer from bit 54 on.
    cells: Vec<u64>,
}

#[derive(Clone, Copy)]
struct ReturnGate {
    lower: u8,
    upper: u8,
    procedure: Pointer,
    pr0: Pointer,
}

struct Registers {
    ring: u8,
    a: u64,
    procedure: Pointer,
    pr: [Pointer; 8],
    gates: Vec<ReturnGate>,
}

const VALUE: u64 = (1 << 36) - 1;

fn pointer_word(pointer: Pointer) -> u64 {
    u64::from(pointer.segno) << 24 | u64::from(pointer.ring) << 21 | u64::from(pointer.word) << 7 | 0o43
}

fn link_word(number: u16) -> u64 {
    u64::from(number) << 7 | 0o46
}

/// How a call is made: from which ring, within the segment of the procedure, and with room for a return gate.
#[derive(Clone, Copy)]
struct Call {
    current: u8,
    same: bool,
    upward: bool,
}

/// The cell, the new ring of a call or return, and the first bracket; or the denial.
fn judge(desc: &Descriptor, op: Op, ring: u8, word: u16, call: Call) -> Result<(usize, u8, u8), &'static str> {
    let Descriptor::Segment { r, e, w, brackets: [r1, r2, r3], gate, page, bound, aim } = *desc else {
        return Err(if matches!(desc, Descriptor::Gone) { "no_segment" } else { "unknown_segment" });
    };
    let new = if ring < r1 { r1 } else { ring.min(r2) };
    let rules: &[(bool, &'static str)] = &match op {
        Op::Read | Op::Indirect => [(!r, "not_readable"), (ring > r2, "read_bracket"), (false, ""), (false, ""), (false, "")],
        Op::Write => [(!w, "not_writable"), (ring > r1, "write_bracket"), (false, ""), (false, ""), (false, "")],
        Op::Fetch => [(!e, "not_executable"), (ring < r1 || ring > r2, "execute_bracket"), (false, ""), (false, ""), (false, "")],
        Op::Call => [
            (!e, "not_executable"),
            (ring > r3, "call_bracket"),
            (ring < r1 && !call.upward, "upward_call"),
            (word >= gate && (ring < r1 || ring > r2 || !call.same), "gate"),
            (ring >= r1 && new > call.current, "raised_ring"),
        ],
        Op::Return => [(!e, "not_executable"), (ring < r1 || ring > r2, "bad_return"), (false, ""), (false, ""), (false, "")],
    };
    if word >= bound {
        return Err("out_of_bounds");
    }
    if op == Op::Write && aim != Aim::Equal {
        return Err("aim_write");
    }
    if op != Op::Write && aim == Aim::Neither {
        return Err("aim_read");
    }
    match rules.iter().find(|(applies, _)| *applies) {
        Some((_, denial)) => Err(denial),
        None => Ok((64 * usize::from(page) + usize::from(word), if op == Op::Return { ring } else { new }, r1)),
    }
}

impl<'a> World<'a> {
    pub fn new(session: &'a Session<'a>) -> World<'a> {
        World {
            journal: Vec::new(),
            limit: session.limit,
            supervisor: Supervisor::new(session),
            cells: vec![0; 65_536],
        }
    }

    fn is_full(&self) -> bool {
        self.journal.len() >= self.limit
    }

    /// Enters a request; none where the journal is full.
    fn enter(&mut self, p: usize, ring: u8, request: &Request, asked: Asked<'a>, events: &mut Vec<Event>) -> Option<&Reply> {
        if self.is_full() {
            return None;
        }
        let reply = self.supervisor.answer(p, ring, request);
        let freed = self.supervisor.freed();
        self.cells[64 * freed.start..64 * freed.end].fill(0);
        self.journal.push(Entry { process: p as u8, ring, asked, reply });
        events.push(Event::Entry(self.journal.len() as u32));
        self.journal.last().map(|entry| &entry.reply)
    }

    fn refer(&mut self, p: usize, op: Op, at: Pointer, store: u64, call: Call, events: &mut Vec<Event>) -> Result<(u64, u8, u8), &'static str> {
        let point = self.journal.len() as u32;
        let desc = self.supervisor.descriptor(p, at.segno);
        let judged = judge(&desc, op, at.ring, at.word, call);
        let mut value = 0;
        let outcome = match judged {
            Err(denial) => Outcome::Denied(denial),
            Ok((_, new, _)) if matches!(op, Op::Call | Op::Return) => Outcome::Entered(new),
            Ok((cell, ..)) if op == Op::Write => {
                self.cells[cell] = (p as u64) << 54 | u64::from(point) << 36 | store;
                Outcome::Written(store)
            }
            Ok((cell, ..)) => {
                value = self.cells[cell] & VALUE;
                let (writer, stamp) = ((self.cells[cell] >> 54) as u8, (self.cells[cell] >> 36 & 0x3ffff) as u32);
                Outcome::Read { value, writer, stamp }
            }
        };
        events.push(Event::Reference { op, ring: at.ring, segno: at.segno, word: at.word, point, outcome });
        judged.map(|(_, new, r1)| (value, new, r1))
    }
}

/// Why a line does not go on.
enum Stop {
    Ended(Ended),
    /// A link word was met, here and in this ring.
    Link(Pointer),
}

impl From<&'static str> for Stop {
    fn from(denial: &'static str) -> Stop {
        Stop::Ended(Ended::Denied(denial))
    }
}

/// A process at work.
struct Worker<'s, 'a> {
    p: usize,
    version: u8,
    world: &'s Mutex<World<'a>>,
    bells: &'s [Condvar],
    registers: Registers,
    events: Vec<Event>,
}

const NO_CALL: Call = Call { current: 0, same: false, upward: false };

impl<'s, 'a> Worker<'s, 'a> {
    fn target(&mut self, world: &mut World<'a>, operand: Operand) -> Result<Pointer, Stop> {
        let mut at = match operand.base {
            Base::Segment(segno) => Pointer { ring: self.registers.ring, segno, word: operand.word },
            Base::Register(n) => {
                let pr = self.registers.pr[n];
                Pointer { ring: pr.ring.max(self.registers.ring), segno: pr.segno, word: (pr.word + operand.word) % 16_384 }
            }
        };
        let mut further = operand.indirect;
        let mut words = 0;
        while further {
            if words == 8 {
                return Err(Stop::from("indirect_limit"));
            }
            words += 1;
            let (word, _, r1) = world.refer(self.p, Op::Indirect, at, 0, NO_CALL, &mut self.events)?;
            match word & 0o77 {
                0o43 => {
                    let ring = at.ring.max((word >> 21 & 7) as u8).max(r1);
                    at = Pointer { ring, segno: (word >> 24) as u16, word: (word >> 7 & 0o37777) as u16 };
                    further = word >> 6 & 1 == 1;
                }
                0o46 => return Err(Stop::Link(at)),
                _ => return Err(Stop::from("not_pointer")),
            }
        }
        Ok(at)
    }

    /// An attempt at a line that is no request.
    fn attempt(&mut self, world: &mut World<'a>, line: &Line<'a>) -> Result<Ended, Stop> {
        let p = self.p;
        match line {
            Line::Ask(..) => unreachable!("requests are entered"),
            Line::Set(word) => self.registers.a = *word,
            Line::Epp(n, operand) => {
                let target = self.target(world, *operand)?;
                self.registers.pr[*n] = target;
                return Ok(Ended::Pr(*n, target));
            }
            Line::Lda(operand) => {
                let target = self.target(world, *operand)?;
                self.registers.a = world.refer(p, Op::Read, target, 0, NO_CALL, &mut self.events)?.0;
                return Ok(Ended::A(self.registers.a));
            }
            Line::Sta(operand) => {
                let target = self.target(world, *operand)?;
                world.refer(p, Op::Write, target, self.registers.a, NO_CALL, &mut self.events)?;
            }
            Line::Spri(n, operand) => {
                let target = self.target(world, *operand)?;
                let word = pointer_word(self.registers.pr[*n]);
                world.refer(p, Op::Write, target, word, NO_CALL, &mut self.events)?;
            }
            Line::Fetch => {
                let at = Pointer { ring: self.registers.ring, ..self.registers.procedure };
                world.refer(p, Op::Fetch, at, 0, NO_CALL, &mut self.events)?;
            }
            Line::Call(operand) => {
                let target = self.target(world, *operand)?;
                return self.call(world, target);
            }
            Line::Return(operand) => {
                let target = self.target(world, *operand)?;
                return self.go_back(world, target);
            }
        }
        Ok(Ended::Done)
    }

    fn call(&mut self, world: &mut World<'a>, target: Pointer) -> Result<Ended, Stop> {
        let old = &self.registers;
        let call = Call {
            current: old.ring,
            same: target.segno == old.procedure.segno,
            upward: self.version == 4 && old.gates.len() < 16,
        };
        let (_, new, r1) = world.refer(self.p, Op::Call, target, 0, call, &mut self.events)?;
        let mut back = Pointer { ring: old.ring, ..old.procedure };
        let registers = &mut self.registers;
        if target.ring < r1 {
            let gate = ReturnGate { lower: registers.ring, upper: r1, procedure: registers.procedure, pr0: registers.pr[0] };
            registers.gates.push(gate);
            registers.pr.iter_mut().for_each(|pr| pr.ring = pr.ring.max(r1));
            back.ring = r1;
        }
        registers.ring = new;
        registers.procedure = Pointer { ring: new, ..target };
        registers.pr[0] = Pointer { ring: new, segno: u16::from(new), word: 0 };
        registers.pr[7] = back;
        Ok(Ended::Moved(registers.procedure))
    }

    fn go_back(&mut self, world: &mut World<'a>, target: Pointer) -> Result<Ended, Stop> {
        let gate = self.registers.gates.last().copied().filter(|gate| {
            gate.upper == self.registers.ring && gate.procedure.segno == target.segno && gate.procedure.word == target.word
        });
        if let Some(gate) = gate {
            let at = Pointer { ring: gate.lower, ..target };
            world.refer(self.p, Op::Return, at, 0, NO_CALL, &mut self.events)?;
            let registers = &mut self.registers;
            registers.gates.pop();
            (registers.ring, registers.procedure, registers.pr[0]) = (gate.lower, gate.procedure, gate.pr0);
            return Ok(Ended::Moved(registers.procedure));
        }
        world.refer(self.p, Op::Return, target, 0, NO_CALL, &mut self.events)?;
        let registers = &mut self.registers;
        registers.ring = target.ring;
        registers.procedure = target;
        registers.pr.iter_mut().for_each(|pr| pr.ring = pr.ring.max(target.ring));
        Ok(Ended::Moved(target))
    }

    /// Stores the link words of a new linkage section.
    fn store_links(&mut self, world: &mut World<'a>, section: Option<u16>) {
        let Some(segno) = section else { return };
        let Descriptor::Segment { bound, .. } = world.supervisor.descriptor(self.p, segno) else { return };
        for word in 0..bound {
            let at = Pointer { ring: 0, segno, word };
            let _ = world.refer(self.p, Op::Write, at, link_word(word), NO_CALL, &mut self.events);
        }
    }

    fn ring_after(&self, world: &World<'a>, request: &Request) {
        if world.is_full() || matches!(request, Request::Logout) {
            self.bells.iter().for_each(Condvar::notify_all);
        } else if let Request::Wakeup(to, _) = request {
            if let Some(bell) = self.bells.get(usize::from(*to)) {
                bell.notify_all();
            }
        }
    }

    fn line(&mut self, line: &Line<'a>) -> Ended {
        let mutex = self.world;
        let mut world = mutex.lock().unwrap();
        if let Line::Ask(request, text) = line {
            return self.ask(world, request, text);
        }
        loop {
            let link = match self.attempt(&mut world, line) {
                Ok(ended) | Err(Stop::Ended(ended)) => return ended,
                Err(Stop::Link(link)) => link,
            };
            let (request, asked) = (Request::Link(link.segno, link.word), Asked::Link(link.segno, link.word));
            let (segno, word, linkage) = match world.enter(self.p, link.ring, &request, asked, &mut self.events) {
                None => return Ended::HistoryFull,
                Some(Reply::Linked { segno, word, linkage, .. }) => (*segno, *word, *linkage),
                Some(_) => return Ended::Refused,
            };
            self.store_links(&mut world, linkage);
            let value = pointer_word(Pointer { ring: link.ring, segno, word });
            let _ = world.refer(self.p, Op::Write, Pointer { ring: 0, ..link }, value, NO_CALL, &mut self.events);
        }
    }

    fn ask(&mut self, mut world: MutexGuard<'_, World<'a>>, request: &Request, text: &'a str) -> Ended {
        let ring = self.registers.ring;
        let ended = |reply: &Reply| if matches!(reply, Reply::Refused(_)) { Ended::Refused } else { Ended::Done };
        let reply = world.enter(self.p, ring, request, Asked::Line(text), &mut self.events);
        let (came, section) = match reply {
            None => return Ended::HistoryFull,
            Some(Reply::Waiting) => (None, None),
            Some(reply @ Reply::Segno { linkage, .. }) => (Some(ended(reply)), *linkage),
            Some(reply) => (Some(ended(reply)), None),
        };
        self.ring_after(&world, request);
        if let Some(came) = came {
            self.store_links(&mut world, section);
            return came;
        }
        let p = self.p;
        let mut world = self.bells[p].wait_while(world, |world| !world.is_full() && !world.supervisor.is_ready(p)).unwrap();
        let reply = world.enter(p, ring, &Request::Resume, Asked::Resume, &mut self.events);
        let came = reply.map_or(Ended::HistoryFull, ended);
        self.ring_after(&world, &Request::Resume);
        came
    }
}

/// Makes the setup's requests.
pub fn set_up<'a>(session: &'a Session<'a>, world: &mut World<'a>) -> Transcript {
    let mut transcript = Transcript::default();
    for (request, text) in &session.setup {
        let reply = world.enter(0, 0, request, Asked::Line(text), &mut transcript.events);
        let ended = match reply {
            None => Ended::HistoryFull,
            Some(Reply::Refused(_)) => Ended::Refused,
            Some(_) => Ended::Done,
        };
        transcript.lines.push((transcript.events.len() as u32, ended));
    }
    transcript
}

/// Does the lines of process `p`.
pub fn work<'a>(session: &'a Session<'a>, p: usize, world: &Mutex<World<'a>>, bells: &[Condvar]) -> Transcript {
    let process: &'a Process<'a> = &session.processes[p - 1];
    let start = Pointer { ring: 4, segno: 4, word: 0 };
    let mut worker = Worker {
        p,
        version: session.version,
        world,
        bells,
        registers: Registers { ring: 4, a: 0, procedure: start, pr: [start; 8], gates: Vec::new() },
        events: Vec::new(),
    };
    let mut lines = Vec::with_capacity(process.lines.len());
    for line in &process.lines {
        let ended = worker.line(line);
        lines.push((worker.events.len() as u32, ended));
    }
    Transcript { events: worker.events, lines }
}
