//! What `crates/one_reference` does, in plain Rust with the same atomic steps by hand, and nothing proved: what one reference
//! costs there is compared with this (MEASURED.md). Every `Ordering` is `SeqCst`, as in the table of the repository.

use std::sync::atomic::{AtomicU64, Ordering::SeqCst};

#[derive(Clone, Copy, PartialEq, Eq)]
enum DescKind {
    Unknown,
    Gone,
    Segment,
}

#[derive(Clone, Copy, PartialEq, Eq)]
enum Aim {
    Equal,
    Dominates,
    Neither,
}

#[derive(Clone, Copy)]
struct Desc {
    kind: DescKind,
    brackets: (u8, u8, u8),
    r: bool,
    e: bool,
    w: bool,
    gate: u16,
    page: u16,
    bound: u16,
    aim: Aim,
}

#[derive(Clone, Copy, PartialEq, Eq)]
enum Op {
    Read,
    Indirect,
    Write,
    Fetch,
    Call { current: u8, same: bool, upward: bool },
    Return,
}

#[derive(Clone, Copy)]
enum Denial {
    UnknownSegment,
    NoSegment,
    OutOfBounds,
    AimRead,
    AimWrite,
    NotReadable,
    NotWritable,
    NotExecutable,
    ReadBracket,
    WriteBracket,
    ExecuteBracket,
    CallBracket,
    UpwardCall,
    Gate,
    RaisedRing,
    BadReturn,
}

#[derive(Clone, Copy)]
enum Outcome {
    Read { value: u64, writer: u8, stamp: u32 },
    Written { value: u64 },
    Entered { ring: u8 },
    Denied(Denial),
}

#[derive(Clone, Copy)]
enum Kind {
    Read,
    Ind,
    Write,
    Fetch,
    Call,
    Return,
}

#[derive(Clone, Copy)]
struct Element {
    kind: Kind,
    segno: u16,
    word: u16,
    ring: u8,
    point: u32,
    outcome: Outcome,
}

#[derive(Clone, Copy)]
enum Event {
    Seen { element: Element, op: Op, desc: Desc },
    Missed { segno: u16, by: u32 },
}

enum Referred {
    Seen(Element),
    Missing { by: u32 },
}

#[derive(Clone, Copy)]
struct Triple {
    segno: u16,
    number: u32,
    desc: Desc,
}

enum Found {
    Fault(u32),
    Valid(u32, Desc),
}

struct Shared {
    processes: usize,
    numbers: usize,
    words: Vec<AtomicU64>,
}

impl Shared {
    fn flag(&self, process: u8) -> &AtomicU64 {
        &self.words[1 + process as usize]
    }

    fn connect_word(&self, process: u8) -> &AtomicU64 {
        &self.words[1 + self.processes + process as usize]
    }

    fn descriptor(&self, process: u8, segno: u16) -> &AtomicU64 {
        &self.words[2 + 2 * self.processes + self.numbers * (process as usize - 1) + segno as usize]
    }

    fn cell(&self, cell: u16) -> &AtomicU64 {
        &self.words[2 + 2 * self.processes + self.numbers * self.processes + cell as usize]
    }
}

fn desc_in(word: u64) -> Desc {
    let (other, w) = (word >> 28 & 1 == 1, word >> 50 & 1 == 1);
    let aim = match (other, w) {
        (false, _) => Aim::Equal,
        (true, false) => Aim::Dominates,
        (true, true) => Aim::Neither,
    };
    Desc {
        kind: DescKind::Segment,
        brackets: ((word >> 59 & 7) as u8, (word >> 56 & 7) as u8, (word >> 53 & 7) as u8),
        r: word >> 52 & 1 == 1,
        e: word >> 51 & 1 == 1,
        w: w && aim == Aim::Equal,
        gate: (word >> 39 & 0x7FF) as u16,
        page: (word >> 29 & 0x3FF) as u16,
        bound: (word >> 18 & 0x3FF) as u16 + 1,
        aim,
    }
}

fn without_segment(kind: DescKind) -> Desc {
    Desc { kind, brackets: (0, 0, 0), r: false, e: false, w: false, gate: 0, page: 0, bound: 0, aim: Aim::Equal }
}

fn found_in(word: u64) -> Found {
    let number = (word & 0x3FFFF) as u32;
    match word >> 62 {
        0 => Found::Valid(number, without_segment(DescKind::Unknown)),
        1 => Found::Fault(number),
        2 => Found::Valid(number, desc_in(word)),
        _ => Found::Valid(number, without_segment(DescKind::Gone)),
    }
}

fn word_of(number: u32, d: &Desc) -> u64 {
    2 << 62
        | (d.brackets.0 as u64) << 59
        | (d.brackets.1 as u64) << 56
        | (d.brackets.2 as u64) << 53
        | (d.r as u64) << 52
        | (d.e as u64) << 51
        | (d.w as u64) << 50
        | (d.gate as u64) << 39
        | (d.page as u64) << 29
        | (d.bound as u64 - 1) << 18
        | number as u64
}

// The cell, where the operation is granted.
fn judge(desc: &Desc, op: Op, ring: u8, word: u16) -> Result<u16, Denial> {
    match desc.kind {
        DescKind::Unknown => return Err(Denial::UnknownSegment),
        DescKind::Gone => return Err(Denial::NoSegment),
        DescKind::Segment => {}
    }
    if word >= desc.bound {
        return Err(Denial::OutOfBounds);
    }
    match (op, desc.aim) {
        (Op::Write, Aim::Dominates | Aim::Neither) => return Err(Denial::AimWrite),
        (_, Aim::Neither) => return Err(Denial::AimRead),
        _ => {}
    }
    let (r1, r2, r3) = desc.brackets;
    let executes = r1 <= ring && ring <= r2;
    match op {
        Op::Read | Op::Indirect => {
            if !desc.r {
                return Err(Denial::NotReadable);
            }
            if ring > r2 {
                return Err(Denial::ReadBracket);
            }
        }
        Op::Write => {
            if !desc.w {
                return Err(Denial::NotWritable);
            }
            if ring > r1 {
                return Err(Denial::WriteBracket);
            }
        }
        Op::Fetch => {
            if !desc.e {
                return Err(Denial::NotExecutable);
            }
            if !executes {
                return Err(Denial::ExecuteBracket);
            }
        }
        Op::Call { current, same, upward } => {
            if !desc.e {
                return Err(Denial::NotExecutable);
            }
            if ring > r3 {
                return Err(Denial::CallBracket);
            }
            let below = ring < r1;
            if below && !upward {
                return Err(Denial::UpwardCall);
            }
            if word >= desc.gate && (below || ring > r2 || !same) {
                return Err(Denial::Gate);
            }
            if !below && ring.min(r2) > current {
                return Err(Denial::RaisedRing);
            }
        }
        Op::Return => {
            if !desc.e {
                return Err(Denial::NotExecutable);
            }
            if !executes {
                return Err(Denial::BadReturn);
            }
        }
    }
    Ok(64 * desc.page + word)
}

fn new_ring(desc: &Desc, op: Op, ring: u8) -> u8 {
    match op {
        Op::Call { .. } if ring < desc.brackets.0 => desc.brackets.0,
        Op::Call { .. } if ring > desc.brackets.1 => desc.brackets.1,
        _ => ring,
    }
}

fn kind_of(op: Op) -> Kind {
    match op {
        Op::Read => Kind::Read,
        Op::Indirect => Kind::Ind,
        Op::Write => Kind::Write,
        Op::Fetch => Kind::Fetch,
        Op::Call { .. } => Kind::Call,
        Op::Return => Kind::Return,
    }
}

struct Memory {
    triples: [Triple; 16],
    len: usize,
}

impl Memory {
    fn recall(&self, segno: u16) -> Option<Triple> {
        self.triples[..self.len].iter().find(|it| it.segno == segno).copied()
    }

    fn remember(&mut self, triple: Triple) {
        match self.triples[..self.len].iter().position(|it| it.segno == triple.segno) {
            Some(place) => self.triples[place] = triple,
            None if self.len < 16 => {
                self.triples[self.len] = triple;
                self.len += 1;
            }
            None => {
                self.triples.rotate_left(1);
                self.triples[15] = triple;
            }
        }
    }
}

struct Process {
    process: u8,
    turn: u64,
    cleared: u64,
    floor: u32,
    memory: Memory,
    basis: Option<Triple>,
    trace: Vec<Event>,
}

impl Process {
    fn enter(&mut self, shared: &Shared) {
        self.turn += 1;
        shared.flag(self.process).store(self.turn, SeqCst);
        let found = shared.connect_word(self.process).load(SeqCst);
        if found != self.cleared {
            self.memory.len = 0;
            self.cleared = found;
        }
        self.basis = None;
    }

    // What was judged is completed: a read or write that is granted goes to its cell.
    fn complete(&mut self, shared: &Shared, on: &Triple, op: Op, ring: u8, word: u16, value: u64) -> Element {
        let point = self.floor;
        let outcome = match judge(&on.desc, op, ring, word) {
            Err(denial) => Outcome::Denied(denial),
            Ok(cell) => match op {
                Op::Call { .. } | Op::Return => Outcome::Entered { ring: new_ring(&on.desc, op, ring) },
                Op::Write => {
                    let code = (self.process as u64) << 54 | (point as u64) << 36 | value;
                    shared.cell(cell).store(code, SeqCst);
                    Outcome::Written { value }
                }
                Op::Read | Op::Indirect | Op::Fetch => {
                    let code = shared.cell(cell).load(SeqCst);
                    let stamp = (code >> 36 & 0x3FFFF) as u32;
                    self.floor = self.floor.max(stamp);
                    Outcome::Read { value: code & 0xF_FFFF_FFFF, writer: (code >> 54 & 15) as u8, stamp }
                }
            },
        };
        let element = Element { kind: kind_of(op), segno: on.segno, word, ring, point, outcome };
        self.trace.push(Event::Seen { element, op, desc: on.desc });
        self.basis = Some(*on);
        element
    }

    fn refer(&mut self, shared: &Shared, segno: u16, op: Op, ring: u8, word: u16, value: u64) -> Referred {
        if segno as usize >= shared.numbers {
            shared.flag(self.process).load(SeqCst);
            let on = Triple { segno, number: 0, desc: without_segment(DescKind::Unknown) };
            return Referred::Seen(self.complete(shared, &on, op, ring, word, value));
        }
        match found_in(shared.descriptor(self.process, segno).load(SeqCst)) {
            Found::Valid(number, desc) if number <= self.floor => {
                let on = Triple { segno, number, desc };
                Referred::Seen(self.complete(shared, &on, op, ring, word, value))
            }
            Found::Valid(by, _) | Found::Fault(by) => {
                self.trace.push(Event::Missed { segno, by });
                self.basis = None;
                Referred::Missing { by }
            }
        }
    }

    fn refer_through_memory(
        &mut self,
        shared: &Shared,
        segno: u16,
        op: Op,
        ring: u8,
        word: u16,
        value: u64,
    ) -> Referred {
        match self.memory.recall(segno) {
            Some(on) => {
                shared.flag(self.process).load(SeqCst);
                Referred::Seen(self.complete(shared, &on, op, ring, word, value))
            }
            None => {
                let referred = self.refer(shared, segno, op, ring, word, value);
                if let (Referred::Seen(_), Some(on)) = (&referred, self.basis)
                    && (segno as usize) < shared.numbers
                {
                    self.memory.remember(on);
                }
                referred
            }
        }
    }
}

fn is_granted(referred: &Referred) -> bool {
    match referred {
        Referred::Seen(element) => !matches!(element.outcome, Outcome::Denied(_)),
        Referred::Missing { .. } => false,
    }
}

fn main() {
    let words: Vec<String> = std::env::args().skip(1).collect();
    let (through_cam, writes, count) = (words[0] == "cam", words[1] == "write", words[2].parse::<u32>().unwrap());
    let (processes, numbers) = (2, 128);
    let count_of_words = 2 + 2 * processes + numbers * processes + 65_536;
    let shared = Shared { processes, numbers, words: (0..count_of_words).map(|_| AtomicU64::new(0)).collect() };
    let desc = Desc {
        kind: DescKind::Segment,
        brackets: (4, 4, 4),
        r: true,
        e: false,
        w: true,
        gate: 0,
        page: 20,
        bound: 64,
        aim: Aim::Equal,
    };
    for process in 1..3 {
        shared.descriptor(process, 8).store(word_of(0, &desc), SeqCst);
    }
    let blank = Triple { segno: 0, number: 0, desc: without_segment(DescKind::Unknown) };
    let mut process = Process {
        process: 2,
        turn: 0,
        cleared: 0,
        floor: 0,
        memory: Memory { triples: [blank; 16], len: 0 },
        basis: None,
        trace: Vec::with_capacity(count as usize),
    };
    process.enter(&shared);
    let op = if writes { Op::Write } else { Op::Read };
    let mut granted = 0;
    for _ in 0..count {
        let referred = if through_cam {
            process.refer_through_memory(&shared, 8, op, 4, 0, 0)
        } else {
            process.refer(&shared, 8, op, 4, 0, 0)
        };
        granted += u32::from(is_granted(&referred));
    }
    // The trace is kept, as if it were read.
    std::hint::black_box(&process.trace);
    println!("{granted} of {count} granted");
}
