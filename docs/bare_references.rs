//! What fifteen threads gain over one in a bare program: the references of the sessions `memory`, `references` and `apart` (docs/measure) at
//! atomic words, in plain Rust, with nothing judged and nothing proved. Between two references a thread does private work, as much
//! as it is told; it reads its script, 40 bytes a line, and writes down each line, 40 bytes, in memory that it takes in pieces. Every
//! `Ordering` is `SeqCst`, as in the table of the repository.
//!
//! `bare_references THREADS SEGMENTS LINES WORK RUNS` prints the mean time of a run in seconds, and the least, for so many lines in all.

use std::sync::atomic::{AtomicU64, Ordering::SeqCst};
use std::time::Instant;

/// The words of a segment, and those of the table.
const WORDS: usize = 1024;
const CELLS: usize = 65_536;

/// How many lines a piece of what is written down has.
const PIECE: usize = 4096;

#[derive(Clone, Copy)]
enum Op {
    Set,
    Store,
    Load,
}

/// A line of a script: its word, and what `set` sets.
#[derive(Clone, Copy)]
struct Line {
    op: Op,
    word: usize,
    value: u64,
    _rest: [u64; 2],
}

/// The script of a process, as docs/measure makes it.
fn script(process: usize, lines: usize) -> Vec<Line> {
    let ops = [
        Op::Set, Op::Store, Op::Load, Op::Load, Op::Store, Op::Load, Op::Load, Op::Load,
    ];
    let line = |i: usize| Line {
        op: ops[i % 8],
        word: (i * 389 + process) % WORDS,
        value: ((i * 7919 + process) * 104_729 % 68_719_476_736) as u64,
        _rest: [0; 2],
    };
    (0..lines).map(line).collect()
}

/// The lines of some scripts, one behind another.
fn work(words: &[AtomicU64], scripts: &[Vec<Line>], steps: u32) -> Vec<Vec<[u64; 5]>> {
    let (mut pieces, mut piece) = (Vec::new(), Vec::with_capacity(PIECE));
    let (mut accumulator, mut state) = (0, 88_172_645_463_325_252u64);
    for line in scripts.iter().flatten() {
        for _ in 0..steps {
            state ^= state << 13;
            state ^= state >> 7;
            state ^= state << 17;
        }
        match line.op {
            Op::Set => accumulator = line.value,
            Op::Store => words[line.word].store(accumulator, SeqCst),
            Op::Load => accumulator = words[line.word].load(SeqCst),
        }
        if piece.len() == PIECE {
            pieces.push(std::mem::replace(&mut piece, Vec::with_capacity(PIECE)));
        }
        piece.push([line.op as u64, line.word as u64, accumulator, line.value, state]);
    }
    pieces.push(piece);
    pieces
}

/// A run: a table, the threads, and what they wrote down.
fn run(scripts: &[Vec<Line>], threads: usize, segments: usize, steps: u32) -> u64 {
    let table: Vec<AtomicU64> = (0..CELLS).map(|_| AtomicU64::new(0)).collect();
    let words_of = |process: usize| {
        let first = process % segments * WORDS;
        &table[first..first + WORDS]
    };
    if threads == 1 {
        let last = work(words_of(0), scripts, steps);
        return last[0][0][4];
    }
    std::thread::scope(|scope| {
        let begun: Vec<_> = scripts
            .chunks(1)
            .enumerate()
            .map(|(process, own)| (words_of(process), own))
            .map(|(words, own)| scope.spawn(move || work(words, own, steps)))
            .collect();
        let done: Vec<_> = begun.into_iter().map(|one| one.join().unwrap()).collect();
        done[0][0][0][4]
    })
}

fn main() {
    let words: Vec<usize> = std::env::args().skip(1).map(|word| word.parse().unwrap()).collect();
    let [threads, segments, lines, steps, runs] = words[..] else {
        panic!("bare_references THREADS SEGMENTS LINES WORK RUNS");
    };
    let scripts: Vec<_> = (0..15).map(|process| script(process, lines / 15)).collect();
    let mut last = run(&scripts, threads, segments, steps as u32);
    let mut times = Vec::with_capacity(runs);
    for _ in 0..runs {
        let begun = Instant::now();
        last ^= run(&scripts, threads, segments, steps as u32);
        times.push(begun.elapsed().as_secs_f64());
    }
    let mean = times.iter().sum::<f64>() / runs as f64;
    let least = times.iter().copied().fold(f64::INFINITY, f64::min);
    println!("{mean:.5} {least:.5}");
    std::hint::black_box(last);
}
