//! `baseline run < SESSION` prints a run of a session, as `multics run` does: every process is a thread, every line is done
//! under one lock, and nothing is proved. It is what the cost of `multics` is compared with.

mod machine;
mod printing;
mod session;
mod supervisor;

use machine::{World, set_up, work};
use std::io::{Read, Write};
use std::process::exit;
use std::sync::{Condvar, Mutex};
use std::thread;

const MOST_BYTES: usize = 4_194_304;

fn main() {
    let words: Vec<String> = std::env::args().skip(1).collect();
    if words != ["run"] {
        println!("bad words");
        exit(2);
    }
    let mut text = Vec::new();
    if std::io::stdin().lock().take(MOST_BYTES as u64 + 1).read_to_end(&mut text).is_err() {
        exit(3);
    }
    if text.len() > MOST_BYTES {
        exit(6);
    }
    let session = match session::read(&text) {
        Ok(session) => session,
        Err(line) => {
            println!("bad line {line}");
            exit(5);
        }
    };
    let count = session.processes.len();
    let mut world = World::new(&session);
    let mut transcripts = vec![set_up(&session, &mut world)];
    let world = Mutex::new(world);
    let bells: Vec<Condvar> = (0..=count).map(|_| Condvar::new()).collect();
    transcripts.extend(thread::scope(|scope| {
        let workers: Vec<_> = (1..=count)
            .map(|p| {
                let (session, world, bells) = (&session, &world, &bells);
                scope.spawn(move || work(session, p, world, bells))
            })
            .collect();
        workers.into_iter().map(|worker| worker.join().unwrap()).collect::<Vec<_>>()
    }));
    let world = world.into_inner().unwrap();
    let out = printing::run_text(&session, &world.journal, &transcripts);
    if std::io::stdout().lock().write_all(&out).is_err() {
        exit(4);
    }
}
