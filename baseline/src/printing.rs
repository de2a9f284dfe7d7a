//! Run texts.

use crate::machine::{Asked, Ended, Entry, Event, Op, Outcome, Transcript};
use crate::session::{Class, Modes, Name, Session};
use crate::supervisor::{Reply, Status};

struct Text(Vec<u8>);

impl Text {
    fn str(&mut self, text: &str) -> &mut Text {
        self.0.extend_from_slice(text.as_bytes());
        self
    }

    fn number(&mut self, value: u64, base: u64) -> &mut Text {
        let mut digits = [0; 24];
        let mut place = digits.len();
        let mut left = value;
        loop {
            place -= 1;
            digits[place] = b'0' + (left % base) as u8;
            left /= base;
            if left == 0 {
                break;
            }
        }
        self.0.extend_from_slice(&digits[place..]);
        self
    }

    fn decimal(&mut self, value: impl Into<u64>) -> &mut Text {
        self.number(value.into(), 10)
    }

    fn octal(&mut self, value: impl Into<u64>) -> &mut Text {
        self.number(value.into(), 8)
    }

    fn place(&mut self, segno: u16, word: u16) -> &mut Text {
        self.octal(segno).str("|").octal(word)
    }

    fn brackets(&mut self, brackets: &[u8]) -> &mut Text {
        self.str(" brackets");
        for ring in brackets {
            self.str(" ").decimal(*ring);
        }
        self
    }

    fn modes(&mut self, modes: Modes) -> &mut Text {
        let (bits, letters) = match modes {
            Modes::Null => return self.str(" modes null"),
            Modes::Segment(bits) => (bits, ["r", "e", "w"]),
            Modes::Directory(bits) => (bits, ["s", "m", "a"]),
        };
        self.str(" modes ");
        for (place, letter) in letters.iter().enumerate() {
            if bits & 4 >> place != 0 {
                self.str(letter);
            }
        }
        self
    }

    fn class(&mut self, class: Option<Class>) -> &mut Text {
        match class {
            Some(class) => self.str(" class ").decimal(class.level).str(":").octal(class.categories),
            None => self,
        }
    }

    fn path(&mut self, path: &[Name]) -> &mut Text {
        if path.is_empty() {
            self.str(">");
        }
        for name in path {
            self.str(">").str(name);
        }
        self
    }

    fn became(&mut self, fresh: bool, linkage: Option<u16>) -> &mut Text {
        self.str(if fresh { " new" } else { " old" });
        match linkage {
            Some(segno) => self.str(" linkage ").octal(segno),
            None => self,
        }
    }

    fn reply(&mut self, reply: &Reply) -> &mut Text {
        match reply {
            Reply::Done => self.str("ok"),
            Reply::Refused(why) => self.str("refused ").decimal(why.0).str(" ").str(why.1),
            Reply::Status(status) => self.status(status),
            Reply::Names(names) => {
                self.str("names");
                for name in names {
                    self.str(" ").str(name);
                }
                self
            }
            Reply::Segno { segno, fresh, linkage } => self.str("segno ").octal(*segno).became(*fresh, *linkage),
            Reply::Linked { segno, word, fresh, linkage } => {
                self.str("linked ").place(*segno, *word).became(*fresh, *linkage)
            }
            Reply::Sent => self.str("sent"),
            Reply::Message(sender, word) => self.str("message ").decimal(*sender).str(" ").octal(*word),
            Reply::Nobody => self.str("nobody"),
            Reply::Waiting => self.str("waiting"),
        }
    }

    fn status(&mut self, status: &Status) -> &mut Text {
        match status {
            Status::Segment { words, brackets, modes, class } => {
                self.str("segment words ").decimal(*words).brackets(brackets).modes(*modes).class(*class)
            }
            Status::Object { words, brackets, gate, definitions, links, modes, class } => {
                self.str("object words ").decimal(*words).brackets(brackets).str(" gate ").decimal(*gate);
                self.str(" definitions ").decimal(*definitions as u64).str(" links ").decimal(*links as u64);
                self.modes(*modes).class(*class)
            }
            Status::Directory { brackets, modes } => self.str("directory").brackets(brackets).modes(*modes),
            Status::Link(path) => self.str("link ").path(path),
        }
    }

    fn entry(&mut self, number: usize, entry: &Entry) {
        self.decimal(number as u64).str(" ").decimal(entry.process).str(" ").decimal(entry.ring).str(" ");
        match entry.asked {
            Asked::Line(text) => self.str(text),
            Asked::Link(segno, word) => self.str("link ").place(segno, word),
            Asked::Resume => self.str("resume"),
        };
        self.str(" = ").reply(&entry.reply).str("\n");
    }

    fn event(&mut self, event: &Event) {
        let (op, ring, segno, word, point, outcome) = match event {
            Event::Entry(number) => {
                self.str("entry ").decimal(*number).str("\n");
                return;
            }
            Event::Reference { op, ring, segno, word, point, outcome } => (op, ring, segno, word, point, outcome),
        };
        self.str(match op {
            Op::Read => "read ",
            Op::Indirect => "ind ",
            Op::Write => "write ",
            Op::Fetch => "fetch ",
            Op::Call => "call ",
            Op::Return => "return ",
        });
        self.place(*segno, *word).str(" ring ").decimal(*ring).str(" point ").decimal(*point);
        match outcome {
            Outcome::Read { value, writer, stamp } => {
                self.str(" word ").octal(*value).str(" from ").decimal(*writer).str(" stamp ").decimal(*stamp)
            }
            Outcome::Written(value) => self.str(" word ").octal(*value),
            Outcome::Entered(ring) => self.str(" enter ").decimal(*ring),
            Outcome::Denied(denial) => self.str(" denied ").str(denial),
        };
        self.str("\n");
    }

    fn ended(&mut self, ended: &Ended) {
        match ended {
            Ended::Done => self.str("done"),
            Ended::A(value) => self.str("a ").octal(*value),
            Ended::Pr(n, at) => {
                self.str("pr ").decimal(*n as u64).str(" ").decimal(at.ring).str(" ").place(at.segno, at.word)
            }
            Ended::Moved(at) => self.str("ring ").decimal(at.ring).str(" at ").place(at.segno, at.word),
            Ended::Denied(denial) => self.str("denied ").str(denial),
            Ended::Refused => self.str("refused"),
            Ended::HistoryFull => self.str("history_full"),
        };
        self.str("\n");
    }
}

/// The text of a run.
pub fn run_text(session: &Session<'_>, journal: &[Entry<'_>], transcripts: &[Transcript]) -> Vec<u8> {
    let mut text = Text(Vec::new());
    text.str("journal ").decimal(journal.len() as u64).str("\n");
    for (place, entry) in journal.iter().enumerate() {
        text.entry(place + 1, entry);
    }
    for (p, transcript) in transcripts.iter().enumerate() {
        text.str("process ").decimal(p as u64).str("\n");
        let first = if p == 0 { session.setup_first } else { session.processes[p - 1].first };
        let mut begin = 0;
        for (place, (end, ended)) in transcript.lines.iter().enumerate() {
            transcript.events[begin..*end as usize].iter().for_each(|event| text.event(event));
            begin = *end as usize;
            text.str("line ").decimal((first + place) as u64).str(" ").ended(ended);
        }
    }
    text.str("end\n");
    text.0
}
