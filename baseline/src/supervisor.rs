//! The supervisor: the hierarchy, what each process knows, messages, and the answer to each request.

use crate::session::{AclId, Brackets, Class, Modes, Name, ObjectMap, Pathname, Request, Rule, Session};
use std::collections::{BTreeMap, HashMap, VecDeque};
use std::ops::Range;
use std::sync::Arc;

pub const PAGES: usize = 1_024;

#[derive(Clone, Copy, PartialEq, Eq)]
pub struct Refusal(pub u8, pub &'static str);

macro_rules! refusals {
    ($($number:literal $constant:ident $name:literal)*) => {
        $(pub const $constant: Refusal = Refusal($number, $name);)*
    };
}

refusals! {
    1 BAD_PATH "bad_path" 2 NOENTRY "noentry" 3 NO_INFO "no_info" 4 NOTADIR "notadir" 5 LINK_LOOP "link_loop"
    6 INCORRECT_ACCESS "incorrect_access" 7 NAMEDUP "namedup" 8 NOTASEG "notaseg" 9 DIR_NOT_EMPTY "dir_not_empty"
    10 DIR_FULL "dir_full" 11 BAD_LENGTH "bad_length" 12 BAD_BRACKETS "bad_brackets" 13 INVALID_MODE "invalid_mode"
    14 ACL_FULL "acl_full" 15 NO_ACL_ENTRY "no_acl_entry" 16 NO_PAGES "no_pages" 17 KST_FULL "kst_full"
    18 UNKNOWN_SEGNO "unknown_segno" 19 NOT_LINKAGE "not_linkage" 20 SEGMENT_NOT_FOUND "segment_not_found"
    21 NOT_OBJECT "not_object" 22 NO_DEFINITION "no_definition" 23 NO_PROCESS "no_process" 24 MAIL_FULL "mail_full"
    25 ENDED "ended" 26 BAD_CLASS "bad_class"
}

pub enum Status {
    Segment { words: u16, brackets: Brackets, modes: Modes, class: Option<Class> },
    Object { words: u16, brackets: Brackets, gate: u16, definitions: usize, links: usize, modes: Modes, class: Option<Class> },
    Directory { brackets: [u8; 2], modes: Modes },
    Link(Arc<[Name]>),
}

pub enum Reply {
    Done,
    Refused(Refusal),
    Status(Status),
    Names(Vec<Name>),
    Segno { segno: u16, fresh: bool, linkage: Option<u16> },
    Linked { segno: u16, word: u16, fresh: bool, linkage: Option<u16> },
    Sent,
    Message(u8, u64),
    Nobody,
    Waiting,
}

/// An access list, by rank and then by text: the first entry that matches decides.
#[derive(Clone, Default)]
struct Acl(Vec<(AclId, u8)>);

impl Acl {
    fn place(&self, id: &AclId) -> Result<usize, usize> {
        self.0.binary_search_by(|(other, _)| (other.rank(), &other.text).cmp(&(id.rank(), &id.text)))
    }

    fn modes_of(&self, who: &AclId) -> u8 {
        self.0.iter().find(|(id, _)| id.matches(who)).map_or(0, |(_, modes)| *modes)
    }

    fn set(&mut self, id: &AclId, modes: u8, most: usize) -> Result<(), Refusal> {
        match self.place(id) {
            Ok(place) => self.0[place].1 = modes,
            Err(_) if self.0.len() == most => return Err(ACL_FULL),
            Err(place) => self.0.insert(place, (id.clone(), modes)),
        }
        Ok(())
    }

    fn remove(&mut self, id: &AclId) -> Result<(), Refusal> {
        let place = self.place(id).map_err(|_| NO_ACL_ENTRY)?;
        self.0.remove(place);
        Ok(())
    }
}

struct Segment {
    words: u16,
    brackets: Brackets,
    gate: u16,
    page: u16,
    map: Option<Arc<ObjectMap>>,
    class: Class,
}

struct Directory {
    entries: BTreeMap<Name, usize>,
    brackets: [u8; 2],
    initial: [Acl; 2],
}

enum Kind {
    Segment(Segment),
    Directory(Directory),
    Link(Arc<[Name]>),
    Gone(Option<Arc<ObjectMap>>),
}

struct Branch {
    holder: usize,
    acl: Acl,
    kind: Kind,
}

#[derive(Clone, Copy)]
enum Lot {
    Free,
    Stack,
    Branch(usize),
    Linkage { object: usize, page: u16, brackets: Brackets, words: u16 },
}

#[derive(Clone, Copy, PartialEq, Eq)]
enum State {
    Running,
    Waiting,
    Ended,
}

struct Own {
    principal: AclId,
    authorization: Class,
    working_directory: Arc<[Name]>,
    rules: Arc<Vec<Rule>>,
    lots: Vec<Lot>,
    numbers: HashMap<usize, u16>,
    names: [HashMap<Name, u16>; 8],
    mail: VecDeque<(u8, u64)>,
    state: State,
}

/// Which relation the authorization has to the class.
#[derive(Clone, Copy, PartialEq, Eq)]
pub enum Aim {
    Equal,
    Dominates,
    Neither,
}

/// What a reference is judged on.
#[derive(Clone, Copy)]
pub enum Descriptor {
    Unknown,
    Gone,
    Segment { r: bool, e: bool, w: bool, brackets: Brackets, gate: u16, page: u16, bound: u16, aim: Aim },
}

pub struct Supervisor {
    version: u8,
    branches: Vec<Branch>,
    free: [bool; PAGES],
    /// The pages that the last request freed.
    freed: Range<usize>,
    processes: Vec<Own>,
}

/// Who asks, in which ring.
struct Caller<'a> {
    principal: &'a AclId,
    authorization: Class,
    ring: u8,
    base: &'a Arc<[Name]>,
}

fn aim_of(own: Class, class: Class) -> Aim {
    if own == class {
        Aim::Equal
    } else if own.dominates(class) {
        Aim::Dominates
    } else {
        Aim::Neither
    }
}

/// Letters of a segment's modes.
const R: u8 = 4;
const E: u8 = 2;
const W: u8 = 1;
/// Letters of a directory's modes.
const S: u8 = 4;
const M: u8 = 2;
const A: u8 = 1;

fn initializer() -> AclId {
    let part = |text: &str| Some(text.into());
    AclId { text: "Initializer.SysDaemon.z".into(), parts: [part("Initializer"), part("SysDaemon"), part("z")] }
}

fn resolved(base: &[Name], path: &Pathname) -> Result<Arc<[Name]>, Refusal> {
    let mut names: Vec<Name> = match path.up {
        None => Vec::new(),
        Some(up) if up > base.len() => return Err(BAD_PATH),
        Some(up) => base[..base.len() - up].to_vec(),
    };
    names.extend(path.names.iter().cloned());
    let length: usize = names.iter().map(|name| name.len() + 1).sum();
    if length > 168 {
        return Err(BAD_PATH);
    }
    Ok(names.into())
}

impl Supervisor {
    pub fn new(session: &Session<'_>) -> Supervisor {
        let daemons = AclId { text: "*.SysDaemon.*".into(), parts: [None, Some("SysDaemon".into()), None] };
        let root = Directory { entries: BTreeMap::new(), brackets: [7, 7], initial: Default::default() };
        let mut free = [true; PAGES];
        free[..8 * session.processes.len()].fill(false);
        let library = |text: &str| Pathname { up: None, names: vec![text.into()] };
        let rules = Arc::new(vec![
            Rule::InitiatedSegments,
            Rule::ReferencingDir,
            Rule::WorkingDir,
            Rule::Directory(library("system_library_standard")),
        ]);
        let own = |principal: AclId, authorization: Class| Own {
            principal,
            authorization,
            working_directory: Vec::new().into(),
            rules: rules.clone(),
            lots: vec![Lot::Stack; 8],
            numbers: HashMap::new(),
            names: Default::default(),
            mail: VecDeque::new(),
            state: State::Running,
        };
        let mut processes = vec![own(initializer(), Class::default())];
        processes.extend(session.processes.iter().map(|process| own(process.principal.clone(), process.authorization)));
        Supervisor {
            version: session.version,
            branches: vec![Branch { holder: 0, acl: Acl(vec![(daemons, S | M | A)]), kind: Kind::Directory(root) }],
            free,
            freed: 0..0,
            processes,
        }
    }

    /// Answers a request of process `p` in a ring.
    pub fn answer(&mut self, p: usize, ring: u8, request: &Request) -> Reply {
        self.freed = 0..0;
        self.try_answer(p, ring, request).unwrap_or_else(Reply::Refused)
    }

    /// The pages that the last request freed.
    pub fn freed(&self) -> Range<usize> {
        self.freed.clone()
    }

    /// Whether a process that waits would be told something else than to wait.
    pub fn is_ready(&self, p: usize) -> bool {
        !self.processes[p].mail.is_empty()
            || (1..self.processes.len()).all(|other| {
                let own = &self.processes[other];
                other == p || own.state == State::Ended || own.state == State::Waiting && own.mail.is_empty()
            })
    }

    pub fn descriptor(&self, p: usize, segno: u16) -> Descriptor {
        let own = &self.processes[p];
        let whole = |page: u16, brackets: Brackets, bound: u16| Descriptor::Segment {
            r: true,
            e: false,
            w: true,
            brackets,
            gate: 0,
            page,
            bound,
            aim: Aim::Equal,
        };
        match own.lots.get(usize::from(segno)) {
            None | Some(Lot::Free) => Descriptor::Unknown,
            Some(Lot::Stack) => whole(8 * (p as u16 - 1) + segno, [segno as u8; 3], 64),
            Some(Lot::Linkage { page, brackets, words, .. }) => whole(*page, *brackets, *words),
            Some(Lot::Branch(uid)) => match &self.branches[*uid].kind {
                Kind::Segment(segment) => {
                    let modes = self.branches[*uid].acl.modes_of(&own.principal);
                    let aim = aim_of(own.authorization, segment.class);
                    Descriptor::Segment {
                        r: modes & R != 0 && aim != Aim::Neither,
                        e: modes & E != 0 && aim != Aim::Neither,
                        w: modes & W != 0 && aim == Aim::Equal,
                        brackets: segment.brackets,
                        gate: segment.gate,
                        page: segment.page,
                        bound: segment.words,
                        aim,
                    }
                }
                _ => Descriptor::Gone,
            },
        }
    }

    fn caller(&self, p: usize, ring: u8) -> Caller<'_> {
        let own = &self.processes[p];
        Caller { principal: &own.principal, authorization: own.authorization, ring, base: &own.working_directory }
    }

    fn directory(&self, uid: usize) -> Option<&Directory> {
        match &self.branches[uid].kind {
            Kind::Directory(directory) => Some(directory),
            _ => None,
        }
    }

    fn segment(&self, uid: usize) -> Option<&Segment> {
        match &self.branches[uid].kind {
            Kind::Segment(segment) => Some(segment),
            _ => None,
        }
    }

    /// Whether the caller has a mode on a directory in its ring.
    fn may(&self, who: &Caller, uid: usize, mode: u8) -> bool {
        let Some(directory) = self.directory(uid) else { return false };
        let most = if mode == S { directory.brackets[1] } else { directory.brackets[0] };
        who.ring <= most && self.branches[uid].acl.modes_of(who.principal) & mode != 0
    }

    /// Whether the caller has any access to a segment in its ring.
    fn reaches(&self, who: &Caller, uid: usize, segment: &Segment) -> bool {
        let modes = self.branches[uid].acl.modes_of(who.principal);
        let aim = aim_of(who.authorization, segment.class);
        let [r1, r2, r3] = segment.brackets;
        modes & R != 0 && aim != Aim::Neither && who.ring <= r2
            || modes & W != 0 && aim == Aim::Equal && who.ring <= r1
            || modes & E != 0 && aim != Aim::Neither && (r1..=r3).contains(&who.ring)
    }

    fn say(&self, who: &Caller, why: Refusal, uid: usize) -> Refusal {
        if self.may(who, uid, S) { why } else { NO_INFO }
    }

    fn walk(&self, who: &Caller, from: usize, names: &[Name], follow: bool) -> Result<usize, Refusal> {
        let mut links = 0;
        let mut at = from;
        let mut left: Vec<Name> = names.iter().rev().cloned().collect();
        loop {
            match &self.branches[at].kind {
                Kind::Link(target) if follow || !left.is_empty() => {
                    links += 1;
                    if links > 10 {
                        return Err(self.say(who, LINK_LOOP, self.branches[at].holder));
                    }
                    left.extend(target.iter().rev().cloned());
                    at = 0;
                }
                Kind::Directory(directory) => {
                    let Some(name) = left.pop() else { return Ok(at) };
                    match directory.entries.get(&name) {
                        Some(uid) => at = *uid,
                        None => return Err(self.say(who, NOENTRY, at)),
                    }
                }
                _ if left.is_empty() => return Ok(at),
                _ => return Err(self.say(who, NOTADIR, self.branches[at].holder)),
            }
        }
    }

    fn entry(&self, who: &Caller, path: &Pathname, follow: bool) -> Result<usize, Refusal> {
        self.walk(who, 0, &resolved(who.base, path)?, follow)
    }

    /// The entry that is to be changed, on whose holder the caller has m.
    fn changing(&self, who: &Caller, path: &Pathname, follow: bool) -> Result<usize, Refusal> {
        let uid = self.entry(who, path, follow)?;
        let holder = self.branches[uid].holder;
        if self.may(who, holder, M) { Ok(uid) } else { Err(self.say(who, INCORRECT_ACCESS, holder)) }
    }

    /// The directory of a path that itself is to be changed.
    fn changing_inside(&self, who: &Caller, path: &Pathname) -> Result<usize, Refusal> {
        let uid = self.entry(who, path, true)?;
        let holder = self.branches[uid].holder;
        if self.directory(uid).is_none() {
            return Err(self.say(who, NOTADIR, holder));
        }
        if self.may(who, uid, M) { Ok(uid) } else { Err(self.say(who, INCORRECT_ACCESS, holder)) }
    }

    /// The parent of a new entry, and its name.
    fn parent(&self, who: &Caller, path: &Pathname) -> Result<(usize, Name), Refusal> {
        let names = resolved(who.base, path)?;
        let (name, above) = names.split_last().ok_or(NAMEDUP)?;
        let uid = self.walk(who, 0, above, true)?;
        let Some(directory) = self.directory(uid) else {
            return Err(self.say(who, NOTADIR, self.branches[uid].holder));
        };
        if !self.may(who, uid, A) {
            return Err(self.say(who, INCORRECT_ACCESS, uid));
        }
        if directory.entries.contains_key(name) {
            return Err(NAMEDUP);
        }
        if directory.entries.len() == 256 {
            return Err(DIR_FULL);
        }
        Ok((uid, name.clone()))
    }

    fn make(&mut self, p: usize, parent: usize, name: Name, modes: Option<u8>, kind: Kind) {
        let mut acl = Acl::default();
        if let Some(modes) = modes {
            if let Some(directory) = self.directory(parent) {
                acl = directory.initial[usize::from(matches!(kind, Kind::Directory(_)))].clone();
            }
            let mut id = self.processes[p].principal.clone();
            let dot = id.text.rfind('.').unwrap_or(0);
            id.text = format!("{}.*", &id.text[..dot]).into();
            id.parts[2] = None;
            let _ = acl.set(&id, modes, 64);
        }
        let uid = self.branches.len();
        self.branches.push(Branch { holder: parent, acl, kind });
        if let Kind::Directory(directory) = &mut self.branches[parent].kind {
            directory.entries.insert(name, uid);
        }
    }

    fn next_pages(&self, count: usize) -> Option<usize> {
        self.free.windows(count).position(|window| window.iter().all(|free| *free))
    }

    fn take_pages(&mut self, first: usize, count: usize) {
        self.free[first..first + count].fill(false);
    }

    fn free_pages(&mut self, first: u16, words: u16) {
        let first = usize::from(first);
        self.freed = first..first + usize::from(words).div_ceil(64);
        self.free[self.freed.clone()].fill(true);
    }

    fn make_segment(
        &mut self,
        p: usize,
        ring: u8,
        path: &Pathname,
        words: u32,
        brackets: Brackets,
        object: Option<(u16, &Arc<ObjectMap>)>,
    ) -> Result<Reply, Refusal> {
        let who = self.caller(p, ring);
        let class = who.authorization;
        let (parent, name) = self.parent(&who, path)?;
        let mut good = (1..=1024).contains(&words);
        if let Some((gate, map)) = object {
            good &= u32::from(gate) <= words;
            good &= map.definitions.iter().all(|(_, word)| u32::from(*word) < words);
        }
        if !good {
            return Err(BAD_LENGTH);
        }
        if !are_in_order(brackets) || brackets[0] < ring {
            return Err(BAD_BRACKETS);
        }
        let count = words.div_ceil(64) as usize;
        let first = self.next_pages(count).ok_or(NO_PAGES)?;
        self.take_pages(first, count);
        let segment = Segment {
            words: words as u16,
            brackets,
            gate: object.map_or(0, |(gate, _)| gate),
            page: first as u16,
            map: object.map(|(_, map)| map.clone()),
            class,
        };
        let modes = if object.is_some() { R | E } else { R | W };
        self.make(p, parent, name, Some(modes), Kind::Segment(segment));
        Ok(Reply::Done)
    }

    fn try_answer(&mut self, p: usize, ring: u8, request: &Request) -> Result<Reply, Refusal> {
        let who = self.caller(p, ring);
        match request {
            Request::CreateDir(path, d1, d2) => {
                let (parent, name) = self.parent(&who, path)?;
                if d1 > d2 || *d1 < ring {
                    return Err(BAD_BRACKETS);
                }
                let made = Directory { entries: BTreeMap::new(), brackets: [*d1, *d2], initial: Default::default() };
                self.make(p, parent, name, Some(S | M | A), Kind::Directory(made));
            }
            Request::CreateSeg(path, words, brackets) => return self.make_segment(p, ring, path, *words, *brackets, None),
            Request::CreateObject(path, words, brackets, gate, map) => {
                return self.make_segment(p, ring, path, *words, *brackets, Some((*gate, map)));
            }
            Request::CreateLink(path, target) => {
                resolved(who.base, path)?;
                let target = resolved(who.base, target)?;
                let (parent, name) = self.parent(&who, path)?;
                self.make(p, parent, name, None, Kind::Link(target));
            }
            Request::Rename(path, name) => {
                let uid = self.changing(&who, path, false)?;
                if uid == 0 {
                    return Err(INCORRECT_ACCESS);
                }
                let names = resolved(who.base, path)?;
                let holder = self.branches[uid].holder;
                if let Kind::Directory(directory) = &mut self.branches[holder].kind {
                    if directory.entries.contains_key(name) {
                        return Err(NAMEDUP);
                    }
                    directory.entries.remove(&names[names.len() - 1]);
                    directory.entries.insert(name.clone(), uid);
                }
            }
            Request::Delete(path) => {
                let uid = self.changing(&who, path, false)?;
                if uid == 0 {
                    return Err(INCORRECT_ACCESS);
                }
                let (map, pages) = match &self.branches[uid].kind {
                    Kind::Directory(directory) if !directory.entries.is_empty() => return Err(DIR_NOT_EMPTY),
                    Kind::Segment(segment) => (segment.map.clone(), Some((segment.page, segment.words))),
                    _ => (None, None),
                };
                let names = resolved(who.base, path)?;
                let holder = self.branches[uid].holder;
                self.branches[uid].kind = Kind::Gone(map);
                if let Kind::Directory(directory) = &mut self.branches[holder].kind {
                    directory.entries.remove(&names[names.len() - 1]);
                }
                if let Some((page, words)) = pages {
                    self.free_pages(page, words);
                }
            }
            Request::SetAcl(path, id, modes) => {
                let uid = self.changing(&who, path, true)?;
                let modes = valid(*modes, self.directory(uid).is_some())?;
                self.branches[uid].acl.set(id, modes, 64)?;
            }
            Request::DelAcl(path, id) => {
                let uid = self.changing(&who, path, true)?;
                self.branches[uid].acl.remove(id)?;
            }
            Request::SetIacl(of_directories, path, id, modes) => {
                let uid = self.changing_inside(&who, path)?;
                let modes = valid(*modes, *of_directories)?;
                if let Kind::Directory(directory) = &mut self.branches[uid].kind {
                    directory.initial[usize::from(*of_directories)].set(id, modes, 63)?;
                }
            }
            Request::DelIacl(of_directories, path, id) => {
                let uid = self.changing_inside(&who, path)?;
                if let Kind::Directory(directory) = &mut self.branches[uid].kind {
                    directory.initial[usize::from(*of_directories)].remove(id)?;
                }
            }
            Request::SetBrackets(path, brackets) => {
                let uid = self.changing(&who, path, true)?;
                let Kind::Segment(segment) = &mut self.branches[uid].kind else { return Err(NOTASEG) };
                if !are_in_order(*brackets) || brackets[0] < ring || segment.brackets[0] < ring {
                    return Err(BAD_BRACKETS);
                }
                segment.brackets = *brackets;
            }
            Request::SetDirBrackets(path, d1, d2) => {
                let uid = self.changing(&who, path, true)?;
                let Kind::Directory(directory) = &mut self.branches[uid].kind else { return Err(NOTADIR) };
                if d1 > d2 || *d1 < ring || directory.brackets[0] < ring {
                    return Err(BAD_BRACKETS);
                }
                directory.brackets = [*d1, *d2];
            }
            Request::SetClass(path, class) => {
                let uid = self.changing(&who, path, true)?;
                let Kind::Segment(segment) = &mut self.branches[uid].kind else { return Err(NOTASEG) };
                if ring >= 2 && !class.dominates(segment.class) {
                    return Err(BAD_CLASS);
                }
                segment.class = *class;
            }
            Request::Status(path) => {
                let uid = self.entry(&who, path, false)?;
                if !self.may(&who, self.branches[uid].holder, S) {
                    return Err(NO_INFO);
                }
                return Ok(Reply::Status(self.status(&who, uid)));
            }
            Request::List(path) => {
                let uid = self.entry(&who, path, true)?;
                let holder = self.branches[uid].holder;
                let directory = self.directory(uid).ok_or_else(|| self.say(&who, NOTADIR, holder))?;
                if !self.may(&who, uid, S) {
                    return Err(self.say(&who, INCORRECT_ACCESS, holder));
                }
                return Ok(Reply::Names(directory.entries.keys().cloned().collect()));
            }
            Request::ChangeWdir(path) => {
                let names = resolved(who.base, path)?;
                let uid = self.walk(&who, 0, &names, true)?;
                let holder = self.branches[uid].holder;
                if self.directory(uid).is_none() {
                    return Err(self.say(&who, NOTADIR, holder));
                }
                if !(self.may(&who, uid, S) || self.may(&who, uid, M) || self.may(&who, uid, A)) {
                    return Err(self.say(&who, INCORRECT_ACCESS, holder));
                }
                self.processes[p].working_directory = names;
            }
            Request::SetRules(rules) => self.processes[p].rules = rules.clone(),
            Request::Initiate(path, name) => {
                let uid = self.entry(&who, path, true)?;
                let holder = self.branches[uid].holder;
                let segment = self.segment(uid).ok_or_else(|| self.say(&who, NOTASEG, holder))?;
                if !self.reaches(&who, uid, segment) {
                    return Err(self.say(&who, INCORRECT_ACCESS, holder));
                }
                let own = &self.processes[p];
                if let Some(other) = name.as_ref().and_then(|name| own.names[usize::from(ring)].get(name)) {
                    if own.numbers.get(&uid) != Some(other) {
                        return Err(NAMEDUP);
                    }
                }
                let (segno, fresh, linkage) = self.know(p, uid)?;
                if let Some(name) = name {
                    self.processes[p].names[usize::from(ring)].insert(name.clone(), segno);
                }
                return Ok(Reply::Segno { segno, fresh, linkage });
            }
            Request::Terminate(segno) => {
                let own = &mut self.processes[p];
                let place = usize::from(*segno);
                let Some(Lot::Branch(uid)) = own.lots.get(place).copied() else { return Err(UNKNOWN_SEGNO) };
                own.lots[place] = Lot::Free;
                own.numbers.remove(&uid);
                for names in &mut own.names {
                    names.retain(|_, other| other != segno);
                }
                if let Some(Lot::Linkage { object, page, words, .. }) = own.lots.get(place + 1).copied() {
                    if object == uid {
                        own.lots[place + 1] = Lot::Free;
                        self.free_pages(page, words);
                    }
                }
            }
            Request::Link(segno, word) => return self.link(p, ring, *segno, *word),
            Request::Wakeup(to, word) => {
                let to = usize::from(*to);
                let receiver = self.processes.get_mut(to).ok_or(NO_PROCESS)?;
                if receiver.state == State::Ended {
                    return Err(ENDED);
                }
                if receiver.mail.len() == 64 {
                    return Err(MAIL_FULL);
                }
                receiver.mail.push_back((p as u8, *word));
                return Ok(Reply::Sent);
            }
            Request::Block | Request::Resume => {
                let message = self.processes[p].mail.pop_front();
                let reply = match message {
                    Some((sender, word)) => Reply::Message(sender, word),
                    None if self.is_ready(p) => Reply::Nobody,
                    None => Reply::Waiting,
                };
                let waits = matches!(reply, Reply::Waiting);
                self.processes[p].state = if waits { State::Waiting } else { State::Running };
                return Ok(reply);
            }
            Request::Logout => {
                self.processes[p].state = State::Ended;
                self.processes[p].mail.clear();
            }
        }
        Ok(Reply::Done)
    }

    fn status(&self, who: &Caller, uid: usize) -> Status {
        let bits = self.branches[uid].acl.modes_of(who.principal);
        let modes = |of: fn(u8) -> Modes| if bits == 0 { Modes::Null } else { of(bits) };
        match &self.branches[uid].kind {
            Kind::Segment(segment) => {
                let class = (self.version >= 2).then_some(segment.class);
                let (words, brackets, modes) = (segment.words, segment.brackets, modes(Modes::Segment));
                match &segment.map {
                    None => Status::Segment { words, brackets, modes, class },
                    Some(map) => Status::Object {
                        words,
                        brackets,
                        gate: segment.gate,
                        definitions: map.definitions.len(),
                        links: map.links.len(),
                        modes,
                        class,
                    },
                }
            }
            Kind::Directory(directory) => {
                Status::Directory { brackets: directory.brackets, modes: modes(Modes::Directory) }
            }
            Kind::Link(target) => Status::Link(target.clone()),
            Kind::Gone(_) => unreachable!("what is gone is not found"),
        }
    }

    /// Makes a segment known: its number, whether it is new, and the linkage section that comes with it.
    fn know(&mut self, p: usize, uid: usize) -> Result<(u16, bool, Option<u16>), Refusal> {
        if let Some(segno) = self.processes[p].numbers.get(&uid) {
            return Ok((*segno, false, None));
        }
        let section = match &self.branches[uid].kind {
            Kind::Segment(Segment { map: Some(map), brackets: [r1, r2, _], .. }) if !map.links.is_empty() => {
                Some(([*r1, *r2, *r2], map.links.len() as u16))
            }
            _ => None,
        };
        let most = if self.version >= 3 { 256 } else { 128 };
        let next = self.processes[p].lots.len();
        if next + 1 + usize::from(section.is_some()) > most {
            return Err(KST_FULL);
        }
        let mut linkage = None;
        let mut lot = None;
        if let Some((brackets, words)) = section {
            let page = self.next_pages(1).ok_or(NO_PAGES)?;
            self.take_pages(page, 1);
            linkage = Some(next as u16 + 1);
            lot = Some(Lot::Linkage { object: uid, page: page as u16, brackets, words });
        }
        let own = &mut self.processes[p];
        own.numbers.insert(uid, next as u16);
        own.lots.push(Lot::Branch(uid));
        own.lots.extend(lot);
        Ok((next as u16, true, linkage))
    }

    /// The segment that a directory has under a name, following links, where the caller has access to it.
    fn look_up(&self, who: &Caller, directory: usize, names: &[Name]) -> Option<usize> {
        let uid = self.walk(who, directory, names, true).ok()?;
        let segment = self.segment(uid)?;
        self.reaches(who, uid, segment).then_some(uid)
    }

    fn search(&self, p: usize, ring: u8, object: usize, name: &Name) -> Option<usize> {
        let who = self.caller(p, ring);
        let own = &self.processes[p];
        let below = |names: &[Name]| [names, &[name.clone()]].concat();
        own.rules.iter().find_map(|rule| match rule {
            Rule::InitiatedSegments => {
                let segno = own.names[usize::from(ring)].get(name)?;
                match own.lots[usize::from(*segno)] {
                    Lot::Branch(uid) if self.segment(uid).is_some() => Some(uid),
                    _ => None,
                }
            }
            Rule::ReferencingDir => {
                self.segment(object)?;
                self.look_up(&who, self.branches[object].holder, &[name.clone()])
            }
            Rule::WorkingDir => self.look_up(&who, 0, &below(&own.working_directory)),
            Rule::Directory(path) => self.look_up(&who, 0, &below(&path.names)),
        })
    }

    fn link(&mut self, p: usize, ring: u8, segno: u16, word: u16) -> Result<Reply, Refusal> {
        let object = match self.processes[p].lots.get(usize::from(segno)) {
            Some(Lot::Linkage { object, words, .. }) if word < *words => *object,
            _ => return Err(NOT_LINKAGE),
        };
        let map = match &self.branches[object].kind {
            Kind::Segment(Segment { map: Some(map), .. }) | Kind::Gone(Some(map)) => map.clone(),
            _ => return Err(NOT_LINKAGE),
        };
        let (name, symbol) = &map.links[usize::from(word)];
        let uid = self.search(p, ring, object, name).ok_or(SEGMENT_NOT_FOUND)?;
        let target = self.segment(uid).and_then(|segment| segment.map.as_ref()).ok_or(NOT_OBJECT)?;
        let word = target.definitions.iter().find(|(other, _)| other == symbol).ok_or(NO_DEFINITION)?.1;
        let (segno, fresh, linkage) = self.know(p, uid)?;
        self.processes[p].names[usize::from(ring)].entry(name.clone()).or_insert(segno);
        Ok(Reply::Linked { segno, word, fresh, linkage })
    }
}

fn are_in_order(brackets: Brackets) -> bool {
    brackets[0] <= brackets[1] && brackets[1] <= brackets[2]
}

fn valid(modes: Modes, of_directory: bool) -> Result<u8, Refusal> {
    match modes {
        Modes::Null => Ok(0),
        Modes::Segment(bits) if !of_directory => Ok(bits),
        Modes::Directory(bits) if of_directory && (bits & M == 0 || bits & S != 0) => Ok(bits),
        _ => Err(INVALID_MODE),
    }
}
