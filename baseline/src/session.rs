//! Session texts: what they say, and how they are read.

use std::sync::Arc;

pub type Name = Arc<str>;
pub type Brackets = [u8; 3];

/// A level, and a set of 18 categories.
#[derive(Clone, Copy, PartialEq, Eq, Default)]
pub struct Class {
    pub level: u8,
    pub categories: u32,
}

impl Class {
    pub fn dominates(self, other: Class) -> bool {
        self.level >= other.level && self.categories & other.categories == other.categories
    }
}

/// A pathname as written, in parts: from the root, or so many directories up.
pub struct Pathname {
    pub up: Option<usize>,
    pub names: Vec<Name>,
}

/// Modes as written: none, or letters of `rew` or of `sma`, as bits 4, 2 and 1.
#[derive(Clone, Copy, PartialEq, Eq)]
pub enum Modes {
    Null,
    Segment(u8),
    Directory(u8),
}

/// A principal, or an identifier of an access list with `None` for `*`.
#[derive(Clone, PartialEq, Eq)]
pub struct AclId {
    pub text: Box<str>,
    pub parts: [Option<Box<str>>; 3],
}

impl AclId {
    pub fn rank(&self) -> u8 {
        self.parts.iter().fold(0, |rank, part| rank * 2 + u8::from(part.is_none()))
    }

    pub fn matches(&self, who: &AclId) -> bool {
        let mut pairs = self.parts.iter().zip(&who.parts);
        pairs.all(|(part, own)| part.is_none() || part == own)
    }
}

/// What an object segment tells of itself.
#[derive(Default)]
pub struct ObjectMap {
    pub definitions: Vec<(Name, u16)>,
    pub links: Vec<(Name, Name)>,
}

pub enum Rule {
    InitiatedSegments,
    ReferencingDir,
    WorkingDir,
    Directory(Pathname),
}

pub enum Request {
    CreateDir(Pathname, u8, u8),
    CreateSeg(Pathname, u32, Brackets),
    CreateObject(Pathname, u32, Brackets, u16, Arc<ObjectMap>),
    CreateLink(Pathname, Pathname),
    Rename(Pathname, Name),
    Delete(Pathname),
    SetAcl(Pathname, AclId, Modes),
    DelAcl(Pathname, AclId),
    SetIacl(bool, Pathname, AclId, Modes),
    DelIacl(bool, Pathname, AclId),
    SetBrackets(Pathname, Brackets),
    SetDirBrackets(Pathname, u8, u8),
    SetClass(Pathname, Class),
    Status(Pathname),
    List(Pathname),
    ChangeWdir(Pathname),
    SetRules(Arc<Vec<Rule>>),
    Initiate(Pathname, Option<Name>),
    Terminate(u16),
    Wakeup(u8, u64),
    Block,
    Resume,
    Link(u16, u16),
    Logout,
}

#[derive(Clone, Copy)]
pub enum Base {
    Segment(u16),
    Register(usize),
}

#[derive(Clone, Copy)]
pub struct Operand {
    pub base: Base,
    pub word: u16,
    pub indirect: bool,
}

/// A line of a script; a request with its text.
pub enum Line<'a> {
    Ask(Request, &'a str),
    Set(u64),
    Epp(usize, Operand),
    Lda(Operand),
    Sta(Operand),
    Spri(usize, Operand),
    Fetch,
    Call(Operand),
    Return(Operand),
}

pub struct Process<'a> {
    pub principal: AclId,
    pub authorization: Class,
    pub first: usize,
    pub lines: Vec<Line<'a>>,
}

pub struct Session<'a> {
    pub version: u8,
    pub limit: usize,
    pub setup_first: usize,
    pub setup: Vec<(Request, &'a str)>,
    pub processes: Vec<Process<'a>>,
}

/// Reads a session; where it is none, the number of its first bad line.
pub fn read(text: &[u8]) -> Result<Session<'_>, usize> {
    let mut rest = text;
    let mut number = 0;
    let mut next = || {
        number += 1;
        let end = rest.iter().position(|byte| *byte == b'\n').ok_or(number)?;
        let line = std::str::from_utf8(&rest[..end]).map_err(|_| number)?;
        rest = &rest[end + 1..];
        Ok::<_, usize>((number, line, rest.is_empty()))
    };
    let (_, first, _) = next()?;
    let version = match first {
        "multics 1" => 1,
        "multics 2" => 2,
        "multics 3" => 3,
        "multics 4" => 4,
        _ => return Err(1),
    };
    let (mut at, mut line, mut over) = next()?;
    let mut limit = 262_143;
    if let Some(field) = line.strip_prefix("history ") {
        limit = decimal(field, 262_143).filter(|limit| *limit >= 1).ok_or(at)? as usize;
        (at, line, over) = next()?;
    }
    let setup_first = at;
    let mut setup = Vec::new();
    while !line.starts_with("process ") {
        setup.push((path_request(line, version).ok_or(at)?, line));
        (at, line, over) = next()?;
    }
    let mut processes: Vec<Process<'_>> = Vec::new();
    loop {
        if line == "end" && !processes.is_empty() {
            return if over { Ok(Session { version, limit, setup_first, setup, processes }) } else { Err(at + 1) };
        }
        if processes.len() == 15 {
            return Err(at);
        }
        let (principal, authorization) = process(line, version).ok_or(at)?;
        let first = at + 1;
        let mut lines = Vec::new();
        loop {
            (at, line, _) = next()?;
            lines.push(script_line(line, version).ok_or(at)?);
            if line == "logout" {
                break;
            }
        }
        processes.push(Process { principal, authorization, first, lines });
        (at, line, over) = next()?;
    }
}

fn process(line: &str, version: u8) -> Option<(AclId, Class)> {
    let mut fields = line.split(' ');
    (fields.next()? == "process").then_some(())?;
    let principal = acl_id(fields.next()?)?;
    principal.parts.iter().all(Option::is_some).then_some(())?;
    let authorization = match fields.next() {
        Some(field) => Some(class(field)?).filter(|class| version >= 2 && *class != Class::default())?,
        None => Class::default(),
    };
    fields.next().is_none().then_some((principal, authorization))
}

fn script_line(line: &str, version: u8) -> Option<Line<'_>> {
    if let Some(request) = path_request(line, version) {
        return Some(Line::Ask(request, line));
    }
    let mut fields = line.split(' ');
    let word = fields.next()?;
    let mut field = || fields.next();
    let made = match word {
        "logout" => Line::Ask(Request::Logout, line),
        "block" => Line::Ask(Request::Block, line),
        "change_wdir" => Line::Ask(Request::ChangeWdir(pathname(field()?)?), line),
        "set_rules" => {
            let rules: Option<Vec<Rule>> = fields.by_ref().map(rule).collect();
            let rules = rules.filter(|rules| (1..=16).contains(&rules.len()))?;
            Line::Ask(Request::SetRules(Arc::new(rules)), line)
        }
        "initiate" => {
            let path = pathname(field()?)?;
            let name = match field() {
                Some(text) => Some(name(text)?),
                None => None,
            };
            Line::Ask(Request::Initiate(path, name), line)
        }
        "terminate" => Line::Ask(Request::Terminate(octal(field()?, 0o7777)? as u16), line),
        "wakeup" => {
            let to = decimal(field()?, 99).filter(|to| *to >= 1)? as u8;
            Line::Ask(Request::Wakeup(to, octal(field()?, WORD)?), line)
        }
        "set" => Line::Set(octal(field()?, WORD)?),
        "epp" => Line::Epp(digit(field()?)? as usize, operand(field()?)?),
        "lda" => Line::Lda(operand(field()?)?),
        "sta" => Line::Sta(operand(field()?)?),
        "spri" => Line::Spri(digit(field()?)? as usize, operand(field()?)?),
        "fetch" => Line::Fetch,
        "call" => Line::Call(operand(field()?)?),
        "return" => Line::Return(operand(field()?)?),
        _ => return None,
    };
    fields.next().is_none().then_some(made)
}

fn path_request(line: &str, version: u8) -> Option<Request> {
    let mut fields = line.split(' ');
    let word = fields.next()?;
    let mut field = || fields.next();
    let made = match word {
        "create_dir" => Request::CreateDir(pathname(field()?)?, digit(field()?)?, digit(field()?)?),
        "create_seg" => {
            let path = pathname(field()?)?;
            let words = decimal(field()?, 99_999)? as u32;
            Request::CreateSeg(path, words, [digit(field()?)?, digit(field()?)?, digit(field()?)?])
        }
        "create_object" => {
            let path = pathname(field()?)?;
            let words = decimal(field()?, 99_999)? as u32;
            let brackets = [digit(field()?)?, digit(field()?)?, digit(field()?)?];
            let gate = decimal(field()?, 9_999)? as u16;
            Request::CreateObject(path, words, brackets, gate, Arc::new(object_map(&mut fields)?))
        }
        "create_link" => Request::CreateLink(pathname(field()?)?, pathname(field()?)?),
        "rename" => Request::Rename(pathname(field()?)?, name(field()?)?),
        "delete" => Request::Delete(pathname(field()?)?),
        "set_acl" => Request::SetAcl(pathname(field()?)?, acl_id(field()?)?, modes(field()?)?),
        "del_acl" => Request::DelAcl(pathname(field()?)?, acl_id(field()?)?),
        "set_iacl_seg" | "set_iacl_dir" if version >= 3 => {
            Request::SetIacl(word == "set_iacl_dir", pathname(field()?)?, acl_id(field()?)?, modes(field()?)?)
        }
        "del_iacl_seg" | "del_iacl_dir" if version >= 3 => {
            Request::DelIacl(word == "del_iacl_dir", pathname(field()?)?, acl_id(field()?)?)
        }
        "set_brackets" => {
            let path = pathname(field()?)?;
            Request::SetBrackets(path, [digit(field()?)?, digit(field()?)?, digit(field()?)?])
        }
        "set_dir_brackets" => Request::SetDirBrackets(pathname(field()?)?, digit(field()?)?, digit(field()?)?),
        "set_class" if version >= 2 => Request::SetClass(pathname(field()?)?, class(field()?)?),
        "status" => Request::Status(pathname(field()?)?),
        "list" => Request::List(pathname(field()?)?),
        _ => return None,
    };
    fields.next().is_none().then_some(made)
}

fn object_map<'a>(fields: &mut impl Iterator<Item = &'a str>) -> Option<ObjectMap> {
    let mut map = ObjectMap::default();
    for field in fields {
        if let Some(definition) = field.strip_prefix("d:") {
            let (symbol, word) = definition.split_once(':')?;
            let symbol = name(symbol)?;
            let repeats = map.definitions.iter().any(|(other, _)| *other == symbol);
            (!repeats && map.links.is_empty()).then_some(())?;
            map.definitions.push((symbol, octal(word, 0o37777)? as u16));
        } else {
            let (segment, symbol) = field.strip_prefix("l:")?.split_once('$')?;
            map.links.push((name(segment)?, name(symbol)?));
        }
    }
    (map.definitions.len() <= 64 && map.links.len() <= 64).then_some(map)
}

const WORD: u64 = 0o777_777_777_777;

fn digit(text: &str) -> Option<u8> {
    match text.as_bytes() {
        [digit @ b'0'..=b'7'] => Some(digit - b'0'),
        _ => None,
    }
}

fn number(text: &str, base: u64, most: u64) -> Option<u64> {
    if text.is_empty() || text.len() > 1 && text.starts_with('0') {
        return None;
    }
    let mut value = 0;
    for byte in text.bytes() {
        let digit = u64::from(byte.wrapping_sub(b'0'));
        if digit >= base {
            return None;
        }
        value = value * base + digit;
        if value > most {
            return None;
        }
    }
    Some(value)
}

fn decimal(text: &str, most: u64) -> Option<u64> {
    number(text, 10, most)
}

fn octal(text: &str, most: u64) -> Option<u64> {
    number(text, 8, most)
}

fn class(text: &str) -> Option<Class> {
    let (level, categories) = text.split_once(':')?;
    Some(Class { level: digit(level)?, categories: octal(categories, 0o777_777)? as u32 })
}

fn modes(text: &str) -> Option<Modes> {
    let bits = |letters: [char; 3]| {
        let mut rest = text.chars().peekable();
        let mut bits = 0;
        for letter in letters {
            bits = bits * 2 + u8::from(rest.next_if_eq(&letter).is_some());
        }
        (rest.next().is_none() && bits > 0).then_some(bits)
    };
    if text == "null" {
        return Some(Modes::Null);
    }
    bits(['r', 'e', 'w']).map(Modes::Segment).or_else(|| bits(['s', 'm', 'a']).map(Modes::Directory))
}

fn name(text: &str) -> Option<Name> {
    let good = |byte: u8| matches!(byte, 0x21..=0x7e) && !b"><*?$,|:=".contains(&byte);
    ((1..=32).contains(&text.len()) && text.bytes().all(good)).then(|| text.into())
}

fn acl_id(text: &str) -> Option<AclId> {
    let mut fields = text.split('.');
    let mut part = |most: usize| -> Option<Option<Box<str>>> {
        let field = fields.next()?;
        if field == "*" {
            return Some(None);
        }
        let good = |byte: u8| byte.is_ascii_alphanumeric() || byte == b'_';
        ((1..=most).contains(&field.len()) && field.bytes().all(good)).then(|| Some(field.into()))
    };
    let parts = [part(22)?, part(9)?, part(1)?];
    fields.next().is_none().then(|| AclId { text: text.into(), parts })
}

fn pathname(text: &str) -> Option<Pathname> {
    if text.is_empty() || text.len() > 168 {
        return None;
    }
    let (up, rest) = match text.strip_prefix('>') {
        Some(rest) => (None, rest),
        None => {
            let rest = text.trim_start_matches('<');
            (Some(text.len() - rest.len()), rest)
        }
    };
    let names = if rest.is_empty() {
        Vec::new()
    } else {
        rest.split('>').map(name).collect::<Option<Vec<Name>>>()?
    };
    Some(Pathname { up, names })
}

fn rule(text: &str) -> Option<Rule> {
    match text {
        "initiated_segments" => Some(Rule::InitiatedSegments),
        "referencing_dir" => Some(Rule::ReferencingDir),
        "working_dir" => Some(Rule::WorkingDir),
        _ => pathname(text).filter(|path| path.up.is_none()).map(Rule::Directory),
    }
}

fn operand(text: &str) -> Option<Operand> {
    let (text, indirect) = match text.strip_suffix(",*") {
        Some(text) => (text, true),
        None => (text, false),
    };
    let (base, word) = text.split_once('|')?;
    let base = match base.strip_prefix("pr") {
        Some(register) => Base::Register(digit(register)? as usize),
        None => Base::Segment(octal(base, 0o7777)? as u16),
    };
    Some(Operand { base, word: octal(word, 0o37777)? as u16, indirect })
}

