//! A file server in plain Rust, to set the costs of lfsd beside: rows and names in hash tables, search, read and write
//! permission alone, and a journal, which it counts and drops as lfsd does. It has no log, no flags, no sticky bit, no level
//! and no proof. It reads the script lines that `beside.py` makes from standard input, and writes the answers and a count.
use std::collections::HashMap;
use std::io::{self, BufWriter, Read, Write};

const ROOT: u32 = 2;
const FIRST: u32 = 4;
const TRANSFER: usize = 4096;
/// So many entries the journal has at most, as that of lfsd.
const WINDOW: usize = 256;

#[derive(Clone, Copy)]
enum Bit {
    Read = 4,
    Write = 2,
    Search = 1,
}

#[derive(Clone, Copy)]
struct Denied {
    rule: &'static str,
    error: &'static str,
    at: usize,
}

struct Row {
    uid: u32,
    gid: u32,
    mode: u16,
    names: Option<HashMap<Vec<u8>, u32>>,
    bytes: Vec<u8>,
}

enum Place {
    At(usize),
    End,
}

enum Request {
    Stat(String),
    Read(String, usize, usize),
    List(String),
    Write(String, Place, Vec<u8>),
    Make(String, u16, bool),
    Unlink(String),
    Rename(String, String),
    Chown(String, u32, u32),
}

#[derive(Clone)]
enum Answer {
    Done,
    Stat(u32, bool, u32, u32, u16, usize),
    Bytes(Vec<u8>),
    Names(Vec<Vec<u8>>),
    Denied(Denied),
}

struct Caller {
    uid: u32,
    groups: Vec<u32>,
}

struct Volume {
    rows: HashMap<u32, Row>,
    next: u32,
    journal: Vec<(Request, Answer)>,
    served: usize,
    denied: usize,
}

fn denied<T>(rule: &'static str, error: &'static str, at: usize) -> Result<T, Denied> {
    Err(Denied { rule, error, at })
}

fn grants(row: &Row, caller: &Caller, bit: Bit) -> bool {
    let class = if caller.uid == row.uid { 6 } else if caller.groups.contains(&row.gid) { 3 } else { 0 };
    caller.uid == 0 || row.mode >> class & bit as u16 != 0
}

fn names_of(path: &str) -> Vec<&str> {
    path.split('/').filter(|name| !name.is_empty()).collect()
}

impl Volume {
    fn new() -> Volume {
        let root = Row { uid: 0, gid: 0, mode: 0o755, names: Some(HashMap::new()), bytes: Vec::new() };
        Volume { rows: HashMap::from([(ROOT, root)]), next: FIRST, journal: Vec::new(), served: 0, denied: 0 }
    }

    fn walk(&self, caller: &Caller, names: &[&str]) -> Result<u32, Denied> {
        let mut at = ROOT;
        for (k, name) in names.iter().enumerate() {
            let row = &self.rows[&at];
            let Some(listed) = &row.names else { return denied("N1", "ENOTDIR", k) };
            if !grants(row, caller, Bit::Search) {
                return denied("S1", "EACCES", k);
            }
            let Some(number) = listed.get(name.as_bytes()) else { return denied("N2", "ENOENT", k + 1) };
            at = *number;
        }
        Ok(at)
    }

    /// The directory of the last name, which the caller may search and write.
    fn parent(&self, caller: &Caller, names: &[&str]) -> Result<u32, Denied> {
        let at = names.len().saturating_sub(1);
        let parent = self.walk(caller, &names[..at])?;
        let row = &self.rows[&parent];
        if row.names.is_none() {
            return denied("N1", "ENOTDIR", at);
        }
        if !grants(row, caller, Bit::Search) {
            return denied("S1", "EACCES", at);
        }
        if !grants(row, caller, Bit::Write) {
            return denied("M2", "EACCES", at);
        }
        Ok(parent)
    }

    fn listed(&mut self, number: u32) -> &mut HashMap<Vec<u8>, u32> {
        self.rows.get_mut(&number).and_then(|row| row.names.as_mut()).expect("a directory")
    }

    fn file(&self, caller: &Caller, names: &[&str], bit: Bit) -> Result<u32, Denied> {
        let number = self.walk(caller, names)?;
        let row = &self.rows[&number];
        if row.names.is_some() {
            return denied("K1", "EISDIR", names.len());
        }
        if !grants(row, caller, bit) {
            return denied(if matches!(bit, Bit::Read) { "M1" } else { "M2" }, "EACCES", names.len());
        }
        Ok(number)
    }

    fn serve(&mut self, caller: &Caller, request: &Request) -> Result<Answer, Denied> {
        match request {
            Request::Stat(path) => {
                let number = self.walk(caller, &names_of(path))?;
                let row = &self.rows[&number];
                Ok(Answer::Stat(number, row.names.is_some(), row.uid, row.gid, row.mode, row.bytes.len()))
            }
            Request::Read(path, off, len) => {
                let number = self.file(caller, &names_of(path), Bit::Read)?;
                let bytes = &self.rows[&number].bytes;
                let start = (*off).min(bytes.len());
                let end = bytes.len().min(start + TRANSFER.min(*len));
                Ok(Answer::Bytes(bytes[start..end].to_vec()))
            }
            Request::List(path) => {
                let names = names_of(path);
                let number = self.walk(caller, &names)?;
                let row = &self.rows[&number];
                let Some(listed) = &row.names else { return denied("N1", "ENOTDIR", names.len()) };
                if !grants(row, caller, Bit::Read) {
                    return denied("M1", "EACCES", names.len());
                }
                let mut found: Vec<Vec<u8>> = listed.keys().cloned().collect();
                found.sort();
                Ok(Answer::Names(found))
            }
            Request::Write(path, place, bytes) => {
                let number = self.file(caller, &names_of(path), Bit::Write)?;
                let row = self.rows.get_mut(&number).expect("a row");
                let start = match place {
                    Place::At(start) => *start,
                    Place::End => row.bytes.len(),
                };
                if row.bytes.len() < start + bytes.len() {
                    row.bytes.resize(start + bytes.len(), 0);
                }
                row.bytes[start..start + bytes.len()].copy_from_slice(bytes);
                Ok(Answer::Done)
            }
            Request::Make(path, mode, is_directory) => self.make(caller, &names_of(path), *mode, *is_directory),
            Request::Unlink(path) => {
                let names = names_of(path);
                let number = self.walk(caller, &names)?;
                let parent = self.parent(caller, &names)?;
                if self.rows[&number].names.is_some() {
                    return denied("K1", "EISDIR", names.len());
                }
                self.listed(parent).remove(names[names.len() - 1].as_bytes());
                self.rows.remove(&number);
                Ok(Answer::Done)
            }
            Request::Rename(from, to) => {
                let (from, to) = (names_of(from), names_of(to));
                let number = self.walk(caller, &from)?;
                let (old, new) = (self.parent(caller, &from)?, self.parent(caller, &to)?);
                self.listed(old).remove(from[from.len() - 1].as_bytes());
                if let Some(gone) = self.listed(new).insert(to[to.len() - 1].as_bytes().to_vec(), number) {
                    self.rows.remove(&gone);
                }
                Ok(Answer::Done)
            }
            Request::Chown(path, uid, gid) => {
                let names = names_of(path);
                let number = self.walk(caller, &names)?;
                if caller.uid != 0 {
                    return denied("O2", "EPERM", names.len());
                }
                let row = self.rows.get_mut(&number).expect("a row");
                (row.uid, row.gid) = (*uid, *gid);
                Ok(Answer::Done)
            }
        }
    }

    fn make(&mut self, caller: &Caller, names: &[&str], mode: u16, is_directory: bool) -> Result<Answer, Denied> {
        let parent = self.parent(caller, names)?;
        let name = names[names.len() - 1].as_bytes().to_vec();
        if self.listed(parent).contains_key(&name) {
            return denied("N3", "EEXIST", names.len());
        }
        let number = self.next;
        self.next += 1;
        self.listed(parent).insert(name, number);
        let gid = self.rows[&parent].gid;
        let listed = is_directory.then(HashMap::new);
        self.rows.insert(number, Row { uid: caller.uid, gid, mode, names: listed, bytes: Vec::new() });
        Ok(Answer::Done)
    }

    fn call(&mut self, caller: &Caller, request: Request) -> Answer {
        let answer = self.serve(caller, &request).unwrap_or_else(Answer::Denied);
        match answer {
            Answer::Denied(_) => self.denied += 1,
            _ => self.served += 1,
        }
        if self.journal.len() == WINDOW {
            self.journal.clear();
        }
        self.journal.push((request, answer.clone()));
        answer
    }
}

fn digits(text: &str) -> Vec<u8> {
    let value = |byte: u8| (byte as char).to_digit(16).expect("a digit") as u8;
    text.as_bytes().chunks(2).map(|pair| value(pair[0]) << 4 | value(pair[1])).collect()
}

fn request_of(words: &[&str]) -> Request {
    let path = words[1].to_string();
    let number = |at: usize| words[at].parse().expect("a number");
    let mode = |at: usize| u16::from_str_radix(words[at], 8).expect("a mode");
    match words[0] {
        "stat" => Request::Stat(path),
        "read" => Request::Read(path, number(2), number(3)),
        "list" => Request::List(path),
        "write" if words[2] == "end" => Request::Write(path, Place::End, digits(words[3])),
        "write" => Request::Write(path, Place::At(number(3)), digits(words[4])),
        "create" => Request::Make(path, mode(2), false),
        "mkdir" => Request::Make(path, mode(2), true),
        "unlink" => Request::Unlink(path),
        "rename" => Request::Rename(path, words[2].to_string()),
        "chown" => Request::Chown(path, number(2) as u32, number(3) as u32),
        other => panic!("{other} is no line of a benchmark"),
    }
}

fn tell<W: Write>(out: &mut W, answer: &Answer) -> io::Result<()> {
    match answer {
        Answer::Done => writeln!(out, "0 ok"),
        Answer::Stat(number, is_directory, uid, gid, mode, size) => {
            let kind = if *is_directory { "dir" } else { "file" };
            writeln!(out, "0 stat {number} {kind} {uid} {gid} {mode:04o} 00000000 {size}")
        }
        Answer::Bytes(bytes) => {
            let text: String = bytes.iter().flat_map(|byte| [byte >> 4, byte & 15]).map(|digit| char::from(b"0123456789abcdef"[digit as usize])).collect();
            writeln!(out, "0 bytes {}", if text.is_empty() { "-" } else { &text })
        }
        Answer::Names(names) => {
            write!(out, "0 names")?;
            for name in names {
                out.write_all(b" ")?;
                out.write_all(name)?;
            }
            writeln!(out)
        }
        Answer::Denied(Denied { rule, error, at }) => writeln!(out, "0 denied {rule} {error} 0 {at}"),
    }
}

fn main() -> io::Result<()> {
    let mut script = String::new();
    io::stdin().read_to_string(&mut script)?;
    let mut out = BufWriter::new(io::stdout().lock());
    let mut volume = Volume::new();
    let mut caller = Caller { uid: 0, groups: vec![0] };
    for line in script.lines() {
        let words: Vec<&str> = line.split(' ').collect();
        if line.is_empty() || line.starts_with('#') {
            continue;
        } else if words[0] == "as" {
            let groups = words[2].split(',').map(|group| group.parse().expect("a group")).collect();
            caller = Caller { uid: words[1].parse().expect("a user"), groups };
        } else {
            let answer = volume.call(&caller, request_of(&words));
            tell(&mut out, &answer)?;
        }
    }
    let Volume { served, denied, .. } = volume;
    writeln!(out, "entries {}\nserved {served}\ndenied {denied}", served + denied)
}
