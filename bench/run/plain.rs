// The same commands by std threads over one map of records under a mutex: plain WORKERS < script; or on one thread: plain one < script.
// It has no slabs, no moves and no proofs; it prints replies by worker and one history, as `kmemrun run` does, or the replies alone, as
// `kmemrun one` does.
use std::collections::BTreeMap;
use std::io::{Read, Write};
use std::sync::Mutex;

#[derive(Clone, Copy)]
enum Command<'a> {
    Put(&'a str, &'a str),
    Get(&'a str),
    Del(&'a str),
    First,
    Next(&'a str),
    Count,
    Link(&'a str, &'a str),
    Hold(usize, &'a str),
    Read(usize),
    Write(usize, &'a str),
    Drop(usize),
    Fix(&'a str),
    Loose(&'a str),
}

struct Record<'a> {
    value: &'a str,
    names: u32,
    tags: u32,
    #[allow(dead_code)]
    fixed: bool,
}

#[derive(Default)]
struct Records<'a> {
    names: BTreeMap<&'a str, u64>,
    records: BTreeMap<u64, Record<'a>>,
    tags: BTreeMap<(usize, usize), u64>,
    fresh: u64,
    history: Vec<(u32, u32, String)>,
}

impl<'a> Records<'a> {
    fn end_if_unused(&mut self, id: u64) {
        let record = &self.records[&id];
        if record.names == 0 && record.tags == 0 {
            self.records.remove(&id);
        }
    }

    fn step(&mut self, worker: usize, command: Command<'a>) -> String {
        match command {
            Command::Put(name, value) => match self.names.get(name) {
                Some(id) => {
                    let record = self.records.get_mut(id).unwrap();
                    let old = std::mem::replace(&mut record.value, value);
                    format!("was {old}")
                }
                None => {
                    let id = self.fresh;
                    self.fresh += 1;
                    self.names.insert(name, id);
                    self.records.insert(id, Record { value, names: 1, tags: 0, fixed: false });
                    "new".into()
                }
            },
            Command::Get(name) => match self.names.get(name) {
                Some(id) => format!("val {}", self.records[id].value),
                None => "none".into(),
            },
            Command::Del(name) => match self.names.remove(name) {
                Some(id) => {
                    let record = self.records.get_mut(&id).unwrap();
                    record.names -= 1;
                    let text = format!("del {}", record.value);
                    self.end_if_unused(id);
                    text
                }
                None => "none".into(),
            },
            Command::First => match self.names.iter().next() {
                Some((name, id)) => format!("at {name} {}", self.records[id].value),
                None => "none".into(),
            },
            Command::Next(name) => {
                let after = (std::ops::Bound::Excluded(name), std::ops::Bound::Unbounded);
                match self.names.range::<str, _>(after).next() {
                    Some((name, id)) => format!("at {name} {}", self.records[id].value),
                    None => "none".into(),
                }
            }
            Command::Count => format!("n {}", self.names.len()),
            Command::Link(name, other) => match self.names.get(name).copied() {
                None => "none".into(),
                Some(_) if self.names.contains_key(other) => "taken".into(),
                Some(id) => {
                    let record = self.records.get_mut(&id).unwrap();
                    if record.names == 8 {
                        return "many".into();
                    }
                    record.names += 1;
                    self.names.insert(other, id);
                    "ok".into()
                }
            },
            Command::Hold(tag, name) => {
                if self.tags.contains_key(&(worker, tag)) {
                    return "used".into();
                }
                match self.names.get(name).copied() {
                    None => "none".into(),
                    Some(id) => {
                        self.tags.insert((worker, tag), id);
                        self.records.get_mut(&id).unwrap().tags += 1;
                        "ok".into()
                    }
                }
            }
            Command::Read(tag) => match self.tags.get(&(worker, tag)) {
                Some(id) => format!("val {}", self.records[id].value),
                None => "idle".into(),
            },
            Command::Write(tag, value) => match self.tags.get(&(worker, tag)) {
                Some(id) => {
                    let record = self.records.get_mut(id).unwrap();
                    format!("was {}", std::mem::replace(&mut record.value, value))
                }
                None => "idle".into(),
            },
            Command::Drop(tag) => match self.tags.remove(&(worker, tag)) {
                Some(id) => {
                    self.records.get_mut(&id).unwrap().tags -= 1;
                    self.end_if_unused(id);
                    "ok".into()
                }
                None => "idle".into(),
            },
            Command::Fix(name) | Command::Loose(name) => match self.names.get(name) {
                Some(id) => {
                    self.records.get_mut(id).unwrap().fixed = matches!(command, Command::Fix(_));
                    "ok".into()
                }
                None => "none".into(),
            },
        }
    }
}

fn read_line(line: &str) -> (usize, Command<'_>) {
    let words: Vec<&str> = line.split_ascii_whitespace().collect();
    let tag = |at: usize| words[at].parse().unwrap();
    let command = match words[1] {
        "put" => Command::Put(words[2], words[3]),
        "get" => Command::Get(words[2]),
        "del" => Command::Del(words[2]),
        "first" => Command::First,
        "next" => Command::Next(words[2]),
        "count" => Command::Count,
        "link" => Command::Link(words[2], words[3]),
        "hold" => Command::Hold(tag(2), words[3]),
        "read" => Command::Read(tag(2)),
        "write" => Command::Write(tag(2), words[3]),
        "drop" => Command::Drop(tag(2)),
        "fix" => Command::Fix(words[2]),
        "loose" => Command::Loose(words[2]),
        word => panic!("the word {}", word),
    };
    (words[0].parse().unwrap(), command)
}

fn run_one(text: &str) {
    let mut records = Records::default();
    let mut out = std::io::BufWriter::new(std::io::stdout());
    for line in text.lines() {
        let (worker, command) = read_line(line);
        writeln!(out, "{}", records.step(worker, command)).unwrap();
    }
}

fn main() {
    let mode = std::env::args().nth(1).unwrap();
    let mut text = String::new();
    std::io::stdin().read_to_string(&mut text).unwrap();
    if mode == "one" {
        return run_one(&text);
    }
    run(&text, mode.parse().unwrap());
}

fn run(text: &str, workers: usize) {
    let mut shares: Vec<Vec<Command>> = (0..workers).map(|_| Vec::new()).collect();
    for line in text.lines() {
        let (worker, command) = read_line(line);
        shares[worker - 1].push(command);
    }
    let records = Mutex::new(Records::default());
    std::thread::scope(|scope| {
        for (index, share) in shares.iter().enumerate() {
            let records = &records;
            scope.spawn(move || {
                for (at, command) in share.iter().enumerate() {
                    let mut records = records.lock().unwrap();
                    let reply = records.step(index + 1, *command);
                    records.history.push((index as u32 + 1, at as u32 + 1, reply));
                }
            });
        }
    });
    let records = records.into_inner().unwrap();
    let mut out = std::io::BufWriter::new(std::io::stdout());
    writeln!(out, "=== replies").unwrap();
    for worker in 1..=workers as u32 {
        for (_, number, reply) in records.history.iter().filter(|entry| entry.0 == worker) {
            writeln!(out, "{worker} {number} {reply}").unwrap();
        }
    }
    writeln!(out, "=== history").unwrap();
    for (worker, number, _) in &records.history {
        writeln!(out, "{worker} {number}").unwrap();
    }
}
