//! The service as a plain Rust program, to measure `likes` against: a thread for each request file, which reads the
//! file and runs its requests, and then the report that `likes` prints of a run in phase 0. None of it is proved.
//!
//! usage: peer atomics|mutex USERS PAGES REQUESTS...
//!   atomics   an atomic number for each page's count
//!   mutex     one lock around the counts of all pages
//!
//! It reads files as bench/workload writes them: a file with a double quote or a carriage return is refused.

use std::collections::HashMap;
use std::io::{self, BufWriter, Write};
use std::process::ExitCode;
use std::sync::atomic::{AtomicU64, Ordering};
use std::sync::Mutex;
use std::{env, fs, thread};

/// The pages' counts, as threads share them.
trait Counts: Sync {
    fn new(initial: &[u64]) -> Self;
    fn add_one(&self, page: usize);
    fn read(&self, page: usize) -> u64;
}

impl Counts for Vec<AtomicU64> {
    fn new(initial: &[u64]) -> Self {
        initial.iter().copied().map(AtomicU64::new).collect()
    }

    fn add_one(&self, page: usize) {
        self[page].fetch_add(1, Ordering::Relaxed);
    }

    fn read(&self, page: usize) -> u64 {
        self[page].load(Ordering::Relaxed)
    }
}

impl Counts for Mutex<Vec<u64>> {
    fn new(initial: &[u64]) -> Self {
        Mutex::new(initial.to_vec())
    }

    fn add_one(&self, page: usize) {
        self.lock().unwrap()[page] += 1;
    }

    fn read(&self, page: usize) -> u64 {
        self.lock().unwrap()[page]
    }
}

/// What the pages file says.
struct Pages {
    names: Vec<String>,
    initial: Vec<u64>,
    by_name: HashMap<Vec<u8>, u32>,
}

enum Answer {
    Liked,
    Seen { last: Option<u32>, count: u64 },
    UnknownUser,
    OtherHome,
    UnknownPage,
}

/// Where a submitter stands among the others.
struct Place {
    submitter: u64,
    submitters: u64,
    users: u64,
}

/// What a submitter's thread leaves: its answers, and the last likes of its users, that of user
/// `submitter + i * submitters` at place `i`.
struct Done {
    answers: Vec<Answer>,
    last: Vec<Option<u32>>,
}

/// The three fields of each record behind the header, with the record's row.
fn records<'a>(
    file: &'a str,
    text: &'a [u8],
    header: &str,
) -> Result<impl Iterator<Item = Result<(usize, [&'a [u8]; 3]), String>>, String> {
    let mut lines = text
        .split(|byte| *byte == b'\n')
        .filter(|line| !line.is_empty());
    if lines.next() != Some(header.as_bytes()) {
        return Err(format!("{file}: the header is not {header}"));
    }
    Ok(lines.enumerate().map(move |(place, line)| {
        let row = place + 1;
        if line.iter().any(|byte| matches!(byte, b'"' | b'\r')) {
            return Err(format!(
                "{file}: row {row}: no quotes or carriage returns are read here"
            ));
        }
        let mut fields = line.split(|byte| *byte == b',');
        match (fields.next(), fields.next(), fields.next(), fields.next()) {
            (Some(first), Some(second), Some(third), None) => Ok((row, [first, second, third])),
            _ => Err(format!("{file}: row {row}: not three fields")),
        }
    }))
}

/// The number that 1 to `digits` digits write.
fn decimal(text: &[u8], digits: usize) -> Option<u64> {
    if text.is_empty() || text.len() > digits {
        return None;
    }
    text.iter().try_fold(0, |value, byte| {
        byte.is_ascii_digit()
            .then(|| 10 * value + u64::from(byte - b'0'))
    })
}

fn read_file(file: &str) -> Result<Vec<u8>, String> {
    fs::read(file).map_err(|error| format!("{file}: {error}"))
}

fn read_pages(file: &str) -> Result<Pages, String> {
    let text = read_file(file)?;
    let mut pages = Pages {
        names: Vec::new(),
        initial: Vec::new(),
        by_name: HashMap::new(),
    };
    for record in records(file, &text, "name,count,split")? {
        let (row, [name, count, _]) = record?;
        let bad = |what: &str| format!("{file}: row {row}: {what}");
        let number = pages.names.len() as u32;
        if pages.by_name.insert(name.to_vec(), number).is_some() {
            return Err(bad("page name appears twice"));
        }
        let name = String::from_utf8(name.to_vec()).map_err(|_| bad("page name is not UTF-8"))?;
        pages.names.push(name);
        pages
            .initial
            .push(decimal(count, 19).ok_or_else(|| bad("count is not a whole number"))?);
    }
    Ok(pages)
}

/// Reads a submitter's file, and runs each request as it is read.
fn serve<C: Counts>(file: &str, place: &Place, pages: &Pages, counts: &C) -> Result<Done, String> {
    let text = read_file(file)?;
    let own = (place.users + place.submitters - 1 - place.submitter) / place.submitters;
    let mut last = vec![None; own as usize];
    let mut answers = Vec::new();
    for record in records(file, &text, "op,user,page")? {
        let (row, [op, user, page]) = record?;
        let is_like = match op {
            b"like" => true,
            b"look" => false,
            _ => return Err(format!("{file}: row {row}: op is not like or look")),
        };
        let user = decimal(user, 10)
            .ok_or_else(|| format!("{file}: row {row}: user is not a whole number"))?;
        let page = pages.by_name.get(page).copied();
        answers.push(answer(is_like, user, page, place, &mut last, counts));
    }
    Ok(Done { answers, last })
}

/// Runs a request.
fn answer<C: Counts>(
    is_like: bool,
    user: u64,
    page: Option<u32>,
    place: &Place,
    last: &mut [Option<u32>],
    counts: &C,
) -> Answer {
    if user >= place.users {
        return Answer::UnknownUser;
    }
    if user % place.submitters != place.submitter {
        return Answer::OtherHome;
    }
    let Some(page) = page else {
        return Answer::UnknownPage;
    };
    let last = &mut last[(user / place.submitters) as usize];
    if is_like {
        *last = Some(page);
        counts.add_one(page as usize);
        return Answer::Liked;
    }
    Answer::Seen {
        last: *last,
        count: counts.read(page as usize),
    }
}

/// Runs all request files, each on a thread of its own.
fn serve_all<C: Counts>(
    users: u64,
    pages: &Pages,
    files: &[String],
    counts: &C,
) -> Result<Vec<Done>, String> {
    thread::scope(|scope| {
        let threads: Vec<_> = files
            .iter()
            .enumerate()
            .map(|(submitter, file)| {
                let place = Place {
                    submitter: submitter as u64,
                    submitters: files.len() as u64,
                    users,
                };
                scope.spawn(move || serve(file, &place, pages, counts))
            })
            .collect();
        threads
            .into_iter()
            .map(|thread| thread.join().unwrap())
            .collect()
    })
}

fn write_report<C: Counts>(users: u64, pages: &Pages, done: &[Done], counts: &C) -> io::Result<()> {
    let mut out = BufWriter::with_capacity(1 << 16, io::stdout().lock());
    let name_of = |page: Option<u32>| page.map_or("", |page| &pages.names[page as usize]);
    writeln!(out, "row,id,number,phase,answer,page,count")?;
    for (submitter, done) in done.iter().enumerate() {
        for (place, answer) in done.answers.iter().enumerate() {
            let number = place + 1;
            write!(out, "reply,{submitter},{number},0,")?;
            match answer {
                Answer::Liked => writeln!(out, "liked,,")?,
                Answer::Seen { last, count } => writeln!(out, "seen,{},{count}", name_of(*last))?,
                Answer::UnknownUser => writeln!(out, "unknown-user,,")?,
                Answer::OtherHome => writeln!(out, "other-home,,")?,
                Answer::UnknownPage => writeln!(out, "unknown-page,,")?,
            }
        }
    }
    for (page, name) in pages.names.iter().enumerate() {
        writeln!(out, "page,{page},,,,{name},{}", counts.read(page))?;
    }
    for user in 0..users as usize {
        let page = done[user % done.len()].last[user / done.len()];
        if page.is_some() {
            writeln!(out, "user,{user},,,,{},", name_of(page))?;
        }
    }
    out.flush()
}

fn run<C: Counts>(users: u64, pages: &str, requests: &[String]) -> Result<(), String> {
    let pages = read_pages(pages)?;
    let counts = C::new(&pages.initial);
    let done = serve_all(users, &pages, requests, &counts)?;
    write_report(users, &pages, &done, &counts).map_err(|error| format!("standard output: {error}"))
}

fn main() -> ExitCode {
    let words: Vec<String> = env::args().skip(1).collect();
    let [form, users, pages, requests @ ..] = words.as_slice() else {
        return usage();
    };
    let Some(users) = decimal(users.as_bytes(), 10).filter(|_| !requests.is_empty()) else {
        return usage();
    };
    let done = match form.as_str() {
        "atomics" => run::<Vec<AtomicU64>>(users, pages, requests),
        "mutex" => run::<Mutex<Vec<u64>>>(users, pages, requests),
        _ => return usage(),
    };
    match done {
        Ok(()) => ExitCode::SUCCESS,
        Err(fault) => {
            eprintln!("peer: {fault}");
            ExitCode::from(3)
        }
    }
}

fn usage() -> ExitCode {
    eprintln!("usage: peer atomics|mutex USERS PAGES REQUESTS...");
    ExitCode::from(2)
}
