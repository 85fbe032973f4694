//! Makes the calls that README.md draws, by the crate likes, and prints what each answers.

use std::fmt::Display;
use std::io::{self, BufWriter, Write};
use std::time::Duration;

use likes::{Answer, Driver, End, Ended, Error, Glance, Hot, Last, LastCounts, Look, Moment, Op, Options, Outcome};
use likes::{Phase, Request, Seat, Seen, Snapshot, Statistics, Turn, MAX_COUNT, MAX_HOT, MAX_ROOM};

const SERVICES: u32 = 300;
const CALLS: u32 = 400;
const SHARED: u32 = 100;
const SHARED_CALLS: u32 = 100;

/// Numbers, always the same.
struct Draws(u64);

impl Draws {
    fn next(&mut self) -> u64 {
        self.0 = self.0.wrapping_mul(6364136223846793005).wrapping_add(1442695040888963407);
        self.0
    }

    fn draw(&mut self, below: u32) -> u32 {
        let drawn = (self.next() >> 33) as u32;
        drawn.checked_rem(below).unwrap_or(0)
    }

    fn rarely(&mut self) -> bool {
        self.draw(32) == 0
    }

    fn page(&mut self, pages: u32) -> u32 {
        if self.rarely() {
            pages + self.draw(3)
        } else {
            self.draw(pages)
        }
    }
}

fn last_text(last: Last) -> String {
    last.page().map_or("-".into(), |page| page.to_string())
}

fn outcome_text(outcome: Outcome) -> String {
    match outcome {
        Outcome::Seen(Seen { last, count }) | Outcome::Glimpsed(Seen { last, count }) => {
            format!("{outcome} {} {count}", last_text(last))
        }
        _ => outcome.to_string(),
    }
}

/// What a call answers, or its error.
fn text<T>(answer: Result<T, Error>, words: impl FnOnce(T) -> String) -> String {
    answer.map_or_else(|error| error.to_string(), words)
}

/// A status with what was written.
fn listed<T: Display>(status: impl Display, numbers: impl IntoIterator<Item = T>) -> String {
    numbers.into_iter().fold(status.to_string(), |all, number| format!("{all} {number}"))
}

/// What a service is opened with.
struct Opening {
    counts: Vec<u64>,
    numbers: [u32; 3],
    hot: Hot,
    marks: Vec<u32>,
    lasts: Vec<Last>,
}

impl Opening {
    fn draw(draws: &mut Draws) -> Self {
        let pages = if draws.rarely() { 0 } else { 1 + draws.draw(6) };
        let mut counts: Vec<_> = (0..pages).map(|_| u64::from(draws.draw(100))).collect();
        if draws.rarely() && pages > 0 {
            counts[0] = MAX_COUNT + 1;
        }
        let seats = if draws.rarely() { 65 + draws.draw(2) } else { 1 + draws.draw(3) };
        let users = if draws.rarely() { 0 } else { 1 + draws.draw(12) };
        let room = if draws.rarely() { MAX_ROOM + 1 } else { 1 + draws.draw(3) };
        let hot =
            if draws.rarely() { Hot::From(MAX_HOT + 1) } else { [Hot::Never, Hot::Usual][draws.draw(2) as usize] };
        let marks = (0..draws.draw(3)).map(|_| draws.page(pages)).collect();
        let length = if draws.draw(3) == 0 { 0 } else { users + u32::from(draws.rarely()) };
        let last = |_| if draws.draw(2) == 0 { Last::NONE } else { Last::of(draws.page(pages)) };
        let lasts = (0..length).map(last).collect();
        Self { counts, numbers: [seats, users, room], hot, marks, lasts }
    }

    fn open(&self) -> Result<Driver, Error> {
        let [seats, users, room] = self.numbers;
        let (seats, room, marks, lasts) = (Some(seats), Some(room), &self.marks[..], &self.lasts[..]);
        Driver::open(&Options { seats, room, hot: self.hot, marks, lasts, ..Options::new(users) }, &self.counts)
    }
}

/// A service with its seats.
struct Service<'a> {
    draws: &'a mut Draws,
    out: &'a mut dyn Write,
    users: u32,
    pages: u32,
    driver: Driver,
    seats: Vec<Seat>,
    phase: Phase,
}

impl<'a> Service<'a> {
    fn start(draws: &'a mut Draws, out: &'a mut dyn Write, opening: &Opening, mut driver: Driver) -> io::Result<Self> {
        let mut seats = Vec::new();
        for _ in 0..=opening.numbers[0] {
            let seat = driver.take_seat();
            writeln!(out, "seat {}", if seat.is_some() { "ok" } else { "all taken" })?;
            seats.extend(seat);
        }
        let phase = driver.take_phase().expect("the phase");
        writeln!(out, "phase ok")?;
        writeln!(out, "phase {}", if driver.take_phase().is_some() { "ok" } else { "all taken" })?;
        let (users, pages) = (opening.numbers[1], opening.counts.len() as u32);
        Ok(Self { draws, out, users, pages, driver, seats, phase })
    }

    fn user(&mut self, number: usize) -> u32 {
        if self.draws.rarely() {
            return if self.draws.draw(2) == 0 { self.users + self.draws.draw(3) } else { u32::MAX };
        }
        let user = self.draws.draw(self.users);
        if self.draws.draw(8) == 0 {
            user
        } else {
            user - user % self.seats.len() as u32 + number as u32
        }
    }

    fn page(&mut self) -> u32 {
        self.draws.page(self.pages)
    }

    fn like_or_look(&mut self, number: usize, kind: u32) -> String {
        let (user, page) = (self.user(number), self.page());
        let seat = &mut self.seats[number];
        match kind {
            0..=5 => format!("like {}", text(seat.like(user, page), |like| like.to_string())),
            6..=7 => {
                let look = seat.look(user, page, self.draws.next());
                format!("look {}", text(look, |look: Look| outcome_text(look.into())))
            }
            _ => {
                let glance = |glance: Glance| outcome_text(glance.into());
                format!("glance {}", text(seat.glance(user, page), glance))
            }
        }
    }

    fn row(&mut self, number: usize) -> String {
        let length = self.draws.draw(5);
        let mut row = Vec::new();
        for tag in 0..length {
            let op = [Op::Like, Op::Look, Op::Glance][self.draws.draw(3) as usize];
            let user = self.user(number);
            row.push(Request::new(op, user, self.page(), u64::from(tag)));
        }
        let mut answers = vec![Answer::NONE; row.len()];
        let done = self.seats[number].run(&row, &mut answers);
        let answered = answers.iter().take(done + 1).map(|answer| text(answer.outcome(), outcome_text));
        format!("run {}", answered.collect::<Vec<_>>().join(", ")).trim_end().to_owned()
    }

    fn found(&mut self, number: usize) -> String {
        let Some(found) = self.seats[number].take_found() else { return "none".into() };
        let numbers = [found.tag, found.count, found.asked, found.ran, found.user.into(), found.page.into()];
        format!("{} {}", listed("found", numbers), last_text(found.last))
    }

    fn lasts(&mut self, number: usize, from: u32, length: u32) -> String {
        let mut lasts = vec![Last::NONE; length as usize];
        let told = self.seats[number].lasts(from, &mut lasts);
        format!("lasts {}", text(told, |()| listed("ok", lasts.into_iter().map(last_text))))
    }

    fn some_lasts(&mut self, number: usize, is_one: bool) -> String {
        if is_one {
            let user = self.user(number);
            format!("lasts {}", text(self.seats[number].last(user), |last| format!("ok {}", last_text(last))))
        } else {
            let (from, length) = (self.draws.draw(5), self.draws.draw(5));
            self.lasts(number, from, length)
        }
    }

    fn snapshot(&mut self, from: u32, length: u32) -> String {
        let mut counts = vec![0; length as usize];
        let told = self.driver.snapshot(from, &mut counts);
        let shown = |told| listed(told, counts.iter().filter(|_| told == Snapshot::Counted));
        format!("snapshot {}", text(told, shown))
    }

    fn last_counts(&mut self, from: u32, length: u32) -> String {
        let mut counts = vec![0; length as usize];
        let told = self.driver.last_counts(from, &mut counts);
        let shown = |told| listed(told, counts.iter().filter(|_| told == LastCounts::Counted));
        format!("counts {}", text(told, shown))
    }

    /// One of the calls that come less often.
    fn other(&mut self, number: usize) -> String {
        match self.draws.draw(7) {
            0 => {
                let pages: Vec<_> = (0..self.draws.draw(3)).map(|_| self.page()).collect();
                self.driver.propose(&pages);
                "propose ok".into()
            }
            1 => {
                let mut pages = vec![0; self.draws.draw(4) as usize];
                listed("split", self.driver.split_pages(&mut pages))
            }
            2 => format!("phase {}", self.seats[number].phase()),
            3 => format!("phase {}", self.driver.phase()),
            4 => format!("phase {}", self.phase.now()),
            5 if self.draws.draw(4) == 0 => format!("retire {}", self.seats[number].retire()),
            5 => String::new(),
            _ => format!("come back {}", self.seats[number].come_back()),
        }
    }

    fn call(&mut self) -> io::Result<()> {
        let number = self.draws.draw(self.seats.len() as u32) as usize;
        let line = match self.draws.draw(20) {
            kind @ 0..=8 => self.like_or_look(number, kind),
            9 => self.row(number),
            10 => self.found(number),
            kind @ 11..=12 => self.some_lasts(number, kind == 11),
            13..=14 => format!("turn {}", self.seats[number].turn()),
            15..=16 => {
                let end = [End::No, End::IfItServes, End::Yes][self.draws.draw(3) as usize];
                format!("driver {}", self.driver.turn(end))
            }
            kind @ 17..=18 => {
                let (from, length) = (self.draws.draw(self.pages + 1), self.draws.draw(self.pages + 1));
                if kind == 17 {
                    self.snapshot(from, length)
                } else {
                    self.last_counts(from, length)
                }
            }
            _ => self.other(number),
        };
        writeln!(self.out, "{line}")
    }

    fn end(mut self) -> io::Result<()> {
        let mut turn = Turn::GoesOn;
        while turn != Turn::Ended {
            for seat in &mut self.seats {
                writeln!(self.out, "retire {}", seat.retire())?;
            }
            turn = self.driver.turn(End::IfItServes);
            writeln!(self.out, "driver {turn}")?;
        }
        let counts = self.last_counts(0, self.pages);
        writeln!(self.out, "{counts}")?;
        let seats = self.seats.len() as u32;
        for number in 0..seats {
            let lasts = self.lasts(number as usize, 0, (self.users + seats - 1 - number) / seats);
            writeln!(self.out, "{lasts}")?;
        }
        Ok(())
    }
}

/// Words behind a name, each behind a space.
fn words<T: Display>(words: impl IntoIterator<Item = T>) -> String {
    listed("", words)
}

/// What a call of a shared service answers, or why it is refused.
fn told<T>(answer: Result<T, Error>, shown: impl FnOnce(T) -> String) -> String {
    answer.map_or_else(|error| format!(" {error}"), shown)
}

/// The same of a call that only does something.
fn done(answer: Result<(), Error>) -> String {
    told(answer, |()| " ok".into())
}

fn moment_text(moment: Moment) -> String {
    words(moment.counts) + &words(moment.lasts.into_iter().map(last_text))
}

fn statistics_text(told: Statistics) -> String {
    format!("statistics {} {}", told.likes, told.looks)
}

/// A service that threads share.
struct Shared<'a> {
    draws: &'a mut Draws,
    out: &'a mut dyn Write,
    users: u32,
    pages: u32,
    service: &'a likes::Service,
}

impl Shared<'_> {
    fn user(&mut self) -> u32 {
        if self.draws.rarely() {
            return if self.draws.draw(2) == 0 { self.users + self.draws.draw(3) } else { u32::MAX };
        }
        self.draws.draw(self.users)
    }

    fn user_and_page(&mut self) -> (u32, u32) {
        (self.user(), self.draws.page(self.pages))
    }

    fn like_or_look(&mut self, kind: u32) -> String {
        let (user, page) = self.user_and_page();
        let shown = |seen: Seen| format!(" {} {}", last_text(seen.last), seen.count);
        match kind {
            0..=3 => format!("like{}", done(self.service.like(user, page))),
            4 => format!("look{}", told(self.service.look(user, page), shown)),
            5 => {
                let seen = self.service.look_within(user, page, Duration::from_secs(10));
                format!("within{}", told(seen, |seen| shown(seen.expect("a look in time"))))
            }
            _ => {
                let shown = self.service.glance(user, page);
                format!("glance{}", told(shown, |shown| words([last_text(shown.seen().last)])))
            }
        }
    }

    fn write(&mut self) -> io::Result<String> {
        let mut writer = self.service.writer().expect("a writer");
        for _ in 0..self.draws.draw(100) {
            let (user, page) = self.user_and_page();
            if let Err(error) = writer.like(user, page) {
                writeln!(self.out, "kept {error}")?;
            }
        }
        let (user, page) = self.user_and_page();
        writeln!(self.out, "shown{}", told(writer.look(user, page), |seen| words([last_text(seen.last)])))?;
        writeln!(self.out, "flush{}", done(writer.flush()))?;
        // No service can be stopped here while it has a writer: the compiler refuses that.
        writeln!(self.out, "stop {}", Error::OpenWriter)?;
        Ok(format!("close{}", done(writer.close().map_err(|(_, error)| error))))
    }

    fn propose(&mut self) -> String {
        let pages: Vec<_> = (0..self.draws.draw(3)).map(|_| self.draws.page(self.pages)).collect();
        format!("propose{}", done(self.service.propose(&pages)))
    }

    fn row(&mut self) -> String {
        let number = self.draws.draw(self.service.seats());
        let mut row = Vec::new();
        for _ in 0..self.draws.draw(5) {
            let op = if self.draws.draw(2) == 0 { Op::Like } else { Op::Glance };
            let (user, page) = self.user_and_page();
            row.push(Request::new(op, user, page, 0));
        }
        let mut answers = vec![Answer::NONE; row.len()];
        let ran = self.service.with_seat(number, |seat| seat.run(&row, &mut answers));
        assert_eq!(ran, Ok(row.len()));
        let line = |answer: &Answer| match answer.outcome() {
            Ok(Outcome::Liked) => "row ok".into(),
            Ok(Outcome::Seen(seen) | Outcome::Glimpsed(seen)) => format!("row {}", last_text(seen.last)),
            other => format!("row {}", text(other, outcome_text)),
        };
        answers.iter().map(line).collect::<Vec<_>>().join("\n")
    }

    fn leave(&mut self) -> String {
        let number = self.draws.draw(self.service.seats() + 1);
        let retired = done(self.service.retire_seat(number));
        let liked = done(self.service.like(0, 0));
        format!("retire{retired}\nlike{liked}\nback{}", done(self.service.bring_back_seat(number)))
    }

    fn call(&mut self) -> io::Result<()> {
        let lasts_text = |lasts: Vec<Last>| words(lasts.into_iter().map(last_text));
        let lines = match self.draws.draw(16) {
            kind @ 0..=6 => self.like_or_look(kind),
            7 => {
                let user = self.user();
                format!("last{}", told(self.service.last(user), |last| words([last_text(last)])))
            }
            8 => format!("lasts{}", told(self.service.lasts(), lasts_text)),
            9 => format!("counts{}", told(self.service.counts(), words)),
            10 => format!("snapshot{}", told(self.service.snapshot(), moment_text)),
            11 => self.write()?,
            12 => self.propose(),
            13 => self.row(),
            14 => self.leave(),
            _ => statistics_text(self.service.statistics()),
        };
        if lines.is_empty() {
            return Ok(());
        }
        writeln!(self.out, "{lines}")
    }
}

fn open_and_call_shared(draws: &mut Draws, out: &mut dyn Write) -> io::Result<()> {
    let counts: Vec<_> = (0..1 + draws.draw(6)).map(|_| u64::from(draws.draw(100))).collect();
    let (seats, users) = (Some(1 + draws.draw(3)), 1 + draws.draw(12));
    let marks = &[0][..draws.draw(2) as usize];
    let period = Some(Duration::from_micros(200));
    let options = Options { seats, hot: Hot::Never, period, marks, ..Options::new(users) };
    let service = likes::Service::open(&options, &counts).expect("a service");
    writeln!(out, "share ok")?;
    let pages = counts.len() as u32;
    for _ in 0..SHARED_CALLS {
        Shared { draws, out, users, pages, service: &service }.call()?;
    }
    let Ended { counts, lasts, statistics } = service.stop().expect("an end");
    writeln!(out, "stop{}", moment_text(Moment { counts, lasts }))?;
    writeln!(out, "{}", statistics_text(statistics))
}

fn main() -> io::Result<()> {
    let mut draws = Draws(1);
    let mut out = BufWriter::new(io::stdout().lock());
    for _ in 0..SERVICES {
        let opening = Opening::draw(&mut draws);
        let opened = opening.open();
        writeln!(out, "open {}", text(opened.as_ref().map_err(|error| *error), |_| "ok".into()))?;
        let Ok(driver) = opened else { continue };
        let mut service = Service::start(&mut draws, &mut out, &opening, driver)?;
        for _ in 0..CALLS {
            service.call()?;
        }
        service.end()?;
    }
    for _ in 0..SHARED {
        open_and_call_shared(&mut draws, &mut out)?;
    }
    out.flush()
}
