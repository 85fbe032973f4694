//! A service under threads.

use std::io;
use std::panic::{catch_unwind, AssertUnwindSafe};
use std::sync::atomic::{AtomicBool, Ordering};
use std::sync::Arc;
use std::thread;
use std::time::Duration;

use likes::{Answer, Error, Hot, Last, Moment, Options, Outcome, Request, Seen, Service, Statistics, Writer};

const PERIOD: Duration = Duration::from_micros(200);
const THREADS: u32 = 4;
const EACH: u32 = 20_000;

fn options(seats: u32, users: u32, room: u32) -> Options<'static> {
    let period = Some(PERIOD);
    Options { seats: Some(seats), room: Some(room), hot: Hot::Never, period, ..Options::new(users) }
}

/// A service whose phases change, since page 0 is marked.
fn open(seats: u32, users: u32, room: u32) -> Service {
    Service::open(&Options { marks: &[0], ..options(seats, users, room) }, &[10, 0, 0]).unwrap()
}

/// Likes one by one as the thread's own users, and looks at what they liked last.
fn call_singly(service: &Service, number: u32) {
    for i in 0..EACH {
        let (user, page) = (number + THREADS * (i % 100), i % 3);
        service.like(user, page).unwrap();
        if i % 50 == 0 {
            assert_eq!(service.look(user, 0).unwrap().last, Last::of(page));
            assert_eq!(service.glance(user, 1).unwrap().seen().last, Last::of(page));
        }
    }
}

/// Makes the same likes by a writer.
fn call_by_writer(service: &Service, number: u32) {
    let mut writer = service.writer().unwrap();
    for i in 0..EACH {
        let (user, page) = (number + THREADS * (i % 100), i % 3);
        writer.like(user, page).unwrap();
        if i % 50 == 0 {
            assert_eq!(writer.look(user, 0).unwrap().last, Last::of(page));
        }
    }
    assert_eq!(writer.flush(), Ok(()));
}

/// Makes the same likes in rows, each with a look that has to be found once.
fn call_in_rows(service: &Service, number: u32) {
    let mut tags = Vec::new();
    for from in (0..EACH).step_by(50) {
        let like = |i| Request::like(number + THREADS * (i % 100), i % 3);
        let mut row: Vec<_> = (from..from + 50).map(like).collect();
        row.push(Request::look(number, 0, u64::from(from)));
        let done = service.with_seat(number, |seat| {
            let mut answers = [Answer::NONE; 51];
            let mut done = seat.run(&row, &mut answers);
            while done < row.len() {
                seat.drive();
                tags.extend(std::iter::from_fn(|| seat.take_found()).map(|found| found.tag));
                done += seat.run(&row[done..], &mut answers[done..]);
            }
            if let Ok(Outcome::Seen(_)) = answers[50].outcome() {
                tags.push(u64::from(from));
            }
            answers[..50].iter().filter(|answer| answer.outcome() == Ok(Outcome::Liked)).count()
        });
        assert_eq!(done, Ok(50));
    }
    while tags.len() < (EACH / 50) as usize {
        tags.extend(service.with_seat(number, |seat| seat.take_found().map(|found| found.tag)).unwrap());
        thread::yield_now();
    }
    tags.sort_unstable();
    assert!(tags.iter().copied().eq((0..u64::from(EACH)).step_by(50)));
}

#[test]
fn no_like_and_no_look_is_lost() {
    let service = open(THREADS, 400, 16);
    thread::scope(|scope| {
        for (number, call) in (0..).zip([call_singly, call_in_rows, call_by_writer, call_by_writer]) {
            let service = &service;
            scope.spawn(move || call(service, number));
        }
    });
    let each = u64::from(EACH / 3 * THREADS);
    let likes = [each + 10 + 4, each + 4, each];
    assert_eq!(service.counts().unwrap(), likes);
    assert!(service.phase() > 2);
    let statistics = service.statistics();
    assert_eq!((statistics.likes, statistics.late), (u64::from(EACH * THREADS), 0));
    assert!(statistics.phases > 2 && statistics.wait_time >= statistics.longest_wait);
    let ended = service.stop().unwrap();
    assert_eq!(ended.counts, likes);
    let (phases, now) = (ended.statistics.phases, ended.statistics);
    assert!(phases >= statistics.phases);
    assert_eq!(Statistics { phases, ..statistics }, now);
    let last = |user: u32| (0..EACH).rev().find(|i| i % 100 == user / THREADS).map(|i| i % 3);
    assert!((0..400).map(last).eq(ended.lasts.iter().map(|last| last.page())));
}

/// Each user likes page 1 and then page 2. So in one moment, page 1 has as many more likes than page 2 as there are
/// users who liked it last: counts and last likes that were asked one after the other would differ.
#[test]
fn a_snapshot_is_of_one_moment() {
    let service = open(2, 8, 16);
    let is_one = |moment: &Moment| {
        let ahead = moment.lasts.iter().filter(|last| **last == Last::of(1)).count() as u64;
        moment.counts[1] == moment.counts[2] + ahead
    };
    let is_over = AtomicBool::new(false);
    thread::scope(|scope| {
        for number in 0..4 {
            let (service, is_over) = (&service, &is_over);
            scope.spawn(move || {
                for i in (0..4).cycle().take_while(|_| !is_over.load(Ordering::Relaxed)) {
                    service.like(number * 2 + i / 2 % 2, 1 + i % 2).unwrap();
                }
            });
        }
        let snapshots = (0..1000).map(|_| {
            thread::sleep(PERIOD);
            service.snapshot().unwrap()
        });
        let wrong = snapshots.filter(|moment| !is_one(moment)).count();
        is_over.store(true, Ordering::Relaxed);
        assert_eq!(wrong, 0);
    });
    let moment = service.snapshot().unwrap();
    assert!(is_one(&moment));
    let ended = service.stop().unwrap();
    assert_eq!((ended.counts, ended.lasts), (moment.counts, moment.lasts));
}

#[test]
fn many_looks_wait_at_a_seat_with_little_room() {
    let service = open(1, 8, 2);
    thread::scope(|scope| {
        for user in 0..8 {
            let service = &service;
            scope.spawn(move || {
                for i in 0..200 {
                    service.like(user, i % 3).unwrap();
                    assert_eq!(service.look(user, 0).unwrap().last, Last::of(i % 3));
                }
            });
        }
    });
}

#[test]
fn a_look_has_a_deadline() {
    let period = Some(Duration::from_secs(100));
    let service = Service::open(&Options { marks: &[0], period, ..options(1, 2, 64) }, &[0, 0]).unwrap();
    while service.phase() % 2 == 0 {
        service.like(0, 1).unwrap();
    }
    assert_eq!(service.look_within(0, 0, Duration::from_millis(1)), Ok(None));
    assert!(service.look_within(0, 1, Duration::ZERO).unwrap().is_some());
    assert_eq!(service.look_within(2, 0, Duration::MAX), Err(Error::UnknownUser));
    assert_eq!(service.statistics().late, 1);
}

#[test]
fn a_thread_that_holds_a_seat_never_waits_for_itself() {
    let service = open(2, 4, 4);
    let held = service.with_seat(0, |_| {
        for user in 0..2 {
            assert_eq!(service.like(user, 0), Err(Error::HoldsSeat));
            assert_eq!(service.look(user, 0), Err(Error::HoldsSeat));
            assert_eq!(service.glance(user, 0), Err(Error::HoldsSeat));
            assert_eq!(service.last(user), Err(Error::HoldsSeat));
        }
        assert_eq!(service.like(4, 3), Err(Error::HoldsSeat));
        assert_eq!(service.counts(), Err(Error::HoldsSeat));
        assert_eq!(service.snapshot(), Err(Error::HoldsSeat));
        assert_eq!(service.propose(&[1]), Err(Error::HoldsSeat));
        assert_eq!(service.retire_seat(1), Err(Error::HoldsSeat));
        service.tick();
        assert!(service.writer().is_ok() && service.statistics().likes == 0);
        service.with_seat(1, |_| ())
    });
    assert_eq!(held, Ok(Err(Error::HoldsSeat)));
    let mut answers = [Answer::NONE];
    let done = service.with_seat(0, |seat| seat.run(&[Request::look(0, 0, 1 << 63)], &mut answers));
    assert_eq!((done, answers[0].outcome()), (Ok(1), Err(Error::WrongTag)));
    let done = service.with_seat(0, |seat| seat.run(&[Request::look(0, 1, 1)], &mut answers));
    assert_eq!((done, service.statistics().looks), (Ok(1), 0));
}

/// A look through a writer shows each like of its page that the writer was told, by whichever user.
#[test]
fn a_writer_shows_what_it_was_told() {
    let period = Some(Duration::from_secs(100));
    let service = Service::open(&Options { period, ..options(4, 8, 4) }, &[0, 0]).unwrap();
    let mut writer = service.writer().unwrap();
    for user in 0..8 {
        writer.like(user, 1).unwrap();
        assert_eq!(writer.look((user + 3) % 8, 1).unwrap().count, u64::from(user) + 1);
    }
    service.retire_seat(2).unwrap();
    writer.like(2, 1).unwrap();
    assert_eq!(writer.look(0, 1), Err(Error::Gone));
    assert_eq!(writer.look(0, 0), Ok(Seen { last: Last::of(1), count: 0 }));
    assert_eq!(writer.forget_likes(), 1);
}

#[test]
fn a_writer_keeps_likes_of_a_seat_that_has_left() {
    let service = open(2, 4, 4);
    let mut writer = service.writer().unwrap();
    service.retire_seat(1).unwrap();
    assert_eq!([(1, 0), (1, 3), (5, 0)].map(|(user, page)| service.like(user, page)), [Err(Error::Gone); 3]);
    assert_eq!(writer.like(1, 3), Err(Error::UnknownPage));
    writer.like(1, 0).unwrap();
    writer.like(2, 0).unwrap();
    assert_eq!(writer.flush(), Err(Error::Gone));
    let (mut writer, error) = writer.close().unwrap_err();
    assert_eq!((error, service.counts().unwrap()[0]), (Error::Gone, 11));
    service.bring_back_seat(1).unwrap();
    writer.flush().unwrap();
    assert_eq!(service.counts().unwrap()[0], 12);
    writer.like(3, 1).unwrap();
    assert_eq!(writer.forget_likes(), 1);
    assert_eq!((writer.like(4, 0), writer.like(0, 3)), (Err(Error::UnknownUser), Err(Error::UnknownPage)));
    drop(writer);
    assert_eq!(service.stop().unwrap().counts, [12, 0, 0]);
}

#[test]
fn a_close_may_be_asked() {
    fn like(service: &Service) -> Result<(), Error> {
        let mut writer = service.writer()?;
        writer.like(1, 0)?;
        writer.close()?;
        Ok(())
    }
    let service = open(2, 4, 4);
    assert_eq!(like(&service), Ok(()));
    assert_eq!(format!("{:?}", service.look(1, 0)), "Ok(Seen { last: Some(0), count: 11 })");
    assert_eq!(format!("{:?}", service.last(0)), "Ok(None)");
    service.retire_seat(1).unwrap();
    assert_eq!(like(&service), Err(Error::Gone));
    assert_eq!(service.stop().unwrap().counts, [11, 0, 0]);
}

/// A writer goes to another thread, and is flushed where it is dropped.
#[test]
fn a_writer_is_send() {
    fn goes<T: Send>() {}
    fn is_shared<T: Send + Sync>() {}
    goes::<Writer>();
    is_shared::<Service>();
    let service = open(2, 4, 4);
    let mut writer = service.writer().unwrap();
    thread::scope(|scope| {
        scope.spawn(move || writer.like(3, 2).unwrap());
    });
    assert_eq!(service.look(3, 2), Ok(Seen { last: Last::of(2), count: 1 }));
}

#[test]
fn a_leaked_writer_harms_nobody() {
    let service = open(2, 4, 4);
    std::mem::forget(service.writer().unwrap());
    assert_eq!(service.stop(), Err(Error::OpenWriter));
}

#[test]
fn threads_of_their_own_share_a_service() {
    let service = Arc::new(open(2, 4, 4));
    let threads = (0..4).map(|user| {
        let service = Arc::clone(&service);
        thread::spawn(move || service.writer()?.like(user, 1))
    });
    for thread in threads.collect::<Vec<_>>() {
        assert_eq!(thread.join().unwrap(), Ok(()));
    }
    assert_eq!(Arc::into_inner(service).unwrap().stop().unwrap().counts, [10, 4, 0]);
}

#[test]
fn a_service_goes_on_from_another() {
    let service = open(2, 3, 4);
    service.like(2, 1).unwrap();
    assert_eq!((service.last(2), service.last(0)), (Ok(Last::of(1)), Ok(Last::NONE)));
    assert_eq!(service.lasts().unwrap()[2], Last::of(1));
    let ended = service.stop().unwrap();
    assert_eq!((&ended.counts[..], &ended.lasts[..]), (&[10, 1, 0][..], &[Last::NONE, Last::NONE, Last::of(1)][..]));
    let options = Options { lasts: &ended.lasts, ..options(2, 3, 4) };
    let service = Service::open(&options, &ended.counts).unwrap();
    assert_eq!(service.look(2, 1), Ok(Seen { last: Last::of(1), count: 1 }));
}

#[test]
fn proposed_pages_are_split() {
    let service = Service::open(&options(2, 2, 4), &[0; 4]).unwrap();
    assert_eq!(service.split_pages(), []);
    for page in [3, 1] {
        service.propose(&[page]).unwrap();
        while service.split_pages() != [page] {
            service.like(0, 0).unwrap();
            thread::sleep(PERIOD);
        }
    }
}

/// What isn't given has the library's defaults: a page that many like is found, and split.
#[test]
fn a_popular_page_gets_hot_by_default() {
    let service = Service::open(&Options::new(100), &[0; 100]).unwrap();
    assert!(service.seats() >= 16 && service.seat_of(65) < service.seats());
    while service.split_pages() != [7] {
        for user in 0..100 {
            service.like(user, 7).unwrap();
        }
    }
}

#[test]
fn wrong_numbers_are_errors() {
    let refused = |options: Options| Service::open(&options, &[0]).err();
    let right = options(2, 2, 4);
    assert_eq!(refused(Options { period: Some(Duration::ZERO), ..right }), Some(Error::WrongPeriod));
    assert_eq!(refused(Options { period: Some(Duration::from_secs(1001)), ..right }), Some(Error::WrongPeriod));
    assert_eq!(refused(Options { period: Some(Duration::ZERO), users: 0, ..right }), Some(Error::WrongPeriod));
    assert_eq!(refused(Options { seats: Some(0), ..right }), Some(Error::WrongSeats));
    assert_eq!(refused(Options { users: 0, ..right }), Some(Error::WrongUsers));
    assert_eq!(Service::open(&right, &[]).err(), Some(Error::WrongPages));
    let service = open(2, 3, 4);
    assert_eq!(service.like(3, 0), Err(Error::UnknownUser));
    assert_eq!(service.look(0, 3), Err(Error::UnknownPage));
    assert_eq!(service.glance(u32::MAX, 0), Err(Error::UnknownUser));
    assert_eq!(service.last(3), Err(Error::UnknownUser));
    assert_eq!(service.with_seat(2, |_| ()), Err(Error::UnknownSeat));
    assert_eq!(service.bring_back_seat(2), Err(Error::UnknownSeat));
}

#[test]
fn a_panic_of_a_closure_harms_nobody() {
    let service = open(2, 2, 4);
    let thrown = catch_unwind(AssertUnwindSafe(|| service.with_seat(0, |_| panic!("as it should"))));
    assert!(thrown.is_err());
    service.like(0, 0).unwrap();
    service.look(0, 0).unwrap();
    assert_eq!(service.stop().unwrap().counts, [11, 0, 0]);
}

/// A service that goes on from a file, also with more users and pages.
#[test]
fn a_file_has_a_moment() {
    let path = std::env::temp_dir().join(format!("likes-{}.saved", std::process::id()));
    let first = open(2, 8, 16);
    first.like(3, 2).unwrap();
    first.save(&path).unwrap();
    let moment = first.snapshot().unwrap();
    let options = |users| Options { seats: Some(3), ..Options::new(users) };
    let same = Service::load(&path, &options(0), 0).unwrap();
    assert_eq!(same.snapshot(), Ok(moment.clone()));
    let grown = Service::load(&path, &options(9), moment.counts.len() + 1).unwrap().stop().unwrap();
    assert_eq!((grown.counts.len(), grown.lasts.len()), (moment.counts.len() + 1, 9));
    assert_eq!((&grown.counts[..moment.counts.len()], &grown.lasts[..8]), (&moment.counts[..], &moment.lasts[..]));
    assert!(matches!(Service::load(&path, &options(2), 0), Err(Error::WrongLength)));
    std::fs::write(&path, "another file, of more bytes than a file of a service begins with").unwrap();
    assert!(matches!(Service::load(&path, &options(0), 0), Err(Error::NotSaved)));
    std::fs::remove_file(&path).unwrap();
    assert!(matches!(Service::load(&path, &options(0), 0), Err(Error::FileFault)));
    assert_eq!(io::Error::last_os_error().kind(), io::ErrorKind::NotFound);
    assert!(matches!(Service::load("a\0b", &options(0), 0), Err(Error::FileFault)));
    assert_eq!(io::Error::last_os_error().kind(), io::ErrorKind::InvalidInput);
}
