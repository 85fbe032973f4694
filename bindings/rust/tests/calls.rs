//! Each call of a driver, its seats and its phase.

use std::iter;
use std::thread;

use likes::{Answer, Driver, End, Error, Glance, Hot, Last, LastCounts, Like, Look, Options, Outcome, Request, Seat};
use likes::{Seen, Snapshot, State, Turn, MAX_SPLIT};

/// Options of a service in which no page gets hot.
fn seats_and_users(seats: u32, users: u32) -> Options<'static> {
    Options { seats: Some(seats), hot: Hot::Never, ..Options::new(users) }
}

/// A service with all its seats.
fn open(options: &Options, counts: &[u64]) -> (Driver, Vec<Seat>) {
    let mut driver = Driver::open(options, counts).unwrap();
    let seats: Vec<_> = iter::from_fn(|| driver.take_seat()).collect();
    assert_eq!(seats.len(), options.seats.unwrap() as usize);
    (driver, seats)
}

/// Two seats, page 0 marked and page 1 not.
fn open_two() -> (Driver, Vec<Seat>) {
    open(&Options { room: Some(2), marks: &[0], ..seats_and_users(2, 4) }, &[10, 0])
}

fn change_phase(driver: &mut Driver, seats: &mut [Seat]) {
    assert_eq!(driver.turn(End::IfItServes), Turn::Announced);
    for seat in seats {
        assert_eq!(seat.turn(), State::Between);
    }
    assert_eq!(driver.turn(End::No), Turn::Released);
}

/// Turns a driver until all its seats are gone, which nobody holds any more.
fn end(driver: &mut Driver) {
    let turns = (0..100).take_while(|_| driver.turn(End::IfItServes) != Turn::Ended).count();
    assert!(turns < 100, "the service doesn't end");
}

fn seen(last: Option<u32>, count: u64) -> Seen {
    Seen { last: last.into(), count }
}

#[test]
fn two_seats_go_through_three_phases() {
    let (mut driver, mut seats) = open_two();
    assert_eq!(seats[0].like(0, 0), Ok(Like::Liked));
    assert_eq!(seats[0].look(0, 0, 1), Ok(Look::Seen(seen(Some(0), 11))));
    change_phase(&mut driver, &mut seats);
    for (seat, user) in [(0, 0), (0, 2), (1, 1)] {
        assert_eq!(seats[seat].like(user, 0), Ok(Like::Liked));
    }
    assert_eq!(seats[0].look(0, 0, 7), Ok(Look::Waits));
    assert_eq!(seats[0].glance(0, 0), Ok(Glance::Glimpsed(seen(Some(0), 13))));
    assert_eq!(seats[1].glance(3, 0), Ok(Glance::Glimpsed(seen(None, 12))));
    assert_eq!(seats[0].glance(0, 1), Ok(Glance::Seen(seen(Some(0), 0))));
    assert_eq!(seats[0].look(0, 1, 8), Ok(Look::Seen(seen(Some(0), 0))));
    assert_eq!((seats[0].phase(), seats[0].take_found()), (1, None));
    change_phase(&mut driver, &mut seats);
    assert_eq!((driver.phase(), seats[0].like(0, 1)), (2, Ok(Like::Liked)));
    let found = seats[0].take_found().unwrap();
    assert_eq!((found.tag, found.asked, found.ran, found.user, found.page), (7, 1, 2, 0, 0));
    assert_eq!((found.seen(), seats[0].take_found()), (seen(Some(0), 14), None));
}

#[test]
fn wrong_numbers_are_errors() {
    let (mut driver, mut seats) = open_two();
    for user in [4, 5, u32::MAX] {
        assert_eq!(seats[0].like(user, 0), Err(Error::UnknownUser));
        assert_eq!(seats[0].last(user), Err(Error::UnknownUser));
    }
    assert_eq!(seats[0].look(1, 0, 0), Err(Error::OtherSeat));
    assert_eq!(seats[0].glance(0, 2), Err(Error::UnknownPage));
    assert_eq!(seats[0].lasts(1, &mut [Last::NONE; 2]), Err(Error::WrongRange));
    assert_eq!(driver.snapshot(1, &mut [0; 2]), Err(Error::WrongRange));
    assert_eq!(driver.last_counts(3, &mut []), Err(Error::WrongRange));
    assert!(driver.take_seat().is_none());
}

#[test]
fn wrong_openings_are_errors() {
    let right = seats_and_users(2, 4);
    let none = Last::NONE;
    let wrong = [
        (right, &[][..], Error::WrongPages),
        (Options { marks: &[2], ..right }, &[0, 0], Error::WrongMarks),
        (Options { marks: &[1, 1], ..right }, &[0, 0], Error::WrongMarks),
        (right, &[likes::MAX_COUNT + 1], Error::WrongCount),
        (Options { seats: Some(65), ..right }, &[0], Error::WrongSeats),
        (Options { users: 0, ..right }, &[0], Error::WrongUsers),
        (Options { lasts: &[none; 3], ..right }, &[0], Error::WrongLasts),
        (Options { lasts: &[none, Last::of(1), none, none], ..right }, &[0], Error::WrongLasts),
        (Options { seats: Some(0), ..right }, &[0], Error::WrongSeats),
        (Options { room: Some(0), ..right }, &[0], Error::WrongRoom),
        (Options { hot: Hot::From(0), ..right }, &[0], Error::WrongHot),
        (Options { hot: Hot::From(likes::MAX_HOT + 1), ..right }, &[0], Error::WrongHot),
        (Options { hot: Hot::From(u32::MAX), ..right }, &[0], Error::WrongHot),
    ];
    for (options, counts, error) in wrong {
        assert_eq!(Driver::open(&options, counts).err(), Some(error), "{options:?}");
    }
}

#[test]
fn a_row_stops_at_a_look_without_room() {
    let (mut driver, mut seats) = open_two();
    change_phase(&mut driver, &mut seats);
    let looks = [5, 6, 7].map(|tag| Request::look(0, 0, tag));
    let glances = [Request::glance(2, 1), Request::glance(2, 0)];
    let row = [Request::like(2, 1), glances[0], glances[1], Request::like(2, 9), looks[0], looks[1], looks[2]];
    let mut answers = [Answer::NONE; 8];
    assert_eq!(seats[0].run(&row, &mut answers[..0]), 0);
    assert_eq!(seats[0].run(&row, &mut answers), 6);
    let outcomes = answers.map(|answer| answer.outcome());
    let right = [
        Ok(Outcome::Liked),
        Ok(Outcome::Seen(seen(Some(1), 1))),
        Ok(Outcome::Glimpsed(seen(Some(1), 10))),
        Err(Error::UnknownPage),
        Ok(Outcome::Waits),
        Ok(Outcome::Waits),
        Ok(Outcome::NoRoom),
        Ok(Outcome::NotRun),
    ];
    assert_eq!(outcomes, right);
}

#[test]
fn a_snapshot_is_of_one_moment() {
    let (mut driver, mut seats) = open_two();
    let (mut counts, mut lasts) = ([0; 2], [Last::NONE; 2]);
    assert_eq!(seats[1].like(3, 1), Ok(Like::Liked));
    assert_eq!(driver.snapshot(0, &mut counts), Ok(Snapshot::NoMoment));
    assert_eq!(driver.turn(End::Yes), Turn::Announced);
    assert_eq!((seats[0].turn(), driver.turn(End::No)), (State::Between, Turn::NotAllIn));
    assert_eq!(seats[1].turn(), State::Between);
    assert_eq!(driver.snapshot(0, &mut counts[..1]), Ok(Snapshot::Counted));
    assert_eq!(driver.snapshot(1, &mut counts[1..]), Ok(Snapshot::Counted));
    assert_eq!(seats[1].lasts(0, &mut lasts), Ok(()));
    assert_eq!((counts, lasts), ([10, 1], [Last::NONE, Last::of(1)]));
}

#[test]
fn proposed_pages_are_split() {
    let (mut driver, mut seats) = open(&seats_and_users(1, 1), &[0; 9]);
    assert_eq!(driver.turn(End::IfItServes), Turn::GoesOn);
    driver.propose(&[7, 7, 9, u32::MAX]);
    change_phase(&mut driver, &mut seats);
    assert_eq!(driver.split_pages(&mut [0; MAX_SPLIT]), [7]);
    assert_eq!(driver.split_pages(&mut []), []);
    driver.propose(&[]);
}

#[test]
fn the_phase_is_handed_out_once() {
    let (mut driver, mut seats) = open_two();
    let phase = driver.take_phase().unwrap();
    assert!(driver.take_phase().is_none());
    change_phase(&mut driver, &mut seats);
    assert_eq!(thread::spawn(move || phase.now()).join().unwrap(), 1);
}

#[test]
fn a_service_goes_on_from_another() {
    let (mut driver, mut seats) = open(&seats_and_users(2, 3), &[5, 7]);
    assert_eq!(seats[0].like(2, 1), Ok(Like::Liked));
    let mut counts = [0; 2];
    assert_eq!(driver.last_counts(0, &mut counts), Ok(LastCounts::NotEnded));
    for seat in &mut seats {
        assert_eq!(seat.retire(), State::Gone);
    }
    assert_eq!(seats[0].like(2, 1), Ok(Like::Gone));
    assert_eq!(seats[0].phase(), 0);
    end(&mut driver);
    assert_eq!(driver.last_counts(0, &mut counts), Ok(LastCounts::Counted));
    let lasts = [Last::NONE, Last::NONE, seats[0].last(2).unwrap()];
    let (_driver, mut seats) = open(&Options { lasts: &lasts, ..seats_and_users(2, 3) }, &counts);
    assert_eq!(seats[0].look(2, 1, 0), Ok(Look::Seen(seen(Some(1), 8))));
}

#[test]
fn a_seat_comes_back() {
    let (mut driver, mut seats) = open(&seats_and_users(2, 3), &[5, 7]);
    assert_eq!(seats[0].come_back(), State::Runs);
    assert_eq!(seats[0].like(2, 1), Ok(Like::Liked));
    assert_eq!(seats[0].retire(), State::Gone);
    assert_eq!(seats[0].come_back(), State::Runs);
    assert_eq!(seats[0].like(2, 1), Ok(Like::Liked));
    for seat in &mut seats {
        assert_eq!(seat.retire(), State::Gone);
    }
    let mut counts = [0; 2];
    assert_eq!(driver.last_counts(0, &mut counts), Ok(LastCounts::Counted));
    assert_eq!(counts, [5, 9]);
    assert_eq!(seats[0].come_back(), State::Between);
}

/// Drops a seat of two in some state, and sees that phases change and that its likes are counted.
fn drop_a_seat(before: impl FnOnce(&mut Driver, &mut [Seat])) {
    let (mut driver, mut seats) = open_two();
    before(&mut driver, &mut seats);
    drop(seats.pop());
    let phase = driver.phase();
    for _ in 0..8 {
        driver.turn(End::Yes);
        seats[0].turn();
    }
    assert!(driver.phase() > phase + 1, "a dropped seat holds up another");
    drop(seats);
    end(&mut driver);
    let mut counts = [0; 2];
    assert_eq!(driver.last_counts(0, &mut counts), Ok(LastCounts::Counted));
    assert_eq!(counts, [11, 1]);
}

fn like_both(seats: &mut [Seat]) {
    for page in [0, 1] {
        assert_eq!(seats[1].like(1, page), Ok(Like::Liked));
    }
}

#[test]
fn a_seat_is_dropped_in_a_joined_phase() {
    drop_a_seat(|_, seats| like_both(seats));
}

#[test]
fn a_seat_is_dropped_in_a_joined_phase_that_is_ending() {
    drop_a_seat(|driver, seats| {
        like_both(seats);
        assert_eq!(driver.turn(End::Yes), Turn::Announced);
    });
}

#[test]
fn a_seat_is_dropped_in_a_split_phase() {
    drop_a_seat(|driver, seats| {
        change_phase(driver, seats);
        like_both(seats);
    });
}

#[test]
fn a_seat_is_dropped_between_phases() {
    drop_a_seat(|driver, seats| {
        change_phase(driver, seats);
        like_both(seats);
        assert_eq!(driver.turn(End::Yes), Turn::Announced);
        assert_eq!(seats[1].turn(), State::Between);
    });
}

/// Four threads like, each with its own seat, which it drops at its end.
#[test]
fn seats_are_dropped_while_phases_change() {
    for _ in 0..20 {
        let (mut driver, seats) = open(&Options { marks: &[0], ..seats_and_users(4, 4) }, &[0, 0]);
        thread::scope(|scope| {
            for (user, mut seat) in (0..4).zip(seats) {
                scope.spawn(move || {
                    for i in 0..100 * (user + 1) {
                        while seat.like(user, i % 2) == Ok(Like::Between) {
                            thread::yield_now();
                        }
                    }
                });
            }
            while driver.turn(End::IfItServes) != Turn::Ended {
                thread::yield_now();
            }
        });
        let mut counts = [0; 2];
        assert_eq!(driver.last_counts(0, &mut counts), Ok(LastCounts::Counted));
        assert_eq!(counts, [500, 500]);
    }
}

#[test]
fn objects_go_to_other_threads() {
    fn goes<T: Send>() {}
    goes::<Driver>();
    goes::<Seat>();
}

#[test]
fn a_seat_outlives_its_driver() {
    let (mut driver, mut seats) = open_two();
    change_phase(&mut driver, &mut seats);
    drop(driver);
    assert_eq!(seats[0].like(0, 0), Ok(Like::Liked));
}
