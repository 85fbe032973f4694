//! The crate against the headers of the library that it is linked with.

use likes::{status, Error, MAX_COUNT, MAX_HOT, MAX_MARKS, MAX_PAGES, MAX_PERIOD, MAX_ROOM, MAX_SEATS, MAX_SPLIT};

fn header(name: &str) -> String {
    std::fs::read_to_string(format!("{}/{name}", env!("LIKES_INCLUDE"))).unwrap()
}

/// The statuses of an enum with their numbers, as in `LIKES_GONE = 8`.
fn statuses<'a>(header: &'a str, name: &str) -> Vec<(&'a str, u32)> {
    let from = header.find(&format!("enum {name} {{")).unwrap();
    let list = &header[from..from + header[from..].find("};").unwrap()];
    let lines = list.lines().filter_map(|line| line.trim().strip_prefix("LIKES_")?.split_once(" = "));
    lines.map(|(name, rest)| (name, rest.split([',', ' ']).next().unwrap().trim().parse().unwrap())).collect()
}

#[test]
fn each_status_has_its_number_and_text() {
    let (core, service) = (header("likes.h"), header("likes_service.h"));
    let mut told = statuses(&core, "likes_status");
    told.extend(statuses(&service, "likes_service_status"));
    assert_eq!(told.len(), 57);
    for (name, number) in told {
        assert!(include_str!("../src/status.rs").contains(&format!("    {name} = {number};\n")), "{name}");
        assert_ne!(status::text(number), "unknown status", "{name}");
    }
    assert_eq!(status::text(status::WRONG_ROOM), "room is 1 to 4096");
    assert_eq!(status::text(21), "unknown status");
    assert_eq!(status::text(120), "unknown status");
}

#[test]
fn the_crate_has_the_version_of_the_header() {
    let version = env!("CARGO_PKG_VERSION").split('.').collect::<Vec<_>>();
    let (abi, minor): (u32, u32) = (version[0].parse().unwrap(), version[1].parse().unwrap());
    assert!(header("likes.h").contains(&format!("#define LIKES_VERSION {}\n", 1000 * abi + minor)));
}

#[test]
fn errors_have_the_numbers_of_statuses() {
    assert_eq!(Error::NoMemory as u32, status::NO_MEMORY);
    assert_eq!(Error::WrongLasts as u32, status::WRONG_LASTS);
    assert_eq!(Error::WrongLasts.to_string(), status::text(status::WRONG_LASTS));
}

#[test]
fn limits_are_those_of_the_header() {
    let header = header("likes.h");
    let limits = [
        format!("LIKES_MAX_SEATS {MAX_SEATS}u"),
        format!("LIKES_MAX_PAGES {MAX_PAGES}u"),
        format!("LIKES_MAX_MARKS {MAX_MARKS}u"),
        format!("LIKES_MAX_SPLIT {MAX_SPLIT}u"),
        format!("LIKES_MAX_ROOM {MAX_ROOM}u"),
        format!("LIKES_MAX_HOT {MAX_HOT}u"),
        format!("LIKES_MAX_PERIOD_US {}u", MAX_PERIOD.as_micros()),
        format!("LIKES_MAX_COUNT UINT64_C({MAX_COUNT})"),
    ];
    for limit in limits {
        assert!(header.contains(&format!("#define {limit}")), "{limit}");
    }
}
