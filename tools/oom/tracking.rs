//! The maps from ids and classes.
use crate::case::Case;
use crate::stop::{Stop, refused, value};
use crate::{Named, measured};
use tl::{Bytes, ParserOptions};
use tl_tracking::TrackingOf;

type Tracking = TrackingOf<Bytes<'static>>;

// What is noted, for the tag of a number.
type Note = (&'static str, u32);

// The name of a call, what was noted before, what is noted, the number of the id, and the numbers
// of the member, then.
type IdRow = (&'static str, &'static [Note], Note, u32);

type ClassRow = (&'static str, &'static [Note], Note, &'static [u32]);

#[rattlefmt::skip]
static IDS: [IdRow; 4] = [
    ("note_id of a first id", &[], ("a", 0), 0),
    ("note_id of a second id", &[("a", 0)], ("b", 1), 1),
    ("note_id of a fifth id", &[("a", 0), ("b", 1), ("c", 2), ("d", 3)], ("e", 4), 4),
    ("note_id of an id that is there", &[("a", 0)], ("a", 1), 0),
];

#[rattlefmt::skip]
static CLASSES: [ClassRow; 6] = [
    ("note_class of a first tag", &[], ("k", 0), &[0]),
    ("note_class of a second tag", &[("k", 0)], ("k", 1), &[0, 1]),
    ("note_class of a third tag", &[("k", 0), ("k", 1)], ("k", 2), &[0, 1, 2]),
    ("note_class of a fourth tag", &[("k", 0), ("k", 1), ("k", 2)], ("k", 3), &[0, 1, 2, 3]),
    ("note_class of the last tag again", &[("k", 0), ("k", 1)], ("k", 1), &[0, 1]),
    ("note_class of a second member", &[("k", 0)], ("l", 0), &[0]),
];

/// A note, if there is one of this number.
pub fn call(number: usize, case: &mut Case) -> Option<Named> {
    match IDS.get(number) {
        Some(row) => {
            let (name, _, _, _) = *row;
            Some((name, note_id(row, case)))
        }
        None => of_class(number - IDS.len(), case),
    }
}

fn of_class(number: usize, case: &mut Case) -> Option<Named> {
    match CLASSES.get(number) {
        Some(row) => {
            let (name, _, _, _) = *row;
            Some((name, note_class(row, case)))
        }
        None => many(number - CLASSES.len(), case),
    }
}

fn both(case: &Case) -> Tracking {
    Tracking::new(
        case.alloc(),
        ParserOptions::new().track_ids().track_classes(),
    )
}

fn note_id(row: &IdRow, case: &mut Case) -> Result<(), Stop> {
    let (_, notes, (last_name, last_tag), wanted) = *row;
    let mut tracking = both(case);
    for (id, tag) in notes {
        tracking.note_id(Bytes::from(*id), *tag)?;
    }
    note_last_id(&mut tracking, last_name, last_tag, wanted, case)
}

// A refused note leaves the maps as they were.
fn note_last_id(
    tracking: &mut Tracking,
    name: &'static str,
    number: u32,
    wanted: u32,
    case: &mut Case,
) -> Result<(), Stop> {
    let id = Bytes::from(name);
    let before = tracking.id(&id);
    let answer = measured!(case, tracking.note_id(Bytes::from(name), number));
    match answer {
        Ok(()) => value(tracking.id(&id) == Some(wanted)),
        Err(_) => refused(tracking.id(&id) == before),
    }
}

fn note_class(row: &ClassRow, case: &mut Case) -> Result<(), Stop> {
    let (_, notes, (last_name, last_tag), wanted) = *row;
    let mut tracking = both(case);
    for (member, tag) in notes {
        tracking.note_class(Bytes::from(*member), *tag)?;
    }
    note_last_class(&mut tracking, last_name, last_tag, wanted, case)
}

fn note_last_class(
    tracking: &mut Tracking,
    member: &'static str,
    number: u32,
    wanted: &[u32],
    case: &mut Case,
) -> Result<(), Stop> {
    let before = numbers(tracking, member).len();
    let answer = measured!(case, tracking.note_class(Bytes::from(member), number));
    let after = numbers(tracking, member);
    match answer {
        Ok(()) => value(after == wanted),
        Err(_) => refused(after.len() == before && wanted.starts_with(after)),
    }
}

// The tags under a member.
fn numbers<'t>(tracking: &'t Tracking, member: &'static str) -> &'t [u32] {
    match tracking.class(&Bytes::from(member)) {
        Some(numbers) => numbers,
        None => &[],
    }
}

// Names of one letter, which are noted in order, for the tags 0, 1 and so on.
const NAMES: &str = "abcdefghijklmnopqrstuvwxyzABCDEFGHIJKLMNOPQRSTUVWXYZ0123456789";

// The name of a call, and how many names were noted before the next one.
type ManyRow = (&'static str, u32);

#[rattlefmt::skip]
static MANY_IDS: [ManyRow; 3] = [
    ("note_id of a 15th id", 14),
    ("note_id of a 29th id", 28),
    ("note_id of a 33rd id", 32),
];

#[rattlefmt::skip]
static MANY_CLASSES: [ManyRow; 3] = [
    ("note_class of a 15th member", 14),
    ("note_class of a 29th member", 28),
    ("note_class of a 33rd member", 32),
];

fn many(number: usize, case: &mut Case) -> Option<Named> {
    if let Some(row) = MANY_IDS.get(number) {
        let (name, count) = *row;
        return Some((name, note_many_ids(count, case)));
    }
    let (name, count) = *MANY_CLASSES.get(number - MANY_IDS.len())?;
    Some((name, note_many_members(count, case)))
}

fn name(place: u32) -> &'static str {
    let place = place as usize;
    NAMES.get(place..place + 1).unwrap_or("")
}

fn note_many_ids(count: u32, case: &mut Case) -> Result<(), Stop> {
    let mut tracking = both(case);
    for place in 0..count {
        tracking.note_id(Bytes::from(name(place)), place)?;
    }
    let answer = note_last_id(&mut tracking, name(count), count, count, case);
    are_kept(answer, are_ids(&tracking, count))
}

// Whether the ids that were noted before are there.
fn are_ids(tracking: &Tracking, count: u32) -> bool {
    for place in 0..count {
        if tracking.id(&Bytes::from(name(place))) != Some(place) {
            return false;
        }
    }
    true
}

fn note_many_members(count: u32, case: &mut Case) -> Result<(), Stop> {
    let mut tracking = both(case);
    for place in 0..count {
        tracking.note_class(Bytes::from(name(place)), place)?;
    }
    let answer = note_last_class(&mut tracking, name(count), count, &[count], case);
    are_kept(answer, are_members(&tracking, count))
}

fn are_members(tracking: &Tracking, count: u32) -> bool {
    for place in 0..count {
        if numbers(tracking, name(place)) != [place].as_slice() {
            return false;
        }
    }
    true
}

// What stands beside what was noted is looked at where the rest is right.
fn are_kept(answer: Result<(), Stop>, is_rest_there: bool) -> Result<(), Stop> {
    match answer {
        Ok(()) => value(is_rest_there),
        Err(Stop::NoMemory) => refused(is_rest_there),
        Err(stop) => Err(stop),
    }
}
