//! Lists and maps with room for no, one or two items inline.
use crate::case::Case;
use crate::stop::{Stop, refused, value};
use crate::{Named, measured};
use std::alloc::{AllocError, Global};
use std::collections::HashMap;
use tl::inline::hashmap::InlineHashMap;
use tl::inline::vec::InlineVec;
use tl::{Bytes, NodeHandle};

// How many items or pairs have room inline.
enum Room {
    None,
    Two,
}

// What is called of a list.
enum ListCall {
    Push,
    Clone,
    ToVec,
}

// The name of a call, the room inline, the items that are held, and the call.
type ListRow = (&'static str, Room, &'static [u8], ListCall);

#[rattlefmt::skip]
static LISTS: [ListRow; 9] = [
    ("push of a first item, with no room inline", Room::None, &[], ListCall::Push),
    ("push of a fifth item, with no room inline", Room::None, &[1, 2, 3, 4], ListCall::Push),
    ("push into inline room", Room::Two, &[1], ListCall::Push),
    ("push of a third item, with room for two inline", Room::Two, &[1, 2], ListCall::Push),
    ("push of a seventh item, with room for two inline", Room::Two, &[1, 2, 3, 4, 5, 6], ListCall::Push),
    ("clone of a list inline", Room::Two, &[1, 2], ListCall::Clone),
    ("clone of a list on the heap", Room::Two, &[1, 2, 3], ListCall::Clone),
    ("to_vec of a list inline", Room::Two, &[1, 2], ListCall::ToVec),
    ("to_vec of a list on the heap", Room::Two, &[1, 2, 3], ListCall::ToVec),
];

// What is called of a map.
enum MapCall {
    Insert(u8),
    Clone,
    ToMap,
}

// The name of a call, the room inline, the pairs that are held, and the call.
type MapRow = (&'static str, Room, &'static [(u8, u8)], MapCall);

// As many pairs as there is room for on the heap when the first comes there.
const NINE: &[(u8, u8)] = &[
    (1, 9), (2, 8), (3, 7), (4, 6), (5, 5), (6, 4), (7, 3), (8, 2), (9, 1),
];

#[rattlefmt::skip]
static MAPS: [MapRow; 11] = [
    ("insert of a first pair, with no room inline", Room::None, &[], MapCall::Insert(1)),
    ("insert of a tenth pair, with no room inline", Room::None, NINE, MapCall::Insert(10)),
    ("insert into inline room", Room::Two, &[(1, 9)], MapCall::Insert(2)),
    ("insert of a third pair, with room for two inline", Room::Two, &[(1, 9), (2, 8)], MapCall::Insert(3)),
    ("insert of a tenth pair, with room for two inline", Room::Two, NINE, MapCall::Insert(10)),
    ("insert of a key that is there, inline", Room::Two, &[(1, 9), (2, 8)], MapCall::Insert(1)),
    ("insert of a key that is there, on the heap", Room::Two, &[(1, 9), (2, 8), (3, 7)], MapCall::Insert(2)),
    ("clone of a map inline", Room::Two, &[(1, 9), (2, 8)], MapCall::Clone),
    ("clone of a map on the heap", Room::Two, &[(1, 9), (2, 8), (3, 7)], MapCall::Clone),
    ("to_map of a map inline", Room::Two, &[(1, 9), (2, 8)], MapCall::ToMap),
    ("to_map of a map on the heap", Room::Two, &[(1, 9), (2, 8), (3, 7)], MapCall::ToMap),
];

// The item and the value that are put.
const NEW_VALUE: u8 = 200;

/// A call of a container, if there is one of this number.
pub fn call(number: usize, case: &mut Case) -> Option<Named> {
    if let Some(row) = LISTS.get(number) {
        let (name, _, _, _) = *row;
        return Some((name, list(row, case)));
    }
    let number = number - LISTS.len();
    match MAPS.get(number) {
        Some(row) => {
            let (name, _, _, _) = *row;
            Some((name, map(row, case)))
        }
        None => piece_call(number - MAPS.len(), case),
    }
}

fn list(row: &ListRow, case: &mut Case) -> Result<(), Stop> {
    let (_, room, _, _) = row;
    match room {
        Room::None => list_call(&mut InlineVec::<u8, 0>::new(case.alloc()), row, case),
        Room::Two => list_call(&mut InlineVec::<u8, 2>::new(case.alloc()), row, case),
    }
}

fn list_call<const N: usize>(
    list: &mut InlineVec<u8, N>,
    row: &ListRow,
    case: &mut Case,
) -> Result<(), Stop> {
    let (_, _, held, call) = row;
    for item in *held {
        list.push(*item).map_err(|_| Stop::NoMemory)?;
    }
    match call {
        ListCall::Push => push(list, held, case),
        ListCall::Clone => list_clone(list, held, case),
        ListCall::ToVec => to_vec(list, held, case),
    }
}

// A refused item comes back, and the list holds what it held, where it held it.
fn push<const N: usize>(
    list: &mut InlineVec<u8, N>,
    held: &[u8],
    case: &mut Case,
) -> Result<(), Stop> {
    let answer = measured!(case, list.push(NEW_VALUE));
    match answer {
        Ok(()) => value(list.as_slice().split_last() == Some((&NEW_VALUE, held)) && lies(list)),
        Err(back) => refused(back == NEW_VALUE && list.as_slice() == held && lies(list)),
    }
}

// Whether a list that only grew lies where its length says.
fn lies<const N: usize>(list: &InlineVec<u8, N>) -> bool {
    list.is_heap_allocated() == (list.len() > N)
}

fn list_clone<const N: usize>(
    list: &InlineVec<u8, N>,
    held: &[u8],
    case: &mut Case,
) -> Result<(), Stop> {
    let answer = measured!(case, list.clone());
    let twin = answer?;
    value(twin.as_slice() == held && lies(&twin))
}

fn to_vec<const N: usize>(
    list: &InlineVec<u8, N>,
    held: &[u8],
    case: &mut Case,
) -> Result<(), Stop> {
    let answer = measured!(case, list.to_vec(case.alloc()));
    value(answer?.as_slice() == held)
}

fn map(row: &MapRow, case: &mut Case) -> Result<(), Stop> {
    let (_, room, _, _) = row;
    match room {
        Room::None => map_call(
            &mut InlineHashMap::<u8, u8, 0>::new(case.alloc()),
            row,
            case,
        ),
        Room::Two => map_call(
            &mut InlineHashMap::<u8, u8, 2>::new(case.alloc()),
            row,
            case,
        ),
    }
}

fn map_call<const N: usize>(
    map: &mut InlineHashMap<u8, u8, N>,
    row: &MapRow,
    case: &mut Case,
) -> Result<(), Stop> {
    let (_, _, held, call) = row;
    for (key, value) in *held {
        map.insert(*key, *value).map_err(|_| Stop::NoMemory)?;
    }
    match call {
        MapCall::Insert(key) => insert(map, held, *key, case),
        MapCall::Clone => map_clone(map, held, case),
        MapCall::ToMap => to_map(map, held, case),
    }
}

// A refused pair comes back, and the map holds what it held, where it held it.
fn insert<const N: usize>(
    map: &mut InlineHashMap<u8, u8, N>,
    held: &[(u8, u8)],
    key: u8,
    case: &mut Case,
) -> Result<(), Stop> {
    let len = map.len();
    let answer = measured!(case, map.insert(key, NEW_VALUE));
    match answer {
        Ok(()) => value(is_with(map, held, key)),
        Err(back) => refused(back == (key, NEW_VALUE) && map.len() == len && holds(map, held)),
    }
}

// Whether a map that only grew holds these pairs, in order and where their number says, and maybe
// more behind them.
fn holds<const N: usize>(map: &InlineHashMap<u8, u8, N>, pairs: &[(u8, u8)]) -> bool {
    if map.len() < pairs.len() || map.is_heap_allocated() != (map.len() > N) {
        return false;
    }
    for ((key, value), wanted) in map.iter().zip(pairs) {
        if (*key, *value) != *wanted {
            return false;
        }
    }
    true
}

// Whether a map holds these pairs with the value that was put at a key: in its place, or behind the
// others.
fn is_with<const N: usize>(map: &InlineHashMap<u8, u8, N>, pairs: &[(u8, u8)], key: u8) -> bool {
    let mut place = pairs.len();
    for (i, (known, _)) in pairs.iter().enumerate() {
        if *known == key {
            place = i;
        }
    }
    for (i, (known, value)) in map.iter().enumerate() {
        let wanted = if i == place {
            (key, NEW_VALUE)
        } else {
            pair_at(pairs, i)
        };
        if (*known, *value) != wanted {
            return false;
        }
    }
    map.len() == pairs.len().max(place.saturating_add(1))
        && map.is_heap_allocated() == (map.len() > N)
}

fn pair_at(pairs: &[(u8, u8)], place: usize) -> (u8, u8) {
    match pairs.get(place) {
        Some(pair) => *pair,
        None => (0, 0),
    }
}

fn map_clone<const N: usize>(
    map: &InlineHashMap<u8, u8, N>,
    held: &[(u8, u8)],
    case: &mut Case,
) -> Result<(), Stop> {
    let answer = measured!(case, map.clone());
    let twin = answer?;
    value(twin.len() == held.len() && holds(&twin, held))
}

fn to_map<const N: usize>(
    map: &InlineHashMap<u8, u8, N>,
    held: &[(u8, u8)],
    case: &mut Case,
) -> Result<(), Stop> {
    let answer = measured!(case, map.to_map(case.alloc()));
    let table = answer?;
    for (key, value) in held {
        if table.get(key) != Some(value) {
            return Err(Stop::WrongValue);
        }
    }
    value(table.len() == held.len())
}

type Handles = InlineVec<NodeHandle, 1>;

type Names = InlineHashMap<Bytes<'static>, NodeHandle, 1>;

// Calls of lists of handles, and of maps with byte strings as keys.
fn piece_call(number: usize, case: &mut Case) -> Option<Named> {
    match number {
        0 => Some((
            "push of a second handle, with room for one inline",
            second_handle(case),
        )),
        1 => Some((
            "insert of a second name, with room for one inline",
            second_name(case),
        )),
        2 => Some(("clone of a map of owned names", names_clone(case))),
        3 => Some(("to_map of owned names", names_to_map(case))),
        _ => None,
    }
}

fn second_handle(case: &mut Case) -> Result<(), Stop> {
    let mut handles = Handles::new(case.alloc());
    let pushed = handles.push(NodeHandle::new(7)).is_ok();
    let answer = measured!(case, handles.push(NodeHandle::new(8)));
    let is_first = pushed && handles.get(0) == Some(&NodeHandle::new(7));
    match answer {
        Ok(()) => value(is_first && is_grown(&handles)),
        Err(back) => {
            let is_inline = !handles.is_heap_allocated() && handles.len() == 1;
            refused(is_first && is_inline && back.get_inner() == 8)
        }
    }
}

fn is_grown(handles: &Handles) -> bool {
    handles.is_heap_allocated() && handles.len() == 2 && handles.get(1) == Some(&NodeHandle::new(8))
}

fn owned_name(alloc: Global, name: &str) -> Result<Bytes<'static>, AllocError> {
    tl_base::bytes::copied(alloc, name.as_bytes())
}

fn one_name(alloc: Global) -> Result<Names, Stop> {
    let mut names = Names::new(alloc);
    match names.insert(owned_name(alloc, "a")?, NodeHandle::new(7)) {
        Ok(()) => Ok(names),
        Err(_) => Err(Stop::NoMemory),
    }
}

fn second_name(case: &mut Case) -> Result<(), Stop> {
    let mut names = one_name(case.alloc())?;
    let second = owned_name(case.alloc(), "b")?;
    let answer = measured!(case, names.insert(second, NodeHandle::new(8)));
    match answer {
        Ok(()) => value(are_names(&names, 2)),
        Err((name, handle)) => {
            refused(are_names(&names, 1) && name.eq_str("b") && handle.get_inner() == 8)
        }
    }
}

// Whether these are the names `a` and `b`, or `a` alone.
fn are_names(names: &Names, len: usize) -> bool {
    names.len() == len
        && names.is_heap_allocated() == (len == 2)
        && names.get(&Bytes::from("a")) == Some(&NodeHandle::new(7))
        && names.get(&Bytes::from("b")).is_some() == (len == 2)
}

fn names_clone(case: &mut Case) -> Result<(), Stop> {
    let names = one_name(case.alloc())?;
    let answer = measured!(case, names.clone());
    value(are_names(&answer?, 1))
}

fn names_to_map(case: &mut Case) -> Result<(), Stop> {
    let names = one_name(case.alloc())?;
    let answer = measured!(case, names.to_map(case.alloc()));
    value(is_table(&answer?))
}

fn is_table(table: &HashMap<Bytes<'static>, NodeHandle>) -> bool {
    table.len() == 1 && table.get(&Bytes::from("a")) == Some(&NodeHandle::new(7))
}
