//! Maps of many pairs, and containers that something was taken out of.
use crate::case::Case;
use crate::stop::{Stop, refused, value};
use crate::{Named, measured};
use std::alloc::Global;
use tl::inline::hashmap::InlineHashMap;
use tl::inline::vec::InlineVec;

const ROOM: usize = 2;

type Map = InlineHashMap<u16, u16, ROOM>;

type List = InlineVec<u16, ROOM>;

// What was done with a container after it was filled with keys or items, which are 0, 1 and so on.
#[derive(Clone, Copy)]
enum Past {
    Filled,
    // The first was taken out.
    Taken,
    // The first was taken out, and then another put.
    Swapped,
}

// What is called of a map.
enum MapCall {
    Insert(u16),
    Clone,
    ToMap,
}

// The name of a call, with how many pairs the map was filled, what was done then, and the call.
type MapRow = (&'static str, u16, Past, MapCall);

#[rattlefmt::skip]
static MAPS: [MapRow; 24] = [
    ("insert of a 10th pair", 9, Past::Filled, MapCall::Insert(9)),
    ("insert of a 19th pair", 18, Past::Filled, MapCall::Insert(18)),
    ("insert of a 37th pair", 36, Past::Filled, MapCall::Insert(36)),
    ("insert of a 71st pair", 70, Past::Filled, MapCall::Insert(70)),
    ("insert of a 1025th pair", 1024, Past::Filled, MapCall::Insert(1024)),
    ("insert of a 1026th pair", 1025, Past::Filled, MapCall::Insert(1025)),
    ("insert of a key that is there, of 20 pairs", 20, Past::Filled, MapCall::Insert(19)),
    ("insert of a key that is there, of 70 pairs", 70, Past::Filled, MapCall::Insert(69)),
    ("insert of a key that is there, of 1024 pairs", 1024, Past::Filled, MapCall::Insert(1023)),
    ("insert of a key that is there, of 1025 pairs", 1025, Past::Filled, MapCall::Insert(1024)),
    ("clone of a map of 20 pairs", 20, Past::Filled, MapCall::Clone),
    ("clone of a map of 70 pairs", 70, Past::Filled, MapCall::Clone),
    ("clone of a map of 1025 pairs", 1025, Past::Filled, MapCall::Clone),
    ("to_map of a map of 20 pairs", 20, Past::Filled, MapCall::ToMap),
    ("to_map of a map of 70 pairs", 70, Past::Filled, MapCall::ToMap),
    ("to_map of a map of 1025 pairs", 1025, Past::Filled, MapCall::ToMap),
    ("insert after a remove, inline", 2, Past::Taken, MapCall::Insert(9)),
    ("insert after a remove, on the heap", 3, Past::Taken, MapCall::Insert(9)),
    ("insert after a remove, of 70 pairs", 70, Past::Taken, MapCall::Insert(99)),
    ("insert after a remove, of 1025 pairs", 1025, Past::Taken, MapCall::Insert(1999)),
    ("second insert after a remove, inline", 2, Past::Swapped, MapCall::Insert(9)),
    ("second insert after a remove, on the heap", 9, Past::Swapped, MapCall::Insert(9)),
    ("second insert after a remove, of 36 pairs", 36, Past::Swapped, MapCall::Insert(99)),
    ("clone after a remove, of 70 pairs", 70, Past::Swapped, MapCall::Clone),
];

// The name of a call, with how many items the list was filled, and what was done then: an item is
// pushed.
type ListRow = (&'static str, u16, Past);

#[rattlefmt::skip]
static LISTS: [ListRow; 4] = [
    ("push after a remove, inline", 2, Past::Taken),
    ("push after a remove, on the heap", 3, Past::Taken),
    ("second push after a remove, inline", 2, Past::Swapped),
    ("second push after a remove, on the heap", 6, Past::Swapped),
];

// What is put in the place of what was taken out, and what is put by the call.
const OTHER: u16 = 2000;

const NEW_VALUE: u16 = 3000;

/// A call on a container with a past, if there is one of this number.
pub fn call(number: usize, case: &mut Case) -> Option<Named> {
    if let Some(row) = MAPS.get(number) {
        let (name, _, _, _) = *row;
        return Some((name, map_call(row, case)));
    }
    let row = LISTS.get(number - MAPS.len())?;
    let (name, _, _) = *row;
    Some((name, list_call(row, case)))
}

// How many pairs or items there are.
fn len(filled: u16, past: Past) -> u16 {
    match past {
        Past::Filled | Past::Swapped => filled,
        Past::Taken => filled.saturating_sub(1),
    }
}

fn map_call(row: &MapRow, case: &mut Case) -> Result<(), Stop> {
    let (_, _, _, call) = row;
    let map = &mut made_map(row, case.alloc())?;
    match call {
        MapCall::Insert(key) => insert(map, row, *key, case),
        MapCall::Clone => clone(map, row, case),
        MapCall::ToMap => to_map(map, row, case),
    }
}

fn made_map(row: &MapRow, alloc: Global) -> Result<Map, Stop> {
    let (_, filled, past, _) = *row;
    let mut map = Map::new(alloc);
    for key in 0..filled {
        insert_key(&mut map, key)?;
    }
    match past {
        Past::Filled => {}
        Past::Taken => {
            map.remove(&0);
        }
        Past::Swapped => {
            map.remove(&0);
            insert_key(&mut map, OTHER)?;
        }
    }
    Ok(map)
}

fn insert_key(map: &mut Map, key: u16) -> Result<(), Stop> {
    map.insert(key, value_of(key)).map_err(|_| Stop::NoMemory)
}

fn value_of(key: u16) -> u16 {
    65535 - key
}

// The key at a place: the last has the place of what was taken out.
fn key_at(row: &MapRow, place: u16) -> u16 {
    let (_, filled, past, _) = *row;
    let last = filled.saturating_sub(1);
    match past {
        Past::Filled => place,
        Past::Taken | Past::Swapped if place == 0 => last,
        Past::Swapped if place == last => OTHER,
        Past::Taken | Past::Swapped => place,
    }
}

// Whether a map lies on the heap if more pairs than there is room inline were ever in it.
fn lies(map: &Map, row: &MapRow) -> bool {
    let (_, filled, _, _) = *row;
    map.is_heap_allocated() == (filled as usize > ROOM || map.len() > ROOM)
}

// Whether a map holds the pairs of a row in order, and maybe more behind them; at one key, if it is
// there, what was put.
fn holds(map: &Map, row: &MapRow, changed: Option<u16>) -> bool {
    let (_, filled, past, _) = *row;
    let len = len(filled, past);
    if map.len() < len as usize || !lies(map, row) {
        return false;
    }
    for ((key, value), place) in map.iter().zip(0..len) {
        let wanted_key = key_at(row, place);
        let wanted = if changed == Some(wanted_key) {
            NEW_VALUE
        } else {
            value_of(wanted_key)
        };
        if (*key, *value) != (wanted_key, wanted) {
            return false;
        }
    }
    true
}

// Whether a map holds the pairs of a row and no others.
fn is_as_made(map: &Map, row: &MapRow) -> bool {
    let (_, filled, past, _) = *row;
    map.len() == len(filled, past) as usize && holds(map, row, None)
}

// A refused pair comes back, and the map holds what it held.
fn insert(map: &mut Map, row: &MapRow, key: u16, case: &mut Case) -> Result<(), Stop> {
    let (_, filled, past, _) = *row;
    let is_known = map.get(&key).is_some();
    let answer = measured!(case, map.insert(key, NEW_VALUE));
    let grown = if is_known { 0 } else { 1 };
    match answer {
        Ok(()) => value(
            map.len() == len(filled, past) as usize + grown
                && holds(map, row, Some(key))
                && map.get(&key) == Some(&NEW_VALUE),
        ),
        Err(back) => refused(back == (key, NEW_VALUE) && is_as_made(map, row)),
    }
}

fn clone(map: &Map, row: &MapRow, case: &mut Case) -> Result<(), Stop> {
    let answer = measured!(case, map.clone());
    value(is_as_made(&answer?, row))
}

fn to_map(map: &Map, row: &MapRow, case: &mut Case) -> Result<(), Stop> {
    let answer = measured!(case, map.to_map(case.alloc()));
    let table = answer?;
    for (key, value) in map.iter() {
        if table.get(key) != Some(value) {
            return Err(Stop::WrongValue);
        }
    }
    value(table.len() == map.len() && is_as_made(map, row))
}

// A refused item comes back, and the list holds what it held.
fn list_call(row: &ListRow, case: &mut Case) -> Result<(), Stop> {
    let (_, filled, past) = *row;
    let mut list = made_list(row, case.alloc())?;
    let answer = measured!(case, list.push(NEW_VALUE));
    let len = len(filled, past) as usize;
    match answer {
        Ok(()) => value(
            list.len() == len + 1
                && are_left(&list, row)
                && list.as_slice().last() == Some(&NEW_VALUE),
        ),
        Err(back) => refused(back == NEW_VALUE && list.len() == len && are_left(&list, row)),
    }
}

fn made_list(row: &ListRow, alloc: Global) -> Result<List, Stop> {
    let (_, filled, past) = *row;
    let mut list = List::new(alloc);
    for item in 0..filled {
        list.push(item).map_err(|_| Stop::NoMemory)?;
    }
    if !list.is_empty() {
        list.remove(0);
    }
    if let Past::Swapped = past {
        list.push(OTHER).map_err(|_| Stop::NoMemory)?;
    }
    Ok(list)
}

// Whether a list begins as it was made, and lies on the heap if more items than there is room
// inline were ever in it.
fn are_left(list: &List, row: &ListRow) -> bool {
    let (_, filled, past) = *row;
    for (item, wanted) in list.iter().zip(1..filled) {
        if *item != wanted {
            return false;
        }
    }
    let other = match past {
        Past::Swapped => Some(&OTHER),
        Past::Filled | Past::Taken => None,
    };
    let is_other = other.is_none() || list.get(filled.saturating_sub(1) as usize) == other;
    is_other && list.is_heap_allocated() == (filled as usize > ROOM || list.len() > ROOM)
}
