//! Byte strings.
use crate::case::Case;
use crate::stop::{Stop, refused, value};
use crate::{Named, measured};
use std::alloc::{AllocError, Global};
use tl::bytes::{Bytes, IntoOwnedBytes};
use tl::errors::SetBytesError;
use tl_base::bytes::{Shared, copied};

/// A call of a byte string, if there is one of this number.
pub fn call(number: usize, case: &mut Case) -> Option<Named> {
    match number {
        0 => Some(("copied", copies(case))),
        1..=3 => Some(clones(number, case)),
        4 => Some(("as_utf8_str of broken text", lossy(case))),
        5 => Some(("as_utf8_str of UTF-8", plain(case))),
        6..=9 => Some(conversions(number, case)),
        10..=14 => Some(sets(number, case)),
        15..=19 => Some(unchecked_sets(number, case)),
        20 => Some(("Shared::new", buffers(case))),
        21 => Some(("Shared::slice", slices(case))),
        22..=24 => Some(moves(number, case)),
        _ => None,
    }
}

fn copies(case: &mut Case) -> Result<(), Stop> {
    let answer = measured!(case, copied(case.alloc(), b"hello"));
    value(answer?.eq_str("hello"))
}

fn clones(number: usize, case: &mut Case) -> Named {
    match number {
        1 => ("clone of borrowed bytes", clone_borrowed(case)),
        2 => ("clone of owned bytes", clone_owned(case)),
        _ => ("clone of shared bytes", clone_shared(case)),
    }
}

fn clone_borrowed(case: &mut Case) -> Result<(), Stop> {
    clone(&Bytes::from("page"), case)
}

fn clone_owned(case: &mut Case) -> Result<(), Stop> {
    clone(&copied(case.alloc(), b"page")?, case)
}

fn clone_shared(case: &mut Case) -> Result<(), Stop> {
    clone(&share(case.alloc())?, case)
}

fn clone(bytes: &Bytes<'static>, case: &mut Case) -> Result<(), Stop> {
    let answer = measured!(case, bytes.clone() => Result<Bytes<'static>, AllocError>);
    let twin = answer?;
    value(twin.eq_str("page") && is_borrowed(&twin) == is_borrowed(bytes))
}

fn is_borrowed(bytes: &Bytes<'_>) -> bool {
    bytes.as_bytes_borrowed().is_some()
}

// The text `page`, as a share.
fn share(alloc: Global) -> Result<Bytes<'static>, Stop> {
    let buffer = Shared::new(alloc, String::from_str(alloc, "a page")?)?;
    part(alloc, &buffer)
}

fn part(alloc: Global, buffer: &Shared) -> Result<Bytes<'static>, Stop> {
    if buffer.as_str().len() != 6 {
        return Err(Stop::WrongValue);
    }
    Ok(buffer.slice(alloc, 2, 6)?)
}

fn lossy(case: &mut Case) -> Result<(), Stop> {
    let broken: &[u8] = b"a\xff";
    text(&Bytes::from(broken), case, "a\u{fffd}")
}

fn plain(case: &mut Case) -> Result<(), Stop> {
    text(&Bytes::from("a\u{e9}"), case, "a\u{e9}")
}

fn text(bytes: &Bytes<'_>, case: &mut Case, wanted: &str) -> Result<(), Stop> {
    let answer = measured!(case, bytes.as_utf8_str(case.alloc()));
    value(answer?.as_str() == wanted)
}

fn conversions(number: usize, case: &mut Case) -> Named {
    match number {
        6 => ("into_bytes of a text", into_of_text(case)),
        7 => ("into_bytes of a slice", into_of_slice(case)),
        8 => ("into_bytes of a String", into_of_string(case)),
        _ => ("into_bytes of a vector", into_of_vector(case)),
    }
}

fn into_of_text(case: &mut Case) -> Result<(), Stop> {
    let answer = measured!(case, "page".into_bytes(case.alloc()));
    is_page(answer)
}

fn into_of_slice(case: &mut Case) -> Result<(), Stop> {
    let slice: &[u8] = b"page";
    let answer = measured!(case, slice.into_bytes(case.alloc()));
    is_page(answer)
}

fn into_of_string(case: &mut Case) -> Result<(), Stop> {
    let text = String::from_str(case.alloc(), "page")?;
    let answer = measured!(case, IntoOwnedBytes::into_bytes(text, case.alloc()));
    is_page(answer)
}

fn into_of_vector(case: &mut Case) -> Result<(), Stop> {
    let page: &[u8] = b"page";
    let vector = page.to_vec(case.alloc())?;
    let answer = measured!(case, IntoOwnedBytes::into_bytes(vector, case.alloc()));
    is_page(answer)
}

fn is_page(answer: Result<Vec<u8>, AllocError>) -> Result<(), Stop> {
    value(answer?.as_slice() == b"page".as_slice())
}

fn sets(number: usize, case: &mut Case) -> Named {
    match number {
        10 => ("set over borrowed bytes", set_borrowed(case)),
        11 => ("set over owned bytes", set_owned(case)),
        12 => ("set over shared bytes", set_shared(case)),
        13 => ("set of a slice", set_of_slice(case)),
        _ => ("set of a String", set_of_string(case)),
    }
}

fn set_borrowed(case: &mut Case) -> Result<(), Stop> {
    set(Bytes::from("page"), case, None)
}

fn set_owned(case: &mut Case) -> Result<(), Stop> {
    set(copied(case.alloc(), b"page")?, case, Some("page"))
}

fn set_shared(case: &mut Case) -> Result<(), Stop> {
    set(share(case.alloc())?, case, None)
}

// The old bytes come back where they were owned.
fn set(mut bytes: Bytes<'static>, case: &mut Case, old: Option<&str>) -> Result<(), Stop> {
    let was_borrowed = is_borrowed(&bytes);
    let answer = measured!(case, bytes.set(case.alloc(), "new"));
    is_set(answer, &mut bytes, was_borrowed, old, case)
}

fn set_of_slice(case: &mut Case) -> Result<(), Stop> {
    let mut bytes = Bytes::from("page");
    let slice: &[u8] = b"new";
    let answer = measured!(case, bytes.set(case.alloc(), slice));
    is_set(answer, &mut bytes, true, None, case)
}

fn set_of_string(case: &mut Case) -> Result<(), Stop> {
    let mut bytes = Bytes::from("page");
    let text = String::from_str(case.alloc(), "new")?;
    let answer = measured!(case, bytes.set(case.alloc(), text));
    is_set(answer, &mut bytes, true, None, case)
}

// A refused call leaves the bytes as they were, and held as they were: a call after it gives the
// old ones back where they are owned.
fn is_set(
    answer: Result<Option<Vec<u8>>, SetBytesError>,
    bytes: &mut Bytes<'static>,
    was_borrowed: bool,
    old: Option<&str>,
    case: &Case,
) -> Result<(), Stop> {
    match answer {
        Ok(back) => value(bytes.eq_str("new") && !is_borrowed(bytes) && is_old(&back, old)),
        Err(SetBytesError::LengthOverflow) => Err(Stop::WrongError),
        Err(SetBytesError::OutOfMemory) => {
            let is_kept = bytes.eq_str("page") && is_borrowed(bytes) == was_borrowed;
            refused(is_kept && gives_back(bytes, old, case.alloc()))
        }
    }
}

fn gives_back(bytes: &mut Bytes<'static>, old: Option<&str>, alloc: Global) -> bool {
    match bytes.set(alloc, "new") {
        Ok(back) => is_old(&back, old),
        Err(_) => false,
    }
}

fn is_old(back: &Option<Vec<u8>>, old: Option<&str>) -> bool {
    match (back, old) {
        (Some(back), Some(old)) => back.as_slice() == old.as_bytes(),
        (None, None) => true,
        _ => false,
    }
}

fn unchecked_sets(number: usize, case: &mut Case) -> Named {
    match number {
        15 => ("set_unchecked over borrowed bytes", reset_borrowed(case)),
        16 => ("set_unchecked over owned bytes", reset_owned(case)),
        17 => ("set_unchecked over shared bytes", reset_shared(case)),
        18 => ("set_unchecked of a slice", reset_of_slice(case)),
        _ => ("set_unchecked of a String", reset_of_string(case)),
    }
}

fn reset_borrowed(case: &mut Case) -> Result<(), Stop> {
    reset(Bytes::from("page"), case, None)
}

fn reset_owned(case: &mut Case) -> Result<(), Stop> {
    reset(copied(case.alloc(), b"page")?, case, Some("page"))
}

fn reset_shared(case: &mut Case) -> Result<(), Stop> {
    reset(share(case.alloc())?, case, None)
}

fn reset(mut bytes: Bytes<'static>, case: &mut Case, old: Option<&str>) -> Result<(), Stop> {
    let was_borrowed = is_borrowed(&bytes);
    let answer = measured!(case, bytes.set_unchecked(case.alloc(), "new"));
    is_set(of_set(answer), &mut bytes, was_borrowed, old, case)
}

fn reset_of_slice(case: &mut Case) -> Result<(), Stop> {
    let mut bytes = Bytes::from("page");
    let slice: &[u8] = b"new";
    let answer = measured!(case, bytes.set_unchecked(case.alloc(), slice));
    is_set(of_set(answer), &mut bytes, true, None, case)
}

fn reset_of_string(case: &mut Case) -> Result<(), Stop> {
    let mut bytes = Bytes::from("page");
    let text = String::from_str(case.alloc(), "new")?;
    if text.len() > 3 {
        return Err(Stop::WrongValue);
    }
    let answer = measured!(case, bytes.set_unchecked(case.alloc(), text));
    is_set(of_set(answer), &mut bytes, true, None, case)
}

fn of_set(answer: Result<Option<Vec<u8>>, AllocError>) -> Result<Option<Vec<u8>>, SetBytesError> {
    answer.map_err(|_| SetBytesError::OutOfMemory)
}

fn buffers(case: &mut Case) -> Result<(), Stop> {
    let text = String::from_str(case.alloc(), "a page")?;
    let answer = measured!(case, Shared::new(case.alloc(), text));
    value(answer?.as_str() == "a page")
}

fn slices(case: &mut Case) -> Result<(), Stop> {
    let buffer = Shared::new(case.alloc(), String::from_str(case.alloc(), "a page")?)?;
    if buffer.as_str().len() != 6 {
        return Err(Stop::WrongValue);
    }
    let answer = measured!(case, buffer.slice(case.alloc(), 2, 6));
    value(answer?.eq_str("page"))
}

// Vectors and boxed slices, which are moved.
fn moves(number: usize, case: &mut Case) -> Named {
    match number {
        22 => ("into_bytes of a boxed slice", into_of_boxed(case)),
        23 => ("set of a vector", set_of_vector(case)),
        _ => ("set of a boxed slice", set_of_boxed(case)),
    }
}

fn into_of_boxed(case: &mut Case) -> Result<(), Stop> {
    let boxed = b"page".to_vec(case.alloc())?.into_boxed_slice();
    let answer = measured!(case, boxed.into_bytes(case.alloc()));
    is_page(answer)
}

fn set_of_vector(case: &mut Case) -> Result<(), Stop> {
    let mut bytes = Bytes::from("page");
    let vector = b"new".to_vec(case.alloc())?;
    let answer = measured!(case, bytes.set(case.alloc(), vector));
    is_set(answer, &mut bytes, true, None, case)
}

fn set_of_boxed(case: &mut Case) -> Result<(), Stop> {
    let mut bytes = Bytes::from("page");
    let boxed = b"new".to_vec(case.alloc())?.into_boxed_slice();
    let answer = measured!(case, bytes.set(case.alloc(), boxed));
    is_set(answer, &mut bytes, true, None, case)
}
