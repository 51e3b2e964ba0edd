//! The calls of `tl.h`, and how room is lent to them.
use crate::Error;
use crate::each::{LentChange, LentEdit};
use std::ffi::c_void;

/// `tl_document`.
#[repr(C)]
pub struct Handle {
    pub at: *mut c_void,
}

/// `tl_list`.
#[repr(C)]
pub struct List {
    text: *const u8,
    len: usize,
    is_said: bool,
}

impl List {
    /// The list that a text says, or one that isn't said. It is lent for no longer than the text.
    pub fn new(text: Option<&str>) -> List {
        let lent = text.unwrap_or("");
        List {
            text: lent.as_ptr(),
            len: lent.len(),
            is_said: text.is_some(),
        }
    }
}

/// `tl_lists`.
#[repr(C)]
pub struct Lists {
    pub tags: List,
    pub keys: List,
    pub link_keys: List,
    pub link_prefixes: List,
    pub classes: List,
    pub id_prefix: List,
    pub relative_links: bool,
    pub nofollow_links: bool,
    pub policy: u8,
}

/// What stands where there is no node.
pub const NO_NODE: u32 = u32::MAX;

/// A call that makes bytes of a node.
pub type OfNode = unsafe extern "C" fn(*mut Handle, u32, *mut u8, usize, *mut usize) -> u8;
/// A call that makes bytes of a document.
pub type OfDocument = unsafe extern "C" fn(*mut Handle, *mut u8, usize, *mut usize) -> u8;

unsafe extern "C" {
    pub fn tl_sanitize_html(
        page: *const u8,
        page_len: usize,
        out: *mut u8,
        room: usize,
        needed: *mut usize,
    ) -> u8;
    pub fn tl_sanitize_html_by(
        policy: u8,
        page: *const u8,
        page_len: usize,
        out: *mut u8,
        room: usize,
        needed: *mut usize,
    ) -> u8;
    pub fn tl_sanitize_html_with(
        lists: *const Lists,
        page: *const u8,
        page_len: usize,
        out: *mut u8,
        room: usize,
        needed: *mut usize,
        cause: *mut u8,
    ) -> u8;
    pub fn tl_removed_html(
        lists: *const Lists,
        page: *const u8,
        page_len: usize,
        out: *mut u8,
        room: usize,
        needed: *mut usize,
        cause: *mut u8,
    ) -> u8;
    pub fn tl_list_options(
        lists: *const Lists,
        out: *mut u8,
        room: usize,
        needed: *mut usize,
    ) -> u8;
    pub fn tl_refused_word(
        lists: *const Lists,
        out: *mut u8,
        room: usize,
        needed: *mut usize,
        cause: *mut u8,
    ) -> u8;
    pub fn tl_edit_css(
        edit: u8,
        form: u8,
        selector: *const u8,
        selector_len: usize,
        content: *const u8,
        content_len: usize,
        page: *const u8,
        page_len: usize,
        out: *mut u8,
        room: usize,
        needed: *mut usize,
        place: *mut usize,
        cause: *mut u8,
    ) -> u8;
    pub fn tl_patch_css(
        edit: u8,
        selector: *const u8,
        selector_len: usize,
        key: *const u8,
        key_len: usize,
        value: *const u8,
        value_len: usize,
        page: *const u8,
        page_len: usize,
        out: *mut u8,
        room: usize,
        needed: *mut usize,
        place: *mut usize,
        cause: *mut u8,
    ) -> u8;
    pub fn tl_encoding_of(
        label: *const u8,
        label_len: usize,
        page: *const u8,
        page_len: usize,
        out: *mut u8,
        room: usize,
        needed: *mut usize,
    ) -> u8;
    pub fn tl_decode_page(
        label: *const u8,
        label_len: usize,
        page: *const u8,
        page_len: usize,
        out: *mut u8,
        room: usize,
        needed: *mut usize,
    ) -> u8;
    pub fn tl_version(out: *mut u8, room: usize, needed: *mut usize) -> u8;
    pub fn tl_parse_html(page: *const u8, page_len: usize, document: *mut Handle) -> u8;
    pub fn tl_free(document: *mut Handle);
    pub fn tl_node_count(document: *mut Handle) -> u32;
    pub fn tl_is_quirks(document: *mut Handle) -> u8;
    pub fn tl_document_html(
        document: *mut Handle,
        out: *mut u8,
        room: usize,
        needed: *mut usize,
    ) -> u8;
    pub fn tl_document_pretty_html(
        document: *mut Handle,
        out: *mut u8,
        room: usize,
        needed: *mut usize,
    ) -> u8;
    pub fn tl_parts(document: *mut Handle, out: *mut u8, room: usize, needed: *mut usize) -> u8;
    pub fn tl_document_links(
        document: *mut Handle,
        out: *mut u8,
        room: usize,
        needed: *mut usize,
    ) -> u8;
    pub fn tl_nodes(
        document: *mut Handle,
        numbers: *mut u32,
        room: usize,
        needed: *mut usize,
    ) -> u8;
    pub fn tl_join_url(
        base: *const u8,
        base_len: usize,
        link: *const u8,
        link_len: usize,
        out: *mut u8,
        room: usize,
        needed: *mut usize,
    ) -> u8;
    pub fn tl_node_readable_text(
        document: *mut Handle,
        node: u32,
        out: *mut u8,
        room: usize,
        needed: *mut usize,
    ) -> u8;
    pub fn tl_node_json(
        document: *mut Handle,
        node: u32,
        out: *mut u8,
        room: usize,
        needed: *mut usize,
    ) -> u8;
    pub fn tl_table_csv(
        document: *mut Handle,
        node: u32,
        limit: usize,
        out: *mut u8,
        room: usize,
        needed: *mut usize,
    ) -> u8;
    pub fn tl_select_css(
        document: *mut Handle,
        selector: *const u8,
        selector_len: usize,
        numbers: *mut u32,
        room: usize,
        needed: *mut usize,
        place: *mut usize,
        cause: *mut u8,
    ) -> u8;
    pub fn tl_select_values(
        document: *mut Handle,
        selector: *const u8,
        selector_len: usize,
        key: *const u8,
        key_len: usize,
        out: *mut u8,
        room: usize,
        needed: *mut usize,
        place: *mut usize,
        cause: *mut u8,
    ) -> u8;
    pub(crate) fn tl_patch_nodes(
        document: *mut Handle,
        page: *const u8,
        page_len: usize,
        changes: *const LentChange,
        count: usize,
        out: *mut u8,
        room: usize,
        needed: *mut usize,
        place: *mut usize,
        cause: *mut u8,
    ) -> u8;
    pub(crate) fn tl_edit_nodes(
        document: *mut Handle,
        page: *const u8,
        page_len: usize,
        edits: *const LentEdit,
        count: usize,
        out: *mut u8,
        room: usize,
        needed: *mut usize,
        place: *mut usize,
        cause: *mut u8,
    ) -> u8;
    pub fn tl_compile_css(
        selector: *const u8,
        selector_len: usize,
        compiled: *mut Handle,
        place: *mut usize,
        cause: *mut u8,
    ) -> u8;
    pub fn tl_free_compiled(compiled: *mut Handle);
    pub fn tl_compiled_select(
        document: *mut Handle,
        compiled: *mut Handle,
        numbers: *mut u32,
        room: usize,
        needed: *mut usize,
    ) -> u8;
    pub fn tl_compiled_first(document: *mut Handle, compiled: *mut Handle, number: *mut u32) -> u8;
    pub fn tl_compiled_select_below(
        document: *mut Handle,
        node: u32,
        compiled: *mut Handle,
        numbers: *mut u32,
        room: usize,
        needed: *mut usize,
    ) -> u8;
    pub fn tl_compiled_first_below(
        document: *mut Handle,
        node: u32,
        compiled: *mut Handle,
        number: *mut u32,
    ) -> u8;
    pub fn tl_compiled_matches(
        document: *mut Handle,
        node: u32,
        compiled: *mut Handle,
        matches: *mut u8,
    ) -> u8;
    pub fn tl_compiled_closest(
        document: *mut Handle,
        node: u32,
        compiled: *mut Handle,
        number: *mut u32,
    ) -> u8;
    pub fn tl_first_css(
        document: *mut Handle,
        selector: *const u8,
        selector_len: usize,
        number: *mut u32,
        place: *mut usize,
        cause: *mut u8,
    ) -> u8;
    pub fn tl_node_select_css(
        document: *mut Handle,
        node: u32,
        selector: *const u8,
        selector_len: usize,
        numbers: *mut u32,
        room: usize,
        needed: *mut usize,
        place: *mut usize,
        cause: *mut u8,
    ) -> u8;
    pub fn tl_node_first_css(
        document: *mut Handle,
        node: u32,
        selector: *const u8,
        selector_len: usize,
        number: *mut u32,
        place: *mut usize,
        cause: *mut u8,
    ) -> u8;
    pub fn tl_node_matches_css(
        document: *mut Handle,
        node: u32,
        selector: *const u8,
        selector_len: usize,
        matches: *mut u8,
        place: *mut usize,
        cause: *mut u8,
    ) -> u8;
    pub fn tl_node_closest_css(
        document: *mut Handle,
        node: u32,
        selector: *const u8,
        selector_len: usize,
        number: *mut u32,
        place: *mut usize,
        cause: *mut u8,
    ) -> u8;
    pub fn tl_node_source(
        document: *mut Handle,
        node: u32,
        start: *mut usize,
        end: *mut usize,
    ) -> u8;
    pub fn tl_node_outer_html(
        document: *mut Handle,
        node: u32,
        out: *mut u8,
        room: usize,
        needed: *mut usize,
    ) -> u8;
    pub fn tl_node_inner_html(
        document: *mut Handle,
        node: u32,
        out: *mut u8,
        room: usize,
        needed: *mut usize,
    ) -> u8;
}

/// The statuses.
pub const DONE: u8 = 0;
pub const REFUSED: u8 = 1;
pub const NOT_UNDERSTOOD: u8 = 2;
const OUT_OF_MEMORY: u8 = 3;
pub const NO_ROOM: u8 = 4;

/// What a status says that is no answer. What is lent here is always a text, so what isn't understood is too long.
pub fn error_of(status: u8) -> Error {
    match status {
        NOT_UNDERSTOOD => Error::TooLong,
        _ => Error::OutOfMemory,
    }
}

/// What such a status says of a page whose tree was asked for.
pub fn page_error_of(status: u8, page: &str) -> Error {
    match error_of(status) {
        Error::TooLong if u32::try_from(page.len()).is_ok() => Error::OutOfProportion,
        error => error,
    }
}

/// Puts the items that a call answers into room, which is empty first and grows to what the call says that it needs. What is returned
/// is the status.
pub fn fill<T: Copy>(
    room: &mut Vec<T>,
    mut call: impl FnMut(*mut T, usize, *mut usize) -> u8,
) -> u8 {
    loop {
        room.clear();
        let mut needed = 0;
        match call(room.as_mut_ptr(), room.capacity(), &mut needed) {
            DONE => {
                // SAFETY: the call wrote that many items, which is no more than it was lent.
                unsafe { room.set_len(needed) };
                return DONE;
            }
            NO_ROOM if room.try_reserve(needed).is_err() => return OUT_OF_MEMORY,
            NO_ROOM => {}
            status => return status,
        }
    }
}

/// The items that a call answers, for which this room is lent first.
pub fn items<T: Copy>(
    room: usize,
    call: impl FnMut(*mut T, usize, *mut usize) -> u8,
) -> Result<Vec<T>, u8> {
    let mut items = with_room(room)?;
    match fill(&mut items, call) {
        DONE => Ok(items),
        status => Err(status),
    }
}

/// Room for so many items.
pub fn with_room<T>(room: usize) -> Result<Vec<T>, u8> {
    let mut items = Vec::new();
    items.try_reserve_exact(room).map_err(|_| OUT_OF_MEMORY)?;
    Ok(items)
}

/// The text that bytes are. Those that come out are UTF-8; a text is cut nowhere else than between characters.
pub fn text_of(bytes: Vec<u8>) -> String {
    String::from_utf8(bytes)
        .unwrap_or_else(|it| String::from_utf8_lossy(it.as_bytes()).into_owned())
}

/// A copy of bytes.
pub fn copy_of(bytes: &[u8]) -> Result<Vec<u8>, u8> {
    with_more(Vec::new(), bytes)
}

/// Bytes with more behind them.
pub fn with_more(mut bytes: Vec<u8>, more: &[u8]) -> Result<Vec<u8>, u8> {
    bytes.try_reserve(more.len()).map_err(|_| OUT_OF_MEMORY)?;
    bytes.extend_from_slice(more);
    Ok(bytes)
}

/// A copy of bytes as a text.
pub fn text_in(bytes: &[u8]) -> Result<String, u8> {
    copy_of(bytes).map(text_of)
}

/// Puts an item behind others.
pub fn push<T>(items: &mut Vec<T>, item: T) -> Result<(), u8> {
    items.try_reserve(1).map_err(|_| OUT_OF_MEMORY)?;
    items.push(item);
    Ok(())
}

/// The number in 8 bytes, the lowest first, that stands at a place.
pub fn number_at(bytes: &[u8], at: usize) -> usize {
    let number = bytes[at..at + 8].iter().rev();
    number.fold(0, |number, byte| number << 8 | usize::from(*byte))
}

/// The line of a byte of a page, from 1, and how many bytes stand before it there.
pub fn line_of(page: &str, place: usize) -> (usize, usize) {
    let before = &page.as_bytes()[..place.min(page.len())];
    let line = before.iter().filter(|it| **it == b'\n').count();
    let column = before.iter().rev().take_while(|it| **it != b'\n').count();
    (line + 1, column)
}

/// The text that a call answers, for which this room is lent first.
pub fn text(room: usize, call: impl FnMut(*mut u8, usize, *mut usize) -> u8) -> Result<String, u8> {
    items(room, call).map(text_of)
}

// SAFETY, of each call here and in the other modules: pointer and length are those of one slice, which is lent for the call; a slice that
// is empty has a pointer that is not null; what is written is lent for writing, so it lies apart from all else.

/// The room that is lent first for what is made of a page.
pub fn room_of(page: &str) -> usize {
    page.len() + page.len() / 8 + 64
}
