//! Pages with tags and elements changed in their own bytes.
use crate::case::Case;
use crate::stop::{Stop, value};
use crate::{Named, measured};
use std::alloc::Global;
use tl_patch::{Change, TagPatch, patch};
use tl_patch_edit::{Content, EditError, ElementPatch, PlacedPatch, TokenizedPage};
use tl_patch_select::{
    NodeChange, NodeEdit, Patched, edit_nodes, edit_selected, patch_nodes, patch_selected,
};
use tl_tree::{Flags, Tree};

// What is called, of this page.
const PAGE: &str = "<p id=i>x</p><!-- y --><p class='k'>z";

static FLAGS: Flags = Flags {
    is_scripting: false,
    counts_search: true,
};

const SET: Change<'static> = Change::Set {
    key: b"id",
    value: b"\"j\"",
};

const ADD: Change<'static> = Change::Set {
    key: b"title",
    value: b"a&b",
};

const UNSET: Change<'static> = Change::Unset { key: b"class" };

const TEXT: Content<'static> = Content::Text { text: b"<x" };

const MARKUP: Content<'static> = Content::Markup {
    markup: b"<i>m</i>",
};

// What is called.
#[derive(Clone, Copy)]
enum PatchCall {
    Tags(&'static [TagPatch<'static>]),
    Element(usize, ElementPatch<'static>),
    Elements(&'static [usize], ElementPatch<'static>),
    Each(&'static [PlacedPatch<'static>]),
    SelectedTags(&'static str, Change<'static>),
    SelectedElements(&'static str, ElementPatch<'static>),
    NodeTags(&'static [NodeChange<'static>]),
    NodeElements(&'static [NodeEdit<'static>]),
}

// The name of a call, the call, and the page that is made.
type Row = (&'static str, PatchCall, &'static str);

#[rattlefmt::skip]
static ROWS: [Row; 25] = [
    ("patch, no tag", PatchCall::Tags(&[]), "<p id=i>x</p><!-- y --><p class='k'>z"),
    ("patch, a key with another value", PatchCall::Tags(&[TagPatch { start: 0, change: SET }]), "<p id=\"&quot;j&quot;\">x</p><!-- y --><p class='k'>z"),
    ("patch, a new key and one less", PatchCall::Tags(&[TagPatch { start: 0, change: ADD }, TagPatch { start: 23, change: UNSET }]), "<p title=\"a&amp;b\" id=i>x</p><!-- y --><p>z"),
    ("patch_element, Remove", PatchCall::Element(0, ElementPatch::Remove), "<!-- y --><p class='k'>z"),
    ("patch_element, Rename", PatchCall::Element(0, ElementPatch::Rename { name: b"div" }), "<div id=i>x</div><!-- y --><p class='k'>z"),
    ("patch_element, Fill with a text", PatchCall::Element(0, ElementPatch::Fill { content: TEXT }), "<p id=i>&lt;x</p><!-- y --><p class='k'>z"),
    ("patch_element, PutBefore with markup", PatchCall::Element(23, ElementPatch::PutBefore { content: MARKUP }), "<p id=i>x</p><!-- y --><i>m</i><p class='k'>z"),
    ("patch_elements, Unwrap", PatchCall::Elements(&[0], ElementPatch::Unwrap), "x<!-- y --><p class='k'>z"),
    ("patch_elements, Prepend with a text", PatchCall::Elements(&[0, 23], ElementPatch::Prepend { content: TEXT }), "<p id=i>&lt;xx</p><!-- y --><p class='k'>&lt;xz"),
    ("patch_elements, Prepend with markup", PatchCall::Elements(&[0, 23], ElementPatch::Prepend { content: MARKUP }), "<p id=i><i>m</i>x</p><!-- y --><p class='k'><i>m</i>z"),
    ("patch_selected, one part", PatchCall::SelectedTags("p", ADD), "<p title=\"a&amp;b\" id=i>x</p><!-- y --><p title=\"a&amp;b\" class='k'>z"),
    ("patch_selected, a joint", PatchCall::SelectedTags("p + p", UNSET), "<p id=i>x</p><!-- y --><p>z"),
    ("edit_selected, one part", PatchCall::SelectedElements("#i", ElementPatch::ReplaceWith { content: TEXT }), "&lt;x<!-- y --><p class='k'>z"),
    ("edit_selected, a joint", PatchCall::SelectedElements("p + p", ElementPatch::PutBefore { content: MARKUP }), "<p id=i>x</p><!-- y --><i>m</i><p class='k'>z"),
    ("patch_element, ReplaceWith markup", PatchCall::Element(0, ElementPatch::ReplaceWith { content: MARKUP }), "<i>m</i><!-- y --><p class='k'>z"),
    ("patch_element, Append with a text", PatchCall::Element(0, ElementPatch::Append { content: TEXT }), "<p id=i>x&lt;x</p><!-- y --><p class='k'>z"),
    ("patch_element, PutAfter with a text", PatchCall::Element(0, ElementPatch::PutAfter { content: TEXT }), "<p id=i>x</p>&lt;x<!-- y --><p class='k'>z"),
    ("patch_each, two patches of one element and one of another", PatchCall::Each(&[PlacedPatch { place: 0, patch: ElementPatch::Append { content: TEXT } }, PlacedPatch { place: 0, patch: ElementPatch::Rename { name: b"i" } }, PlacedPatch { place: 23, patch: ElementPatch::PutBefore { content: MARKUP } }]), "<i id=i>x&lt;x</i><!-- y --><i>m</i><p class='k'>z"),
    ("patch_each, no patch", PatchCall::Each(&[]), "<p id=i>x</p><!-- y --><p class='k'>z"),
    ("patch_elements, no element", PatchCall::Elements(&[], ElementPatch::Remove), "<p id=i>x</p><!-- y --><p class='k'>z"),
    ("edit_selected, Fill with a text", PatchCall::SelectedElements("p", ElementPatch::Fill { content: TEXT }), "<p id=i>&lt;x</p><!-- y --><p class='k'>&lt;x"),
    ("patch_nodes, no change", PatchCall::NodeTags(&[]), "<p id=i>x</p><!-- y --><p class='k'>z"),
    ("patch_nodes, two changes of one tag and one of another", PatchCall::NodeTags(&[NodeChange { number: 6, change: UNSET }, NodeChange { number: 3, change: SET }, NodeChange { number: 3, change: ADD }]), "<p title=\"a&amp;b\" id=\"&quot;j&quot;\">x</p><!-- y --><p>z"),
    ("edit_nodes, no edit", PatchCall::NodeElements(&[]), "<p id=i>x</p><!-- y --><p class='k'>z"),
    ("edit_nodes, two edits of one element and one of another", PatchCall::NodeElements(&[NodeEdit { number: 6, patch: ElementPatch::PutBefore { content: MARKUP } }, NodeEdit { number: 3, patch: ElementPatch::Rename { name: b"i" } }, NodeEdit { number: 3, patch: ElementPatch::Append { content: TEXT } }]), "<i id=i>x&lt;x</i><!-- y --><i>m</i><p class='k'>z"),
];

/// A call that changes a page in its own bytes, if there is one of this number.
pub fn call(number: usize, case: &mut Case) -> Option<Named> {
    let (name, call, wanted) = *ROWS.get(number)?;
    let answer = match call {
        PatchCall::Tags(patches) => patch_tags(patches, wanted, case),
        PatchCall::Element(place, patch) => patch_one(place, patch, wanted, case),
        PatchCall::Elements(places, patch) => patch_several(places, patch, wanted, case),
        PatchCall::Each(patches) => patch_elements_each(patches, wanted, case),
        PatchCall::SelectedTags(text, change) => patch_where(text, change, wanted, case),
        PatchCall::SelectedElements(text, patch) => edit_where(text, patch, wanted, case),
        PatchCall::NodeTags(changes) => patch_each_node(changes, wanted, case),
        PatchCall::NodeElements(edits) => edit_each_node(edits, wanted, case),
    };
    Some((name, answer))
}

fn is_page(page: &[u8], wanted: &str) -> Result<(), Stop> {
    value(page == wanted.as_bytes())
}

fn patch_tags(patches: &[TagPatch<'_>], wanted: &str, case: &mut Case) -> Result<(), Stop> {
    let answer = measured!(case, patch(case.alloc(), PAGE.as_bytes(), patches));
    is_page(answer?.as_slice(), wanted)
}

fn patched_one(
    alloc: Global,
    place: usize,
    patch: ElementPatch<'_>,
) -> Result<Vec<u8>, EditError> {
    TokenizedPage::of(alloc, PAGE.as_bytes())?.patch_element(alloc, place, patch)
}

fn patched_at(
    alloc: Global,
    places: &[usize],
    patch: ElementPatch<'_>,
) -> Result<Vec<u8>, EditError> {
    TokenizedPage::of(alloc, PAGE.as_bytes())?.patch_elements(alloc, places, patch)
}

fn patched_each(alloc: Global, patches: &[PlacedPatch<'_>]) -> Result<Vec<u8>, EditError> {
    TokenizedPage::of(alloc, PAGE.as_bytes())?.patch_each(alloc, patches)
}

fn patch_one(
    place: usize,
    patch: ElementPatch<'_>,
    wanted: &str,
    case: &mut Case,
) -> Result<(), Stop> {
    let answer = measured!(case, patched_one(case.alloc(), place, patch));
    is_page(answer?.as_slice(), wanted)
}

fn patch_several(
    places: &[usize],
    patch: ElementPatch<'_>,
    wanted: &str,
    case: &mut Case,
) -> Result<(), Stop> {
    let answer = measured!(case, patched_at(case.alloc(), places, patch));
    is_page(answer?.as_slice(), wanted)
}

fn patch_elements_each(
    patches: &[PlacedPatch<'_>],
    wanted: &str,
    case: &mut Case,
) -> Result<(), Stop> {
    let answer = measured!(case, patched_each(case.alloc(), patches));
    is_page(answer?.as_slice(), wanted)
}

fn are_changed(patched: &Patched, wanted: &str) -> Result<(), Stop> {
    is_page(patched.bytes.as_slice(), wanted)
}

fn patch_where(text: &str, change: Change<'_>, wanted: &str, case: &mut Case) -> Result<(), Stop> {
    let selector = tl_css::parse(case.alloc(), text)?;
    let tree = Tree::read(case.alloc(), PAGE.as_bytes(), FLAGS)?;
    let answer = measured!(
        case,
        patch_selected(case.alloc(), PAGE.as_bytes(), &tree, &selector, change)
    );
    are_changed(&answer?, wanted)
}

fn edit_where(
    text: &str,
    patch: ElementPatch<'_>,
    wanted: &str,
    case: &mut Case,
) -> Result<(), Stop> {
    let selector = tl_css::parse(case.alloc(), text)?;
    let tree = Tree::read(case.alloc(), PAGE.as_bytes(), FLAGS)?;
    let answer = measured!(
        case,
        edit_selected(case.alloc(), PAGE.as_bytes(), &tree, &selector, patch)
    );
    are_changed(&answer?, wanted)
}

fn patch_each_node(
    changes: &[NodeChange<'_>],
    wanted: &str,
    case: &mut Case,
) -> Result<(), Stop> {
    let tree = Tree::read(case.alloc(), PAGE.as_bytes(), FLAGS)?;
    let answer = measured!(
        case,
        patch_nodes(case.alloc(), PAGE.as_bytes(), &tree, changes)
    );
    are_changed(&answer?, wanted)
}

fn edit_each_node(edits: &[NodeEdit<'_>], wanted: &str, case: &mut Case) -> Result<(), Stop> {
    let tree = Tree::read(case.alloc(), PAGE.as_bytes(), FLAGS)?;
    let answer = measured!(
        case,
        edit_nodes(case.alloc(), PAGE.as_bytes(), &tree, edits)
    );
    are_changed(&answer?, wanted)
}
