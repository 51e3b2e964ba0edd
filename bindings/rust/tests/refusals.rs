//! Each request of the library for memory is refused in turn, where TL_REFUSALS says that the library is one that can do so.
#![cfg(tl_refusals)]

use std::ffi::c_long;
use std::fmt::Debug;
use tlhtml::{
    Change, Content, Document, Edit, Error, Policy, Selector, edit, join_url, sanitize,
    set_attribute, unset_attribute,
};

const PAGE: &str =
    "<ul><LI class=a @click=f() href='?a=1&b'>x &amp; y<LI>3 < 4</UL><p>z<table><td>y";

unsafe extern "C" {
    fn tl_test_refuse(number: c_long);
    fn tl_test_left() -> c_long;
}

// A call that is refused memory answers that or does without, and answers as before in the end. What is returned is whether it takes
// some.
fn is_refused<T: PartialEq + Debug>(call: impl Fn() -> Result<T, Error>) -> bool {
    let wanted = call();
    let mut is_refused = false;
    for number in 0.. {
        unsafe { tl_test_refuse(number) };
        let answer = call();
        let came = unsafe { tl_test_left() } < 0;
        unsafe { tl_test_refuse(-1) };
        is_refused |= answer == Err(Error::OutOfMemory);
        assert!(answer == wanted || answer == Err(Error::OutOfMemory));
        if !came {
            break;
        }
    }
    assert!(wanted.is_ok());
    is_refused
}

// A call that takes memory of the library.
fn check<T: PartialEq + Debug>(call: impl Fn() -> Result<T, Error>) {
    assert!(is_refused(call));
}

// A call that takes none.
fn check_none<T: PartialEq + Debug>(call: impl Fn() -> T) {
    assert!(!is_refused(|| Ok(call())));
}

// (one test, for there is one heap)
#[test]
fn each_call() {
    each_call_of_documents();
    each_call_with_a_compiled_selector();
    each_edit();
}

fn each_call_of_documents() {
    let document = Document::parse(PAGE).unwrap();
    let item = document.first("li").unwrap().unwrap();
    check(|| sanitize(PAGE));
    check(|| Policy::Blog.lists().tags("p,li").sanitize(PAGE));
    check(|| Policy::Blog.lists().tags("p,script").refused_word());
    check(|| Policy::Blog.lists().options());
    check(|| Policy::Blog.lists().removed(PAGE));
    check(|| set_attribute(PAGE, "li", "id", "x"));
    check(|| unset_attribute(PAGE, "li", "class"));
    check(|| Document::parse_bytes(PAGE.as_bytes(), Some("latin1"))?.html());
    check(|| join_url("https://a.org/", "b"));
    check(|| edit(PAGE, "li", Edit::Fill(Content::Text("<"))));
    check(|| Ok(Document::parse(PAGE)?.text().collect::<String>()));
    check(|| Selector::parse("ul > li"));
    check(|| document.select_values("li", "href"));
    check(|| document.select("ul > li"));
    check(|| document.links(Some("https://a.org/")));
    check(|| document.tables());
    check(|| document.prettify());
    check(|| document.readable_text());
    check(|| item.json());
    check(|| document.first("ul > li"));
    check(|| item.select("ul > li"));
    check(|| item.first("ul > li"));
    check(|| item.closest("ul > li"));
    check(|| item.matches("ul > li"));
    check(|| item.html());
    check(|| item.inner_html());
    check(|| document.html());
    let table = document.first("table").unwrap().unwrap();
    check(|| table.rows());
    check_none(|| {
        (
            item.attr("@click"),
            item.attrs().count(),
            item.text().count(),
        )
    });
    check_none(|| (item.name(), item.kind(), item.namespace(), item.source()));
    check_none(|| (item.parent(), item.first_child(), item.next_sibling()));
    check_none(|| (item.prev_sibling(), item.has_attr("HREF")));
    check_none(|| (item.ancestors().count(), item.descendants().count()));
    check_none(|| (document.nodes().len(), document.is_quirks()));
    assert!(item.text().eq(["x & y"]));
}

fn each_call_with_a_compiled_selector() {
    let document = Document::parse(PAGE).unwrap();
    let item = document.first("li").unwrap().unwrap();
    let (items, list) = (Selector::parse("ul > li").unwrap(), item.parent().unwrap());
    check(|| document.select(&items));
    check(|| document.first(&items));
    check(|| document.select_values(&items, "href"));
    check(|| list.select(&items));
    check(|| list.first(&items));
    check(|| item.closest(&items));
    check(|| item.matches(&items));
}

fn each_edit() {
    let document = Document::parse(PAGE).unwrap();
    check(|| {
        document.edit_each(PAGE, "li", |it| {
            [Change::set("id", it.number().to_string())]
        })
    });
    check(|| document.edit_each(PAGE, "li[href]", |_| [Change::edit(Edit::Unwrap)]));
    check(|| {
        document.edit_each(PAGE, "li[href]", |_| {
            [
                Change::unset("href"),
                Change::edit(Edit::Fill(Content::Text("<"))),
            ]
        })
    });
}
