//! Each call once and more, with what comes of pages that people write.
use std::collections::HashSet;
use std::thread;
use tlhtml::{
    Cause, Content, Document, Edit, Error, Kind, Namespace, Node, Policy, Reason, Selector,
    css_escape, edit, join_url, sanitize, sanitize_by, set_attribute, unset_attribute, version,
};

const PAGE: &str =
    "<UL><LI hidden class=a @click=f() href='?a=1&b=2&lt;'>x &amp; y<LI>3 < 4</UL><!-- c --><p>z";

fn names<'d>(document: &'d Document, selector: &str) -> Vec<Option<&'d str>> {
    document.select(selector).unwrap().map(Node::name).collect()
}

// What a node says.
fn said(node: Node<'_>) -> String {
    node.text().collect()
}

// The nodes that a selector found.
fn all<'d>(found: Result<impl Iterator<Item = Node<'d>>, Error>) -> Result<Vec<Node<'d>>, Error> {
    Ok(found?.collect())
}

#[test]
fn selectors() {
    let document = Document::parse(PAGE).unwrap();
    assert_eq!(
        names(&document, "li, p"),
        [Some("li"), Some("li"), Some("p")]
    );
    assert_eq!(document.select("i").unwrap().len(), 0);
    assert_eq!(document.first("i"), Ok(None));
    assert_eq!(said(document.first("li + li").unwrap().unwrap()), "3 < 4");
    let last = document.select("li").unwrap().next_back().unwrap();
    assert_eq!(said(last), "3 < 4");
    assert_eq!(document.select("[\\@click]").unwrap().len(), 1);
    assert_eq!(document.select(":scope"), document.select("html"));
    let wrong = Error::NoSelector {
        place: 3,
        cause: Cause::NoPseudoClass,
    };
    assert_eq!(document.select("li:hover"), Err(wrong));
    assert_eq!(document.first("li:hover"), Err(wrong));
    assert_eq!(
        wrong.to_string(),
        "invalid selector: at byte 3: unknown pseudo-class"
    );
    let (place, cause) = (0, Cause::NoSelector);
    assert_eq!(
        document.select("> li"),
        Err(Error::NoSelector { place, cause })
    );
}

#[test]
#[allow(clippy::mutable_key_type)] // (a node is hashed by where its document is, and its number)
fn nodes() {
    let document = Document::parse(PAGE).unwrap();
    let top: Vec<_> = document.children().collect();
    assert_eq!(Ok(top.clone()), all(document.select("html")));
    assert_eq!(document.root_element(), Some(top[0]));
    let body = document.first("body").unwrap().unwrap();
    let parts: Vec<_> = body.children().collect();
    assert_eq!(
        parts.iter().map(|it| it.kind()).collect::<Vec<_>>(),
        [Kind::Element, Kind::Comment, Kind::Element]
    );
    let (list, comment, last) = (parts[0], parts[1], parts[2]);
    assert_eq!(comment.name(), None);
    assert_eq!(comment.html().as_deref(), Ok("<!-- c -->"));
    assert_eq!(said(comment), " c ");
    let item = list.first_child().unwrap();
    let second = item.next_sibling().unwrap();
    assert_eq!(second.html().as_deref(), Ok("<li>3 &lt; 4</li>"));
    assert_eq!(second.inner_html().as_deref(), Ok("3 &lt; 4"));
    assert_eq!(second.prev_sibling(), Some(item));
    assert_eq!((item.prev_sibling(), second.next_sibling()), (None, None));
    assert_eq!((item.parent(), top[0].parent()), (Some(list), None));
    assert_eq!(item.ancestors().collect::<Vec<_>>(), [list, body, top[0]]);
    assert_eq!(said(item), "x & y");
    let text = item.children().next().unwrap();
    assert_eq!((text.kind(), text.name()), (Kind::Text, None));
    assert_eq!(said(text), "x & y");
    assert_eq!(text.html().as_deref(), Ok("x &amp; y"));
    assert_eq!(text.inner_html().as_deref(), Ok(""));
    assert_eq!(text.first_child(), None);
    assert_eq!(list.descendants().len(), 4);
    assert_eq!(list.descendants().next_back(), second.first_child());
    assert_eq!(text.descendants().len(), 0);
    assert_eq!(last.number(), 9);
    assert_eq!(document.nodes().len(), 11);
    assert!(document.nodes().map(|it| it.number()).eq(0..11));
    assert!(document.nodes().skip(1).eq(top[0].descendants()));
    let other = Document::parse(PAGE).unwrap();
    let same = other.nodes().nth(4).unwrap();
    assert!(same.number() == item.number() && same != item);
    let set = HashSet::from([item, same, document.first("li").unwrap().unwrap()]);
    assert_eq!(set.len(), 2);
    let shown = r#"Node(4: <li hidden="" class="a" @click="f()" href="?a=1&b=2<">)"#;
    assert_eq!(format!("{item:?}"), shown);
    assert_eq!(format!("{text:?}"), "Node(5: \"x & y\")");
}

#[test]
fn whole_pages() {
    let document = Document::parse(PAGE).unwrap();
    assert_eq!(document.text().collect::<String>(), "x & y3 < 4z");
    assert_eq!(
        document.html().as_deref(),
        Ok(concat!(
            "<html><head></head><body><ul><li hidden=\"\" class=\"a\" @click=\"f()\" href=\"?a=1&amp;b=2&lt;\">x &amp; y</li>",
            "<li>3 &lt; 4</li></ul><!-- c --><p>z</p></body></html>"
        ))
    );
    assert!(document.is_quirks());
    let empty = Document::parse("").unwrap();
    assert_eq!(
        empty.html().as_deref(),
        Ok("<html><head></head><body></body></html>")
    );
    assert_eq!(empty.text().count(), 0);
    assert_eq!(empty.children().count(), 1);
    let page = "<!doctype html><!-- a --><title>b</title>";
    let document = Document::parse(page).unwrap();
    assert!(!document.is_quirks());
    let kinds: Vec<_> = document.children().map(|it| it.kind()).collect();
    assert_eq!(kinds, [Kind::Doctype, Kind::Comment, Kind::Element]);
    let doctype = document.nodes().next().unwrap();
    assert_eq!(doctype.html().as_deref(), Ok("<!DOCTYPE html>"));
    assert_eq!((doctype.text().count(), doctype.name()), (0, None));
    assert_eq!(doctype.source(), Some(0..15));
    assert!(document.text().eq(["b"]));
}

/// Without a doctype classes and ids hold in any case. A byte order mark is no part of the tree, and counts in places.
#[test]
fn quirks_and_marks() {
    let found = |page: &str, selector| {
        Document::parse(page)
            .unwrap()
            .select(selector)
            .map(|it| it.len())
    };
    let (quirky, standard) = (
        "\u{feff}<p class=A id=B>x",
        "<!DOCTYPE html><p class=A id=B>x",
    );
    assert_eq!(
        (found(quirky, ".a#b"), found(standard, ".a#b")),
        (Ok(1), Ok(0))
    );
    assert_eq!(found(standard, ".A#B"), Ok(1));
    let document = Document::parse(quirky).unwrap();
    assert!(document.text().eq(["x"]));
    assert_eq!(document.first("p").unwrap().unwrap().source(), Some(3..19));
}

/// What browsers put in, and where what stands in the page comes from.
#[test]
fn tables() {
    let page = "<p>a &amp; b<table id=t><TR CLASS=r><td>1<td>2<!-- é --></table>";
    let document = Document::parse(page).unwrap();
    let row = document.first("table > tbody > tr").unwrap().unwrap();
    assert_eq!(document.select("#t > tbody > tr > td").unwrap().len(), 2);
    assert_eq!(document.select("table > tr").unwrap().len(), 0);
    let body = row.parent().unwrap();
    assert_eq!(body.name(), Some("tbody"));
    assert_eq!((body.source(), body.attrs().count()), (None, 0));
    let place = |node: Node<'_>| node.source().map(|it| page[it].to_string());
    assert_eq!(place(row).as_deref(), Some("<TR CLASS=r>"));
    let cell = row.first(":scope > td:last-child").unwrap().unwrap();
    let said: Vec<_> = cell.children().map(place).collect();
    assert_eq!(
        said,
        [Some("2".to_string()), Some("<!-- é -->".to_string())]
    );
    let text = document.first("p").unwrap().unwrap().first_child();
    assert_eq!(place(text.unwrap()).as_deref(), Some("a &amp; b"));
    assert_eq!(document.first("head").unwrap().unwrap().source(), None);
}

#[test]
fn namespaces() {
    let page = concat!(
        "<svg viewbox='0 0 1 1'><title>an <b>icon</b></title><use XLINK:HREF=#a href=#b></use></svg>",
        "<math><mi>x</mi></math><p>y"
    );
    let document = Document::parse(page).unwrap();
    let spaces: Vec<_> = ["svg", "svg > title", "use", "math > mi", "p"]
        .into_iter()
        .map(|it| document.first(it).unwrap().unwrap().namespace())
        .collect();
    let (html, svg, math) = (Namespace::Html, Namespace::Svg, Namespace::MathMl);
    assert_eq!(spaces, [svg, svg, svg, math, html].map(Some));
    let icon = document.first("svg").unwrap().unwrap();
    let bold = icon.first("title > b").unwrap().unwrap();
    assert_eq!(bold.namespace(), Some(html));
    assert_eq!(bold.first_child().unwrap().namespace(), None);
    assert_eq!(icon.attr("viewBox"), Some("0 0 1 1"));
    assert_eq!(icon.attr("viewbox"), None);
    let used = document.first("use").unwrap().unwrap();
    assert_eq!(used.attr("xlink:href"), Some("#a"));
    assert_eq!(used.attr("href"), Some("#b"));
    assert!(used.attrs().map(|it| it.0).eq(["xlink:href", "href"]));
    assert_eq!(
        used.html().as_deref(),
        Ok("<use xlink:href=\"#a\" href=\"#b\"></use>")
    );
}

#[test]
fn templates() {
    let document = Document::parse("<template id=t><p class=a>x</p>y</template><p>z").unwrap();
    let template = document.first("#t").unwrap().unwrap();
    let contents = template.first_child().unwrap();
    assert_eq!(
        (contents.kind(), contents.name(), contents.source()),
        (Kind::Contents, None, None)
    );
    assert_eq!(template.children().count(), 1);
    assert_eq!(
        template.inner_html().as_deref(),
        Ok("<p class=\"a\">x</p>y")
    );
    assert_eq!(contents.inner_html(), template.inner_html());
    assert_eq!(
        template.html().as_deref(),
        Ok("<template id=\"t\"><p class=\"a\">x</p>y</template>")
    );
    assert_eq!(document.select("p").unwrap().len(), 1);
    assert_eq!(template.select("p").unwrap().len(), 0);
    let inside = contents.first("p.a").unwrap().unwrap();
    assert_eq!(inside.parent(), Some(contents));
    assert_eq!(contents.parent(), Some(template));
    assert_eq!(inside.matches("p.a"), Ok(true));
    assert_eq!(
        (said(template), said(contents)),
        (String::new(), "xy".into())
    );
    assert!(document.text().eq(["z"]));
}

/// What stands in a script and a style is printed as it is.
#[test]
fn raw_texts() {
    let page = "<script>if (a < b && c) f(\"<p>\")</script><style>a > b {}</style>";
    let document = Document::parse(page).unwrap();
    assert_eq!(
        document.html().unwrap(),
        format!("<html><head>{page}</head><body></body></html>")
    );
    let script = document.first("script").unwrap().unwrap();
    assert_eq!(said(script), "if (a < b && c) f(\"<p>\")");
    assert_eq!(Ok(said(script)), script.inner_html());
    assert_eq!(script.first_child().unwrap().html(), script.inner_html());
}

#[test]
fn below_a_node() {
    let document = Document::parse(PAGE).unwrap();
    let list = document.first("ul").unwrap().unwrap();
    let item = list.first("li").unwrap().unwrap();
    assert_eq!(list.select("li"), document.select("li"));
    assert_eq!(
        list.first("body li + li, ul > li + li"),
        Ok(item.next_sibling())
    );
    assert_eq!((list.first("ul"), item.first("*")), (Ok(None), Ok(None)));
    assert_eq!(list.select("> li"), document.select("li"));
    assert_eq!(list.first("> li"), Ok(Some(item)));
    assert_eq!(all(list.select(":scope > li:first-child")), Ok(vec![item]));
    assert_eq!(
        (all(item.select("+ li")), item.first("~ li")),
        (Ok(vec![]), Ok(None))
    );
    for (selector, wanted) in [
        ("li", true),
        ("LI[href].a", true),
        ("ul > :first-child", true),
        (":scope", true),
        ("ul", false),
        ("p, li + li", false),
    ] {
        assert_eq!(item.matches(selector), Ok(wanted));
    }
    let text = item.children().next().unwrap();
    assert_eq!(
        (text.matches("*"), all(text.select("*"))),
        (Ok(false), Ok(vec![]))
    );
    assert_eq!(text.closest("li"), Ok(Some(item)));
    assert_eq!(item.closest("li"), Ok(Some(item)));
    assert_eq!(item.closest("ul:has(:scope)"), Ok(Some(list)));
    assert_eq!(item.closest("p"), Ok(None));
    let wrong = Error::NoSelector {
        place: 3,
        cause: Cause::NoPseudoClass,
    };
    assert_eq!(item.select("li:hover"), Err(wrong));
    assert_eq!(item.first("li:hover"), Err(wrong));
    assert_eq!(item.closest("li:hover"), Err(wrong));
    assert_eq!(item.matches("li:hover"), Err(wrong));
}

#[test]
fn attributes() {
    let document = Document::parse(PAGE).unwrap();
    let item = document.first("li").unwrap().unwrap();
    assert_eq!(item.attr("HREF"), Some("?a=1&b=2<"));
    assert_eq!(item.attr("@click"), Some("f()"));
    assert_eq!(item.attr("hidden"), Some(""));
    assert_eq!(item.attr("id"), None);
    assert!(item.has_attr("hidden") && item.has_attr("Href"));
    assert!(!item.has_attr("id") && !item.has_attr(""));
    let wanted = [
        ("hidden", ""),
        ("class", "a"),
        ("@click", "f()"),
        ("href", "?a=1&b=2<"),
    ];
    assert!(item.attrs().eq(wanted));
    assert!(item.classes().eq(["a"]));
    let text = item.children().next().unwrap();
    assert_eq!((text.attr("id"), text.attrs().count()), (None, 0));
    assert!(!text.has_attr("id"));
}

/// What is borrowed of a document stays for as long as that.
#[test]
fn borrowed_texts() {
    let document = Document::parse("<p title=a>b</p>").unwrap();
    let (title, text) = {
        let paragraph = document.select("p").unwrap().next().unwrap();
        (paragraph.attr("title"), paragraph.text().next())
    };
    assert_eq!((title, text), (Some("a"), Some("b")));
}

/// What stands around each node of some pages is what their own trees say, each in its own way.
#[test]
fn places_agree() {
    for page in [
        PAGE,
        "",
        "<!doctype html><!-- a --><p>x<b>y</b></p><!-- c -->",
        "<template><p>x</p>y<template>z</template>u</template><p>v",
        "<table><tr><td>1<td>2<tr><td>3</table><svg><g/></svg>",
    ] {
        let document = Document::parse(page).unwrap();
        for node in document.nodes() {
            let children: Vec<_> = document
                .nodes()
                .filter(|it| it.parent() == Some(node))
                .collect();
            assert_eq!(node.children().collect::<Vec<_>>(), children);
            assert_eq!(node.first_child(), children.first().copied());
            for pair in children.windows(2) {
                assert_eq!(pair[0].next_sibling(), Some(pair[1]));
                assert_eq!(pair[1].prev_sibling(), Some(pair[0]));
            }
            let below = document
                .nodes()
                .filter(|it| it.ancestors().any(|outer| outer == node));
            assert!(below.eq(node.descendants()));
        }
    }
}

#[test]
fn texts() {
    let page = "<title>t</title><p> one <b>two</b>\n<!-- c --><template>x</template>three<script>f()</script>";
    let document = Document::parse(page).unwrap();
    let paragraph = document.first("p").unwrap().unwrap();
    let wanted = [" one ", "two", "\n", "three", "f()"];
    assert!(paragraph.text().eq(wanted));
    assert!(document.text().skip(1).eq(wanted));
    assert_eq!(paragraph.readable_text().as_deref(), Ok("one two three"));
    assert_eq!(document.readable_text().as_deref(), Ok("one two three"));
    let found: Vec<_> = paragraph.find_text("o").collect();
    assert_eq!(found.len(), 2);
    assert_eq!(found[1].parent().unwrap().name(), Some("b"));
    assert_eq!(document.find_text("x").count(), 0);
}

#[test]
fn prints() {
    let document = Document::parse("<ul><li>a").unwrap();
    let lines = "<html>\n  <head></head>\n  <body>\n    <ul>\n      <li>a</li>\n    </ul>\n  </body>\n</html>\n";
    assert_eq!(document.prettify().as_deref(), Ok(lines));
    let item = document.first("li").unwrap().unwrap();
    assert_eq!(
        item.json().as_deref(),
        Ok(
            r#"[{"attributes":{},"name":"li","node":4,"start":4,"end":8,"children":[{"attributes":{},"name":null,"node":5,"start":8,"end":9,"text":"a"}]}]"#
        )
    );
    let page = "<ul>\n\n é<li>";
    let document = Document::parse(page).unwrap();
    let item = document.first("li").unwrap().unwrap();
    assert_eq!(item.line_of(page), Some((3, 3)));
    assert_eq!(document.first("head").unwrap().unwrap().line_of(page), None);
}

#[test]
fn links() {
    let page = "<a href=' x?a=1&amp;b '>y</a><img srcset='/s.png 1x, //b.org/l.png 2x'><a href='http://['>z</a>";
    let document = Document::parse(page).unwrap();
    let links = document.links(None).unwrap();
    let said: Vec<_> = links
        .iter()
        .map(|it| (it.key.as_str(), it.url.as_str()))
        .collect();
    let wanted = [
        ("href", "x?a=1&b"),
        ("srcset", "/s.png"),
        ("srcset", "//b.org/l.png"),
        ("href", "http://["),
    ];
    assert_eq!(said, wanted);
    assert_eq!(
        (links[1].node.name(), &links[1].target),
        (Some("img"), &None)
    );
    let targets = |page: &str, base| -> Vec<Option<String>> {
        let document = Document::parse(page).unwrap();
        let links = document.links(Some(base)).unwrap();
        links.into_iter().map(|it| it.target).collect()
    };
    let wanted = [
        Some("https://a.org/d/x?a=1&b"),
        Some("https://a.org/s.png"),
        Some("https://b.org/l.png"),
        None,
    ];
    assert_eq!(
        targets(page, "https://a.org/d/e"),
        wanted.map(|it| it.map(String::from))
    );
    for (base, wanted) in [
        ("/f/", "https://a.org/f/x"),
        ("https://c.org", "https://c.org/x"),
        ("data:text/html,x", "https://a.org/d/x"),
        ("javascript:x", "https://a.org/d/x"),
        ("http://[", "https://a.org/d/x"),
    ] {
        let page = format!("<base href='{base}'><a href=x>");
        assert_eq!(
            targets(&page, "https://a.org/d/e")[1].as_deref(),
            Some(wanted)
        );
    }
    assert_eq!(document.links(Some("x")), Err(Error::NoUrl));
    assert_eq!(join_url("x", "y"), Ok(None));
}

#[test]
fn rows_of_tables() {
    let page = "<table><tr><th rowspan=2>Name<th>Price, EUR<tr><th>\"a\"</table><table><tr></table><table></table>";
    let document = Document::parse(page).unwrap();
    let tables = document.tables().unwrap();
    assert_eq!(tables[0], [["Name", "Price, EUR"], ["Name", "\"a\""]]);
    assert_eq!(tables[1], [[""]]);
    assert!(tables[2].is_empty() && tables.len() == 3);
    assert_eq!(document.first("tr").unwrap().unwrap().rows(), Ok(None));
    let wide = format!(
        "<table><tr><td colspan=1000 rowspan=0>{}{}",
        "x".repeat(100),
        "<tr>".repeat(1000)
    );
    let document = Document::parse(&wide).unwrap();
    assert_eq!(document.tables(), Err(Error::OutOfProportion));
}

#[test]
fn selectors_that_are_read_once() {
    let items = Selector::parse("ul > li").unwrap();
    let document = Document::parse(PAGE).unwrap();
    assert_eq!(document.select(&items), document.select("ul > li"));
    let item = document.first(&items).unwrap().unwrap();
    assert_eq!(
        (item.matches(&items), item.closest(&items)),
        (Ok(true), Ok(Some(item)))
    );
    let body = document.first("body").unwrap().unwrap();
    assert_eq!(
        body.select(Selector::parse("> *").unwrap()).unwrap().len(),
        2
    );
    assert_eq!(
        (items.as_str(), items.to_string().as_str()),
        ("ul > li", "ul > li")
    );
    assert_eq!(
        edit("<p>x</p>", Selector::parse("p").unwrap(), Edit::Remove).as_deref(),
        Ok("")
    );
    let (place, cause) = (2, Cause::Unexpected);
    assert_eq!(
        Selector::parse("a ]"),
        Err(Error::NoSelector { place, cause })
    );
    for (name, wanted) in [
        ("abc-_1", "abc-_1"),
        ("1a", r"\31 a"),
        ("-1", r"-\31 "),
        ("-", r"\-"),
        ("--", "--"),
        ("a b", r"a\ b"),
        ("é\u{80}", "é\u{80}"),
        ("\0", "\u{fffd}"),
        ("\u{1f}\u{7f}", r"\1f \7f "),
        ("a.b:c", r"a\.b\:c"),
        ("", ""),
    ] {
        assert_eq!(css_escape(name), wanted);
    }
}

/// A document may be lent to several threads at once.
#[test]
fn a_document_of_several_threads() {
    let page: String = (0..200).map(|it| format!("<p id=u{it}>{it}")).collect();
    let document = Document::parse(&page).unwrap();
    thread::scope(|scope| {
        for first in 0..8 {
            let document = &document;
            scope.spawn(move || {
                for number in (first..200).step_by(3) {
                    let node = document.first(format!("#u{number}")).unwrap().unwrap();
                    assert_eq!(said(node), number.to_string());
                    assert_eq!(node.inner_html(), Ok(number.to_string()));
                }
            });
        }
    });
}

fn is_send_and_sync<T: Send + Sync>() {}

#[test]
fn types() {
    is_send_and_sync::<Document>();
    is_send_and_sync::<Node<'_>>();
    is_send_and_sync::<Selector>();
}

#[test]
fn safe_pages() {
    assert_eq!(
        sanitize("I <3 <A HREF=/x>é").as_deref(),
        Ok("I &lt;3 <a href=\"/x\">é</a>")
    );
    assert_eq!(sanitize(&"<".repeat(5000)).map(|it| it.len()), Ok(20000));
    let page = "<h1>a</h1><table><tr><td>b";
    for (policy, wanted) in [
        (Policy::Blog, "<h1>a</h1>b"),
        (Policy::Comments, "ab"),
        (
            Policy::Documents,
            "<h1>a</h1><table><tbody><tr><td>b</td></tr></tbody></table>",
        ),
    ] {
        assert_eq!(sanitize_by(policy, page).as_deref(), Ok(wanted));
    }
    assert_eq!(version().as_deref(), Ok(env!("TL_VERSION")));
}

#[test]
fn what_goes() {
    let page = "\u{feff}<P onclick=f()>é\n<script>y</script><table><td>z<a href=javascript:f()>";
    let told: Vec<_> = Policy::Blog
        .lists()
        .removed(page)
        .unwrap()
        .into_iter()
        .map(|it| {
            let place = it.line_of(page);
            (
                page[it.source].to_string(),
                it.name,
                it.key,
                it.why.to_string(),
                place,
            )
        })
        .collect();
    let of = |tag: &str, name: &str, key: Option<&str>, why: &str, place| {
        (
            tag.to_string(),
            name.to_string(),
            key.map(str::to_string),
            why.to_string(),
            place,
        )
    };
    let unlisted = "the tag isn't listed";
    assert_eq!(
        told,
        [
            of(
                "<P onclick=f()>",
                "p",
                Some("onclick"),
                "the attribute isn't listed",
                (1, 3)
            ),
            of(
                "<script>",
                "script",
                None,
                "what is in it isn't shown as markup",
                (2, 0)
            ),
            of("<table>", "table", None, unlisted, (2, 18)),
            of("<td>", "td", None, unlisted, (2, 25)),
            of(
                "<a href=javascript:f()>",
                "a",
                Some("href"),
                "the value may not stand here",
                (2, 30)
            ),
        ]
    );
    let lists = Policy::Blog.lists().tags("script");
    assert_eq!(lists.removed(page), Err(Error::NoPolicy(Reason::OpaqueTag)));
}

#[test]
fn lists_of_ones_own() {
    let page = "<P CLASS=own-a>x<A HREF=b.png>y</A><H1>z</H1><b>c</b>";
    let lists = Policy::Comments.lists();
    assert_eq!(lists.sanitize(page), sanitize_by(Policy::Comments, page));
    assert_eq!(lists.tags("").sanitize(page).as_deref(), Ok("xyzc"));
    assert_eq!(
        lists.tags("+h1,-p").sanitize(page).as_deref(),
        Ok("x<a>y</a><h1>z</h1><b>c</b>")
    );
    let lists = lists
        .tags("p,a")
        .keys("class,href")
        .classes("own-*")
        .relative_links()
        .nofollow_links();
    assert_eq!(
        lists.sanitize(page).as_deref(),
        Ok("<p class=\"own-a\">x<a rel=\"nofollow noopener\" href=\"b.png\">y</a></p>zc")
    );
    assert_eq!(lists.refused_word(), Ok(None));
    assert_eq!(
        lists.classes("+hljs").options().as_deref(),
        Ok(
            "--tags p,a\n--keys class,href,rel\n--link-keys cite,href\n--links https://,http://\n--relative-links\n--nofollow-links\n--classes hljs\n--prefix user-\n"
        )
    );
    let web = Policy::Blog.lists().link_prefixes("https://");
    assert_eq!(web.sanitize("<a href=/x>y").as_deref(), Ok("<a>y</a>"));
    let links = "<a href=b.png>x</a><a href=/y>z</a>";
    assert_eq!(
        Policy::Blog
            .lists()
            .relative_links()
            .sanitize(links)
            .as_deref(),
        Ok("<a href=\"b.png\">x</a><a href=\"/y\">z</a>")
    );
    assert_eq!(
        Policy::default()
            .lists()
            .nofollow_links()
            .sanitize(links)
            .as_deref(),
        Ok("<a>x</a><a rel=\"nofollow noopener\" href=\"/y\">z</a>")
    );
    for (lists, word, reason) in [
        (lists.tags("p,script"), "script", Reason::OpaqueTag),
        (lists.keys("onclick"), "onclick", Reason::ScriptKey),
        (lists.link_keys("src"), "href", Reason::LinkKey),
        (web.link_prefixes("data:"), "data:", Reason::ActiveScheme),
        (lists.classes("*,a*b"), "a*b", Reason::MalformedClass),
        (web.id_prefix("é"), "é", Reason::MalformedPrefix),
        (lists.tags("p,table"), "table", Reason::NoTableBody),
        (lists.tags("p,td"), "td", Reason::NoTable),
    ] {
        assert_eq!(lists.sanitize(page), Err(Error::NoPolicy(reason)));
        assert_eq!(lists.refused_word(), Ok(Some((word.to_string(), reason))));
    }
}

#[test]
fn elements() {
    let page = "<!DOCTYPE X><P>one<BR><B>two</B></P>";
    for (it, wanted) in [
        (Edit::Rename("I"), "<!DOCTYPE X><P>one<BR><i>two</i></P>"),
        (Edit::Remove, "<!DOCTYPE X><P>one<BR></P>"),
        (Edit::Unwrap, "<!DOCTYPE X><P>one<BR>two</P>"),
        (
            Edit::Replace(Content::Text("<")),
            "<!DOCTYPE X><P>one<BR>&lt;</P>",
        ),
        (
            Edit::Fill(Content::Markup("<i>x</i>")),
            "<!DOCTYPE X><P>one<BR><B><i>x</i></B></P>",
        ),
        (
            Edit::Prepend(Content::Text("x")),
            "<!DOCTYPE X><P>one<BR><B>xtwo</B></P>",
        ),
        (
            Edit::Append(Content::Text("x")),
            "<!DOCTYPE X><P>one<BR><B>twox</B></P>",
        ),
        (
            Edit::Before(Content::Text("x")),
            "<!DOCTYPE X><P>one<BR>x<B>two</B></P>",
        ),
        (
            Edit::After(Content::Text("x")),
            "<!DOCTYPE X><P>one<BR><B>two</B>x</P>",
        ),
    ] {
        assert_eq!(edit(page, "b", it).as_deref(), Ok(wanted));
        assert_eq!(edit(page, "i", it).as_deref(), Ok(page));
    }
    let (place, cause) = (18, Cause::NotMeant);
    assert_eq!(
        edit(page, "br", Edit::Fill(Content::Text("x"))),
        Err(Error::NotChanged { place, cause })
    );
    let (place, cause) = (5, Cause::Misread);
    assert_eq!(
        edit(
            "<svg><style>a</style></svg>",
            "style",
            Edit::Fill(Content::Text("<"))
        ),
        Err(Error::NotChanged { place, cause })
    );
    let (place, cause) = (8, Cause::NotWhole);
    assert_eq!(
        edit("<svg><p>x</p></svg>y", "svg", Edit::Remove),
        Err(Error::NotChanged { place, cause })
    );
    let (place, cause) = (2, Cause::NoPseudoClass);
    assert_eq!(
        edit(page, "p:hover", Edit::Remove),
        Err(Error::NoSelector { place, cause })
    );
}

/// What is said of errors, in the words that each has.
#[test]
fn texts_of_errors() {
    let (place, cause) = (7, Cause::NotMeant);
    for (error, wanted) in [
        (
            Error::NotChanged { place, cause },
            "at byte 7: this element can't be edited this way: its end tag is missing, or its kind doesn't allow it",
        ),
        (
            Error::NoPolicy(Reason::ScriptKey),
            "invalid policy: a policy can't allow this attribute: its value is a script",
        ),
        (Error::TooLong, "the page is too long"),
        (
            Error::OutOfProportion,
            "the tree of the page is out of proportion",
        ),
        (Error::OutOfMemory, "out of memory"),
    ] {
        assert_eq!(error.to_string(), wanted);
    }
}

/// A page whose tags are never closed, and are opened again in each paragraph.
#[test]
fn a_tree_out_of_proportion() {
    let fonts: String = (0..2_000).map(|it| format!("<font size={it}>")).collect();
    let page = format!("<p>{fonts}{}", "<p>x".repeat(100));
    assert_eq!(Document::parse(&page).err(), Some(Error::OutOfProportion));
}

/// A tag of many keys, whose attributes come in one answer.
#[test]
fn many_attributes() {
    let keys: String = (0..2_000)
        .map(|it| format!(" k{it}=\"{it}&amp;\""))
        .collect();
    let document = Document::parse(&format!("<p{keys} hidden>")).unwrap();
    let attributes: Vec<_> = document.first("p").unwrap().unwrap().attrs().collect();
    assert_eq!(attributes.len(), 2_001);
    assert_eq!(attributes[1_999], ("k1999", "1999&"));
}

#[test]
fn changes() {
    let page = "<!DOCTYPE X><P onclick=f()><IMG SRC=x>3 < 4</p></p>";
    assert_eq!(
        set_attribute(page, "p > img", "ALT", "a\"&b").as_deref(),
        Ok("<!DOCTYPE X><P onclick=f()><IMG alt=\"a&quot;&amp;b\" SRC=x>3 < 4</p></p>")
    );
    assert_eq!(
        unset_attribute(page, "p:not(:empty)", "onclick").as_deref(),
        Ok("<!DOCTYPE X><P><IMG SRC=x>3 < 4</p></p>")
    );
    assert_eq!(set_attribute(page, "i", "a", "b").as_deref(), Ok(page));
    let (place, cause) = (2, Cause::NoPseudoClass);
    assert_eq!(
        set_attribute(page, "p:hover", "a", "b"),
        Err(Error::NoSelector { place, cause })
    );
    let (place, cause) = (2, Cause::Unexpected);
    assert_eq!(
        set_attribute(page, "p ]", "a", "b"),
        Err(Error::NoSelector { place, cause })
    );
    let (place, cause) = (51, Cause::Untagged);
    assert_eq!(
        set_attribute(page, "p", "a", "b"),
        Err(Error::NotChanged { place, cause })
    );
}

#[test]
fn long_answers() {
    let long = "z".repeat(100_000);
    let document = Document::parse(&format!("<b>{long}</b>{}", "<i>&lt;".repeat(1000))).unwrap();
    assert_eq!(said(document.first("b").unwrap().unwrap()), long);
    assert_eq!(document.select("i").unwrap().len(), 1000);
    assert_eq!(
        said(document.first("i").unwrap().unwrap()),
        "<".repeat(1000)
    );
    assert_eq!(document.select("*").unwrap().len(), 1004);
    let quotes = format!("<p>{}", "&quot;&lt;".repeat(50_000));
    let document = Document::parse(&quotes).unwrap();
    assert_eq!(
        document.first("p").unwrap().unwrap().inner_html(),
        Ok("\"&lt;".repeat(50_000))
    );
    let longer = Document::parse(&"\u{a0}".repeat(50_000)).unwrap();
    assert_eq!(
        longer.first("body").unwrap().unwrap().inner_html(),
        Ok("&nbsp;".repeat(50_000))
    );
}

#[test]
fn threads() {
    thread::scope(|scope| {
        for number in 0..8 {
            scope.spawn(move || {
                for turn in 0..200 {
                    let page = format!("<p id=user-{number}>{turn}");
                    let document = Document::parse(&page).unwrap();
                    let paragraph = document.first("p").unwrap().unwrap();
                    assert_eq!(paragraph.attr("id"), Some(&*format!("user-{number}")));
                    assert_eq!(
                        sanitize(&page),
                        Ok(format!("<p id=\"user-{number}\">{turn}</p>"))
                    );
                }
            });
        }
    });
}

/// A document is read in one thread, asked in others and dropped in the last.
#[test]
fn a_document_that_moves() {
    let mut document = Document::parse(PAGE).unwrap();
    for _ in 0..8 {
        document = thread::spawn(move || {
            assert_eq!(document.select("li").unwrap().len(), 2);
            document
        })
        .join()
        .unwrap();
    }
}
