//! The words of `tools/bench` over the Rust crate, for `./x bench --against compare/port/crate/target/release/compare`.
use std::hint::black_box;
use std::process::exit;
use std::time::{Duration, Instant};
use tl::{ParserOptions, VDom};

// The crate's print goes down a page by recursion, so deep pages want a long stack.
const STACK: usize = 4 << 30;

struct Times {
    read: Duration,
    work: Duration,
    drop: Duration,
    answer: usize,
}

fn not_understood() -> ! {
    eprintln!("compare: WORD TEXT FILE TIMES");
    exit(2)
}

fn options(work: &str) -> ParserOptions {
    match work {
        "id" => ParserOptions::default().track_ids(),
        "class" => ParserOptions::default().track_classes(),
        _ => ParserOptions::default(),
    }
}

// Takes lines of the form `set N KEY VALUE`.
fn edit<'a>(dom: &mut VDom<'a>, steps: &'a str) -> usize {
    for line in steps.lines() {
        let words: Vec<&str> = line.splitn(4, ' ').collect();
        let ["set", node, key, value] = words[..] else { not_understood() };
        let node: usize = node.parse().unwrap_or_else(|_| not_understood());
        if let Some(tag) = dom.nodes_mut().get_mut(node).and_then(|node| node.as_tag_mut()) {
            tag.attributes_mut().insert(key, Some(value));
        }
    }
    dom.nodes().len()
}

fn texts(dom: &VDom<'_>) -> usize {
    let nodes = dom.children().iter().filter_map(|handle| handle.get(dom.parser()));
    nodes.map(|node| black_box(node.inner_text(dom.parser())).len()).sum()
}

fn again(dom: &VDom<'_>) -> usize {
    let print = dom.outer_html();
    let read = tl::parse(&print, ParserOptions::default()).expect("a short print");
    let print = read.outer_html();
    print.len()
}

fn done<'a>(work: &str, text: &'a str, dom: &mut VDom<'a>) -> usize {
    match work {
        "parse" => dom.nodes().len(),
        "print" => black_box(dom.outer_html()).len(),
        "text" => texts(dom),
        "again" => again(dom),
        "edit" => edit(dom, text),
        "select" => dom.query_selector(text).map_or(0, Iterator::count),
        "id" | "id_scan" => dom.get_element_by_id(text).map_or(0, |handle| handle.get_inner() as usize),
        "class" | "class_scan" => dom.get_elements_by_class_name(text).count(),
        _ => not_understood(),
    }
}

fn once(work: &str, text: &str, page: &str) -> Times {
    let start = Instant::now();
    let mut dom = black_box(tl::parse(page, options(work)).expect("a short page"));
    let read = start.elapsed();
    let start = Instant::now();
    let answer = black_box(done(work, text, &mut dom));
    let work = start.elapsed();
    let start = Instant::now();
    drop(dom);
    Times { read, work, drop: start.elapsed(), answer }
}

fn once_owned(page: &str) -> Times {
    let page = page.to_string();
    let start = Instant::now();
    // Safety: the guard is dropped before the function ends, and nothing of it is kept.
    let dom = black_box(unsafe { tl::parse_owned(page, ParserOptions::default()) }.expect("a short page"));
    let read = start.elapsed();
    let answer = dom.get_ref().nodes().len();
    let start = Instant::now();
    drop(dom);
    Times { read, work: Duration::ZERO, drop: start.elapsed(), answer }
}

fn run(words: &[String]) {
    let [work, text, file, times] = words else { not_understood() };
    let times: u32 = times.parse().unwrap_or_else(|_| not_understood());
    let Ok(page) = std::fs::read_to_string(file) else { exit(4) };
    let mut best: Option<Times> = None;
    for _ in 0..times.max(1) {
        let now = if work == "parse_owned" { once_owned(&page) } else { once(work, text, &page) };
        best = Some(match best {
            Some(best) => Times {
                read: best.read.min(now.read),
                work: best.work.min(now.work),
                drop: best.drop.min(now.drop),
                answer: now.answer,
            },
            None => now,
        });
    }
    let Some(best) = best else { return };
    let (read, work, drop) = (best.read.as_nanos(), best.work.as_nanos(), best.drop.as_nanos());
    println!("bytes={} parse={read} op={work} drop={drop} answer={}", page.len(), best.answer);
}

fn main() {
    let words: Vec<String> = std::env::args().skip(1).collect();
    let run = std::thread::Builder::new().stack_size(STACK).spawn(move || run(&words));
    run.expect("a thread").join().expect("a run");
}
