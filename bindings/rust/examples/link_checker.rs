//! Names the links of pages that lead to no file beside them, or to no place in the page: `link_checker PAGE..`. Links with a scheme or a
//! host aren't looked at. Status 1 says that some lead nowhere.
use std::error::Error;
use std::fs;
use std::path::Path;
use std::process::ExitCode;
use tlhtml::Document;

/// Whether an element of the document is the place that a link `#id` leads to.
fn has_place(document: &Document, id: &str) -> Result<bool, tlhtml::Error> {
    let quoted = id.replace('\\', "\\\\").replace('"', "\\\"");
    Ok(document
        .first(format!("[id=\"{quoted}\"], a[name=\"{quoted}\"]"))?
        .is_some())
}

/// Whether a link of a page leads somewhere.
fn leads(document: &Document, page: &str, link: &str) -> Result<bool, tlhtml::Error> {
    if let Some(id) = link.strip_prefix('#') {
        return Ok(id.is_empty() || has_place(document, id)?);
    }
    let path = link.split(['?', '#']).next().unwrap_or_default();
    let has_scheme = link
        .find([':', '/', '?', '#'])
        .is_some_and(|at| link[at..].starts_with(':'));
    Ok(has_scheme || link.starts_with('/') || Path::new(page).with_file_name(path).exists())
}

/// Names the links of a page that lead nowhere, and says how many they are.
fn check(page: &str) -> Result<usize, Box<dyn Error>> {
    let document = Document::parse(&fs::read_to_string(page)?)?;
    let mut lost = 0;
    for (selector, key) in [("a[href]", "href"), ("img[src]", "src")] {
        for node in document.select(selector)? {
            let link = node.attr(key).unwrap_or_default();
            if !leads(&document, page, link)? {
                println!("{page}: {link}");
                lost += 1;
            }
        }
    }
    Ok(lost)
}

fn main() -> ExitCode {
    let mut lost = 0;
    for page in std::env::args().skip(1) {
        lost += check(&page).unwrap_or_else(|error| {
            eprintln!("{page}: {error}");
            1
        });
    }
    ExitCode::from(u8::from(lost > 0))
}
