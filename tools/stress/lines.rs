//! Texts of very many lines that say steps.
use crate::deep::repeat;
use crate::wrong::{Wrong, expect};
use std::alloc::Global;
use tl::{ParserOptions, parse};
use tl_program::script::{run, steps};

/// So many lines are read as steps, and these are taken.
pub fn all(alloc: Global, count: u32) -> Result<(), Wrong> {
    let lines = repeat(alloc, "set 0 k v\n", count, "")?;
    let Some(steps) = steps(alloc, lines.as_str())? else {
        return Err(Wrong::Answer("each line says a step"));
    };
    expect(steps.len() == count as usize, "each line says one step")?;
    let mut document = parse(alloc, "<a></a>", ParserOptions::new())?;
    expect(
        run(alloc, &mut document, steps.as_slice()).is_ok(),
        "the steps are taken",
    )?;
    expect(
        document.outer_html(alloc)?.as_str() == "<a k=\"v\"></a>",
        "the last step is that of all",
    )
}
