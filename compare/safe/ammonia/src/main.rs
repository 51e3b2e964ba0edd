//! What the Rust crate ammonia makes of pages: `TAG,TAG,..` and files, whose prints are written one after another.
//!
//! Where a newer compiler refuses tendril 0.4.0 for its `repr(packed)`, a patched copy of it with `repr(C)` does.
use ammonia::Builder;
use std::collections::HashSet;
use std::env::args;
use std::fs::read_to_string;

fn main() -> std::io::Result<()> {
    let tags = args().nth(1).unwrap_or_default();
    let tags: HashSet<&str> = tags.split(',').collect();
    // A tag may be listed or have its content taken along, not both.
    let mut builder = Builder::default();
    builder.tags(tags);
    for file in args().skip(2) {
        print!("{}", builder.clean(&read_to_string(file)?));
    }
    Ok(())
}
