//! Makes what a reader typed safe to show in a page: `comment_sanitizer <comment.txt >comment.html`.
use std::error::Error;
use std::io;

fn main() -> Result<(), Box<dyn Error>> {
    let comment = io::read_to_string(io::stdin())?;
    print!("{}", tlhtml::sanitize(&comment)?);
    Ok(())
}
