//! Writes the rows of the tables of a page as CSV, of each row its own cells: `table_to_csv <page.html`.
use std::error::Error;
use std::io;
use tlhtml::{Document, Node};

/// A cell in quotes.
fn quoted(cell: Node<'_>) -> String {
    let said: String = cell.text().collect();
    format!("\"{}\"", said.trim_end().replace('"', "\"\""))
}

/// Whether a node is a cell.
fn is_cell(node: Node<'_>) -> bool {
    matches!(node.name(), Some("td" | "th"))
}

fn main() -> Result<(), Box<dyn Error>> {
    let document = Document::parse(&io::read_to_string(io::stdin())?)?;
    for row in document.select("tr")? {
        let cells = row.children().filter(|it| is_cell(*it)).map(quoted);
        println!("{}", cells.collect::<Vec<_>>().join(","));
    }
    Ok(())
}
