"""Writes the rows of the tables of a page as CSV, of each row its own cells: table_to_csv.py <page.html"""
import csv
import sys

from tlhtml import Document


def main() -> None:
    out = csv.writer(sys.stdout, quoting=csv.QUOTE_ALL, lineterminator="\n")
    with Document(sys.stdin.buffer.read()) as document:
        for row in document.select("tr"):
            out.writerow([cell.text.rstrip() for cell in row.children if cell.name in ("td", "th")])


if __name__ == "__main__":
    main()
