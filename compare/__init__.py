"""Comparisons of the programs with plain readers, with browsers and with other programs: `./x compare`.

A folder has all that one thing is compared by, with the pages that a browser takes and the crates of Rust: port, html (tokens, trees and
what is asked of these), css, edits, safe, encodings; others has other programs. The pages that are made up are those of made.
"""
