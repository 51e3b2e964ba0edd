"""Makes a crate in this workspace, or a workspace of its own whose program reads pages with `tl`.

    ./x new NAME [LIBRARY..]        a library in crates/NAME that stands on these, with its line in crates.txt
    ./x new --program NAME ..       a program
    ./x new --workspace DIR         a workspace in the folder DIR, which is not there or empty: `tl_tree_select` and what it stands on,
                                    as ./x vendor copies them, and the program `page`, which prints what the links of a page say:
                                    the caller of crates/uses/src/values.rt, with its definition and its clause

What is made compiles (`rt try`) and is proved (`rt check`) as it stands: a crate begins with one function, whose clause cites the
definition in `specs`. What more a new crate here wants say CONTRIBUTING.md, and docs/DECISIONS.md (Crates).
"""
import os
import re

from ..vendoring import vendor
from ..workspace import ROOT, Stop, Workspace, put, text_of

PROGRAM = "page"
# The library below the program of a new workspace, and the crate with the caller, whose parts are copied.
BELOW = "tl_tree_select"
CALLER = "uses"
PARTS = ("src/values.rt", "specs/Values.antt")
PROOFS = "proofs/values/values"
SOURCE = """//! Prints what the links of a page say.
#![tactic(auto)]

mod values;

use anyhow::Result;
use std::io::{Read, Write};
use tl_css::parse;
use tl_tree::{Flags, Tree};
use values::values;

// Pages are read by the HTML standard, without scripts.
const FLAGS: Flags = Flags {
    is_scripting: false,
    counts_search: true,
};

fn main(rt: HostRuntime) -> Result<()> {
    let mut page = Vec::new(rt.alloc());
    rt.stdin().read_to_end(&mut page)?;
    let tree = Tree::read(rt.alloc(), page.as_slice(), FLAGS)?;
    let links = parse(rt.alloc(), "a")?;
    let lines = values(rt.alloc(), &tree, &links, "href")?;
    let mut out = rt.stdout();
    out.write_all(lines.as_slice())?;
    out.flush()?;
    Ok(())
}
"""
LIBRARY = """//! (What this crate is for.)
#![tactic(auto)]

pub mod line;
"""
MAIN = """//! (What this program does.)
#![tactic(auto)]

mod line;

use anyhow::Result;
use line::line;
use std::io::Write;

fn main(rt: HostRuntime) -> Result<()> {
    let mut out = rt.stdout();
    out.write_all(line(rt.alloc(), "Hello")?.as_bytes())?;
    out.flush()?;
    Ok(())
}
"""
# One function with its clause, and the definition that it cites.
FUNCTION = """//! Lines (to be replaced by what this crate is for).
ghost use Rattle.std.specs.Prelude.{{◌≡◌, IfOk, string_bytes}};
ghost use Rattle.{name}.specs.Line.{{line}};

use std::alloc::{{AllocError, Global}};

/// A text and a newline.
pub fn line(alloc: Global, text: &str) -> Result<String, AllocError>
    ensures {{ IfOk result (λ written. string_bytes written ≡ line text.now) }}
{{
    let mut written = String::new(alloc);
    written.push_str(text)?;
    written.push('\\n')?;
    Ok(written)
}}
"""
DEFINITION = """-- Lines.
use Rattle.std.specs.Prelude.{ℕ, List, [], ◌∷◌, ◌++◌}

-- a text and a newline
abbrev pub line : List ℕ → List ℕ
line text = text ++ 10 ∷ []
"""
README = """# `{name}`

(What this crate gives, what is proved of it and by which clause, what is only tested.)
"""


def make_workspace(folder):
    """Makes a workspace over `tl_tree_select` with a program."""
    if os.path.exists(folder) and os.listdir(folder):
        raise Stop(f"{folder} is not empty")
    os.makedirs(f"{folder}/crates", exist_ok=True)
    libraries = f"{BELOW} tl_tree tl_css anyhow"
    put(f"{folder}/crates.txt", f"# prints what the links of a page say\n{PROGRAM}: {libraries}\n")
    put(f"{folder}/HANDLES", "Handles allowed: none.\n")
    put(f"{folder}/.gitignore", "out/\n")
    put(f"{folder}/crates/{PROGRAM}/src/main.rt", SOURCE)
    put(f"{folder}/crates/{PROGRAM}/specs/Lib.antt", "pub mod Values\n")
    proofs = [f"{PROOFS}/{it}" for it in sorted(os.listdir(f"{ROOT}/crates/{CALLER}/{PROOFS}"))]
    for part in [*PARTS, *proofs]:
        text = text_of(f"{ROOT}/crates/{CALLER}/{part}")
        put(f"{folder}/crates/{PROGRAM}/{part}", text.replace(f"Rattle.{CALLER}.", f"Rattle.{PROGRAM}."))
    vendor(folder, BELOW)


def make_crate(name, libraries, is_program):
    """Makes a crate here, and its line."""
    workspace = Workspace()
    if not re.fullmatch(r"[a-z][a-z0-9_]*", name):
        raise Stop(f"{name}: a crate's name has small letters, digits and _, a letter first")
    if name in workspace.libraries or os.path.exists(workspace.folder(name)):
        raise Stop(f"crates/{name} is there already, or crates.txt has a line of it")
    for it in libraries:
        if it not in workspace.libraries and not os.path.isdir(f"{workspace.kit}/rlibs/{it}.rlib"):
            raise Stop(f"{it} is no library of crates.txt or of the kit")
    folder = workspace.folder(name)
    put(f"{folder}/src/{'main' if is_program else 'lib'}.rt", MAIN if is_program else LIBRARY)
    put(f"{folder}/src/line.rt", FUNCTION.format(name=name))
    put(f"{folder}/specs/Lib.antt", "pub mod Line\n")
    put(f"{folder}/specs/Line.antt", DEFINITION)
    put(f"{folder}/README.md", README.format(name=name))
    if is_program and "anyhow" not in libraries:
        libraries = [*libraries, "anyhow"]
    line = f"{name}: {' '.join(libraries)}".rstrip()
    put(f"{ROOT}/crates.txt", text_of(f"{ROOT}/crates.txt") + f"# (what it is for)\n{line}\n")
    print(f"new: crates/{name}, and its line at the end of crates.txt: what stands there in brackets is yours to say")


def main(parser, words):
    kind = parser.add_mutually_exclusive_group()
    kind.add_argument("--program", action="store_true")
    kind.add_argument("--workspace", action="store_true")
    parser.add_argument("name", metavar="NAME")
    parser.add_argument("libraries", nargs="*", metavar="LIBRARY")
    given = parser.parse_args(words)
    if given.workspace and given.libraries:
        parser.error("--workspace takes one folder")
    if given.workspace:
        make_workspace(given.name)
        print(f"new: {given.name}: `rt run` in {given.name}/crates/{PROGRAM} proves and runs its program")
    else:
        make_crate(given.name, given.libraries, given.program)
    return 0
