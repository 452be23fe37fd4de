#!/usr/bin/env python3
"""Moves the twenty-five crates of commit 63d71c0 into the thirteen of today, by `git mv`, and respells what names them.

  regroup.py     run once at the root of a checkout with the old crates; commit what it leaves

A change that was made over the old crates is brought over so: check out 63d71c0, run this there and commit; apply the
change to another checkout of 63d71c0, run this there too; the difference of the two is the change over the new crates.
"""
import pathlib
import re
import subprocess

CRATES = pathlib.Path("crates")

# old crate: new crate
CRATE = {
    "progress": "element", "path": "element", "writer": "element", "encoding": "certificate", "certificate": "chain",
    "pool": "chain", "tokens": "text", "message": "text", "progress_tests": "tests", "element_tests": "tests",
    "encoding_tests": "tests", "text_tests": "tests", "shortest_tests": "tests", "session_tests": "tests",
}

# (old crate, its file below src): file of the new crate
SOURCE = {
    ("progress", "state.rt"): "progress.rt", ("progress", "place.rt"): "progress/place.rt", ("progress", "reader.rt"): "progress/stepping.rt",
    ("writer", "lib.rt"): "writing.rt", ("certificate", "lib.rt"): "input.rt", ("chain", "lib.rt"): "judging.rt",
    ("tokens", "pieces.rt"): "tokens.rt", ("message", "lib.rt"): "answers.rt", ("encoding_tests", "lib.rt"): "permits.rt", ("progress_tests", "lib.rt"): "places.rt", ("element_tests", "lib.rt"): "elements.rt",
    ("text_tests", "lib.rt"): "lines.rt", ("shortest_tests", "lib.rt"): "chains.rt", ("session_tests", "lib.rt"): "answers.rt",
}

# root files of which only the modules and the reexports were left: they are written anew below
DROPPED = [("progress", "lib.rt"), ("path", "lib.rt"), ("pool", "lib.rt"), ("tokens", "lib.rt")]

# old crate: folders of answers that lie elsewhere now, as prefixes
ANSWERS = {
    "progress": [("reader/", "progress/stepping/"), ("state/", "progress/")],
    "certificate": [("PoolInput/", "input/PoolInput/")],
    "chain": [("judge_chain/", "judging/judge_chain/")],
    "tokens": [("pieces/", "tokens/")],
    "message": [("push_indent/", "answers/push_indent/"), ("push_row/", "answers/push_row/")],
}

# old crate: files of specs that have another name now
SPECS = {"tokens": {"Pieces": "Tokens"}}

# what a path in a clause or a proof says now, in this order
PATHS = [
    ("progress.specs.declared.state.Progress", "element.specs.declared.progress.Progress"),
    ("progress.specs.declared.state.Status", "element.specs.declared.progress.Status"),
    ("progress.specs.declared.place", "element.specs.declared.progress.place"),
    ("progress.proofs.state", "element.proofs.progress"),
    ("progress.proofs.reader", "element.proofs.progress.stepping"),
    ("writer.specs.declared.WriteError", "element.specs.declared.writing.WriteError"),
    ("certificate.specs.declared.PoolInput", "chain.specs.declared.input.PoolInput"),
    ("certificate.specs.declared.Rejection", "chain.specs.declared.input.Rejection"),
    ("certificate.proofs.PoolInput", "chain.proofs.input.PoolInput"),
    ("chain.proofs.judge_chain", "chain.proofs.judging.judge_chain"),
    ("tokens.specs.Pieces", "text.specs.Tokens"),
    ("tokens.proofs.pieces", "text.proofs.tokens"),
    ("message.proofs.push_indent", "text.proofs.answers.push_indent"),
    ("message.proofs.push_row", "text.proofs.answers.push_row"),
    ("certificate.", "chain."), ("progress.", "element."), ("path.", "element."), ("writer.", "element."),
    ("pool.", "chain."), ("tokens.", "text."), ("message.", "text."), ("encoding.", "certificate."),
]

# (new crate, item): the module that has it, for uses within the crate
MODULE = {
    "element": {"judge": "judging", "Ill": "judging", "Verdict": "judging", "Opening": "judging", "Reader": "judging", "Progress": "progress", "Status": "progress",
                "ill_place": "progress::stepping", "Cursor": "walking", "Element": "walking", "find": "paths", "locate": "paths", "piece": "paths", "Span": "paths"},
    "chain": {**{n: "input" for n in ("PoolInput", "Rejection", "MOST", "SIX", "SUBJECT", "ISSUER", "NOT_BEFORE", "NOT_AFTER", "MAY_ISSUE", "PATH_LEN", "YES")},
              "Member": "member", "PoolView": "view", "issues": "judging", "judge_chain": "judging"},
    "text": {"Lines": "tokens", "Words": "tokens"},
}

ROOTS = {
    "element": """// Elements: bytes judged, walked along, found by their paths, and written.
#![tactic(auto)]

mod judging;
mod paths;
mod progress;
mod walking;
mod writing;

pub use judging::{Ill, Opening, Reader, judge};
pub use paths::{Span, find, locate, piece, piece_means_stands};
pub use progress::stepping::{ill_place, one_place_stands};
pub use progress::{Progress, Status};
pub use walking::{Cursor, Element, cursor_gives_stands};
pub use writing::{WriteError, append_constructed, append_primitive};
""",
    "chain": """// Certificates that are six numbers each: what is rejected, which pool they are, who issues whom, and what is a chain.
#![tactic(auto)]

mod checks;
pub mod input;
mod judging;
pub mod member;
mod places;
pub mod view;

pub use input::{
    ISSUER, MAY_ISSUE, MOST, NOT_AFTER, NOT_BEFORE, PATH_LEN, PoolInput, Rejection, SIX, SUBJECT, YES,
};
pub use judging::{issues, judge_chain};
pub use member::Member;
pub use view::PoolView;
""",
    "text": """// The lines of the program's text read into commands, and the texts of the answers.
#![tactic(auto)]

ghost use Rattle.text.specs.Promise.{FiguresStand, LinesStand, WordsStand};

mod answers;
mod command;
mod error;
mod figures;
mod tokens;

pub use answers::{
    append_bytes, append_chain, append_element, append_ill, append_none, append_refusal,
};
pub use command::{Command, read_line};
pub use error::LineError;
pub use tokens::{Lines, Words};

// A text has just those lines that stand between its line feeds.
pub fn lines_stands() -> u8
    ensures { LinesStand }
{
    0
}

// A line has just those words that stand between its blanks.
pub fn words_stands() -> u8
    ensures { WordsStand }
{
    0
}

// Numbers and bytes that are written are read again as they were.
pub fn figures_stands() -> u8
    ensures { FiguresStand }
{
    0
}
""",
    "tests": """// Tests that cross crates, a module for each part.
#![tactic(auto)]

mod answers;
mod chains;
mod elements;
mod lines;
mod permits;
mod places;
""",
}

LIST = """# A line for each crate: its name and the crates that it stands on.
format:
trust:
length: format
element: format length
certificate: format element trust
chain: trust
shortest: format element trust chain
text: itoa
session: format element certificate trust chain shortest text
permit: session text anyhow
gate staticlib: element chain shortest
trials: element chain shortest anyhow
tests: element certificate chain shortest text session
"""


def git(*words):
    subprocess.run(["git", *words], check=True)


def move(old, new):
    new.parent.mkdir(parents=True, exist_ok=True)
    git("mv", str(old), str(new))


def new_file(crate, part):
    """Where a file of an old crate lies in the new one, by its path below the old crate; none for what is dropped."""
    kind, _, rest = part.partition("/")
    if kind == "src":
        if (crate, rest) in DROPPED:
            return None
        return "src/" + SOURCE.get((crate, rest), rest)
    if kind == "proofs":
        if rest == "Lib.antt":
            return None
        for old, new in ANSWERS.get(crate, []):
            if rest.startswith(old):
                return "proofs/" + new + rest[len(old):]
    if kind == "specs":
        if rest == "Lib.antt":
            return None
        name = rest.removesuffix(".antt")
        return "specs/" + SPECS.get(crate, {}).get(name, name) + ".antt"
    return part


def respell_paths(text):
    for old, new in PATHS:
        text = re.sub(r"Rattle\." + re.escape(old), "Rattle\0" + new, text)
    return text.replace("Rattle\0", "Rattle.")


def items(names):
    return [n.strip() for n in names.strip("{}").replace("\n", " ").split(",") if n.strip()]


def respell_uses(text, crate):
    """The `use` lines of a source in a new crate."""
    def one(m):
        indent, old, names = m[1], m[2], m[3]
        if old in ("std", "crate", "anyhow", "itoa", "super", "self") or (old not in CRATE and old not in CRATE.values() and old not in NEW):
            return m[0]
        target = CRATE.get(old, old)
        if target != crate or crate == "tests":
            return f"{indent}use {target}::{names};"
        by = {}
        for item in items(names):
            by.setdefault(MODULE[crate][item], []).append(item)
        return "\n".join(f"{indent}use crate::{mod}::{g[0] if len(g) == 1 else '{' + ', '.join(g) + '}'};" for mod, g in by.items())
    return re.sub(r"^( *)use ([a-z_]+)::([^;]*);", one, text, flags=re.M)


def merge_uses(text):
    """Two `use` lines of one crate beside each other become one."""
    lines = {}
    def names(m):
        return items(m)
    pattern = re.compile(r"^( *)use ([a-z_]+(?:::[a-z_]+)*)::(\{[^;]*\}|\w+);\n", re.M)
    for m in pattern.finditer(text):
        lines.setdefault((m[1], m[2]), []).append(m)
    for (indent, path), found in lines.items():
        if len(found) < 2:
            continue
        all_names = sorted({n for m in found for n in names(m[3])}, key=lambda n: (n.islower(), n))
        whole = f"{indent}use {path}::{{{', '.join(all_names)}}};\n"
        for m in found[1:]:
            text = text.replace(m[0], "", 1)
        text = text.replace(found[0][0], whole, 1)
    return text


def main():
    global NEW
    old = [p.name for p in CRATES.iterdir() if p.is_dir()]
    NEW = {CRATE.get(n, n) for n in old}
    mods = {}
    for name in sorted(old):
        for kind in ("specs", "proofs"):
            lib = CRATES / name / kind / "Lib.antt"
            if lib.is_file():
                got = [SPECS.get(name, {}).get(m, m) if kind == "specs" else m for m in re.findall(r"^pub mod (\w+)", lib.read_text(), re.M)]
                mods.setdefault((CRATE.get(name, name), kind), []).extend(got)
    # tokens and text both have a file Promise: one file holds both
    tracked = subprocess.run(["git", "ls-files", "crates"], capture_output=True, text=True, check=True).stdout.splitlines()
    moves, gone = [], []
    # out of the way first, since `certificate` is both an old name and a new one
    for file in tracked:
        _, name, part = file.split("/", 2)
        if name not in CRATE and name != "chain":
            continue
        to = new_file(name, part)
        if name == "tokens" and part == "specs/Promise.antt":
            to = "specs/LinesAndWords.antt"
        if to is None:
            gone.append(file)
        else:
            moves.append((file, f"crates/{CRATE.get(name, name)}/{to}"))
    for file in gone:
        git("rm", "-q", file)
    for i, (a, b) in enumerate(moves):
        move(pathlib.Path(a), pathlib.Path(f"crates/.moving/{i}"))
    for i, (a, b) in enumerate(moves):
        move(pathlib.Path(f"crates/.moving/{i}"), pathlib.Path(b))
    subprocess.run(["rm", "-rf", "crates/.moving"])
    # the two files Promise of text
    promise, more = CRATES / "text/specs/Promise.antt", CRATES / "text/specs/LinesAndWords.antt"
    if more.is_file():
        head, body = [], []
        for f in (more, promise):
            for line in f.read_text().splitlines():
                (head if line.startswith("use ") else body).append(line)
        body = [l for l in body if not l.startswith("-- What is promised of")]
        prelude = sorted({n for l in head if "Prelude" in l for n in items(l.split(".{")[1][:-1])})
        rest = sorted({l for l in head if "Prelude" not in l})
        text = "-- What is promised of lines, words and figures. Each is a statement; a function of the crate has it as its contract.\n"
        text += "use Rattle.std.specs.Prelude.{" + ", ".join(prelude) + "}\n" + "\n".join(rest) + "\n" + "\n".join(body) + "\n"
        promise.write_text(re.sub(r"\n\n\n+", "\n\n", text))
        git("rm", "-qf", str(more))
    for (crate, kind), names in mods.items():
        if crate in NEW:
            lib = CRATES / crate / kind / "Lib.antt"
            lib.parent.mkdir(parents=True, exist_ok=True)
            lib.write_text("".join(f"pub mod {n}\n" for n in sorted(set(names))))
    for crate, text in ROOTS.items():
        (CRATES / crate / "src/lib.rt").write_text(text)
    for file in CRATES.rglob("*"):
        if file.suffix not in (".rt", ".antt") or "out" in file.parts:
            continue
        crate = file.parts[1]
        text = respell_paths(file.read_text())
        if file.suffix == ".rt":
            text = respell_uses(text, crate)
            if crate == "element":
                text = text.replace("crate::state::", "crate::progress::").replace("crate::place::", "crate::progress::place::")
            if crate == "chain":
                text = re.sub(r"use crate::\{([A-Z_, a-zA-Z]*)\};", r"use crate::input::{\1};", text)
            if crate == "text":
                text = text.replace("use tokens::Words;", "use crate::tokens::Words;").replace("crate::pieces::", "crate::tokens::")
            if file.name not in ("lib.rt", "main.rt"):
                text = text.replace("#![tactic(auto)]\n\n", "")
            text = merge_uses(text)
        file.write_text(text)
    chain_input = CRATES / "chain/src/input.rt"
    chain_input.write_text(chain_input.read_text().replace("mod checks;\nmod places;\n\n", ""))
    progress = CRATES / "element/src/progress.rt"
    progress.write_text(progress.read_text().replace("use crate::progress::place::Place;\n", "pub(crate) mod place;\npub(crate) mod stepping;\n\nuse place::Place;\n"))
    for old, new in moves:
        if new.endswith(".edit"):
            crate = old.split("/")[1]
            edit = pathlib.Path(new)
            edit.write_text(re.sub(r"^file: (\S+)", lambda m: "file: " + (new_file(crate, m[1]) or m[1]), edit.read_text()))
    for folder in sorted((p for p in CRATES.rglob("*") if p.is_dir()), reverse=True):
        if not any(folder.iterdir()):
            folder.rmdir()
    pathlib.Path("crates.txt").write_text(LIST)
    git("add", "-A", "crates", "crates.txt")


main()
