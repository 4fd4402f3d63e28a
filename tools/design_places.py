#!/usr/bin/env python3
"""Lists the lines of crates/*/src at a commit that can be a place of the older forms which docs/DESIGN-PASS.md counts.

    python3 tools/design_places.py [COMMIT] [POINT]

With no point it prints how many lines there are for each; with one, the lines. With no commit it reads the working files.
A line is only where to look: the page says which lines are places.
"""
import pathlib
import re
import subprocess
import sys

POINTS = {
    "1": ("kinds and refusals as numbers, enums, pairs that are answered",
          r"enum [A-Z]|\) -> \(|const [A-Z_0-9]+: u8 = 0x|weigh\(|register: u8|return Err\(anyhow"),
    "2": ("functions, to be read side by side",
          r"^ *(pub(\(crate\))? )?fn "),
    "3": ("loops, and elements taken by a counted index",
          r"^ *(for|while|loop) |\w\[[a-z_.]+( [-+] 1)?\]"),
    "4": ("conversions, comparisons and printing",
          r" as u(8|16)|matches!|\* 256|& 0xFF|>> 8|/ 2|impl .* for |fn (by_[a-z]+|number|none|place|words)\(|is_err\(\)"
          r"|[a-z]: (0|false),$"),
    "5": ("facts asked and said, and parameters that travel together",
          r"requires|table: &mut \[Controller\]|rt: &HostRuntime|settings: &Settings|ensures (made|empty)|place: usize"
          r"|\{ page_ring "),
    "6": ("arrays and lengths that are kept",
          r"^ +(pub(\(crate\))? )?\w+: (\[|usize,)|\[Controller::new\(\); MOST\]"),
    "7": ("switches that say whether or which step runs",
          r"asked: bool|dyn |\bFn(Mut|Once)?\(|match register"),
}


def sources(commit):
    """The files below crates/*/src, with their lines."""
    if commit is None:
        for path in sorted(pathlib.Path(".").glob("crates/*/src/**/*.rt")):
            yield str(path), path.read_text().splitlines()
        return
    names = subprocess.run(["git", "ls-tree", "-r", "--name-only", commit, "crates"], capture_output=True, text=True, check=True)
    for name in sorted(names.stdout.split()):
        if re.match(r"crates/[^/]+/src/.*\.rt$", name):
            shown = subprocess.run(["git", "show", f"{commit}:{name}"], capture_output=True, text=True, check=True)
            yield name, shown.stdout.splitlines()


def main():
    words = sys.argv[1:]
    point = words.pop() if words and words[-1] in POINTS else None
    commit = words[0] if words else None
    files = list(sources(commit))
    for key, (what, pattern) in POINTS.items():
        if point not in (None, key):
            continue
        hits = [(name, number, line) for name, lines in files for number, line in enumerate(lines, 1)
                if not line.lstrip().startswith("//") and re.search(pattern, line)]
        print(f"{key}. {what}: {len(hits)} lines")
        if point:
            for name, number, line in hits:
                print(f"{name}:{number}: {line.strip()}")


main()
