#!/usr/bin/env python3
"""Static checks of the repository that need no proof: the handles, the crates and their folders, links between
documents, the size of files, and that binary cases are what their notations make. Prints what is wrong, and ends
with status 1 where anything is."""
import re
import sys
from pathlib import Path

TOP = Path(__file__).resolve().parent.parent
sys.path.insert(0, str(TOP / "tools"))
sys.dont_write_bytecode = True
import walnote
wrong = []


def crates():
    listed = {}
    for line in (TOP / "crates.txt").read_text().splitlines():
        line = line.split("#")[0].strip()
        if ":" in line:
            name, needs = line.split(":", 1)
            listed[name.split()[0]] = needs.split()
    return listed


def check_handles():
    if (TOP / "HANDLES").read_text() != "Handles allowed: Net.\n":
        wrong.append("HANDLES is not its one line")


def check_crates():
    listed = crates()
    folders = {p.name for p in (TOP / "crates").iterdir() if p.is_dir()}
    readme = (TOP / "README.md").read_text() + (TOP / "docs/CONTRACTS.md").read_text()
    for name in sorted(set(listed) ^ folders):
        wrong.append(f"crates/{name} and crates.txt do not agree")
    for name in sorted(listed):
        root = TOP / "crates" / name / "src"
        source = next((root / f for f in ("lib.rt", "main.rt") if (root / f).exists()), None)
        if source is None or "#![tactic(auto)]" not in source.read_text():
            wrong.append(f"{name} has no root file with #![tactic(auto)]")
        if not re.search(rf"\b{name}\b", readme):
            wrong.append(f"neither README.md nor docs/CONTRACTS.md speaks of {name}")


def check_links():
    for page in [*sorted(TOP.glob("*.md")), *sorted((TOP / "docs").rglob("*.md")), *sorted((TOP / "examples").rglob("*.md"))]:
        for target in re.findall(r"\]\(([^)#:]+)(?:#[^)]*)?\)", page.read_text()):
            if not (page.parent / target).exists():
                wrong.append(f"{page.relative_to(TOP)} points to {target}, which is not there")


def check_sizes():
    for path in sorted((TOP / "crates").glob("*/src/**/*.rt")):
        if len(path.read_text().splitlines()) > 800:
            wrong.append(f"{path.relative_to(TOP)} has more than 800 lines")


def check_notations():
    notes = sorted((TOP / "crates").glob("*/data/**/*.note"))
    cases = [path for path in sorted((TOP / "crates").glob("*/stdin")) if " | " in path.read_text(errors="replace")]
    wrong.extend(walnote.wrong([*notes, *cases]))


check_handles()
check_crates()
check_links()
check_sizes()
check_notations()
for line in wrong:
    print(line)
print(f"static checks: {len(wrong)} wrong")
sys.exit(1 if wrong else 0)
