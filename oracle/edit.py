#!/usr/bin/env python3
"""Puts the rules' stand-ins and the recording of mark and rounds into a copy of the Rust.

Usage: edit.py COPY ADDED
COPY is a folder with the copied .rs files, ADDED this folder's src/.
Each edit must apply exactly once; otherwise nothing is written and the status is 1.
"""
import pathlib
import sys

INFOMAP = "infomap/mod.rs"

# (file, text that stands there once, what takes its place)
EDITS = [
    # Groups are summed by lowest member.
    (INFOMAP,
     "for stats in self.modules.values() {",
     "for stats in self.modules_by_lowest_member() {"),
    (INFOMAP,
     "    fn recompute_l(&mut self) {",
     "    fn modules_by_lowest_member(&self) -> Vec<ModuleStats> {\n"
     "        let mut seen = std::collections::HashSet::new();\n"
     "        self.partition\n"
     "            .iter()\n"
     "            .filter(|m| seen.insert(**m))\n"
     "            .filter_map(|m| self.modules.get(m).copied())\n"
     "            .collect()\n"
     "    }\n\n"
     "    fn recompute_l(&mut self) {"),
    # ln by the series.
    (INFOMAP, "p * p.ln()", "p * crate::standin::ln(p)"),
    # Mark, rounds and codelength of the kept trial; whether an isolation pass moved a node.
    (INFOMAP,
     "    if network.n == 0 {\n",
     "    crate::record::begin();\n    if network.n == 0 {\n"),
    (INFOMAP,
     "    partition.copy_from_slice(&state.partition);\n",
     "    crate::record::trial(rounds, improved);\n    partition.copy_from_slice(&state.partition);\n"),
    (INFOMAP,
     "            best_l = l;\n",
     "            crate::record::keep(l);\n            best_l = l;\n"),
    (INFOMAP,
     "                state.apply_move(network, node, alone);\n",
     "                crate::record::isolated();\n                state.apply_move(network, node, alone);\n"),
]

# (file, file of ADDED that is put behind it): access to private functions.
APPENDED = [
    (INFOMAP, "infomap_access.rs"),
    ("model.rs", "model_access.rs"),
]


def main():
    if len(sys.argv) != 3:
        sys.exit("edit.py: usage: edit.py COPY ADDED")
    copy, added = (pathlib.Path(a) for a in sys.argv[1:])
    texts = {}
    for name, old, new in EDITS:
        text = texts.get(name)
        if text is None:
            try:
                text = (copy / name).read_text()
            except OSError as e:
                sys.exit(f"edit.py: cannot read {name}: {e.strerror}")
        found = text.count(old)
        if found != 1:
            sys.exit(f"edit.py: {name}: this text stands there {found} times and not once:\n{old}")
        texts[name] = text.replace(old, new)
    for name, part in APPENDED:
        text = texts.get(name) or (copy / name).read_text()
        texts[name] = text + "\n" + (added / part).read_text()
    for name, text in texts.items():
        (copy / name).write_text(text)


main()
