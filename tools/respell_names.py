#!/usr/bin/env python3
"""Brings the repository's own names of specs/ and proofs/ to one spelling: definitions, lemmas, fields and constructors in snake case.

usage: python3 tools/respell_names.py [--list]      at the top of the repository, once, after the spelling of the language was turned

A name is turned where a signature in an .antt file declares it, it begins with a small letter, and it has a capital, a dash or a prime:
`leastFrom` and `least-from` become `least_from`. Types, modules, and what the checker names (`Need-..`, goals, steps) stay. Names that a file takes from
a library stay in that file. The name that a file gives to an import (`lowest as lowestOf`) is turned too. Turned are .antt files, .rt files and the lines `old:` and `new:` of .edit files; in comments and pages what
stands in backticks. Where two names would fall together, FALLEN gives one of them another name. --list prints what would be turned.
"""
import os
import re
import sys
from collections import defaultdict

# Names that would fall together with another one: what they become.
FALLEN = {
    "of-z": "of_z_law",
    "answered-slip": "answered_slip_law",
    "at-corner": "at_corner_law",
    "child-control": "child_control_law",
    "corner-at": "corner_at_law",
    "corner-digit": "corner_digit_law",
    "corner-values": "corner_values_law",
    "corner-volume": "corner_volume_law",
    "corners-of": "corners_of_law",
    "count-to": "count_to_law",
    "counted-by": "counted_by_law",
    "counts-held": "counts_held_law",
    "counts-total": "counts_total_law",
    "edge-digit": "edge_digit_law",
    "edge-volume": "edge_volume_law",
    "fault-by": "fault_by_law",
    "first-low": "first_low_law",
    "greatest-to": "greatest_to_law",
    "high-word": "high_word_fits",
    "in-row": "in_row_law",
    "inspection-back": "inspection_back_law",
    "least-to": "least_to_law",
    "low-at": "low_at_law",
    "low-word": "low_word_fits",
    "name-numbers": "name_numbers_law",
    "no-counts": "no_counts_law",
    "on-axis": "on_axis_law",
    "one-limit": "one_limit_law",
    "only-valid": "only_valid_law",
    "open-all": "open_all_law",
    "opened-at": "opened_at_law",
    "own-mesh": "own_mesh_law",
    "part-numbers": "part_numbers_law",
    "part-said": "part_said_law",
    "refusal-by": "refusal_by_law",
    "side-below": "side_below_law",
    "slip-by": "slip_by_law",
    "sparse-dot": "sparse_dot_law",
    "stamp-of-records": "stamp_of_records_law",
    "value-held": "value_held_law",
    "values-at": "values_at_law",
    "well-sized": "well_sized_law",
    "written-length": "written_length_law",
}

# Names of one file that would hide one of these: what they become there, first.
LOCAL = {
    "crates/inspector/specs/Own.antt": {"in_order": "in_order_law"},
    "crates/lot_format/specs/Between.antt": {"in_place": "placed"},
    "crates/lot_format/specs/Entries.antt": {"in_place": "placed"},
    "crates/search_theory/specs/Levels.antt": {"count_room": "count_room_law"},
    "crates/search_theory/specs/Lowest.antt": {"open_after": "open_after_law"},
    "crates/verdict_theory/specs/Extremes.antt": {"with_all": "with_all_law"},
}

WORD = re.compile(r"[^\W\d][\w'′\-]*", re.UNICODE)
SIGNATURE = re.compile(r"^\s*(?:(?:abbrev|unfoldable|pub|opaque)\s+)*([^\s:(){},;.]+)\s+:\s+(.*)$")
SEVERAL = re.compile(r"^\s+(?:pub\s+)?((?:[^\s:(){},;.]+\s+)+)[^\s:(){},;.]+\s+:\s+")
IMPORT = re.compile(r"^\s*(?:ghost\s+)?use\s+([\w·.+'’\-:]+?)\.\{([^}]*)\}")


def files(root, *ends):
    for folder, below, names in os.walk(root):
        below[:] = sorted(d for d in below if d not in ("out", "target", ".git"))
        for name in sorted(names):
            if name.endswith(ends):
                yield os.path.join(folder, name)


def read(path):
    with open(path, encoding="utf-8") as f:
        return f.read()


def snake(name):
    name = name.replace("′", "'")
    name = re.sub(r"(?<=[a-z0-9ℕℤ])([A-Z])", lambda m: "_" + m.group(1).lower(), name)
    return name.replace("-", "_")


def turns(name):
    return name[0].islower() and bool(re.search(r"[A-Z′]|\w-\w", name)) or "′" in name


def declared(root):
    """Each name to be turned, with the files that declare it."""
    found = defaultdict(set)
    every = defaultdict(set)
    for path in files(os.path.join(root, "crates"), ".antt"):
        for line in read(path).splitlines():
            m = SIGNATURE.match(line)
            if not m:
                continue
            name, of = m.groups()
            every[name].add(path)
            if turns(name) and not of.startswith(("tie.", "goal.", "{M : Type 1} → statement")):
                found[name].add(path)
    return found, every


def imported(text, crates):
    """What a file takes from libraries."""
    out = set()
    for line in text.splitlines():
        m = IMPORT.match(line)
        if m:
            parts = m.group(1).split(".")
            if parts[0] != "Rattle" or len(parts) < 2 or parts[1] not in crates:
                for it in m.group(2).split(","):
                    out.add(it.split(" as ")[-1].strip())
    return out


def given(root):
    """The names that files give to what they import, each with its new one."""
    out = {}
    for path in files(os.path.join(root, "crates"), ".antt", ".rt"):
        for line in read(path).splitlines():
            m = IMPORT.match(line)
            for it in m.group(2).split(",") if m else ():
                name = it.split(" as ")[-1].strip()
                if " as " in it and turns(name):
                    out[name] = snake(re.sub(r"(?<=[a-z])[A-Z]+", lambda m: "_" + m.group().lower(), name))
    return out


def turn_words(text, names, keep):
    return WORD.sub(lambda m: names[m.group()] if m.group() in names and m.group() not in keep else m.group(), text)


def turn_ticks(text, names):
    return re.sub(r"`[^`\n]*`", lambda m: turn_words(m.group(), names, ()), text)


def turn_code(text, names, keep, comment, strings):
    """Code is turned whole, a comment within backticks, a string not at all."""
    out = []
    for line in text.split("\n"):
        at, i, quoted = len(line), 0, False
        pieces = []
        start = 0
        while i < len(line):
            if strings and line[i] == '"':
                j = i + 1
                while j < len(line) and line[j] != '"':
                    j += 2 if line[j] == "\\" else 1
                pieces.append(turn_words(line[start:i], names, keep))
                pieces.append(line[i:j + 1])
                i = start = j + 1
                continue
            if line.startswith(comment, i) and (i == 0 or line[i - 1] in " \t"):
                break
            i += 1
        i = max(i, start)
        pieces.append(turn_words(line[start:i], names, keep))
        pieces.append(turn_ticks(line[i:], names))
        out.append("".join(pieces))
    return "\n".join(out)


def main(root, only_list):
    crates = set(os.listdir(os.path.join(root, "crates")))
    found, every = declared(root)
    names = given(root) | {n: FALLEN.get(n, snake(n)) for n in found}
    if only_list:
        for n in sorted(names):
            print(n, names[n], ",".join(sorted(os.path.relpath(p, root) for p in found[n])))
        return fallen(root, crates, names, every)
    for path, local in LOCAL.items():
        path = os.path.join(root, path)
        text = read(path)
        with open(path, "w", encoding="utf-8") as f:
            f.write(turn_words(text, local, ()))
    if fallen(root, crates, names, every):
        return 1
    for path in list(files(os.path.join(root, "crates"), ".antt", ".rt", ".edit")):
        text = read(path)
        if path.endswith(".edit"):
            lines = []
            of = ""
            for line in text.split("\n"):
                if line.startswith("file: "):
                    of = line[6:].strip()
                if line.startswith(("old:", "new:")):
                    beside = os.path.join(os.path.dirname(path), "..", of)
                    keep = imported(read(beside), crates) if os.path.exists(beside) else ()
                    line = line[:4] + turn_code(line[4:], names, keep, "//" if of.endswith(".rt") else "--", of.endswith(".rt"))
                else:
                    line = turn_ticks(line, names)
                lines.append(line)
            new = "\n".join(lines)
        else:
            new = turn_code(text, names, imported(text, crates), "//" if path.endswith(".rt") else "--", path.endswith(".rt"))
        if new != text:
            with open(path, "w", encoding="utf-8") as f:
                f.write(new)
    for path in files(root, ".md"):
        text = read(path)
        new = turn_ticks(text, names)
        if new != text:
            with open(path, "w", encoding="utf-8") as f:
                f.write(new)
    return 0


def fallen(root, crates, names, every):
    """Names that fall together: two that become one, or one that becomes a word that a file already has."""
    bad = 0
    of = defaultdict(set)
    for n, to in names.items():
        of[to].add(n)
    for to, ns in sorted(of.items()):
        if len(ns) > 1:
            where = {n: sorted({os.path.relpath(p, root) for p in every[n]}) for n in ns}
            print("two:", to, where)
            bad += 1
    for path in files(os.path.join(root, "crates"), ".antt", ".rt"):
        text = read(path)
        lines = [re.sub(r"(use\s+)[^{]*", r"\1", l) for l in text.split("\n") if not l.strip().startswith(("--", "//"))]
        words = set(WORD.findall("\n".join(lines)))
        if path.endswith(".rt"):
            # A function may have the name of the definition that it computes; a parameter, a field or a local would hide it.
            words = {w for w in words if re.search(r"\b%s\s*:[^:]|\blet (mut )?%s\b|\bfor %s\b" % (w, w, w), text)} | (words & set(names))
        keep = imported(text, crates)
        for n in sorted(words & set(names)):
            if n not in keep and names[n] in words and not path.endswith("Proof.antt"):
                print("there:", os.path.relpath(path, root), n, names[n])
                bad += 1
    return bad


if __name__ == "__main__":
    raise SystemExit(1 if main(os.getcwd(), "--list" in sys.argv) else 0)
