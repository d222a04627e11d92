#!/usr/bin/env python3
"""What changed of the promises between two commits, old and new one below the other: each `pub` function, method, type, constant and
trait impl of src/, each definition of specs/, and each theorem of proofs/ that README.md or docs/ name. What is new is not listed.

    python3 tools/side_by_side.py OLD [NEW]

Old lines begin with `-`, new ones with `+`. An item that has moved is found again by its crate and name.
"""
import re
import subprocess
import sys


def git(*arguments):
    return subprocess.run(["git", *arguments], capture_output=True, text=True, check=True).stdout


def files(commit, kind):
    paths = [p for p in git("ls-tree", "-r", "--name-only", commit, "crates").split("\n") if re.search(kind, p)]
    return {path: git("show", f"{commit}:{path}") for path in paths}


def plain(text):
    return " ".join(text.split())


def put(found, crate, name, module, text):
    """Items of one name in a crate are told apart by their modules."""
    found.setdefault((crate, name), {})[module] = text


def pairs(old, new):
    """(crate, name, before, after), each of the two a (module, text) or None: the items of a name in one module belong together, and so do
    the two that are left, if there is one on each side: that one has moved."""
    for crate, name in sorted(set(old) | set(new)):
        before, after = old.get((crate, name), {}), new.get((crate, name), {})
        gone = sorted(module for module in before if module not in after)
        come = sorted(module for module in after if module not in before)
        there = [(module, module) for module in sorted(before) if module in after]
        moved = list(zip(gone, come)) if len(gone) == len(come) == 1 else [(module, None) for module in gone] + [(None, module) for module in come]
        for first, second in there + moved:
            yield crate, name, first and (first, before[first]), second and (second, after[second])


def items(commit):
    """(crate, kind and name) -> module -> text of what src/ promises: signatures with clauses, types, constants, impl members."""
    found = {}
    for path, text in files(commit, r"^crates/[^/]+/src/.*\.rt$").items():
        crate = path.split("/")[1]
        module = path.split("/src/")[1][:-3].replace("/", "::")
        lines = text.split("\n")
        inside = None
        at = 0
        while at < len(lines):
            line = lines[at]
            opened = re.match(r"(pub )?(impl|trait)\b(.*)\{$", line) or re.match(r"(pub )?(impl|trait)\b([^{]*)$", line)
            if opened:
                inside = plain((opened.group(2) + opened.group(3)).replace("{", ""))
            elif line == "}":
                inside = None
            indent = len(line) - len(line.lstrip())
            trait = inside and (" for " in inside or inside.startswith("trait"))
            fn = re.match(r" *(?:#\[.*\] *)?(pub (?:extern \"C\" )?)?(?:const )?fn (\w+)", line)
            if fn and (fn.group(1) or trait):
                body = [line]
                while not (re.match(r"^ {%d}\{$" % indent, body[-1]) or body[-1].rstrip().endswith("{") or body[-1].rstrip().endswith(";")):
                    at += 1
                    body.append(lines[at])
                if body[-1].strip() == "{":
                    body.pop()
                else:
                    body[-1] = re.sub(r" *\{$", "", body[-1])
                owner = inside + " :: " if inside else ""
                put(found, crate, f"fn {owner}{fn.group(2)}", module, "\n".join(b[indent:] for b in body))
            kind = re.match(r"(pub )?(struct|enum|const) (\w+)", line)
            if kind and (kind.group(1) or kind.group(2) != "const"):
                body = [line]
                if line.rstrip().endswith("{") or line.rstrip().endswith("["):
                    closing = "}" if line.rstrip().endswith("{") else "];"
                    while lines[at] != closing and lines[at] != closing + ";":
                        at += 1
                        body.append(lines[at])
                derives = [l for l in lines[max(0, at - len(body) - 1):at - len(body) + 1] if l.startswith("#[derive")]
                put(found, crate, f"{kind.group(2)} {kind.group(3)}", module, "\n".join(derives + body))
            ghost = re.match(r"    ghost (\w+) ?[:=]", line)
            if ghost and trait:
                body = [line]
                while not body[-1].rstrip().endswith(";"):
                    at += 1
                    body.append(lines[at])
                put(found, crate, f"ghost {inside} :: {ghost.group(1)}", module, "\n".join(b[4:] for b in body))
            at += 1
    return found


def definitions(commit, folder="specs"):
    found = {}
    for path, text in files(commit, rf"^crates/[^/]+/{folder}/.*\.antt$").items():
        if path.endswith(("/Answers.antt", "/Invariants.antt", "/Lib.antt")):
            continue
        crate = path.split("/")[1]
        module = path.split(f"/{folder}/")[1][:-5].replace("/", ".")
        lines = text.split("\n")
        at = 0
        while at < len(lines):
            named = re.match(r"^( *)(?:unfoldable |abbrev )?(?:pub )(?:record |data )?([^\s:(){}]+)", lines[at])
            if named and not re.match(r" *(?:unfoldable )?pub (use|mod) ", lines[at]):
                indent = len(named.group(1))
                body = [lines[at]]
                at += 1
                while at < len(lines) and lines[at].strip() and not re.match(r"^ {0,%d}(--|(?:unfoldable |abbrev )?pub |module |use )" % indent, lines[at]):
                    body.append(lines[at])
                    at += 1
                put(found, crate, named.group(2), module, "\n".join(b[indent:] for b in body))
            else:
                at += 1
    return found


def theorems(commit, pages):
    """Those that a page names, without their proofs: a declaration's lines up to the first that has none of its type."""
    named = set(re.findall(r"`(?:[^`\s]*[./])?([^`\s./]+)`", pages))
    found = {}
    for (crate, name), modules in definitions(commit, "proofs").items():
        for module, text in modules.items() if name in named else []:
            lines = text.split("\n")
            kept = [lines[0]]
            for line in lines[1:]:
                if re.match(r" *(unfolding |where|%s[ =])" % re.escape(name), line) and "record" not in lines[0]:
                    break
                kept.append(line)
            if ":" in lines[0] or "record" in lines[0]:
                put(found, crate, name, module, "\n".join(kept))
    return found


def pages(commit):
    paths = [p for p in git("ls-tree", "-r", "--name-only", commit).split("\n") if p == "README.md" or p.startswith("docs/")]
    return "".join(git("show", f"{commit}:{p}") for p in paths if "DESIGN-PASS" not in p)


def show(title, old, new):
    print(f"### {title}\n")
    items = [(crate, name, before, after) for crate, name, before, after in pairs(old, new) if before]
    for sort, some in (("changed", [i for i in items if i[3] and plain(i[2][1]) != plain(i[3][1])]),
                       ("no longer there under that name", [i for i in items if not i[3]])):
        print(f"{len(some)} {sort}.\n")
        for crate, name, before, after in some:
            place = f"{crate}::{(after or before)[0]}" if "fn" in title or "signature" in title else f"{crate}/{(after or before)[0]}"
            print(f"`{place}`, {name}\n\n```diff")
            for line in before[1].split("\n"):
                print("- " + line)
            for line in after[1].split("\n") if after else []:
                print("+ " + line)
            print("```\n")


def main():
    old, new = sys.argv[1], sys.argv[2] if len(sys.argv) > 2 else "HEAD"
    show("Public signatures, clauses, types and what impls promise", items(old), items(new))
    show("Definitions of specs/", definitions(old), definitions(new))
    show("Theorems that README.md or docs/ name", theorems(old, pages(old)), theorems(new, pages(old)))


main()
