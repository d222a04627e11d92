#!/usr/bin/env python3
"""Counts, in the sources of a commit, the places that docs/DESIGN-PASS.md is about.

    python3 tools/count_places.py [COMMIT] [--list POINT]

Each count is by text alone: what it finds is a place to look at, and the page says what became of it.
"""
import collections
import re
import subprocess
import sys


def git(*arguments):
    return subprocess.run(["git", *arguments], capture_output=True, text=True, check=True).stdout


def files(commit, kind):
    paths = [p for p in git("ls-tree", "-r", "--name-only", commit, "crates").split("\n") if re.search(kind, p)]
    return {path: git("show", f"{commit}:{path}") for path in paths}


def functions(sources):
    """Each function as (path, line, name, text above it, signature with clauses, body)."""
    for path, text in sources.items():
        for found in re.finditer(r"^( *)(?:pub(?:\([a-z]+\))? )?(?:const )?(?:extern \"C\" )?fn (\w+)", text, re.M):
            rest = text[found.start():]
            indent = found.group(1)
            inline = re.search(r"^%s\{$|\{$|\}$" % indent, rest, re.M)
            opened = re.search(r"^%s\{$" % indent, rest, re.M)
            simple = re.match(r"[^\n]*\{$", rest, re.M)
            many = re.search(r"^%s\)[^\n]*\{$" % indent, rest, re.M)
            starts = [m.end() for m in (opened, simple, many) if m]
            if not starts:
                continue
            start = min(starts)
            ended = re.search(r"^%s\}$" % indent, rest[start:], re.M)
            body = rest[start:start + ended.start()] if ended else ""
            above = re.findall(r"(?:^ *//[^\n]*\n)+\Z", text[:found.start()], re.M)
            yield path, text[:found.start()].count("\n") + 1, found.group(2), above[-1] if above else "", rest[:start], body


def lines_with(sources, pattern):
    for path, text in sources.items():
        for number, line in enumerate(text.split("\n"), 1):
            if not line.lstrip().startswith("//") and re.search(pattern, line):
                yield f"{path}:{number}: {line.strip()}"


def enums(sources):
    for path, text in sources.items():
        for found in re.finditer(r"^(?:pub )?enum (\w+)[^{]*\{\n(.*?)^\}", text, re.M | re.S):
            variants = re.findall(r"^    (\w+)([^,\n]*)", found.group(2), re.M)
            yield path, found.group(1), variants


def own_options(sources):
    """An enum with a variant that holds something beside one that holds nothing, or that refuses."""
    for path, name, variants in enums(sources):
        holds = [v for v, rest in variants if rest.strip().startswith(("(", "{"))]
        bare = [v for v, rest in variants if not rest.strip().startswith(("(", "{"))]
        if holds and (bare or set(holds) & {"Refused", "Fault"}):
            yield f"{path}: enum {name} {{ {', '.join(v for v, _ in variants)} }}"


def flags(sources):
    for path, text in sources.items():
        for found in re.finditer(r"^(?:pub )?struct (\w+)[^{;]*\{\n(.*?)^\}", text, re.M | re.S):
            for field in re.findall(r"^    (?:pub )?(\w+): bool,", found.group(2), re.M):
                yield f"{path}: struct {found.group(1)}, flag {field}"


def zeros(sources):
    """A function that answers a number, of which 0 says that there is none."""
    for path, line, name, above, head, body in functions(sources):
        if re.search(r"-> u(8|16|32|64|size)\b", head) and re.search(r"\b0 (where|if|for|means|after|when)\b|\bor 0\b|0, and|none of", above):
            yield f"{path}:{line}: {name}"


def refusal_numbers(sources):
    for path, line, name, above, head, body in functions(sources):
        if re.search(r"refusal|question", head) and re.search(r"-> u16|question: u16", head) and "exports" not in path:
            yield f"{path}:{line}: {name}"
    yield from lines_with(sources, r"^\s+(pub )?question: u16,$|Refused \{ question: u16")


def shape(text):
    text = re.sub(r"//[^\n]*", "", text)
    words = re.findall(r"[A-Za-z_]\w*|\d+|b?\"[^\"]*\"|\S", text)
    known = {}
    out = []
    keep = set("let mut if else while loop for in match return break continue as true false self".split())
    for word in words:
        if word in keep:
            out.append(word)
        elif re.fullmatch(r"\d+|[A-Z][A-Z0-9_]+|b?\"[^\"]*\"", word):
            out.append("N")
        elif re.fullmatch(r"[A-Z]\w*|u8|u16|u32|u64|usize|bool", word):
            out.append("T")
        elif re.match(r"[a-z_]", word):
            out.append(known.setdefault(word, f"x{len(known)}"))
        else:
            out.append(word)
    return " ".join(out)


def twins(sources):
    """Functions of more than 20 words whose bodies are the same up to names, types, sizes and constants."""
    groups = collections.defaultdict(list)
    for path, line, name, above, head, body in functions(sources):
        found = shape(body)
        if len(found.split()) > 20 and "exports_c" not in path:
            groups[found].append(f"{path.split('/')[1]}::{path.split('/')[-1][:-3]}::{name}")
    for members in groups.values():
        if len(members) > 1:
            yield f"{len(members)}: " + ", ".join(members)


def conjuncts(text):
    out, depth, last = [], 0, 0
    for at, letter in enumerate(text):
        depth += letter in "({" 
        depth -= letter in ")}"
        if letter == "×" and depth == 0:
            out.append(text[last:at])
            last = at + 1
    out.append(text[last:])
    done = []
    for part in out:
        part = part.strip()
        if part.startswith("(") and part.endswith(")") and "→" not in part.split(")")[0] and "λ" not in part:
            done.extend(conjuncts(part[1:-1]) if part.count("(") == part.count(")") else [part])
        else:
            done.append(part)
    return done


def repeated_facts(sources):
    """A fact that `requires` clauses of three or more functions of a crate say in the same words."""
    seen = collections.defaultdict(set)
    for path, line, name, above, head, body in functions(sources):
        for clause in re.findall(r"requires(?: \w+)? \{ (.*?) \}(?:\n|$)", head, re.S):
            for fact in conjuncts(" ".join(clause.split())):
                seen[path.split("/")[1], fact].add(f"{path.split('/')[-1][:-3]}::{name}")
    for (crate, fact), where in sorted(seen.items(), key=lambda item: -len(item[1])):
        if len(where) >= 3:
            yield f"{crate}, {len(where)} functions: {fact}"


def travelling(sources):
    """Three or more parameters that three or more functions of a crate take together, the largest such sets."""
    taken = collections.defaultdict(dict)
    for path, line, name, above, head, body in functions(sources):
        if "exports" in path:
            continue
        inside = re.search(r"\((.*?)\)\s*(?:->|requires|ensures|where|\{|$)", head, re.S)
        names = re.findall(r"(?:mut )?(\w+): ([^,()]+(?:\[[^\]]*\])?[^,()]*)", inside.group(1)) if inside else []
        taken[path.split("/")[1]][f"{path}:{name}"] = frozenset(f"{a}: {' '.join(b.split())}" for a, b in names)
    for crate, heads in taken.items():
        sets = collections.defaultdict(set)
        all_heads = list(heads.items())
        for i, (_, one) in enumerate(all_heads):
            for _, other in all_heads[i:]:
                both = one & other
                if len(both) >= 3:
                    sets[both] = {key for key, names in all_heads if both <= names}
        shown = {s: w for s, w in sets.items() if len(w) >= 3}
        for both, where in sorted(shown.items(), key=lambda item: (-len(item[0]), -len(item[1]))):
            if not any(both < more and len(shown[more]) >= len(where) for more in shown):
                yield f"{crate}, {len(where)} functions: {', '.join(sorted(both))}"


def arrays_with_length(sources):
    """A struct with an array and a number beside it, or a parameter that is an array or a slice with how much of it counts."""
    for path, text in sources.items():
        for found in re.finditer(r"^(?:pub )?struct (\w+)[^{;]*\{\n(.*?)^\}", text, re.M | re.S):
            if re.search(r": \[[^\]]+\],", found.group(2)) and re.search(r"\b(len|count|n|length|lines): u", found.group(2)):
                yield f"{path}: struct {found.group(1)}"
    for path, line, name, above, head, body in functions(sources):
        if re.search(r": (?:&(?:mut )?)?\[[^\]]+\],?\s+(?:n|count|len|t): u", head):
            yield f"{path}:{line}: {name}"


POINTS = [
    ("1a own enums of the shape of Option or Result", lambda s: own_options(s)),
    ("1b flags beside a value", lambda s: flags(s)),
    ("1c numbers of which 0 says none", lambda s: zeros(s)),
    ("1d numbers for refusals", lambda s: refusal_numbers(s)),
    ("1e numbers for kinds: arms on a number or a constant", lambda s: lines_with(s, r"^\s+(\d+|(\w+::)?[A-Z][A-Z_]+) =>")),
    ("2 functions alike but for names, types, sizes, constants (groups)", lambda s: twins(s)),
    ("3a `while` loops", lambda s: lines_with(s, r"^\s*while ")),
    ("3b `loop` loops", lambda s: lines_with(s, r"^\s*loop \{")),
    ("4a casts by `as`", lambda s: lines_with(s, r"\bas (u8|u16|u32|u64|usize)\b")),
    ("4b texts and numbers printed one by one", lambda s: lines_with(s, r"\b(?:say::)?(?:text|number)\(\s*(?:out|err)?\b|complain\(err")),
    ("4c types that derive Clone and Copy alone", lambda s: lines_with(s, r"^#\[derive\(Clone, Copy\)\]$")),
    ("5a facts in `requires` of three or more functions", lambda s: repeated_facts(s)),
    ("5b parameters that travel together", lambda s: travelling(s)),
    ("6 arrays with a length beside", lambda s: arrays_with_length(s)),
    ("7 steps chosen by a flag that is passed", lambda s: (f"{p}:{l}: {n}" for p, l, n, a, h, b in functions(s) if re.search(r"\b\w+: bool[,)]", h))),
]


def main():
    arguments = [a for a in sys.argv[1:] if not a.startswith("--")]
    wanted = sys.argv[sys.argv.index("--list") + 1] if "--list" in sys.argv else None
    if wanted in arguments:
        arguments.remove(wanted)
    commit = arguments[0] if arguments else "HEAD"
    sources = files(commit, r"^crates/[^/]+/src/.*\.rt$")
    for name, find in POINTS:
        found = list(find(sources))
        if wanted is None or name.startswith(wanted):
            print(f"{len(found):5}  {name}")
            if wanted is not None:
                for place in found:
                    print("       " + place)
    if wanted is None or wanted == "8":
        proofs = files(commit, r"^crates/[^/]+/proofs/.*\.antt$")
        lines = sum(text.count("\n") for text in proofs.values())
        answers = sum(len(re.findall(r"^pub [\w'-]+ : goal\.", text, re.M)) for path, text in proofs.items() if path.endswith("/Answers.antt"))
        print(f"{lines:5}  8 lines of proofs, {answers} answers, {sum(p.endswith('/Invariants.antt') for p in proofs)} files of invariants")


main()
