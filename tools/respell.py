#!/usr/bin/env python3
"""Spells the definitions and lemmas of the crates in snake case, as today's Rattle does: `packetCount` is `packet_count`, `packets-size` is `packets_size`.

usage: respell.py [--check] [FOLDER]   FOLDER holds crates/; --check writes nothing and lists names that would fall together

What turns: a name that a file of specs/ or proofs/ declares (a definition, a lemma, a record's field, a constructor), wherever it is cited in .antt, .rt and .edit files
and in code spans of .md files. What stays: types and facts in upper camel case, names of capitals but for their dashes, what Rattle makes (a proof's goals, steps and
`.._spec`), local names, and all that src/ names. A second run changes nothing.
"""
import collections
import os
import re
import sys

WORD = r"[^\s(){}.;,@\"«»`]+"
DECLARED = re.compile(r"^\s*(?:(?:abbrev|unfoldable|pub|ruleset) +)*(?!let |in |use |where |elim )(" + WORD + r")(?: +[({].*)? : ")
SEVERAL = re.compile(r"^ +(?!let |in |use |where |elim |abbrev |pub |unfoldable )((?:[A-Za-z][\w'-]* +)+[A-Za-z][\w'-]*) : ")
DECLARED_END = re.compile(r"^\s*(?:(?:abbrev|unfoldable|pub) +)*(" + WORD + r") :$")


# Names that would meet another in snake case and are no lemma in kebab case: a lemma, or a field, beside a definition of its name.
OWN = {name: name + "_lem" for name in "after_run bytes_read ends_by fixed_held held_bytes holds_frame in_bytes in_moved none_above plain_by".split()}
OWN |= {"midiAsleep": "is_midi_asleep"}
# Fields of limits that would have the names of the counters that they are about.
COUNTS = "in-transfers out-transfers in-frames out-frames bad-blocks midi-dtds midi-asleep out-underruns midi-packets-out vendor-in-bytes".split()
# Names that a library has too and that files import from there.
STAYS = {"take-length", "not-true"}
# The same as OWN within one crate.
WITHIN = {"crates/kept/": {"all_made": "each_made"}}


def spelled(name):
    """The new spelling of a name that the crates declare."""
    if name in OWN:
        return OWN[name]
    if name in COUNTS:
        return name.replace("-", "_") + "_count"
    if name in STAYS:
        return name
    if re.fullmatch(r"[A-Z][A-Za-z0-9]*[₀-₉]*'*", name) or not re.fullmatch(r"[A-Za-z0-9_₀-₉'-]+", name) or not re.match(r"[A-Za-z]", name):
        return name
    if re.fullmatch(r"[A-Z0-9-]+", name):
        return name.replace("-", "_")
    name = re.sub(r"getD(?![a-z])", "get_or", name)
    name = re.sub(r"(?<=[a-z0-9])([A-Z])", lambda m: "_" + m[1].lower(), name)
    return name.replace("-", "_")


def is_walk(path):
    return os.path.basename(path) in ("Proof.antt", "Answers.antt", "Invariants.antt")


def files(root, ends):
    for top in ("crates", "docs"):
        for folder, dirs, names in os.walk(os.path.join(root, top)):
            dirs[:] = sorted(d for d in dirs if d != "out")
            for n in sorted(names):
                if n.endswith(ends):
                    yield os.path.join(folder, n)
    if os.path.exists(os.path.join(root, "README.md")) and ".md" in ends:
        yield os.path.join(root, "README.md")


def code(line):
    """The line without its comment."""
    return re.sub(r"(^|\s)--(\s.*)?$", "", line)


def declared(root):
    names, fields = set(), set()
    for p in files(root, (".antt",)):
        record = False
        for line in open(p, encoding="utf-8"):
            text = code(line.rstrip("\n"))
            if re.match(r"^\S", text):
                record = bool(re.match(r"(pub )?record ", text))
            m = DECLARED.match(text) or DECLARED_END.match(text)
            if not is_walk(p) and SEVERAL.match(text):  # constructors of one type
                names |= set(SEVERAL.match(text)[1].split())
                continue
            if not m or (is_walk(p) and (re.search(r" : \{?(tie|goal)\.| : \{M : ", text) or m[1].endswith("-spec"))):
                continue
            names.add(m[1])
            if record and line.startswith(" "):
                fields.add(m[1])
    return names, fields


def of_libraries(root):
    """The names that files import from a library that is no crate of the repository."""
    crates = set(os.listdir(os.path.join(root, "crates")))
    names = set()
    for p in files(root, (".antt", ".rt")):
        for module, items in re.findall(r"\buse ([\w.-]+)\.\{([^}]*)\}", open(p, encoding="utf-8").read()):
            steps = module.split(".")
            if steps[0] != "Rattle" or steps[1] not in crates:
                names |= {i.split(" as ")[-1].strip() for i in items.split(",")}
    return names


def functions(root):
    made = set()
    for p in files(root, (".rt",)):
        made |= set(re.findall(r"\bfn (\w+)", open(p, encoding="utf-8").read()))
    return {f.replace("_", "-") for f in made} | made


def turner(table, fields, made, walk):
    def turn(m):
        name = m[0]
        new = table.get(name, name)
        if name in OWN and m.string[: m.start()].endswith(".proofs."):
            return name
        if new == name:
            return name
        if walk and m.string[: m.start()].endswith(".") and (name not in fields or name in made):
            return name
        return new

    return turn


def turn_code(text, turn, marks):
    """Turns names outside of strings and comments, and within code spans of comments."""
    out = []
    for line in text.split("\n"):
        cut = re.search(r"(^|\s)" + marks + r"(\s|$)", line)
        body, comment = (line[: cut.start()], line[cut.start() :]) if cut else (line, "")
        parts = re.split(r'(b?"(?:\\.|[^"\\])*")', body)
        body = "".join(s if i % 2 else re.sub(WORD, turn, s) for i, s in enumerate(parts))
        comment = re.sub(r"`[^`]*`", lambda s: re.sub(WORD, turn, s[0]), comment)
        out.append(body + comment)
    return "\n".join(out)


def main():
    check = "--check" in sys.argv
    rest = [a for a in sys.argv[1:] if not a.startswith("-")]
    root = rest[0] if rest else "."
    names, fields = declared(root)
    if set(OWN.values()) & names:  # it has run before
        OWN.clear()
        WITHIN.clear()
    table = {n: spelled(n) for n in names if spelled(n) != n}
    made = functions(root)
    # a lemma in kebab case that would have a definition's name
    lent = of_libraries(root)
    taken = {table.get(n, n) for n in names if "-" not in n} | lent
    if check:
        for n in sorted(table):
            if "-" not in n and table[n] in lent:
                print("a library has it too:", n, table[n])
    for n in table:
        if "-" in n and table[n] in taken:
            table[n] += "_lem"
            if check and n in fields:
                print("a field beside a definition:", n)
    met = collections.defaultdict(set)
    for n in names:
        met[table.get(n, n)].add(n)
    for new in sorted(met):
        if len(met[new]) > 1 and not any(new in t for t in WITHIN.values()):
            print("falls together:", new, sorted(met[new]))
    # an older spelling in a page or an edit that is none of today's names but is spelled like one
    aged = set(table.values()) | {n for n in names if re.fullmatch(r"[a-z0-9_]+", n)}
    count = 0
    for p in files(root, (".antt", ".rt", ".edit", ".md")):
        with open(p, encoding="utf-8") as f:
            text = f.read()
        inside = next((t for k, t in WITHIN.items() if os.path.relpath(p, root).startswith(k)), {})
        here = table | inside
        if p.endswith(".rt"):
            here = {k: v for k, v in here.items() if k not in OWN or k == "midiAsleep"}
        turn = turner(here, fields | set(inside), made, is_walk(p))
        if p.endswith((".antt", ".rt")):
            if check:
                words = set(re.findall(WORD, text))
                for old in sorted(words & set(table)):
                    if table[old] in words:
                        print("meets:", p, old, table[old])
            new = turn_code(text, turn, "--" if p.endswith(".antt") else "//")
        else:

            def old(m, turn=turn):
                word = turn(m)
                return spelled(word) if word == m[0] and spelled(word) in aged and re.search(r"[a-z0-9][A-Z]", word) else word

            if p.endswith(".edit"):
                new = re.sub(r"(?m)^(old|new):.*$", lambda s: s[1] + ":" + re.sub(WORD, old, s[0][len(s[1]) + 1 :]), text)
            else:
                new = re.sub(r"`[^`\n]*`", lambda s: re.sub(WORD, old, s[0]), text)
        if new != text:
            count += 1
            if not check:
                with open(p, "w", encoding="utf-8") as f:
                    f.write(new)
    print(f"respell: {len(table)} names, {count} files")


main()
