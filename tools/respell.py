#!/usr/bin/env python3
"""Brings the names of this repository's definitions and lemmas to one spelling: functions, lemmas, fields and constructors of data in snake
case, types and modules in camel case, and ' for a prime. Names of the library and of generated modules stay as they are. Run once, at the
top, behind the script that brings an older repository over. It prints names that fall together."""
import collections
import glob
import os
import re

TOKEN = re.compile(r"[^\s(){}\[\];,.\"`«»]+")
IMPORT = re.compile(r"^(?:pub )?(?:ghost )?use ([^\s{;]+?)(?:\.\{([^}]*)\})?(?: as \S+)?;?$", re.M)
DECLARED = re.compile(
    r"^\s*(?:\| )?(?:unfoldable )?(?:abbrev )?(?:pub )?(?:abbrev |unfoldable |data |record |ruleset )?(?:pub )?([^\s(){}:,;=]+)(?: [({][^:\n]*:[^=\n]*)?[ \n]*:(?![:=])",
    re.M)
# Lemmas that would have the name of a function, and one abbreviation that would have that of another.
LEMMAS = {n: n.replace("-", "_") + "_lem" for n in (
    "all-parts at-constants constant-head is-abstraction is-local kind-of line-values number-at open-against part-at read-parts second-part swept-records").split()}
LEMMAS["argument-goal"] = "goal_of_argument"
# The same, where the script before this one has turned the lemma's name already: the name, and the crates whose proofs it stands in.
TURNED = {"count_at": ("storage", "history"), "of_number": ("refusals", "exports"), "none_found": ("records",), "body_below": ("builds",)}
GENERATED = {"Tie", "Goals", "Given", "Statement", "Reads", "Kinds", "Theorem"}


def own_crates():
    return {p.split("/")[1] for p in glob.glob("crates/*/src")}


def snake(name):
    """The name in today's spelling, whatever it names."""
    if name in LEMMAS:
        return LEMMAS[name]
    name = name.replace("′", "'").replace("·", "_")
    if name[0].isupper():
        return "".join(w[:1].upper() + w[1:] for w in name.split("-")) if re.fullmatch(r"[A-Za-z'-]+", name) else name.replace("-", "_")
    name = name.replace("getD", "get_or")
    name = re.sub(r"\bget_d_", "get_or_", name)
    name = name.replace("-", "_")
    return re.sub(r"(?<=[a-z0-9])([A-Z])", lambda m: "_" + m.group(1).lower(), name) if re.search(r"[a-z][A-Z]", name) else name


def is_old(name):
    if name == "Term-discrete":  # the library's derive makes it
        return False
    return bool(re.search(r"[A-Za-zℕ₀-₉0-9'?]-[A-Za-z₀-₉0-9]", name) or "′" in name or re.match(r"get_d_", name)
                or (name[0].islower() and re.search(r"[a-z][A-Z]", name)))


def is_own_file(parts):
    return os.path.exists("/".join(["crates"] + parts[1:]) + ".antt")


def imported(text, own):
    """Names that a file has from outside of this repository, or from generated modules."""
    names = set()
    for m in IMPORT.finditer(text):
        parts = m.group(1).split(".")
        if m.group(2) is None:
            continue
        mine = parts[0] == "Rattle" and parts[1] in own and (is_own_file(parts) or not GENERATED & set(parts)) and not any("Lts" in p for p in parts)
        if not mine:
            names |= {w.strip().split(" as ")[0] for w in m.group(2).split(",")} | {w.strip().split(" as ")[-1] for w in m.group(2).split(",")}
    return {n for n in names if n}


def lemma_files():
    return [f for f in sorted(glob.glob("crates/*/specs/*.antt") + glob.glob("crates/*/proofs/*.antt"))]


def names_to_turn(own):
    """Declared names, and all other names of a lemma file that it has not from outside (parameters, locals)."""
    declared, local = set(), collections.defaultdict(set)
    for f in lemma_files():
        text = open(f).read()
        outside = imported(text, own)
        code = "\n".join(line.split("--")[0] if not re.search(r"\S--\S", line) else line for line in text.split("\n"))
        declared |= {n for n in DECLARED.findall(code) if is_old(n) and n not in outside}
        local[f] = {t for t in TOKEN.findall(code) if is_old(t) and t not in outside}
    return declared, local


def turn(text, names, comment):
    """The text with those names turned."""
    def one(m):
        return snake(m.group(0)) if m.group(0) in names else m.group(0)

    lines = []
    for line in text.split("\n"):
        at = line.find(comment)
        if at == 0 or (at > 0 and line[at - 1] == " "):
            code, rest = line[:at], line[at:]
            longer = len(rest)
            rest = TOKEN.sub(one, rest)
            longer = len(rest) - longer  # the columns of an explanation stay where they stood
            if longer > 0:
                rest = re.sub(r"(?<=[^\s-])( {%d,})(?=\S)" % (longer + 2), lambda m: m.group(1)[longer:], rest, count=1)
            lines.append(TOKEN.sub(one, code) + rest)
        else:
            lines.append(TOKEN.sub(one, line))
    return "\n".join(lines)


def main():
    own = own_crates()
    for lemma, crates in TURNED.items():
        for f in [f for c in crates for f in glob.glob(f"crates/{c}/proofs/**/*.antt", recursive=True)]:
            text = open(f).read()
            open(f, "w").write(re.sub(r"(?<![^\s(){}\[\];,.])%s(?![^\s(){}\[\];,.])" % lemma, lemma + "_lem", text))
    declared, local = names_to_turn(own)
    together = collections.defaultdict(set)
    for n in declared:
        together[snake(n)].add(n)
    for f in lemma_files():
        for n in DECLARED.findall(open(f).read()):
            if snake(n) in together:
                together[snake(n)].add(n)
    for new, olds in sorted(together.items()):
        if len(olds) > 1:
            print("together:", new, sorted(olds))
    for f in lemma_files():
        text = open(f).read()
        outside = imported(text, own)
        names = (declared | local[f]) - outside
        new = turn(text, names, "--")
        for n in names & set(TOKEN.findall(text)):
            if snake(n) in outside:
                print("has that name from outside:", f, n)
        if new != text:
            open(f, "w").write(new)
    for f in sorted(glob.glob("crates/*/proofs/**/Proof.antt", recursive=True)):
        text = open(f).read()
        head = {w.strip().split(" as ")[0] for m in IMPORT.finditer(text) if m.group(2) for w in m.group(2).split(",")}
        names = (declared & head) - imported(text, own)
        fields = declared - imported(text, own) - set(re.findall(r"^(?:abbrev |pub )*(\S+) ", text, re.M))
        new = turn(text, names, "--")
        new = re.sub(r"\.([^\s(){}\[\];,.\"`«»]+)", lambda m: "." + snake(m.group(1)) if m.group(1) in fields else m.group(0), new)
        if new != text:
            open(f, "w").write(new)
    for f in sorted(glob.glob("crates/*/src/**/*.rt", recursive=True)):
        text = open(f).read()
        code = set(re.findall(r"\b[a-z_0-9]+\b", text))
        for n in declared & set(TOKEN.findall(text)):
            if re.search(r"\b(?:let|let mut|fn) %s\b|\b%s: " % (snake(n), snake(n)), text):
                print("a name of the code too:", f, n)
        new = turn(text, declared - imported(text, own), "//")
        if new != text:
            open(f, "w").write(new)
    for f in sorted(glob.glob("crates/*/must-fail/*.edit")):
        text = open(f).read()
        new = "\n".join(line[:4] + turn(re.sub(r"(?<=\w) \.(?=[a-z])", ".", line[4:]), {n for n in TOKEN.findall(line) if is_old(n)}, "\0")
                        if line[:4] in ("old:", "new:") else line for line in text.split("\n"))
        if new != text:
            open(f, "w").write(new)
    for f in ["README.md"] + sorted(glob.glob("docs/**/*.md", recursive=True)):
        text = open(f).read()
        new = re.sub(r"`[^`\n]+`", lambda m: turn(m.group(0), declared, "\0"), text)
        if new != text:
            open(f, "w").write(new)


if __name__ == "__main__":
    main()
