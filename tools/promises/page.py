#!/usr/bin/env python3
"""Writes the lower part of docs/PROMISES.md: every public function below the entries, with what it takes, asks and promises; of a type what its ghost
fields say of each of its values, and of an impl of a trait what the trait's members are there.

usage: tools/promises/page.py, from the repository's root. In a promise, x is what a lent x holds at the call and x′ what it holds at the end.
"""
import glob, os, re

ABOVE = ("bsmp_c", "bench")
LINE = re.compile(r"^(\w+)(?: staticlib)?:(.*)$")
BLOCK = re.compile(r"^(?:(impl)(?:<[^>]*>)? (?:([\w:<>, ]+?) for )?([\w<>', ]+?)|pub (trait|struct) (\w+)[^({;]*?)\s*\{$", re.M)
HEAD = re.compile(r"^( *)(pub )?(?:const |final )*(?:extern \"C\" )?fn (\w+)(?=[<(])", re.M)
CLAUSE = re.compile(r"\s+(requires|ensures)(\*?)(?: \w+)? \{")
GHOST = re.compile(r"^ *(?:pub )?ghost (\w+)(:?) (=?)\s*\{", re.M)


def crates():
    """The crates below the entries, in the order of crates.txt."""
    names = [m.group(1) for m in map(LINE.match, open("crates.txt", encoding="utf-8")) if m]
    return [name for name in names if name not in ABOVE]


def closed(text, at):
    """The place after the bracket that closes the one before `at`."""
    depth = 1
    while depth:
        depth += {"(": 1, "{": 1, ")": -1, "}": -1}.get(text[at], 0)
        at += 1
    return at


def apart(text):
    """A text cut at the commas that stand in no bracket."""
    parts, depth = [""], 0
    for sign in text:
        depth += (sign in "([{<") - (sign in ")]}>")
        parts[-1] += sign
        if sign == "," and depth == 0:
            parts[-1:] = [parts[-1][:-1], ""]
    return [re.sub(r"\s+", " ", part).strip() for part in parts if part.strip()]


def plain(text, starred=False):
    """A clause without the machinery of lent things. A starred one gives the result a name, and may bind others."""
    text = re.sub(r"\s+", " ", text).strip()
    text = re.sub(r"^λ \w+\. |[⌜⌝] ?", "", text).strip() if starred else re.sub(r"\bresult\b", "r", text)
    text = re.sub(r"(?<=\w)\.(?:now|old|entry)\b", "", text)
    return re.sub(r"(?<=\w)\.(?:new|exit)\b", "′", text)


def clauses(text, at):
    """What the clauses from `at` on ask, and what they promise."""
    said = {"requires": [], "ensures": []}
    while m := CLAUSE.match(text, at):
        at = closed(text, m.end())
        said[m.group(1)].append("`" + plain(text[m.end():at - 1], m.group(2)) + "`")
    return "; ".join(said["requires"]), "; ".join(said["ensures"])


def ghosts(text):
    """The ghost members in a block, by name: what a struct's field says, what an impl gives, or what a trait asks of its impls."""
    members = {}
    for m in GHOST.finditer(text):
        members[m.group(1)] = plain(text[m.end():closed(text, m.end()) - 1])
    return members


def laws(text):
    """The members of a trait that are facts: those below its last function."""
    return set(ghosts(text[text.rfind("fn "):]))


def gives(member, parameters):
    """`λ code kind. kind ≡ kind_of code` of a member such as from_gives, said of the method's parameters and result."""
    m = re.match(r"λ ([\w ]+)\. (.*)", member)
    names = dict(zip(m.group(1).split(), [*(p.split(":")[0].strip() for p in parameters), "r"])) if m else {}
    return re.sub(r"\w+", lambda word: names.get(word.group(), word.group()), m.group(2)) if m else member


def blocks(text):
    """(start, end, sort, trait, type) of each impl, public trait and public struct."""
    for m in BLOCK.finditer(text):
        end = closed(text, m.end())
        yield m.start(), end, m.group(1) or m.group(4), m.group(2), m.group(3) or m.group(5)


def functions(path):
    """(name, takes, asks, promises) of each public function, those of a type or a trait under its name, and of ghost members where they say more."""
    text = re.sub(r"^ *//.*\n", "", open(path, encoding="utf-8").read(), flags=re.M)
    public = set(re.findall(r"^pub (?:struct|enum) (\w+)", text, re.M))
    owners = list(blocks(text))
    proved = {name: laws(text[start:end]) for start, end, sort, _, name in owners if sort == "trait"}
    rows = []
    for start, end, sort, trait, name in owners:
        members = {member: says for member, says in ghosts(text[start:end]).items() if trait not in proved or member not in proved[trait]}
        if sort == "trait":
            members = {member: says for member, says in members.items() if member in proved[name]}
        own = trait == "Model" or trait and "fn " in text[start:end] and not any(member.endswith("_gives") for member in members)
        said = "; ".join("`%s`" % says if sort == "struct" else "`%s = %s`" % (member, says) for member, says in members.items())
        if members and sort == "struct":
            rows.append((start, name, "", "", "of each: " + said))
        elif members and sort == "impl" and own and trait != "Model":
            rows.append((start, "%s for %s" % (trait, name), "", "", "what `%s` says, with %s" % (trait, said)))
        elif members and sort == "trait":
            rows.append((start, name, "", "", "of each impl: " + "; ".join("`%s`" % says for says in members.values())))
        elif members and trait == "Model":
            rows.append((start, name, "", "", "of each: `%s`" % members.get("invariant", "nothing") + "; it is seen as `%s`" % members.get("view", "")))
    for m in HEAD.finditer(text):
        start, end, sort, trait, owner = next((o for o in owners if o[0] < m.start() < o[1]), (0, len(text), "", "", ""))
        if not (m.group(2) or sort == "trait" or trait and (re.match(r"\w+", owner).group() in public or owner[0].islower())):
            continue
        opens = text.index("(", closed_angle(text, m.end()))
        generics = " ".join(text[m.end():opens].split())
        ends = closed(text, opens + 1)
        parameters = apart(text[opens + 1:ends - 1])
        result = re.compile(r"(?: -> (?:\[[^\]]*\]|[^\n{;])+?)?(?:\s+where [^{;]*?)?(?=\s*(?:[{;]|requires|ensures))").match(text, ends)
        asks, promises = clauses(text, result.end())
        member = ghosts(text[start:end]).get(m.group(3) + "_gives") if trait else None
        if member and not promises:
            promises = "`%s`" % gives(member, [p for p in parameters if "self" not in p] if "self" not in parameters else parameters)
        elif trait and not promises:
            continue
        owner = re.sub(r"<'\w+>", "", owner)
        rows.append((m.start(), "::".join([owner] * bool(owner) + [m.group(3)]) + generics, ", ".join(parameters), asks, promises))
    return [row[1:] for row in sorted(rows)]


def closed_angle(text, at):
    """The place after `<..>`, if one stands at `at`."""
    depth = 0
    while text[at] == "<" or depth:
        depth += (text[at] == "<") - (text[at] == ">" and text[at - 1] != "-")
        at += 1
        if not depth:
            break
    return at


def section(crate):
    rows = functions(f"crates/{crate}/src/lib.rt")
    if not rows:
        return
    edits = sorted(os.path.basename(path)[:-len(".edit")] for path in glob.glob(f"crates/{crate}/must-fail/*.edit"))
    unique = os.path.exists(f"crates/{crate}/proofs/Unique.antt")
    print(f"\n### `{crate}`\n")
    if unique:
        print(f"Uniqueness: `crates/{crate}/proofs/Unique.antt`.")
    print("Edits that are refused: " + (", ".join(f"`{edit}`" for edit in edits) if edits else "none of its own; wrong answers are tried in the crates that use it or that it uses") + ".\n")
    print("| Function | Takes | Asks | Promises |\n|---|---|---|---|")
    for name, takes, asks, promises in rows:
        print(f"| `{name}` | {takes or 'nothing'} | {asks or 'nothing'} | {promises} |".replace("||", "\\|\\|"))


if __name__ == "__main__":
    print("<!-- from here on made by tools/promises/page.py -->")
    for crate in crates():
        section(crate)
