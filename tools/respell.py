#!/usr/bin/env python3
"""Respells the repository's own definitions and lemmas as today's Rattle spells names: words in snake case, a dash only where it joins two names.

usage: python3 tools/respell.py KIT [--dry]     at the top of the repository, once, right after the kit's port.py; KIT is the kit's folder

Names that specs/ and proofs/ declare are turned wherever they stand in .antt files, in clauses and imports of .rt files, in edits and in pages
(there inside backticks). Functions of src/, exported names, strings, inputs and outputs keep theirs. Names that fall together are printed.
"""

import os
import re
import sys

WORD = r"[A-Za-z0-9_'₀-₉]"
TOKEN = re.compile(r"(?<![A-Za-z0-9_'·-])[a-z](?:" + WORD + r"|-(?=[A-Za-z0-9]))*")
DECLARED = re.compile(r"^\s*(?:(?:pub|abbrev|unfoldable)\s+)*([a-z](?:" + WORD + r"|-(?=[A-Za-z0-9]))*)\s*:(?!=)", re.M)
# words that stand for an operator or a constructor in the name of a law
PLAIN = set("append nil cons add mul sub suc zero true false eqb leb ltb eq lt le length take drop set map get_or".split())
# names that port.py has respelled, for pages and edits, which it doesn't read
PORTED = """above-of above-within add-spec address-as address-room ahead-none alike-spec all-made all-right allFrom and-assoc and-same and-yes answerOf
append-assoc as-parts at-i at-slot atNext below-next block-no block-of block-same blockAt blocks-at blocks-start body-of body-own by-length by-number
by-place by-right by-size by-value bytesOf chain-length chosen-at clear-next clear-spec close-other close-ref codeOf copy-done count-fits count-next
count-set cut-short cutAt dataOf deep-is digit-low digits-last digits-more each-right end-none ends-at enter-spec entered-by fields-fit fieldsOf
fill-spec find-spec finish-spec first-holds first-part first-step fit-at fits-read formOf formatOf found-here found-in found-none found-some foundAt
free-bytes from-at from-end from-on from-start from-step front-long get-spec goes-on head-bytes in-block in-body in-order in-place is-free is-live
is-name is-spelled isEmpty isHeld isLine isNumber isPlain its-own keep-spec kept-full kept-slot keptAt known-is laid-more laid-next le-below le-bytes
leOf leave-spec left-lt left-step leftAt length-from length-front length-last length-two lengths-differ lines-are live-inside liveIn look-hit look-none
lowered-is name-done nameOf named-in named-live named-none named-some new-spec no-byte no-line no-lines noSlot none-above none-from none-left none-of
none-passes none-written not-free not-live not-new number-is number-of numberIn numberOf of-other one-by-one one-less one-more open-spec or-left or-no
or-right originOf other-length owes-nothing own-of owned-by parent-in parent-is part-bytes pass-all passed-over passed-start pick-first pick-second
piece-is pieceAt pieces-none pieces-step placeOf plain-done plain-value put-back put-count put-one put-other put-same put-spec putAt raised-is read-back
read-behind read-found read-next read-none read-spec read-whole room-after room-as room-in room-next room-of roomFor run-spec same-at same-block
same-length same-more same-name same-next same-refl same-size same-spec same-step same-turn seek-found seek-hit sim-put size-back size-is skip-stop
slot-of slot-read some-byte some-left some-word spelled-back spend-spec standing-by stays-at step-end step-fits stepOf sumOf tableOf tail-more tail-step
taken-here told-is told-none told-of too-short total-mono turn-spec turned-by under-of under-spec unitOf up-above upTo valueAt valueOf was-free
way-unknown wayOf within-low write-done wrote-as wrote-none zeros-within all-told none-told one-deeper table-is""".split()
# a lemma that would have its definition's name gets _lem; this one port.py has turned already: in this crate
TURNED = {"crates/table_find/": {"is_live": "is_live_lem"}}
# a clause has this name for what a call returns: the definition gets another
RESULT = re.compile(r"(?<![A-Za-z0-9_.'-])result(?![A-Za-z0-9_'-])")
# pages speak of the protocol's own parameter names; these are never definitions there
PROTOCOL = {"pgtUrl", "pgtId", "pgtIou", "proxyTicket", "targetService", "serviceValidate", "proxyValidate", "logoutRequest"}


def snake(word):
    return re.sub(r"(?<=[a-z0-9'])([A-Z])|(?<=[A-Z])([A-Z])(?=[a-z])", lambda m: "_" + m.group(0), word).lower() if re.search("[A-Z]", word) else word


def is_camel(part):
    return re.fullmatch(r"[a-z][a-z0-9']*(?:[A-Z][A-Za-z0-9']*)+", part) is not None


def files(root, *ends):
    for folder, dirs, names in os.walk(root):
        dirs[:] = sorted(d for d in dirs if d not in ("out", ".git", "target"))
        for name in sorted(names):
            if name.endswith(ends):
                yield os.path.join(folder, name)


def read(path):
    with open(path, encoding="utf-8") as f:
        return f.read()


def own_proof(path):
    """Whether the file is a function's own proof, below proofs/F/, where Rattle's names stand beside ours."""
    return re.search(r"/proofs/[^/]+/[^/]+\.antt$", path) is not None


def apart(text, comment):
    """The text cut into code, strings and comments, each with its kind."""
    pattern = re.compile(r'"(?:\\.|[^"\\])*"|\'(?:\\.|[^\'\\\n])\'(?![A-Za-z0-9_])|' + re.escape(comment) + r"[^\n]*")
    at = 0
    for m in pattern.finditer(text):
        yield "code", text[at : m.start()]
        yield ("comment" if m.group(0).startswith(comment) else "string"), m.group(0)
        at = m.end()
    yield "code", text[at:]


def main():
    kit, dry = sys.argv[1], "--dry" in sys.argv
    theirs = set()
    for path in files(os.path.join(kit, "rattle"), ".antt"):
        theirs.update(m.group(1) for m in DECLARED.finditer(read(path)))
    declared, defined, fields, local = set(), set(), set(), {}
    for path in files("crates", ".antt"):
        code = "".join(t for k, t in apart(read(path), "--") if k == "code")
        names = {m.group(1) for m in DECLARED.finditer(code)}
        if own_proof(path):
            local[path] = names
        else:
            declared |= names
        for m in re.finditer(r"^(?:pub )?record .*? where\n((?:(?:  .*)?\n)+)", code, re.M):
            fields.update(DECLARED.findall(m.group(1)))
        if "/specs/" in path:
            defined.update(re.findall(r"^(?:abbrev|unfoldable|pub)[a-z ]* ([a-z][A-Za-z0-9_']*) *:", code, re.M))
    words = {snake(n) for n in defined if "-" not in n} | PLAIN

    def turned(name):
        parts = [snake(p) if is_camel(p) else p for p in name.split("-")]
        new = parts[0]
        for before, after in zip(parts, parts[1:]):
            new += ("-" if before in words and after in words else "_") + after
        return new

    table = {}
    for name in sorted(declared | {n for ns in local.values() for n in ns}):
        if name not in theirs and not re.search(r"_[A-Z]", name) and turned(name) != name:
            table[name] = name.replace("-", "_") if name.endswith("-spec") else turned(name)
    taken = {snake(n) for n in declared if "-" not in n}
    for name, new in table.items():
        if "-" in name and new in taken:
            table[name] = new + "_lem"
    strings = set()
    for path in files("crates", ".antt", ".rt"):
        for kind, part in apart(read(path), "--" if path.endswith(".antt") else "//"):
            if kind == "string":
                strings.update(TOKEN.findall(part))

    def turn(path, text, comment):
        mine = local.get(path, set())
        here = next((names for top, names in TURNED.items() if path.startswith(top) and path.endswith(".antt")), {})

        def code(part):
            def one(m):
                t = m.group(0)
                before = part[max(0, m.start() - 1) : m.start()]
                if t in here:
                    return here[t]
                if "-" in t:
                    if t in table and (t in declared or t in mine) and (before != "." or t in fields):
                        return table[t]
                    return t
                return snake(t) if is_camel(t) and t not in theirs else t

            new = TOKEN.sub(one, part)
            return RESULT.sub("result_of", new) if path.endswith(".antt") else new

        def said(part):
            def one(m):
                t = m.group(0)
                quoted = part[max(0, m.start() - 1) : m.start()] == "`"
                return table[t] if t in table and t in declared and t not in strings and ("-" not in t or quoted) else t

            return TOKEN.sub(one, part)

        return "".join(code(p) if k == "code" else said(p) if k == "comment" else p for k, p in apart(text, comment))

    changed = 0
    for path in list(files("crates", ".antt", ".rt")):
        text = read(path)
        new = turn(path, text, "--" if path.endswith(".antt") else "//")
        olds, news = set(TOKEN.findall(text)), {}
        for t in olds:
            n = TOKEN.sub(lambda m: m.group(0), t)
            n = table.get(t) or (snake(t) if is_camel(t) else t)
            if n != t and n in olds:
                print(f"falls together: {path}: {t} and {n}")
        if new != text:
            changed += 1
            if not dry:
                with open(path, "w", encoding="utf-8") as f:
                    f.write(new)

    named = dict(table)
    for name in PORTED:
        named[name] = snake(name).replace("-", "_") if name not in declared else named.get(name, name)

    def page(text):
        def span(m):
            return "`" + TOKEN.sub(lambda t: named.get(t.group(0), t.group(0)) if t.group(0) not in PROTOCOL else t.group(0), m.group(1)) + "`"

        return re.sub(r"`([^`\n]+)`", span, text)

    def edit(text):
        return "".join(
            TOKEN.sub(lambda t: named.get(t.group(0)) or (snake(t.group(0)) if is_camel(t.group(0)) else t.group(0)), p) if k == "code" else p
            for k, p in apart(text, "#")
        )

    for path in [p for p in files(".", ".md")] + [p for top in ("crates", "tests") for p in files(top, ".edit", ".server")]:
        text = read(path)
        new = page(text) if path.endswith(".md") else edit(text)
        if new != text:
            changed += 1
            if not dry:
                with open(path, "w", encoding="utf-8") as f:
                    f.write(new)
    by_new = {}
    for old, new in table.items():
        by_new.setdefault(new, []).append(old)
    for new, olds in sorted(by_new.items()):
        if len(olds) > 1 or new in declared or new in theirs:
            print(f"falls together: {', '.join(olds)} -> {new}{' (declared)' if new in declared else ''}{' (the library has it)' if new in theirs else ''}")
    print(f"respelled: {len(table)} names, {changed} files")
    if dry:
        for old, new in sorted(table.items()):
            print(f"  {old} -> {new}")


main()
