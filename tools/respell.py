#!/usr/bin/env python3
"""Respells this repository's own names for today's Rattle: words in snake case, where they had dashes or capitals inside.
usage: tools/respell.py            (at the top, once, after the toolchain's own script)
A name is one that a file of specs/ or proofs/ declares: a definition, a lemma, a field, a constructor, a helper in a `where` or a `let`.
It prints names that would fall together with another one, and leaves those alone unless APART gives them a name."""
import collections, glob, os, re, sys

# names that would fall together with another: old, new
APART = {
    "switch-count": "switch_total",
    "cable-count": "cable_total",
    "cable-rule": "cable_found",
    "end-switch": "end_switch_kept",
    "end-port": "end_port_kept",
    "hex-digit": "hex_digit_reads",
    "is-accepted": "no_refusal",
    "legal-length": "legal_length_bound",
    "plan-line": "plan_is_line",
    "link-line": "link_is_line",
    "switch-line": "switch_is_line",
    "plan-text": "plan_reads",
    "link-text": "link_reads",
    "switch-text": "switch_reads",
    "noWay": "no_way_figure",
    "of-cable": "of_each_cable",
    "of-switch": "of_each_switch",
    "one-switch": "on_one_switch",
    "otherLength": "length_differs",
    "otherVersion": "version_differs",
    "sound-from": "sound_each",
    "sound-held": "sound_facts",
    "up-end": "up_end_found",
}
# own names that the toolchain's script respelled already, for the texts that it leaves: edits, docs
DONE = """add-at add-six add-wide address-is address-word addressOf all-found all-said all-settled all-stay and-T and-left and-right and-then any-next any-none as-before at-front at-home at-most back-is below-root bit-at bit-below bit-shifted both-ways by-down by-one byte-at cell-at cellOf cellsOf count-less count-none digits-more each-append each-map each-set either-left either-true either-way end-of end-same entered-at entered-here entry-lt entryAt first-found first-passes follows-on from-empty from-low from-start go-on goes-on held-by held-next high-bit home-at in-order inTurn is-live least-first live-back loop-rule mul-wide near-last near-next near-none next-fits no-longer no-loop no-number no-other no-switch no-way no-words none-found none-yet not-good not-written nothing-left numberAt numberIn numberOf one-apart one-entry one-less one-line one-more one-number one-out one-parent one-up open-step or-left or-right other-length own-row pair-line parent-is parentIn part-bytes part-end part-length passed-over placeOf put-two rank-down rank-rises rank-up room-after room-as room-next root-below row-same run-room same-answer same-bits same-length same-line same-next same-switch same-test set-cases sizeFor so-far some-first some-number some-or-none stage-cases stays-on step-left table-at tableOf taken-word testOf to-low told-at two-digits up-above up-is up-to way-on went-on withWords within-level within-more word-back word-holds word-some wordOf words-back wordsOf written-after written-as written-both written-none written-one zero-bit zero-left enum-told field-laws tree-laws word-laws""".split()

# variables of patterns, which no declaration shows
PATTERNS = ["goesUp", "not-nil", "y-low"]
# words of the library that clauses and definitions have another spelling for now
WORDS = {"eqb": "nat_eq", "ltb": "nat_lt", "leb": "nat_le", "get_or": "slice_index_or", "getD": "slice_index_or"}

IDENT = r"[^\s(){}\[\].,;:⌜⌝`\"|@#=]+"
DECLARED = re.compile(r"(?:unfoldable |abbrev |pub |record |data )*((?:%s )+): " % IDENT)


def snake(name):
    head = "".join("_" + c.lower() if c.isupper() and i and (name[i - 1].islower() or name[i - 1].isdigit()) else c for i, c in enumerate(name)) if name[:1].islower() else name
    return head.replace("-", "_")


def files(*patterns):
    return sorted(f for p in patterns for f in glob.glob(p, recursive=True) if "/out/" not in f)


def declared(texts):
    names = collections.Counter()
    for text in texts.values():
        for line in text.split("\n"):
            it = re.match(r"\s*(?:let |where )?", line)
            m = DECLARED.match(line, it.end())
            for name in (m.group(1).split() if m else ()):
                names[name] += 1
            for m in re.finditer(r"\blet (%s) : " % IDENT, line):
                names[m.group(1)] += 1
            for m in re.finditer(r"[({]((?:%s )+): " % IDENT, line):
                for name in m.group(1).split():
                    names[name] += 1
            for m in re.finditer(r"(?:λ|let) ((?:%s )+)?(%s)(?:\.| =)" % (IDENT, IDENT), line):
                for name in ((m.group(1) or "") + m.group(2)).split():
                    names[name] += 1
    return names


def imported(texts):
    """Names that files take from elsewhere than this repository."""
    own = {c for c in os.listdir("crates")}
    names = set()
    for text in texts.values():
        for m in re.finditer(r"use ([\w.·+'-]+)\.\{([^}]*)\}", text):
            parts = m.group(1).split(".")
            if parts[0] == "Rattle" and len(parts) > 1 and parts[1] in own:
                continue
            for it in m.group(2).split(","):
                names.update(it.split(" as ")[-1].split())
                names.add(it.split(" as ")[0].strip())
    return names


def main():
    texts = {f: open(f, encoding="utf-8").read() for f in files("crates/*/specs/**/*.antt", "crates/*/proofs/**/*.antt")}
    own, others = declared(texts), imported(texts)
    own.update(PATTERNS)
    wanted = {n: APART.get(n, snake(n)) for n in own if n not in others and re.match(r"[A-Za-z]", n) and snake(n) != n}
    taken = collections.Counter(wanted.values())
    tokens = {t for text in texts.values() for t in re.findall(IDENT, text)}
    for n, new in sorted(wanted.items()):
        if taken[new] > 1 or new in own or new in others:
            where = [f for f in texts if re.search(r"(?<![^\s(){}\[\].,;:])%s(?![^\s(){}\[\].,;:])" % re.escape(new), texts[f]) and re.search(r"(?<![^\s(){}\[\].,;:])%s(?![^\s(){}\[\].,;:])" % re.escape(n), texts[f])]
            print(f"together: {n} -> {new}{' (taken twice)' if taken[new] > 1 else ''}{' (in one file: ' + ' '.join(where) + ')' if where else ''}")
    if "--look" in sys.argv:
        return
    later = dict(wanted, **{n: snake(n) for n in DONE})

    def turn(text, table):
        return re.sub(IDENT, lambda m: table.get(m.group(0), m.group(0)), text)

    for f, text in texts.items():
        new = turn(text, wanted)
        if "/specs/" in f:
            new = words(turn(new, WORDS))
        if new != text:
            open(f, "w", encoding="utf-8").write(new)
    for f in files("crates/*/src/**/*.rt"):
        text = open(f, encoding="utf-8").read()
        new = words(turn(turn(text, wanted), WORDS))
        if new != text:
            open(f, "w", encoding="utf-8").write(new)
    for f in files("crates/*/must-fail/*.edit"):
        text = open(f, encoding="utf-8").read()
        new = "\n".join(words(old_forms(turn(turn(l, later), WORDS))) if l.startswith(("old:", "new:")) else l for l in text.split("\n"))
        if new != text:
            open(f, "w", encoding="utf-8").write(new)
    for f in files("README.md", "docs/*.md"):
        text = open(f, encoding="utf-8").read()
        new = re.sub(r"`[^`\n]+`", lambda m: turn(m.group(0), later), text)
        if new != text:
            open(f, "w", encoding="utf-8").write(new)


def atom(text, i):
    """Where the argument that begins at i ends."""
    if text[i] != "(":
        return re.compile(r"[^\s(){},;]+").match(text, i).end()
    depth = 0
    for j in range(i, len(text)):
        depth += {"(": 1, ")": -1}.get(text[j], 0)
        if depth == 0:
            m = re.compile(r"(\.[\w']+)*").match(text, j + 1)
            return m.end()
    return len(text)


def words(text):
    """`slice_index_or xs i 0` is `slice_index xs i`; the line of imports has what is used."""
    at = 0
    while (m := re.compile(r"(?<![^\s(){}])slice_index_or (?=[^},\s])").search(text, at)):
        try:
            a = atom(text, m.end())
            b = atom(text, a + 1) if text[a] == " " else a
        except (AttributeError, IndexError):
            at = m.end()
            continue
        if b > a and re.compile(r" 0(?![\w.])").match(text, b):
            text = text[:m.start()] + "slice_index" + text[m.end() - 1:b] + text[b + 2:]
        at = m.start() + 5
    m = re.search(r"use Rattle\.std\.specs\.Prelude\.\{([^}]*)\}", text)
    if m and "slice_index_or" in m.group(1):
        body = text[:m.start()] + text[m.end():]
        names = [n.strip() for n in m.group(1).split(",")]
        used = [w for w in ("slice_index", "slice_index_or") if re.search(r"(?<![\w])%s(?![\w])" % w, body)]
        i = names.index("slice_index_or")
        names[i:i + 1] = [w for w in used if w not in names[:i]]
        text = text[:m.start(1)] + ", ".join(names) + text[m.end(1):]
    return text


def old_forms(line):
    """What the toolchain's script does to files, for a line of an edit."""
    line = re.sub(r"(?<=[\w')}]) \.(?=[a-z0-9])", ".", line)
    line = re.sub(r"\(([\w']+(?:\.[\w']+)+)\)", r"\1", line)
    return line


main()
