#!/usr/bin/env python3
"""Respells the repository's own definitions and lemmas: words in snake case, types and facts in camel case.

usage: tools/respell.py, once, at the top, after the older spelling of the library was turned

A dash stays only in the name of a lemma that joins the names of two definitions.
"""
import glob
import re

# facts and types, and `inside`, a fact that would fall together with `Inside`
RENAMED = {
    "inside": ("StaysInside", ["crates/chain/specs/Chains.antt", "crates/chain/src/links.rt"]),
    "Limit-is-free": "LimitIsFree",
    "Whole-is-admitted": "WholeIsAdmitted",
    "Larger-is-admitted": "LargerIsAdmitted",
    "Left-only-narrows": "LeftOnlyNarrows",
    "True-cut": "TrueCut",
    "In-range": "InRange",
    "Range-lies-between": "RangeLiesBetween",
    "Exactly-fitting": "ExactlyFitting",
    "Refused-by-field": "RefusedByField",
    "Of-form": "OfForm",
    "Keeps-rank": "KeepsRank",
    "Keeps-distinct": "KeepsDistinct",
    "okOr-ok": "ok_or-ok",
}

# definitions, fields, and lemmas whose name is no two names: each dash becomes an underscore
UNDERSCORED = """
side-letter kind-letter time-letter cause-letter phase-number session-set all-sessions designation-of
layer-number reason-number reason-field
entry-widths cancel-widths cancel-of position-after rest-is
pick-kind pick-time minimum-left bids-fall offers-rise idle-price idle-by best-bid larger-side
odd-admits odd-after
is-kill is-conditional is-day is-opening minimum-fits time-fits may-designate date-fits side-check
price-check quantity-check kind-check minimum-check time-check designation-check date-check by-time
sessions-of designation-fits time-of-kind
ok-one ok-bind require-ok choose-ok designation-ok side-back kind-back time-back sessions-back ok-require
ok-choose ok-asked ok-designation err-refuses ok-refuses bind-refuses require-refuses choose-refuses
side-refuses designation-refuses refused-by-field
as-itself ascii-digit in-hex
price-text letter-text terms-text entry-text cancel-text refusal-text item-text
before-place front-past front-within used-place after-insert after-remove after-renew
one-if pairs-more answers-more answers-end after-end order-of ranked-pairs answer-of after-all
open-check put-check put-answer after-put bid-before offer-before waiting-before bid-ranking
offer-ranking waiting-ranking
keeps-distinct keeps-rank leads-through all-removed rewritten-as
place-at-end found-at-end place-within stands-there
free-slot head-inside next-inside next-other after-link-first after-link-behind after-unlink-first
after-unlink-behind once-used inside-used used-unmet free-first parted-at free-inside free-unmet
free-once used-spare parted-in in-first in-later parted-out out-first-suc out-later-suc out-later
renewed-at all-free parted-new along-at trail-first along-first follows-suc inside-next times-at
once-rest once-first once-later once-apart unmet-parts in-behind at-prev in-unmet link-in out-behind
before-out past-out out-unmet link-out linked-first linked-behind unlinked-first unlinked-behind
renewed-slot room-same along-within held-within order-in times-self
more-words is-item
""".split()

TABLE = {name: name.replace("-", "_") for name in UNDERSCORED}
SCOPES = {}
for name, new in RENAMED.items():
    TABLE[name], SCOPES[name] = new if isinstance(new, tuple) else (new, None)

# what may stand beside a name
EDGE = r"\s(){}\[\].,;`"
WORD = re.compile(rf"(?<![^{EDGE}])[^{EDGE}]+(?![^{EDGE}])")


def respelled(text, path, keep):
    def word(match):
        name = match[0]
        scope = SCOPES.get(name)
        if name not in TABLE or name in keep or (scope and not any(path.startswith(s) for s in scope)):
            return name
        return TABLE[name]

    return WORD.sub(word, text)


def goals(text):
    """The goals that a proof file answers: their names are made from the code."""
    return set(re.findall(r"^(?:abbrev )?pub ([^\s:]+) : goal\.", text, re.M))


def fields(line):
    """Whether a line of code is a clause, a ghost item or an import of definitions."""
    return re.match(r"\s*(ghost |requires|ensures)", line) is not None


def code(text, path):
    return "".join(respelled(l, path, set()) if fields(l) else l for l in text.splitlines(keepends=True))


def labels(text):
    """`inside` is the label of a clause too, which stays."""
    return re.sub(r"^(\s*requires )StaysInside( \{)", r"\1inside\2", text, flags=re.M)


def docs(text):
    return re.sub(r"`[^`\n]+`", lambda m: respelled(m[0], "docs", {"inside"}), text)


def main():
    for path in sorted(glob.glob("crates/*/specs/**/*.antt", recursive=True) + glob.glob("crates/*/proofs/**/*.antt", recursive=True)):
        rewrite(path, lambda text: labels(respelled(text, path, goals(text))))
    for path in sorted(glob.glob("crates/*/src/**/*.rt", recursive=True)):
        rewrite(path, lambda text: labels(code(text, path)))
    for path in ["README.md"] + sorted(glob.glob("docs/*.md")):
        rewrite(path, docs)


def rewrite(path, change):
    with open(path) as file:
        old = file.read()
    new = change(old)
    if new != old:
        with open(path, "w") as file:
            file.write(new)


if __name__ == "__main__":
    main()
