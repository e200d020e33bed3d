#!/usr/bin/env python3
"""Brings the repository's own definitions and lemmas to today's spelling: words in snake case, modules and types in camel case.

usage: python3 tools/spelling.py [--table]     at the top of the repository, once, after the kit's port.py; with --table it only prints old and new names

Names of functions, fields and locals of src/, exported names, strings and outputs stay. A dash stays where it joins two names (turns-add, swapped-length).
A definition that would have the name of something in a source file that cites it gets `_of`, a lemma that would have a definition's name gets `_lem`.
"""
import collections
import glob
import os
import re
import sys

NAME = r"[^\W\d][\w'′\-]*"
TOKEN = re.compile(r"(?<![\w'′«])" + NAME)
MARKS = r"((?:(?:pattern|unfoldable|abbrev|pub|axiom)\s+)*)"
DECLARED = re.compile(r"^(\s*)" + MARKS + r"((?:data|record)\s+)?(" + NAME + r")((?:\s+" + NAME + r")*)\s*(?:\{[^}]*\}\s*)?(?:\([^=]*?\))*\s*:\s")
LET = re.compile(r"\blet (" + NAME + r")(?=\s*[:=])")
OPERATIONS = {"length", "add", "set", "take", "drop", "append"}
# generated words, and names that a proof file gets from the kit
WRITTEN = ("Proof.antt", "Answers.antt", "Invariants.antt")
# names that fall together otherwise, and what they are called
BY_HAND = {
    # a lemma that would have its definition's name
    "all-finite": "all_finite_lem",
    "at-end": "at_end_lem",
    "budget-spent": "budget_spent_lem",
    "caught-up": "caught_up_lem",
    "dc-pass": "dc_pass_lem",
    "digits_of": "digits_of_lem",
    "ends-dc": "ends_dc_lem",
    "first-of": "first_of_lem",
    "has-source": "has_source_lem",
    "in-turn": "in_turn_lem",
    "inside_of": "inside_of_lem",
    "is-inductor": "is_inductor_lem",
    "job-sizes": "job_sizes_lem",
    "kind-at": "kind_at_lem",
    "least-of": "least_of_lem",
    "left-of": "left_of_lem",
    "less-scaled": "less_scaled_lem",
    "limbs-of": "limbs_of_lem",
    "most-of": "most_of_lem",
    "net-sum": "net_sum_lem",
    "none-shares": "none_shares_lem",
    "on-record": "on_record_lem",
    "one-of": "one_of_lem",
    "one_more": "one_more_lem",
    "past_end": "past_end_lem",
    "row_fits": "row_fits_lem",
    "small_size": "small_size_lem",
    "sources-at": "sources_at_lem",
    "step-pass": "step_pass_lem",
    "unit-of": "unit_of_lem",
    # a definition that would have a parameter's name
    "caughtUp": "caught_up_of",
    "patternFirst": "pattern_first_at",
}
# where port.py gave a lemma and a definition one name: the lemma's module, and those that cite it from there
FELL_TOGETHER = {
    "by_kind": ["behind/specs/laws/Same", "groups/specs/laws/Listed", "groups/specs/laws/Passing"],
    "by_order": ["mean/proofs/Sticky"],
    "entry_of": ["stamps/specs/laws/Entry"],
    "is_row": ["judge/specs/laws/Judge"],
    "number_of": ["models/specs/laws/UpAndDown"],
    "value_of": ["sound/specs/laws/Promises"],
}
# what port.py has in snake case already; it turns no must-fail edits and no pages
PORTED = """
above-half above-same above-zero add-at add-kept add-low add-right afterOf alike-spec all-append all-left all-pass all-right all-sound among-same and-no
and-none answerOf as-before as-it-was as-many at-fields at-first at-last at-least at-most at-own at-place at-row at-same at-zero badOrder baseOf below-half
bits-are bits-below bitsOf both-false both-run both-settle both-ways by-code by-kind by-order by-place by-row byCounts byKind byOrder c-pos callOf clean-at
clear-spec column-apart copy-spec count-of count-spec counted-spec counts-of counts-same cut-at cutOf digits-are digits-low digits-lt digits-of doneOf down-to
each-at each-more each-same edge-few either-same either-way end-is endOf ends-as entry-of entryAt entryOf even-is every-call field-is field-lt fieldOf
fields-value fill-done fill-more fill-spec fill-suc find-spec finish-spec finite-number first-below first-byte first-small first-spec first-two firstOf fits-in
floatAt formOf from-end from-le from-zero front-at front-length front-same goes-on half-le half-lt has-room has-value high-sum high-word highOf in-between
in-group in-p in-step inTurn inside-of is-false is-finite is-none is-positive is-row is-within is-word is-zero isRow jobOf joined-at joined-length kOf kindAt
kindOf last-fits last-none last-one lastOf layoutOf least-under left-alone left-is left-word leftOf lend-spec less-zero lessOne like-is lineOf list-same
listedAt listedOf long-rest long-tried low-fits low-half low-sum lowOf lower-spec lt-trans lt-up made-of main-spec many-more mark-spec markOf may-add minus-is
modelAt mostOf mul-at mul-low named-some namedOf next-more no-digit no-less no-nan no-number no-ones no-part no-sign no-source no-tie no-word no-wrap
node-at-spec none-above none-named none-of not-first not-more notedOf num-pos number-of number-same numberAt numberIn numberOf odd-is odd-low odd-part ofBits-is
on-edge on-line once-more one-at-most one-end one-entry one-float one-less one-more one-none one-number one-spec one-unit one-way oneOf or-assoc or-zero-spec
orZero order-below order-small other-sign over-none own-at own-back own-same own-sign ownOf packed-lt partsOf pass-fits pass-step past-end place-is placesOf
plainByte plainOf pointsOf positive-of power-pos product-high put-spec read-first read-found record-of record-same refusal-is rem-below rem-value rest-lt restAt
resultOf round-number round-under row-apart row-fits row-in row-inside row-is row-reads row-room row-same row-under rowAt rowOf rows-apart rowsOf run-fits
run-holds run-more run-spec run-step runOf same-bits same-check same-end same-float same-from same-length same-spec same-whole says-same signOf size-is size-top
sizeOf small-cut small-is small-size small-spec small-word so-far some-first some-size spanOf spotOf startOf stateOf step-keeps steps-back stepsOf sum-fits
sum-lt sum-more sum-number sum-room sumOf summed-same tableOf take-spec taken-here takenOf takes-same tells-all times-more times-none times-zero to-le totalOf
under-one under-ones unitOf units-lt units-number up-one up-to used-all value-none value-of value-same value-set valueAt valueOf wait-spec went-on whole-code
whole-is width-fits with-it word-low word-lt word-small wordOf write-keeps write-spec writesOf writtenBy writtenOf zero-is zero-of
""".split()


def antt():
    return sorted(glob.glob("crates/*/specs/**/*.antt", recursive=True) + glob.glob("crates/*/proofs/**/*.antt", recursive=True))


def snake(name):
    parts = []
    for part in name.replace("′", "'").split("-"):
        parts.append(re.sub(r"(?<=[a-z0-9])([A-Z])", lambda m: "_" + m.group(1).lower(), part))
    return parts


def collect():
    own, defs, fields = collections.defaultdict(set), set(), set()
    for f in antt():
        if "/proofs/" in f and os.path.basename(f) in WRITTEN:
            continue
        record = None
        for line in open(f, encoding="utf-8"):
            if line.lstrip().startswith("--"):
                continue
            m = DECLARED.match(line)
            indent = len(line) - len(line.lstrip())
            if record is not None and line.strip() and indent <= record:
                record = None
            if m:
                for n in [m.group(4)] + m.group(5).split():
                    own[n].add(f)
                    if m.group(2) and re.search("abbrev|unfoldable", m.group(2)):
                        defs.add(n)
                    if record is not None:
                        fields.add(n)
            if re.match(r"\s*(pub )?(abbrev )?record\s", line):
                record = indent
            for m in LET.finditer(line):
                own[m.group(1)].add(f)
    return own, defs, fields


def table():
    own, defs, fields = collect()
    names = {}
    snaked = {"_".join(snake(d)) for d in defs}
    for n in own:
        if not ("-" in n or "′" in n or n in BY_HAND or re.match(r"[a-z]\w*[A-Z]", n)):
            continue
        parts = snake(n)
        new = parts[0]
        for i in range(1, len(parts)):
            dash = parts[i] in OPERATIONS and i == len(parts) - 1 and "_".join(parts[:i]) in snaked
            new += ("-" if dash else "_") + parts[i]
        names[n] = BY_HAND.get(n, new)
    return own, names, fields


def clashes(own, names):
    by_new = collections.defaultdict(set)
    for n in own:
        by_new[names.get(n, n)].add(n)
    for n, olds in sorted(by_new.items()):
        if len(olds) > 1:
            print(n, "would be:", ", ".join(sorted(olds)))


def turned(text, names, fields, lemmas=()):
    """The text with each name in its new spelling; behind a dot only a field of a record or a name of a module, which may stand under another name."""
    modules = set(re.findall(r"\bas ([a-z][\w']*)", text))

    def one(m):
        word, before = m.group(0), text[max(0, m.start() - 80) : m.start()]
        of = re.search(r"(?<![\w'.])([^\W\d][\w']*)\.$", before)
        if before.endswith(".") and word not in fields and not (of and of.group(1) in modules) and not re.search(r"(?<![\w'])[A-Z][\w']*\.$", before):
            return word
        return word + "_lem" if word in lemmas else names.get(word, word)

    return TOKEN.sub(one, text)


def ported(text):
    """The text of an edit or a page with the names that port.py turned in the sources."""
    names = {n: "_".join(snake(n)) for n in PORTED}
    return TOKEN.sub(lambda m: names.get(m.group(0), m.group(0)), text)


def theirs(text, crates):
    """The names that a file imports from a library that is not the repository's."""
    found = set()
    for m in re.finditer(r"(?m)^(?:pub |ghost )*use ([\w.]+)\.\{([^}]*)\}", text):
        path = m.group(1).split(".")
        if path[0] != "Rattle" or path[1] not in crates:
            found |= {n.strip() for n in m.group(2).split(",")}
    return found


def modules():
    """laws.antt and laws/ become Laws.antt and Laws/: a module is in camel case."""
    for f in sorted(glob.glob("crates/*/specs/laws*")):
        os.rename(f, f.replace("/laws", "/Laws"))


def by_module(text):
    text = re.sub(r"(?<=\.specs\.)laws(?=[.;\s])", "Laws", text)
    text = re.sub(r"(?m)^(pub mod )laws$", r"\1Laws", text)
    return re.sub(r"(?<![\w])((?:specs/)?)laws(?=/[A-Z]|\.antt)", r"\1Laws", text)


def main():
    own, names, fields = table()
    if "--clashes" in sys.argv:
        return clashes(own, names)
    if "--table" in sys.argv:
        for o, n in sorted(names.items()):
            print(o, n)
        return
    crates = set(os.listdir("crates"))
    sources = sorted(glob.glob("crates/*/src/**/*.rt", recursive=True))
    edits = sorted(glob.glob("crates/*/must-fail/*.edit"))
    for f in antt() + sources + edits:
        with open(f, encoding="utf-8") as it:
            text = was = it.read()
        if f.endswith(".edit"):
            text = ported(text)
        lemmas = set()
        for n, files in FELL_TOGETHER.items():
            for m in files:
                path = "Rattle." + m.replace("/", ".")
                if f == "crates/" + m + ".antt" or re.search("^use " + re.escape(path) + r"\.\{[^}]*\b" + n + r"\b", text, re.M):
                    lemmas.add(n)
        here = {o: n for o, n in names.items() if o not in theirs(text, crates)}
        if f.endswith((".rt", ".edit")):
            # a lemma's name that is in snake case already may be a function's too
            here = {o: n for o, n in here.items() if "-" in o or re.search("[A-Z]", o)}
        text = turned(text, here, fields, lemmas)
        if os.path.basename(f) == "Proof.antt":
            # the proof of f is f_spec
            spec = set(re.findall(r"(?m)^pub ([\w\-]+-spec) :", text))
            text = TOKEN.sub(lambda m: m.group(0).replace("-", "_") if m.group(0) in spec else m.group(0), text)
        text = by_module(text)
        if text != was:
            with open(f, "w", encoding="utf-8") as it:
                it.write(text)
    modules()


main()
