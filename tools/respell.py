#!/usr/bin/env python3
"""Brings this repository's own definitions and lemmas to the spelling of the library: words in snake case, types in
camel case. Run once at the top, after the kit's port.py. Functions of src/, strings, inputs and outputs keep their names."""

import os
import re
import sys

# Names whose new spelling follows from the old one: capitals and dashes become underscores.
WORDS = """
aboveHalf afterPut afterRxPoll afterTheLast afterTxPoll all-zero anyPlanned askOf askedRate askedSlots at-end bclk-above-0
bclkOf before-missed best-up-to bitDivider by-table by-words chipPlan chipsKnown clock-says clockPlan common-above
common-fields common-lands common-made common-put commonIn commonRow computed-least countedIn decimalOf digit-not-blank
digit-of digits-end dividersInC dividersOf drawsOn endEvents faultOf figureAt figures-are firstLeast found-busy
found-late found-over fourthWord half-put halfIn halfNamed hasBits hasPair hasSlots inCommon inRx inTx integerPart isBlank
isNew isPlanned kindNamed lack-says lackOf leadingOf leastFrom limitAt limits-are lineIn marksAfter marksOf marksOn mclkOf
miss-fits missOf missWith multipleOf newCommon newHalf newMarks no-blanks no-draw no-remark noEvents none-0
nothingCounted numbers-put numerator-le numeratorAt once-over oneMore outOfRange outcomeOf pacedCommon pacedRx pacedTx
pair-agrees pairIn past-1 past-2 past-3 past-space pastBlanks pastLine pastWord place-below plan-says planned-says plannedOf
putCommon putOn putRx putTx puts-read-back ratesShown readAfter readAs readingBy reads-written refusalOf refusedBy refusedWhen
rx-at rx-at-end rx-between rx-courses rx-fields rx-lands rx-made rx-once-over rx-put rx-while-busy rxIn rxPolled rxRow scriptOf
scriptedCommon scriptedRx scriptedTx secondWord set-one set-up slots-fit space-past space-word split-says splitAnswer splitInC
splitOf splitPlan storedIn storedOn tenThousandth thirdWord trialAt tx-at tx-below tx-courses tx-fields tx-lands tx-made tx-put
txIn txPolled txRow unused-kept upper-half while-busy while-late widthNamed with-busy with-enabled with-events with-late
with-link with-pending with-stale with-wait withinInC withinRange word-1 word-2 word-3 word-4 word-ends zero-at
""".split()

# Types, lemmas that would fall together with the definition that they speak of, and a definition with a field of that name above it.
OTHERS = {
    "eightBits": "eight_bit_range",
    "Figures-settled": "FiguresSettled",
    "No-place-twice": "NoPlaceTwice",
    "Pair-agrees": "PairAgrees",
    "Puts-read-back": "PutsReadBack",
    "Starts-leave": "StartsLeave",
    "half-named": "half_named_lem",
    "kind-named": "kind_named_lem",
    "new-half": "new_half_lem",
    "past_word": "past_word_lem",
    "width-named": "width_named_lem",
}

# English words, which stand in remarks as such.
ENGLISH = {"set-up"}

NAME = re.compile(r"[A-Za-z_][\w'\-]*")
STRING = re.compile(r'"(?:[^"\\]|\\.)*"')
# The head of a file of specs/: a name with its arguments, two spaces or more, what it is.
ENTRY = re.compile(r"--     (\S.*?)  +(\S.*)$")
GOES_ON = re.compile(r"--      +(\S.*)$")


def snake(name):
    return re.sub(r"(?<=[a-z0-9])([A-Z])", r"_\1", name).replace("-", "_").lower()


def table():
    names = {n: snake(n) for n in WORDS} | OTHERS
    if len(set(names.values())) != len(names):
        sys.exit("respell: two names fall together")
    return names


def code(text, names):
    parts, at = [], 0
    for s in STRING.finditer(text):
        parts += [NAME.sub(lambda m: names.get(m[0], m[0]), text[at : s.start()]), s[0]]
        at = s.end()
    return "".join(parts) + NAME.sub(lambda m: names.get(m[0], m[0]), text[at:])


def remark(text, names):
    return NAME.sub(lambda m: m[0] if m[0] in ENGLISH else names.get(m[0], m[0]), text)


def turned(line, mark, names):
    """A line with its names respelled. What follows the mark of a remark is prose."""
    at = line.find(mark)
    if at < 0:
        return code(line, names)
    return code(line[:at], names) + remark(line[at:], names)


def in_columns(lines):
    """Heads of files of specs/ with their second column in line again."""
    out, at = [], 0
    while at < len(lines):
        end = at
        while end < len(lines) and (ENTRY.match(lines[end]) or (end > at and GOES_ON.match(lines[end]))):
            end += 1
        width = max([len(ENTRY.match(l)[1]) for l in lines[at:end] if ENTRY.match(l)], default=0)
        for l in lines[at:end]:
            m = ENTRY.match(l)
            out.append(f"--     {m[1]:<{width}}  {m[2]}" if m else "--     " + " " * (width + 2) + GOES_ON.match(l)[1])
        if end == at:
            out.append(lines[at])
            end += 1
        at = end
    return out


def texts():
    for folder, dirs, files in os.walk("crates"):
        dirs[:] = sorted(d for d in dirs if d != "out")
        for f in sorted(files):
            if f.endswith((".rt", ".antt")):
                path = os.path.join(folder, f)
                with open(path, encoding="utf-8") as it:
                    yield path, it.read()


def main():
    if not os.path.isdir("crates"):
        sys.exit("respell: run it at the top of the repository")
    if not any("mclkOf" in NAME.findall(text) for _, text in texts()):
        sys.exit("respell: it has run here already")
    names = table()
    for path, old in list(texts()):
        mark = "//" if path.endswith(".rt") else "--"
        lines = [turned(l, mark, names) for l in old.split("\n")]
        if path.endswith(".antt") and os.sep + "specs" + os.sep in path:
            lines = in_columns(lines)
        new = "\n".join(lines)
        if new != old:
            with open(path, "w", encoding="utf-8") as it:
                it.write(new)


main()
