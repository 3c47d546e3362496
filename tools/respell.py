#!/usr/bin/env python3
"""Spells this repository's own words as the standard library does: definitions, fields and lemmas in snake case.

usage: python3 tools/respell.py      at the top of the repository, once, right after the toolchain's port.py

A capital inside a word and a dash become an underscore. A dash stays where it joins the names of two functions, as in
`length-cells`. Comments change where they name a word that had a capital; text in quotes stays.
"""

import os
import re

# The words of specs/ and proofs/ that have a capital or a dash.
WORDS = """
acceptable-sound after-fields ahead-assign aheadOfDot all-out all-when-closes all-when-none allChecks allOut
along-none along-part along-put along-same answerText answerTo apart-by-place around-front around-same assign-each
assign-sound assign-waiting at-close at-number at-start atHop blank-sum blanks-all blanks-first block-end busy-steps
byLane cells-set check-declined checks-passed closeRefusal closes-none column-back commandOf count-declined
countFits decimalOf declined-by does-enter does-forward does-front each-passed each-passes emptyRing end-in
enoughSlots entered-fit entered-others entered-place entered-queue entered-slots every-run false-if-not-never
fieldChecks fields-declined first-all first-append first-below-none first-below-some first-none first-on-route
firstBelow firstHop firstNumber firstRule from-here fromDigits front-and-rest front-in front-is front-own
front-proper front-steps frontArrival frontTo gridSum gridSum-at gridSum-pop gridSum-push gridSum-put gridSum-same
gridSum-zero handedOut handedOutSince hasRoom heightAt heightOf held-and-kept here-cells here-set-other
here-set-same hop-by-hop hopAt hopCheck hopChecks hopOf hopOn hops-after hops-mistakes hops-next hops-then hopsAhead
hopsEntering hopsFrom hopsFrom-after hopsFrom-here hopsFrom-inherits hopsFrom-next hopsFrom-unused hopsIn hopsJudged
hopsLetIn hopsOf instructionOf is-mesh isDeclined itemCount itemCountOf items-after items-next judge-mistakes
judgeInstruction keeps-lane keeps-order keeps-pace kept-after kept-blank kept-contents kept-stream lane-rises
laneCount laneFalls laneRefusal lanesFit lawful-safe left-first left-fit left-others left-place left-queue left-sum
left-waiting length-ahead length-around length-cells length-filled length-here length-items letIn letInSince lets-in
letters-first level-ge level-le line-mistakes link-mistakes linkCount linkInstruction linkNumber load-all load-more
loadIn meaningOf mesh-lawful mesh-mistakes mesh-outside meshInstruction meshLink meshMeaning meshOf most-links
most-tiles named-mistakes namedInstruction never-false next-digit next-none next-on-route next-some nextHop
nextPlace no-hop-fails no-turn-from no-turn-to noHop none-closes none-fails none-in-queue none-on-grid none-sound
none-waits none-when-closes not-here not-never not-used not-used-before nothing-waits nothingMore number-large
number-within of-block ofStream ofStream-append ofStream-count on-grid on-route-proper onGrid onLayout oneLane
openCall openRefusal opensStream or-other-none order-after order-next other-kind pair-passed pair-passes passed-by
passed-same passed-sum passed-waiting placeAt placed-pop placed-push popped-other proper-from proper-none
pushed-other put-each queue-length queueAt queueSum queueSum-append queueSum-same queuesOf refusalNumber refusalOf
refusedBy refusedText replyOf replyText rest-is rests-at-zero rests-empty rests-without-hops rests-without-items
ring-fits ring-is ringAt rings-set rises-after rises-at rises-between rises-by-place roomAtFirst routeChecks routeOf
ruleOf same-link same-tile same-where sameKind second-fails sendRefusal sent-last sent-sum sent-waiting sentTwo
sizeFits slot-in slotCount slotsAfter some-lane-steps some-links some-tiles spanAt spanHeight start-in start-lt
start-south step-adds stepFront stepsGone streamCount streamOf streamsOf sumBelow sumBelow-at sumBelow-change
sumBelow-same sumBelow-zero sumOfLanes sumOfLanes-at sumOfLanes-change sumOfLanes-same sumOfLanes-zero sumOfLink
termsOf thenSteps tiles-ge tiles-le turn-mistakes turn-rises turn-to-none turnAt turnInstruction turnInto
turns-apart two-tiles twoLanes unless-declined unlessDeclined unused-from upright-le used-nowhere
used-nowhere-before uses-more uses-none whole-when-no-rest withQueue withStream words-behind wordsAfter x-in x-next
y-in y-next
""".split()

# Names bound inside a lemma.
LOCAL = "is-k link-low not-open turns-back when-none".split()

# A dash that joins the names of two functions.
JOINED = {
    "cells-set": "cells-set",
    "gridSum-put": "grid_sum-put",
    "here-cells": "here-cells",
    "here-set-other": "here-set_other",
    "here-set-same": "here-set_same",
    "length-around": "length-around",
    "length-cells": "length-cells",
    "length-here": "length-here",
    "length-items": "length-items",
    "ofStream-append": "of_stream-append",
    "queueSum-append": "queue_sum-append",
}

# Words that would fall together with another.
APART = {
    "onGrid": "is_on_grid",
    "unless-declined": "unless_declined_lem",
}

# The same, where it is a matter of one file.
IN_FILES = {
    "crates/model/proofs/Order.antt": {"let-in": "came_in", "Handed-out": "went_out"},
    "crates/routes/proofs/Judging.antt": {"lanes_fit": "lanes_fit_lem"},
    "crates/script/proofs/SameKind.antt": {"same_kind": "same_kind_lem"},
    "crates/script/proofs/WordCuts.antt": {"by_kind": "kind_cases"},
    "crates/script/proofs/bytes/Kind/run/Answers.antt": {"same_kind": "same_kind_lem"},
}

# An identifier of the logic, or a text in quotes.
TOKEN = re.compile(r'"[^"\n]*"|[^\s(){}\[\].;,:«»|"`]+')


def snake(word):
    return re.sub(r"(?<=[a-z0-9])[A-Z]", lambda m: "_" + m.group(0).lower(), word).replace("-", "_")


TABLE = {w: snake(w) for w in WORDS + LOCAL} | JOINED | APART
CAPITALS = {w: TABLE[w] for w in TABLE if "-" not in w}


def respell(text, table):
    return TOKEN.sub(lambda m: table.get(m.group(0), m.group(0)), text)


def code(text, comment, table):
    lines = []
    for line in text.split("\n"):
        at = 0 if line.lstrip().startswith(comment) else len(line)
        lines.append(respell(line[:at], table) + respell(line[at:], CAPITALS))
    return "\n".join(lines)


def main():
    for folder, dirs, files in os.walk("crates"):
        dirs[:] = sorted(d for d in dirs if d not in ("out", "must-fail"))
        for f in sorted(files):
            path = os.path.join(folder, f)
            if f.endswith((".rt", ".antt")):
                with open(path, encoding="utf-8") as it:
                    old = it.read()
                if f.endswith(".rt"):
                    # the code itself has no such word: they stand in clauses and imports
                    new = code(old, "//", CAPITALS | {w: TABLE[w] for w in TABLE if w.startswith("mesh-")})
                else:
                    new = code(old, "--", TABLE | IN_FILES.get(path.replace(os.sep, "/"), {}))
                if new != old:
                    with open(path, "w", encoding="utf-8") as it:
                        it.write(new)


if __name__ == "__main__":
    main()
