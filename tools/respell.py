#!/usr/bin/env python3
"""Brings the names of this repository's own definitions and lemmas to the spelling of today's Rattle.

usage: python3 tools/respell.py [FOLDER]     FOLDER: the top of a checkout, else the folder above this one

Words are written in snake case, types and facts in camel case. Run it once, after the kit's own script and before any
edit by hand. It turns specs/, proofs/ and the clauses of src/; it leaves comments, strings and the functions of src/.
"""

import os
import re
import sys

# the names that were written with dashes
DASHED = """
At-hand Carried-by Covers-all-nodes Decides-at-rest Decides-once Has-shadows In-every-run In-more In-seen
Keeps-laws Known-in May-deliver May-make Names-neighbours Places-suffice Ready-for Right-there Taken-out
Tells-holdings Within-bound a-node a-token above-all above-next account-at account-in account-of account-same
acted-follows added-up adjacent-set after-fate after-follower after-starter all-below all-fly all-full
all-full' all-second all-silent alone-decides among-apart among-here and-associative and-false and-swap
and-true apart-m apart-nodes apart-ranks apart-so asleep-else associative-services at-delivery at-hand at-k
at-lower at-node at-once-false at-start at-v avoiding-near awake-another awake-here b-in b-node b-seen
back-at-once back-of bad-counts bad-link bare-degrees before-it before-not before-noted before-too begun-s
bit-above bit-absent bit-low bit-minus bit-next bit-power bit-zero both-more by-fate by-starter chosen-all
chosen-same closed-again come-back common-delay common-firmware common-services connected-along connected-by
connected-from count-is count-le count-lt counts-fit counts-from cover-here cover-known cover-there cover-up
covered-before covers-all-nodes covers-next decided-least decided-so decides-at-rest decides-covering
decides-once decides-so decimal-only decisions-next degrees-set degrees-total delivered-state delivers-shadows
delivery-fits delivery-follows delivery-keeps delivery-plays delivery-wants device-before device-equality
device-form device-forms device-matches device-one device-only device-order digit-only digits-all digits-none
digits-only distinct-most distinct-total drawn-inside drawn-loopless drawn-symmetric drop-written each-else
each-least echo-admitted echo-arrival echo-keeps-laws echo-most echo-opening echo-rules empty-less empty-none
empty-size ends-inside enough-else equal-keys equal-told err-same ev-is event-at event-by event-by-at event-in
event-of fate-is fate-of fault-none fault-same fault-some few-apart few-of few-sent first-bool first-event
first-fault first-inside first-kept first-link first-near first-record first-row first-visit fits-room
flight-append flight-middle flight-sent fold-all fold-among fold-append fold-cons fold-has fold-laws fold-of
fold-one fold-union folded-cons follows-other follows-out found-is fresh-is fresh-more from-waiting full-noted
full-now gained-covers gains-message gains-own gets-token goes-else goes-not goes-out grown-has gs-next
handled-follows handled-now has-back has-cases has-if has-later has-minus has-node has-none has-only has-start
has-union heard-as here-heard here-stands holdings-check i-is i-link i-near i-node if-so in-bound in-fresh
in-i in-it in-j in-k in-q in-r in-s in-seen in-t in-transit in-x inventory-form inventory-forms inventory-laws
inventory-of inventory-only inventory-wide is-a is-back is-d is-empty is-first is-j is-kept is-node is-noted
is-own is-q is-r is-start is-starter its-carried its-flight joined-below joined-known joined-most joined-other
joins-event joins-it kept-apart kept-has kept-one kept-total known-p known-u known-v known-y last-full
later-cases later-event later-it later-token lawful-from least-form least-forms least-of ledger-long
left-carried left-more left-same left-sent left-sound length-held letters-length letters-sent link-degrees
link-joined linked-inside linked-loopless linked-none linked-push linked-symmetric links-are lone-left
lone-next lowest-is lowest-none lowest-of lowest-out lowest-some lowest-told lowest-within m-is made-follows
makes-keep makes-shadows may-deliver may-start members-all members-empty members-have members-none
messages-all messages-each messages-flight messages-length messages-seconds met-again met-associative
met-commutative met-idempotent met-swap missed-known more-decisions more-is most-pairs most-starters
names-arrival names-first names-neighbours names-none names-noting names-part near-false near-reached
near-silent neighbours-of new-here next-apart next-carried next-count next-covered next-decided next-echoing
next-ended next-flight next-flights next-grounded next-heard next-inside next-judged next-kin next-lone
next-own next-parents next-quiet next-reach next-seconds next-sent next-starters next-tokens next-treeing
next-two no-fault no-fault-at no-flight no-link no-nodes no-parent-sent no-path no-repeats no-test-fails
no-upper node-below node-else node-is node-link nodes-are none-empty none-linked none-noted none-picked
none-second none-sent none-some none-there not-admitted not-all not-before not-better not-empty not-from
not-mine not-node not-one-each not-p not-q not-r not-second not-self not-two noted-known noted-not noted-now
noted-out noted-sent noted-still noted-v notes-bool notes-known notes-last notes-new nothing-grounded
nothing-sent now-inside now-near now-noted now-sent now-told nth-within number-before number-equality
number-form number-forms number-matches number-one number-order of-s old-there on-table one-decision
one-each-else one-empty one-false one-handled one-key-each one-member one-most one-put-out one-started
one-true ones-more ones-most only-itself only-t onward-within opened-count opened-covered opened-flights
opened-quiet opened-reach opened-sent opened-state opened-tokens opens-echoing opens-judged opens-treeing
or-false or-regroup other-has other-told other-wave ours-else out-follows out-now owed-most own-here
own-holding p-else p-here parent-full parent-noted parent-waits passes-most past-it path-along path-append
path-back picked-append picked-map picked-no picked-swap picked-yes picks-before picks-later plan-for
planned-for plays-on put-into put-out put-out-in put-out-now puts-out rank-all rank-apart rank-at rank-counts
rank-in rank-le rank-more rank-none rank-of rank-passes rank-table receiver-node receiver-within record-start
records-next records-there rest-other rest-within rest-without ring-admitted ring-arrival ring-keeps-laws
ring-most ring-onward ring-opening ring-passed ring-rules room-enough room-left row-with rows-here rows-there
running-after running-is running-long running-read s-node said-at-delivery said-at-start same-append
same-device same-inventory same-least same-members same-network same-trans same-without second-goes
second-near second-row seconds-append seconds-first seconds-middle seconds-second sender-known sender-near
sender-of sends-if sends-one sends-same sent-at-once sent-first sent-kept sent-later sent-near sent-not
sent-to set-bits set-take shadow-s shown-next shuffled-same silent-has silent-less silent-now silent-or-noted
silent-size silent-then single-split size-apart size-empty size-le size-more size-most size-one size-total
small-a small-bound small-c small-d small-m smaller-value some-decision some-holding some-member some-none
some-verdict sound-from sound-next sound-to st-a st-t standing-after standing-in standing-of start-check
start-event start-event-is start-follows start-here start-keeps start-node start-plays start-token start-wants
started-within starter-covers starter-follower starter-is starter-within starters-nodes starts-follows
starts-shadows stays-empty stays-event stays-it step-at step-decides step-notes step-second step-standing
step-told still-done still-known still-silent sum-total swap-eqb table-all table-ranks take-written taken-left
taken-others taken-seen this-turn time-here time-known time-there times-next token-at-start token-carries
token-cases token-near token-now token-others token-out token-silent token-size token-then token-to
tokens-else tokens-here told-first told-later total-at total-bounded total-le total-least total-list
total-more total-none total-part total-same total-sum total-swap total-tests traces-alone traces-each
traces-written transit-after transit-flight transit-is transit-next transit-seconds tree-admitted tree-arrival
tree-keeps-laws tree-most tree-opening tree-rules turn-of twice-here two-each two-more two-nodes u-else u-here
u-quiet u-sends under-way unpicked-map unsent-now v-else v-here v-in v-node verdict-least verdict-of wakes-has
wakes-size walk-most was-not-full was-r was-sent where-in whole-cover with-counts within-bound within-i
within-j within-lower within-share word-forms x-is x-node zeros-even zeros-odd
""".split()

# names whose new spelling is not their old one with other joints, since a name of the library has that
OTHERS = {
    "bit-and": "bit_of_and",
    "bit-or": "bit_of_or",
    "getD-all": "get_or_all",
}


def respelled(name):
    if name in OTHERS:
        return OTHERS[name]
    if name[0].isupper():
        return "".join(part[:1].upper() + part[1:] for part in name.split("-"))
    return name.replace("-", "_")


NAMES = {name: respelled(name) for name in [*DASHED, *OTHERS]}
WORD = re.compile(r"[\w'-]+")
# what is copied as it stands: comments and strings
LEFT_ANTT = re.compile(r"--[^\n]*")
LEFT_RT = re.compile(r'//[^\n]*|"(?:[^"\\]|\\.)*"')


def turned(text, left):
    out, at = [], 0
    for m in left.finditer(text):
        out += [WORD.sub(lambda w: NAMES.get(w.group(0), w.group(0)), text[at:m.start()]), m.group(0)]
        at = m.end()
    out.append(WORD.sub(lambda w: NAMES.get(w.group(0), w.group(0)), text[at:]))
    return "".join(out)


def main(argv):
    top = argv[0] if argv else os.path.join(os.path.dirname(os.path.abspath(__file__)), "..")
    changed = 0
    for folder, folders, files in os.walk(os.path.join(top, "crates")):
        folders[:] = sorted(f for f in folders if f != "out")
        for name in sorted(files):
            if not name.endswith((".antt", ".rt")):
                continue
            path = os.path.join(folder, name)
            with open(path, encoding="utf-8") as f:
                before = f.read()
            after = turned(before, LEFT_ANTT if name.endswith(".antt") else LEFT_RT)
            if after != before:
                with open(path, "w", encoding="utf-8") as f:
                    f.write(after)
                changed += 1
    print(f"{changed} files respelled")


if __name__ == "__main__":
    main(sys.argv[1:])
