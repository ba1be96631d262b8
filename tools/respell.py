#!/usr/bin/env python3
"""Respells the repository's own definitions and lemmas: words in snake case, facts and types in camel case.

usage: python3 tools/respell.py [TOP]     TOP: the top of a checkout that port.py has turned; without it, this one

Each row of NAMES is an old name and its new one. A name is replaced where it stands whole, in .rt and .antt files below crates/. Where a file
holds an old name and its new one already, the two would fall together: then it says so and writes nothing. MIRRORS are let through.
"""
import os
import re
import sys

NAMES = """
# ordered: specs
inUse in_use
Told-by-place ToldByPlace
# ordered: proofs
take-of-set take_of_set
filed-inserted filed_inserted
chain-from-ascends Chain-from_ascends
ascends-from-chain Ascends-from_chain
all-filed All-filed
chain-filed Chain-filed
ascends-filed Ascends-filed
chain-kept-by Chain-kept_by
ascends-kept-by Ascends-kept_by
same-before same_before
ascends-set Ascends-set
all-removed All-removed
chain-removed Chain-removed
ascends-removed Ascends-removed
ascends_far Ascends-far
located-err located_err
located-ok located_ok
insertion-ok insertion_ok
one-element one_element
turned-by-one turned_by_one
false-from-not false_from_not
same-not-before same_not_before
same-not-after same_not_after
before-not-after before_not_after
same-from-neither same_from_neither
between-up Between-up
between-down Between-down
not-before not_before
place-between place_between
holds-none holds_none
located-same located_same
located-other located_other
located-none located_none
place-before place_before
place-within place_within
holds-within holds_within
place-behind place_behind
told-by-place told_by_place
# terms: specs
readerNumber reader_number
directoryNumber directory_number
faultText fault_text
styleLetter style_letter
kindLetter kind_letter
# directory: specs
codeByte code_byte
codeBytes code_bytes
wellFormed well_formed
asFault as_fault
Goes_on GoesOn
Found-as-accepted FoundAsAccepted
precedes-self precedes_self
precedes-trans precedes_trans
precedes-some precedes_some
codes-one codes_one
codes-ranked codes_ranked
# directory: proofs
numberIn-with number_in-with
same-is same_is
apart-before apart_before
apart-after apart_after
numberIn-first number_in_first
numberIn-none number_in_none
Looked-up LookedUp
looked-up looked_up
holds-known holds_known
entering-is entering_is
retoldAnswer retold_answer
told-r told_r
# evening_file: specs
styleBy style_by
kindBy kind_by
ruleKind rule_kind
byLetter by_letter
lineSaid line_said
isWord is_word
allWords all_words
By-its-words ByItsWords
wordsOn words_on
isLetter is_letter
# evening_file: proofs
value-more value_more
number-minus number_minus
number-plain number_plain
front-more front_more
front-none front_none
front-all front_all
no-form no_form
past-at-end past_at_end
past-none past_none
words-past-space words_past_space
words-start words_start
space-ends space_ends
word-at-space word_at_space
word-at-end word_at_end
words-none words_none
word-off word_off
word-was word_was
spaces-pass spaces_pass
bytes-join bytes_join
word-ends word_ends
word-full word_full
line-more line_more
line-spaces line_spaces
line-spelled line_spelled
upTo-line up_to_line
by-its-words by_its_words
oneLine one_line
# evening_desk: specs
withAccounts with_accounts
nextNumber next_number
orDirectory or_directory
newAccount new_account
unlessReader unless_reader
refusalText refusal_text
printedOf printed_of
# evening_desk: proofs
left-looked left_looked
left-looked-twice left_looked_twice
printed-ok printed_ok
printed-err printed_err
left-err left_err
worked-ok worked_ok
worked-refused worked_refused
not-refused not_refused
# evening_stream: specs
endedSays ended_says
goesOn goes_on
stepSays step_says
lastLine last_line
finishedSays finished_says
noEnd no_end
Line-ended LineEnded
linesOn lines_on
printedBy printed_by
fedAll fed_all
saysAll says_all
By-its-lines ByItsLines
# evening_stream: proofs
long-zero long_zero
long-more long_more
upTo-take up_to-take
said-clipped said_clipped
line-ended line_ended
held-is held_is
n-is n_is
last-printed last_printed
fedAll-together fed_all-together
saysAll-together says_all-together
fed-so fed_so
said-so said_so
whole-output whole_output
finished-none finished_none
finished-some finished_some
take-front take_front
take-least take_least
noEnd-push no_end_push
clipped-twice clipped_twice
fed-noEnd fed-no_end
says-noEnd says-no_end
fed-line fed_line
says-line says_line
line-is line_is
next-line next_line
rest-kept rest_kept
"""

# These definitions get the name of the function that they mirror, whose own name stands in the same file.
MIRRORS = {"as_fault", "rule_kind"}


def rows():
    for line in NAMES.splitlines():
        if line and not line.startswith("#"):
            old, new = line.split()
            yield old, new


def whole(name):
    return re.compile(r"(?<![\w'\-])" + re.escape(name) + r"(?![\w'\-])")


def files(top):
    for folder, dirs, names in os.walk(os.path.join(top, "crates")):
        dirs[:] = sorted(d for d in dirs if d != "out")
        for name in sorted(names):
            if name.endswith((".rt", ".antt")):
                yield os.path.join(folder, name)


def main():
    top = sys.argv[1] if len(sys.argv) > 1 else os.path.dirname(os.path.dirname(os.path.abspath(__file__)))
    texts = {p: open(p, encoding="utf-8").read() for p in files(top)}
    pairs = [(old, whole(old), new, whole(new)) for old, new in rows()]
    together = [(p, old, new) for p, t in texts.items() for old, o, new, n in pairs if new not in MIRRORS and o.search(t) and n.search(t)]
    for p, old, new in together:
        print(f"{p}: {old} and {new} would fall together")
    if together:
        return 1
    # all names at once, so that no new name is taken for an old one
    every = re.compile(r"(?<![\w'\-])(" + "|".join(re.escape(old) for old, _, _, _ in sorted(pairs, key=lambda r: -len(r[0]))) + r")(?![\w'\-])")
    to = {old: new for old, _, new, _ in pairs}
    changed, seen = 0, set()
    for p, t in texts.items():
        s = every.sub(lambda m: (seen.add(m[1]), to[m[1]])[1], t)
        if s != t:
            changed += 1
            with open(p, "w", encoding="utf-8") as f:
                f.write(s)
    unseen = [old for old, _, _, _ in pairs if old not in seen]
    print(f"{changed} files changed, {len(seen)} names respelled")
    if unseen:
        print("not met: " + ", ".join(unseen))
    return 0


if __name__ == "__main__":
    raise SystemExit(main())
