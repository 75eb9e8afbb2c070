#!/usr/bin/env python3
"""Brings this repository's own definitions and lemmas to one spelling: words in snake case, types and modules in camel case.

Run once at the top of the repository, after the kit's own script. A name that the repository declares in specs/ or proofs/,
as a definition, a lemma, a field of a record or a constructor, and that is spelled with dashes or in camel case is written with
underscores, everywhere: in crates/ (files of .antt and .rt, and edits) and, between backticks, in the pages. Where a lemma or
a field would then have a definition's name it ends in `_lem`. Names of functions of src/, of the library and of goals stay.
"""
import glob
import re

WORD = r"[A-Za-z_][\w\-'₀-₉]*"
# a lemma or a field (OLD) whose new name a definition has
TAKEN = {
    'state-at': 'state_at_lem',
    'at-end': 'at_end_lem',
    'last-time': 'last_time_lem',
    'left-read': 'left_read_lem',
    'slot-refusal': 'slot_refusal_lem',
    'within-total': 'within_total_lem',
    'well-formed': 'well_formed_lem',
    'free-at': 'free_at_lem',
    'nine-at': 'nine_at_lem',
    'one-digit': 'one_digit_lem',
    'decimal-to': 'decimal_to_lem',
}
# lemmas that the kit's script gave the name that a definition gets here: (file, name) and the new name
MOVED = {
    ('crates/coherence/', 'answer_at'): 'answer_at_lem',
    ('crates/lanes/', 'all_lines'): 'all_lines_lem',
    ('crates/probes/proofs/', 'first_ends'): 'first_ends_lem',
    ('crates/renewals/proofs/', 'nothing_left'): 'nothing_left_lem',
}
# what the kit's script renamed since a library has the same spelling; the pages and the edits still have the old names
BY_KIT = """add-a add-at add-r add-words after-first after-is after-line after-none after-same alike-at all-append all-first all-fit
all-held all-lines all-more all-none all-same all-snoc all-words and-both and-left and-right answer-at as-many as-written at-all
at-slot at-zero below-suc bit-le bit-not both-end both-left both-some both-used by-kind by-length by-number by-parts
carried-other cell-in cell-same cell-share cellAt cellOf cells-are cells-at count-fits count-spec countOf digits-more each-line
end-fits end-of ends-some field-is fieldsOf fill-more fill-none fill-spec finish-spec first-ends first-fits first-next
first-part first-rest first-stops first-taken found-none front-same give-spec given-word gives-at goes-on going-end going-on
going-start has-address has-room held-all held-bytes in-owners in-parts joinOf kept-here kept-same kept-slot last-of last-turn
last-up last-word left-along left-end left-is left-over leftOf length-digits less-none line-at line-of lineOf lines-after
lines-at lines-cons lines-left lines-of lines-split linesOf lists-aside load-is load-spec long-same markOf move-up-spec mul-at
mul-next mul-words next-fits next-small no-bytes no-digit no-line no-more no-number no-room no-run no-second no-start no-text
no-third no-word no-words none-ahead none-below none-left none-moves none-of nothing-left number-is number-of numberOf of-words
one-less one-more or-left or-nothing or-right or-set orElse other-way own-is own-read partOf pass-kept passed-here passed-none
passedBy place-is place-of placeOf put-last put-spec putAt puts-one read-at read-fits read-short read-some read-word readOf
rest-all rest-both rest-from rest-more restOf room-after room-for round-trip row-below row-is row-of rowOf run-is run-spec runOf
same-answer same-end same-length same-line same-read same-tag same-write second-fits second-is second-none sets-more slot-is
slot-of slot-row slot-step slot-turn slotAt some-number start-is start-of start-spec startOf step-spec stepOf store-spec
sub-part sum-more sum-same sumTo table-more tableOf tag-free tagOf take-spec taken-in taken-is taken-start textOf told-same
too-large too-long total-of turn-is turn-last turn-spec valueOf valuesOf whole-drop wholeOf width-is width-spec word-same
wordFor wordOf words-count words-long wordsIn wordsOf wordsTo write-kept write-spec wrong-byte zero-ok""".split()


def snake(name):
    """The name in snake case."""
    name = re.sub(r'(?<=[a-z0-9])([A-Z])', lambda m: '_' + m.group(1).lower(), name)
    return name.replace('-', '_')


def antt_files():
    return sorted(glob.glob('crates/*/specs/**/*.antt', recursive=True) + glob.glob('crates/*/proofs/**/*.antt', recursive=True))


def own_names():
    """The names that the repository declares, but for those of goals."""
    found = set()
    head = re.compile(r'^(?:pub |abbrev |unfoldable |data |record |ruleset )*(' + WORD + r')(?:\s+[({].*?)?\s*:\s')
    field = re.compile(r'^\s+(?:pub )?(' + WORD + r')\s*:\s')
    for path in antt_files():
        if path.endswith('/Proof.antt'):
            continue
        for line in open(path, encoding='utf-8'):
            match = head.match(line) or field.match(line)
            if match and not line.startswith(('use ', 'mod ', 'pub mod ', '--')):
                found.add(match.group(1))
    return found


def main():
    own = {n: TAKEN.get(n, snake(n)) for n in own_names() if not n[0].isupper()}
    own = {a: b for a, b in own.items() if a != b}
    pages = dict({n: snake(n) for n in BY_KIT}, **own)
    word = re.compile(WORD)

    def turn(text, names):
        return word.sub(lambda m: names.get(m.group(0), m.group(0)), text)

    for path in antt_files() + sorted(glob.glob('crates/*/src/**/*.rt', recursive=True)):
        names = dict(own)
        for (place, old), new in MOVED.items():
            if path.startswith(place):
                names[old] = new
        rewrite(path, lambda text: turn(text, names))
    for path in sorted(glob.glob('crates/*/*/*.edit')):
        rewrite(path, lambda text: ''.join(turn(l, pages) if re.match('(old|new|at):', l) else l for l in text.splitlines(True)))
    for path in ['README.md', 'tests/scenarios/README.md', 'tests/joins/README.md'] + sorted(glob.glob('docs/**/*.md', recursive=True)):
        rewrite(path, lambda text: re.sub(r'`[^`\n]*`', lambda m: turn(m.group(0), pages), text))


def rewrite(path, change):
    old = open(path, encoding='utf-8').read()
    new = change(old)
    if new != old:
        open(path, 'w', encoding='utf-8').write(new)


main()
