#!/usr/bin/env python3
"""Respells this repository's own definitions and lemmas as today's Rattle spells names: words in snake case, facts and
types in camel case. A dash stays where it joins the names of two definitions, as in length-turns.

usage: python3 tools/port_names.py    once, at the top, behind the kit's port.py
Only whole names of the list below are turned, in contracts, definitions, proofs and must-fail edits."""

import glob
import re

FACTS = """Comes-out-in-order Count-and-room Free-at Has-credit In-order Is-message Is-optional Is-reference Laid_out
Nothing-lost-unasked Other-end-stays Pass-answer Refusal-alters-nothing Room-made Taken-is-oldest Worked-examples"""

WORDS = """acknowledgement-laid acknowledgement-read added-holders added-means added-numbered added-other added-same
added-waiting added-within address-front address-takes after-all agreed-front agreed-takes all-entered all-records
all-taken answer-line any-parameters before-within bit-read blanks-from called-address called-laid called-party called-read
capital-ascii changed-by changed-toward class-fits class-number comes-out-in-order complete-laid cond-some confirm-laid
confirm-read confirmed-laid connection-confirm connection-refused connection-request count-all count-and-room count-answer
count-is count-joined count-ok counted-front counted-gives counted-takes credit-after credit-back credit-class credit-limit
credit-number credit-part credit-size data-acknowledgement data-form-1 data-form-2 digit-some empty-ways end-named end-number
ends-badly ends-front ends-takes error-laid error-number error-read field-front field-takes flag-low flag-read form-1-laid
form-1-read form-2-laid form-2-read front-some half-apart half-read header-passed header-takes holders-over is-order is-turns joined-none
laid-back last-stage layer-number lift-gives lift-value lose-after lose-after-is lose-answer lose-does lose-first lose-fits
lose-loses lose-none lose-second message-at message-laid message-numbered message-of message-read message-sized more-limit
more-octet never-empty new-means new-numbered new-order next-stage no-fault no-oldest none-ends none-joined none-waiting
nothing-lost-unasked numbered-at numbered-behind numbered-over numbered-set-other numbered-set-same octet-front octet-gives
octet-more octet-takes octets-from octets-of octets-some oldest-is one-lost onto-before onto-more onto-none optional-from
optional-front optional-none optional-part optional-takes other-end-stays over-all over-more own-part pair-some
parameter-front parameter-more parameter-place parameter-step parameters-front parameters-takes pass-after pile-ways
place-apart place-below place-next pointer-front pointer-takes points-front points-here points-laid points-long points-takes
put-after put-answer put-does put-fits put-then-refused put-then-taken read-limits reads-back reference-back reference-fits
reference-front reference-limit reference-long reference-octets reference-takes references-laid references-read
refusal-alters-nothing refusal-line refused-laid refused-read released-laid released-read release-complete removed-means
removed-numbered removed-other removed-same removed-within request-cut request-laid request-read request-unfit reset-confirm
reset-laid reset-read reset-request ring-ways room-answer room-first room-none room-ok run-dash run-gap run-octet run-start
same-order second-some segment-fits segment-laid segment-limit segment-read sequence-front sequence-number sequence-takes
shift-more some-free some-oldest sound-joined sound-of stands-behind subsystem-limit take-after-is take-answer take-buffer
take-does take-first take-fits take-keeps taken-is-oldest text-from toward-end toward-means toward-of toward-other toward-same
turns-kept turns-lose turns-other turns-put turns-take twice-limit two-limits two-references value-gives ways-of with-both
with-credit with-moved-up with-other with-same with-toward with-with without-front worked-examples written-answer
written-buffer"""

def camel(name):
    return "".join(part[:1].upper() + part[1:] for part in re.split("[-_]", name))


NEW = {name: camel(name) for name in FACTS.split()} | {name: name.replace("-", "_") for name in WORDS.split()}
NAME = re.compile(r"(?<![\w'-])(" + "|".join(sorted(map(re.escape, NEW), key=len, reverse=True)) + r")(?![\w'-])")


def main():
    assert len(set(NEW.values())) == len(NEW), "two names fall together"
    for kind in ("src/**/*.rt", "specs/**/*.antt", "proofs/**/*.antt", "must-fail/*.edit"):
        for path in sorted(glob.glob("crates/*/" + kind, recursive=True)):
            with open(path, encoding="utf-8") as f:
                old = f.read()
            new = NAME.sub(lambda m: NEW[m[0]], old)
            if new != old:
                with open(path, "w", encoding="utf-8") as f:
                    f.write(new)


if __name__ == "__main__":
    main()
