#!/usr/bin/env python3
"""Brings the names of this repository's definitions and lemmas to the spelling of its toolchain: words in snake case, types
in camel case. It was run once, right after the toolchain's own script, at the top of the repository.

usage: python3 tools/respell.py [FOLDER]

It turns whole names, in specs/, proofs/, the contracts of src/ and the texts of must-fail/. It leaves alone the functions of
src/, comments and strings, the names of goals, and the steps of a proof, which the toolchain makes.
"""

import glob
import os
import re
import sys

# The names of definitions, lemmas and fields that had a dash.
NAMES = """
Asked-if Bch-of Bits-right Defined-fields-are-lawful Euclidean-of Projective-of Quadrangle-of ReedSolomon-of added-same
admitted-from affine-lt affine-rise after-round against-code against-ext against-more against-none against-plus alike-on
all-le all-passes altered-at altered-few answer-by answer-is antilog-is apart-1 apart-2 apart-le apart-places apart-same
apart-three apart-zero at-rise at-seat at-seats at-slope basis-locator basis-none basis-pivot basis-start bch-lawful
binary-field-lawful binary-lawful binary-neg binary-order binary-orders binary-prod binary-sum bit-above bit-double
bit-far bit-first bit-half bit-low bit-lowest bit-lt bit-scaled bit-sq bit-third bit-weigh bit-xor bit-zero bits-1
bits-2 both-less by-decoding by-horner by-limits by-points by-radius by-rounds by-second by-third c-c c-mod c-p c-x
check-bit check-code check-ext check-is check-less check-minus check-more check-none check-shed check-shed-one check-sum
check-times clean-moved clean-moves cleared-kept cleared-length cleared-monic cleared-null code-code code-distance
code-if code-lawful code-meant code-stands codes-after codes-fit codes-match column-bit column-long column-lt
column-seat column-short column-sum cond-lt correct-turn corrected-is corrected-more corrected-none corrected-past
corrected-push corrects-to-bound cross-along cross-code cross-zero cube-entry cube-far cube-lt dbl-large dbl-small
dbl-zero decode-answer decode-left decode-refusal decoded-1340 decoded-near decoded-only defined-field defined-inv
defined-neg defined-prod defined-sum degree-is differ-is differ-none differ-three differing-same differing-self
differing-three digits-rise done-no done-yes dot-affine dot-comm dot-ideal dot-last double-xor e-is edge-at edge-is
edge-joint edge-line edge-not-absent edge-point edge-point' edge-there edge-vertex edges-agree edges-same empty-same
end-j ends-clean entry-fits equal-le equal-one error-is error-right euclidean-16 euclidean-16-stands
euclidean-256-refused euclidean-9-refused euclidean-layout euclidean-point every-at every-from exchange-back
failing-altered failing-refused fails-none fault-edge faults-none few-after few-checks few-roots field-answer
field-lawful field-sum fields-listed first-failing first-failing-on first-is first-lt first-no-code first-none
first-that flip-binary flip-length flip-near flip-other flip-same flip-sum follow-again follow-end follow-start
follow-step found-passes free-below free-none free-shorter free-two gap-left geometry-lawful geometry-laws geometry-of
getD-half getD-laid getD-seen h-is half-again half-round half-wrong heavy-lines high-none high-third how-decoded
in-range inc-on inv-code inv-reads inverse-13 inverse-at inverse-entry inverse-is inverse-lt inverse-only inverse-read
inverse-reads is-euclidean is-projective is-quadrangle joining-in joining-joined joining-pair joint-in joint-line
joint-point kept-or kill-code kill-not-zero kill-push kill-seat kill-without kill-word kind-codes kind-dot kind-of
kind-over kind-rise laid-at laid-elsewhere laid-here laid-lawful laid-rising laid-seen left-same length-half length-laid
length-put length-rounds length-tabulate line-degree line-degree-is line-degrees-agree line-degrees-alike line-in
line-laws line-lt line-room line-side line-size line-through lines-agree lines-alike lines-few lines-rise lines-within
listed-prod listed-sum locator-power log-good log-lt log-test low-third made-few made-fits many-faults marked-le
meet-dual meet-lines meets-linear meets-once mended-check mended-code mended-minus mended-near minus-back minus-eq
minus-same mod-mul-mod model-none modular-lawful modular-neg modular-prod modular-sum modulus-is monic-quot monic-value
more-one more-zero mul-bit mul-dbl mul-flip mul-lt mul-mod-mod mul-one-left mul-powers mul-raised mul-right-dbl
mul-xor-left mul-xor-right mul-zero-left mul-zero-right neg-code neg-read neg-reads neg-some neg-zero new-refusal
next-other next-same no-code-laws no-prime no-seat no-stranger no-terms no-vertex-fails none-bad none-beyond
none-decoded none-fails none-j none-killed none-lawful none-near none-on none-shed none-word none-wrong not-refused
not-sum number-of number-or-absent number-rise number-triple of-lines of-points off-line on-inc on-joining one-edge
one-lt one-order one-over one-pair one-prod one-settled one-slope only-euclidean only-projective only-quadrangle
open-yet opp-codes or-none or-zero order-in order-of orders-agree orders-alike other-altered other-bad other-other
other-root outcome-is over-codes over-field over-inc over-is over-le over-length over-more over-moves over-one
over-power p-lt pair-or-absent part-laid part-laid-by part-over part-seen part-seen-by passed-turn passes-all
passes-more passes-not passing-right pivot-j place-lt places-apart planes-shrink plus-by-places plus-length plus-minus
plus-monic plus-zeros point-code point-degree point-degree-is point-degrees-agree point-degrees-alike point-edge
point-in point-laws point-of point-on point-over point-side point-size points-agree points-alike points-are points-few
points-of-agree points-rise points-within poly-product pos-both pow-none power-bit power-bit-lt power-code power-decoded
power-lawful power-refused prime-below prime-lawful prime-orders prod-assoc prod-cancel prod-code prod-inv prod-is
prod-left-comm prod-one prod-reads prod-reciprocal prod-sum prod-two prod-zero product-16 product-256 product-entry
product-fits product-left-zero product-read product-right-zero product-step projective-16 projective-16-stands
projective-layout projective-line projective-point quadrangle-11 quadrangle-11-refused quadrangle-8 quadrangle-8-stands
quadrangle-layout quadrangle-point quiet-after quiet-fits quiet-le quiet-more quiet-right raised-add range-but
range-code range-ext range-more range-one range-prod range-sum range-zero read-lt reads-left reciprocal-of
reduced-product reed-solomon reed-solomon-lawful refuse-one refuse-two refused-2400 refused-far refused-few refused-le
refused-refused remainder-double remainder-small remainder-xor remaining-is remaining-more remaining-none remaining-push
right-away roots-below round-admitted round-answer round-left rounds-left row-all row-cleared row-many row-some
same-edge same-minus same-seat same-seat-point same-triple same-words scaled-dbl scaled-double scaled-lt scaled-mul
scaled-one scaled-some scaled-xor scaled-xor-bit scaled-zero seat-at seat-between seat-edge seat-in seat-is seat-line
seat-lt seat-of seat-on seat-once seat-point seat-point-is seats-apart seats-below seats-edges seats-few seats-le
seats-meets seats-same seats-step seen-differ seen-edge seen-is seen-upto set-turn settle-one settle-stays settle-two
settled-altered settled-codes settled-done settled-left settled-none settled-not shed-all shed-ext shed-is shed-past
shed-push shed-same shed-turn shifted-more shifted-twice side-laws side-order side-size sixteen-ones small-1 small-2
small-orders small-radius solution-lt solution-passes some-altered some-line-degree some-lines some-point-degree
some-points some-refused some-seat some-vertex sparse-check sparse-code spent-moved spent-moves start-j step-moved
steps-end stranger-none stuck-moved stuck-moves sum-add sum-apart sum-as sum-assoc sum-cancel sum-cancel-right sum-code
sum-const sum-eq sum-except sum-ext sum-flip sum-large sum-le sum-left-comm sum-lin sum-mul sum-neg sum-none sum-of-word
sum-pick sum-pick-two sum-prod sum-reach sum-read sum-reads sum-shorter sum-small sum-some sum-stays sum-swap sum-two
sum-weigh sum-zero sum2-eq sum2-le sum2-lin sum2-mul sum2-prod sum3-out sum4-swap symbol-order taken-same taken-write
tally-all tally-more term-next term-none test-answer then-parts third-is third-lt through-inc through-point
times-inverse times-most times-quotient times-x times-x-xor triple-number triple-of turn-after turn-sum turned-edge
turned-is two-lines two-logs two-of two-points unaltered-settled undone-is unit-length unit-monic unless-clean
unless-over unless-spent unless-stuck unless-true upto-at upto-over value-code value-more values-turn verdict-of
vertex-at vertex-edge vertex-in when-none within-limits without-length without-push word-bits word-codes word-decoded
word-from word-length word-minus word-parts word-settled word-standing words-apart worked-out write-turn wrong-after
wrong-yet wrote-all wrote-more x-code x-of xor-apart xor-four xor-left-comm xor-right-comm y-code z-code z-of zero-bad
zero-by-bits zero-checks zero-code zero-prod zero-sum zeros-against zeros-length zeros-quot zeros-value zeros-zeros
"""

# Names of types, and names that are not the old one with its dashes turned.
OTHERS = {
    "Asked-if": "AskedIf",
    "Bch-of": "BchOf",
    "Bits-right": "BitsRight",
    "Defined-fields-are-lawful": "DefinedFieldsAreLawful",
    "Euclidean-of": "EuclideanOf",
    "Projective-of": "ProjectiveOf",
    "Quadrangle-of": "QuadrangleOf",
    "ReedSolomon-of": "ReedSolomonOf",
    "getD-half": "get_or_half",
    "getD-laid": "get_or_laid",
    "getD-seen": "get_or_seen",
    # names that two definitions would share, or that the library has
    "bit-xor": "bit_of_xor",
}

# Other names that contracts gave to imported definitions.
ALIASES = {
    "affineQuadrangle": "affine_quadrangle",
    "edgesOf": "edges_of",
    "euclideanPlane": "euclidean_plane",
    "fitsLimits": "fits_limits",
    "joiningPair": "joining_pair",
    "lineThrough": "line_through",
    "oppositeOf": "opposite_of",
    "pointOver": "point_over",
    "projectivePlane": "projective_plane",
    "seatOf": "seat_of",
    "standingOf": "standing_of",
    "symbolsOf": "symbols_of",
    "vertexAt": "vertex_at",
    "xOf": "x_of",
    "yOf": "y_of",
    "z_of": "z_of",
}

NEW = {old: OTHERS.get(old, old.replace("-", "_")) for old in NAMES.split()}
WORD = re.compile(r"(?<![\w'₀-₉-])[A-Za-z][\w'₀-₉]*(?:-[\w'₀-₉]+)*(?![\w'-])")
# what stands before a step of a proof, and not before a field
STEP = re.compile(r"(?:^|[^\w'.-])(?:[cwv]|goal)(?:\.[\w'-]+)*\.$")


def respell(text, aliases=False):
    def turn(m):
        word = m.group(0)
        if STEP.search(text[: m.start()][-200:]):
            return word
        if aliases and word in ALIASES:
            return ALIASES[word]
        return NEW.get(word, word)

    return WORD.sub(turn, text)


def lines_of(text, mark, turn):
    """The text with the part of each line before a comment turned."""
    out = []
    for line in text.split("\n"):
        code, sep, comment = line.partition(mark)
        out.append(turn(code) + sep + comment)
    return "\n".join(out)


def antt(text):
    return lines_of(text, "-- ", respell)


def source(text):
    def turn(line):
        parts = re.split(r'("(?:[^"\\]|\\.)*")', line)
        return "".join(p if p.startswith('"') else respell(p, True) for p in parts)

    text = lines_of(text, "//", turn)
    # an import under its own name needs no alias
    return re.sub(r"\b(\w+) as \1\b", r"\1", text)


def edit(text):
    return "\n".join(respell(line, True) if line.startswith(("old:", "new:")) else line for line in text.split("\n"))


def main():
    top = sys.argv[1] if len(sys.argv) > 1 else "."
    for kind, pattern in ((antt, "**/*.antt"), (source, "src/**/*.rt"), (edit, "must-fail/*.edit")):
        for path in sorted(glob.glob(os.path.join(top, "crates", "*", pattern), recursive=True)):
            if "/out/" in path:
                continue
            with open(path, encoding="utf-8") as f:
                old = f.read()
            new = kind(old)
            if new != old:
                with open(path, "w", encoding="utf-8") as f:
                    f.write(new)


main()
