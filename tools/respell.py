#!/usr/bin/env python3
"""Respells the repository's own definitions and lemmas, once, after the kit's script has turned the rest.

Words are in snake case. A dash is kept only in a lemma whose name joins two names (`times-append`), and in the names
that the checker makes. Code, strings and comments stay as they are: in a .rt file a name with a dash stands only in clauses.
Run it at the top of the repository; a second run changes nothing.
"""

import os
import re

# each dash becomes a line below
PLAIN = """
absent-free add-up add-valid after-link alike-first alike-none alike-rest all-255 all-addings all-below
all-children all-filler all-free all-from-filled all-open all-opened all-placings and-true answer-line
any-addings any-bounded any-placings any-right at-end at-most-itself back-frontier back-lawful begun-closed
begun-lawful begun-open behind-front below-absent below-below below-order better-counted better-opened
better-step by-strands by-trunks bytes-kept carried-command carried-outcome child-count child-deep
child-height children-left children-right children-sound class-numbered cond-both-not cond-times
cost-by-right-pairs cost-of count-children counted-once crossed-once decides-all-255 decides-each-once
decides-named decides-order decides-row decimal-unbroken design-number digits-unbroken done-is-least
done-stays drawn-completes drawn-drawing each-alike each-end each-once each-once-false each-once-true each-out
each-under either-class either-trunk fault-in few-unplaced fewer-done fewer-kept fields-same filled-from-all
found-room free-below free-named fresh-outcome front-few front-small frontier-more frontier-of frontier-top
goes-nowhere goes-on-left goes-on-right greater-left greater-under grid-in grid-of has-from-times has-link
has-none held-assoc held-plus if-room in-link in-search index-apart is-better is-blank is-done is-drawn
is-order is-size is-trunk join-both join-cross join-left join-right join-zero kept-all kept-kept kept-no
kept-yes lawful-above lawful-more lawful-part layer-name layer-of least-append least-between least-each
least-left least-of least-over least-same leb-least leb-mono leb-total leb-trans left-size length-from-once
lesser-again lesser-bounds lesser-left lesser-over lesser-part lesser-price lesser-right level-none level-open
level-over level-some level-spent link-adds link-by link-check link-in link-number link-step linked-both
linked-cells listed-crossings listed-joined listed-meetings lower-bound met-between more-length more-over
named-all named-few named-full named-le-length named-once named-tight next-after next-byte no-adding
no-drawing-below-the-bound no-left no-links no-placing no-right nodes-below nodes-step nodes-to nodes-under
none-lost none-unplaced not-cond nothing-completed nothing-partial nth-adding nth-all nth-none nth-placing
nth-some number-order number-order-is number-order-more number-order-order number-order-row offer-by
offer-counted offer-steady offer-step offer-word offered-stage on-ok once-from-some one-length one-over
open-first open-on open-one open-one-counted open-one-step order-from-names ordered-first ordered-none-first
ordered-none-second ordered-once orders-whole over-all over-behind over-each over-more over-settled over-start
over-two pair-at-most pair-length pair-price pairs-lawful part-layer part-number partial-of parts-back
parts-front parts-short path-fewer path-last path-more placed-set-up prefix-and-unplaced prefix-named
priced-so put-at put-valid quiet-kept reached-same reached-sound reached-truthful read-command read-part
read-rows refusal-line report-true rest-assoc rest-fits rest-held rest-top rest-unit rest-unplaced right-size
right-step right-tree-counted rights-of row-if row-length row-order rows-if rule-numbered run-check run-done
run-exact run-number run-reached run-steady same-partial search-number set-up set-up-outcome settled-alike
settled-bounds settled-end settled-part settled-parts settled-price settled-turn settled-under setup-number
sharers-never-cross short-decimal size-by size-left size-right sound-here stage-of stage-searching
start-counted start-same start-sound still-once strand-price strand-written strands-exchanged sum-held
sums-lawful take-better taken-deep taken-frontier taken-lawful taken-to times-else times-here times-kept
times-order top-deep top-frontier total-append total-each total-joined total-pairs tree-counted tree-size
trunk-price trunk-written trunks-exchanged two-alike-under two-append two-end two-fewer two-turn two-under
unbroken-append under-anti under-least under-mono under-total under-trans unless-above unplaced-count
visit-counted visit-opened visit-step weight-open whole-cost whole-named with-link with-rule with-width
wrote-all wrote-field
""".split()

# lemmas that join two names
JOINED = {
    "getD-same": "get_or_same",
    "length-number-order": "length-number_order",
    "take-number-order": "take-number_order",
    "times-getD": "times-get_or",
    "times-number-order": "times-number_order",
}

NAMES = {name: name.replace("-", "_") for name in PLAIN} | JOINED
WORD = re.compile(r"(?<![\w'-])[A-Za-z]\w*(?:-\w+)+(?![\w'-])")


def respelled(line, comment):
    """The line with the names turned, outside strings and what stands behind the mark of a comment."""
    parts = re.split(r'("(?:[^"\\]|\\.)*")', line)
    done = []
    for i, part in enumerate(parts):
        if i % 2:
            done.append(part)
            continue
        code, mark, rest = part.partition(comment)
        done.append(WORD.sub(lambda m: NAMES.get(m.group(), m.group()), code))
        if mark:
            done += [mark, rest, *parts[i + 1 :]]
            break
    return "".join(done)


def main():
    for folder, dirs, files in os.walk("crates"):
        dirs[:] = [d for d in dirs if d != "out"]
        for name in files:
            mark = {".rt": "//", ".antt": "-- "}.get(os.path.splitext(name)[1])
            if not mark:
                continue
            path = os.path.join(folder, name)
            with open(path, encoding="utf-8") as f:
                old = f.read()
            new = "\n".join(respelled(line, mark) for line in old.split("\n"))
            if new != old:
                with open(path, "w", encoding="utf-8") as f:
                    f.write(new)


main()
