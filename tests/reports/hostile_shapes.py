"""Reports that are meant to be slow, and pairs of them. Each shape takes a number of entries; where an entry is large, a part of it."""
import colliding
from reports import (CLASS, candidate, contest, election, identifier, label, named, ordered_contest, report, selection, style,
                     translation, unit)


def report_of(units, **more):
    """A report whose election is held in the first of these units."""
    return report(units, "u0", **more)


def contest_of(selections, class_name="CandidateContest"):
    return contest("c", "C", "u0", selections, class_name)


def style_of(number, content):
    return style("S%d" % number, ["u0"], OrderedContent=content)


def candidates(count, key="K%07d"):
    return [candidate("k%d" % n, key % n) for n in range(count)]


ONE = [unit("u0", "U0")]


def units_rising(n):
    return report_of([unit("u%d" % i, "U%07d" % i) for i in range(n)])


def units_falling(n):
    return report_of([unit("u%d" % i, "U%07d" % (n - i)) for i in range(n)])


def units_alike(n):
    return report_of([unit("u%d" % i, "U" * 200 + "%07d" % (i * 7919 % n)) for i in range(n)])


def candidate_selections(n):
    chosen = [selection("s%d" % i, "CandidateSelection", CandidateIds=["k%d" % i]) for i in range(n)]
    return report_of(ONE, Candidate=candidates(n), Contest=[contest_of(chosen)])


def write_ins(n):
    chosen = [selection("s%d" % i, "CandidateSelection", IsWriteIn=True, SequenceOrder=i) for i in range(n)]
    return report_of(ONE, Contest=[contest_of(chosen)])


def measure_texts(n):
    chosen = [selection("s%d" % i, "BallotMeasureSelection", Selection=label([translation("Choice %d" % (n - i))])) for i in range(n)]
    return report_of(ONE, Contest=[contest_of(chosen, "BallotMeasureContest")])


def ordered_selections(n):
    chosen = [selection("s%d" % i, "CandidateSelection", IsWriteIn=True, SequenceOrder=i) for i in range(n)]
    listed = ordered_contest("c", OrderedContestSelectionIds=["s%d" % i for i in range(n)])
    return report_of(ONE, Contest=[contest_of(chosen)], BallotStyle=[style_of(0, [listed])])


def references(n):
    units = [unit("u%d" % i, "U%07d" % i) for i in range(n)]
    units[0]["ComposingGpUnitIds"] = ["u%d" % (i * 7919 % (n - 1) + 1) for i in range(n - 1)]
    return report_of(units)


def identifiers(n):
    units = [unit("u0", "U0")]
    units[0]["ExternalIdentifier"] = [identifier("U%07d" % (i * 7919 % n)) for i in range(n)]
    return report_of(units)


def translations(n):
    texts = [translation("Text %07d" % (i * 7919 % n), "l%d" % i) for i in range(n)]
    return report_of(ONE, Contest=[contest_of([selection("s0", "BallotMeasureSelection", Selection=label(texts))], "BallotMeasureContest")])


def same_triples(n):
    units = [unit("u0", "U0")]
    units[0]["ExternalIdentifier"] = [identifier("U0", Label="L%07d" % (i * 7919 % n)) for i in range(n)]
    return report_of(units)


def unresolved(n):
    return report_of([unit("u0", "U0", ComposingGpUnitIds=["w%d" % i for i in range(n)])])


def repeated(n):
    return report_of([unit("u0", "U0", ComposingGpUnitIds=["u1"] * n), unit("u1", "U1")])


def foreign(n):
    units = [unit("u0", "U0", ComposingGpUnitIds=["p%d" % i for i in range(n)])]
    made = report_of(units)
    made["Party"] = [named("Party", "p%d" % i, "P%07d" % i, Name="Blue") for i in range(n)]
    return made


def twins(n):
    return report_of([unit("u%d" % i, "U0") for i in range(n)])


def same_ids(n):
    return report_of([unit("u0", "U%07d" % i) for i in range(n)])


def chain(n):
    return report_of([unit("u%d" % i, "U%07d" % i, **({"ComposingGpUnitIds": ["u%d" % (i + 1)]} if i + 1 < n else {})) for i in range(n)])


def styles(n):
    chosen = [selection("s0", "CandidateSelection", IsWriteIn=True)]
    listed = [ordered_contest("c")] * 3
    return report_of(ONE, Contest=[contest_of(chosen)], BallotStyle=[style_of(i, listed) for i in range(n)])


def deep_headers(n):
    made = report_of(ONE)
    made["Header"] = [named("Header", "h", "H", Name="State")]
    content = []
    for _ in range(50):
        content = [{"@type": CLASS + "OrderedHeader", "HeaderId": "h", **({"OrderedContent": content} if content else {})}]
    made["Election"][0]["BallotStyle"] = [style_of(i, content) for i in range(max(n // 50, 1))]
    return made


def with_long_keys(n, count, chosen):
    """So many candidates, whose long keys differ only at the end. The selections have these candidates and orders."""
    made = candidates(count)
    for i, one in enumerate(made):
        one["ExternalIdentifier"][0]["Value"] = "K" * (n * 10) + str(i)
    selections = [selection("s%d" % i, "CandidateSelection", CandidateIds=ids, SequenceOrder=order) for i, (ids, order) in enumerate(chosen)]
    return report_of(ONE, Candidate=made, Contest=[contest_of(selections)])


def long_key(n):
    return with_long_keys(n, 1, [(["k0"], i) for i in range(max(n // 10, 1))])


def long_keys(n):
    """Each selection names one of two candidates, in no order."""
    count = max(n // 10, 1)
    return with_long_keys(n, 2, [(["k%d" % (i * 7919 % 13 % 2)], i * 7919 % count) for i in range(count)])


def long_tickets(n):
    """Each selection names two candidates."""
    return with_long_keys(n, 2, [(["k1", "k0"], i) for i in range(max(n // 10, 1))])


def long_twins(n):
    """Each selection has the same name."""
    return with_long_keys(n, 1, [(["k0"], 1)] * max(n // 10, 1))


def long_contents(n):
    """The contents of a ballot list selections that name one candidate."""
    made = long_key(n)
    listed = ordered_contest("c", OrderedContestSelectionIds=["s%d" % i for i in range(max(n // 10, 1))])
    made["Election"][0]["BallotStyle"] = [style_of(0, [listed])]
    return made


def long_labels(n):
    """The contents of a ballot list one selection with a long label and a long identifier again and again."""
    listed = ordered_contest("c", OrderedContestSelectionIds=["s0"] * n)
    chosen = selection("s0", "BallotMeasureSelection", Selection=label([translation("L" * (10 * n))]), ExternalIdentifier=[identifier("I" * (10 * n))])
    return report_of(ONE, Contest=[contest_of([chosen], "BallotMeasureContest")], BallotStyle=[style_of(0, [listed])])


def empty_arrays(n):
    return report_of([unit("u%d" % i, "U%07d" % i, ComposingGpUnitIds=[]) for i in range(n)])


def election_of_many(i, count):
    """An election with four candidates, two contests and two styles. Its second contest names candidates of another election,
    and its styles have a contest of that one."""
    other = (i * 7919 + 1) % count
    return election(
        "u0",
        ExternalIdentifier=[identifier("E%07d" % i)],
        Candidate=[candidate("k%d" % k, "K%07d" % (k * 7919 % (4 * count))) for k in range(4 * i, 4 * i + 4)],
        Contest=[contest_of_two(2 * i, 4 * i), contest_of_two(2 * i + 1, 4 * other + 2)],
        BallotStyle=[style_of(s, [ordered_contest("c%d" % c) for c in (s, 2 * other)]) for s in (2 * i, 2 * i + 1)])


def contest_of_two(number, first):
    """A contest between a candidate and the next one."""
    chosen = [selection("s%d" % (2 * number + j), "CandidateSelection", CandidateIds=["k%d" % (first + j)]) for j in range(2)]
    return contest("c%d" % number, "C%07d" % number, "u0", chosen)


def elections(n):
    """An election for each twenty of n."""
    count = max(n // 20, 1)
    return {**report_of(ONE), "Election": [election_of_many(i, count) for i in range(count)]}


def twin_elections(n):
    made = elections(n)
    for one in made["Election"]:
        one["ExternalIdentifier"] = [identifier("E")]
    return made


def elections_moved(n):
    right = elections(n)
    right["Election"].reverse()
    return elections(n), right


def moved(n):
    right = units_rising(n)
    right["GpUnit"].reverse()
    return units_rising(n), right


def nothing_common(n):
    return report_of([unit("u%d" % i, "U%07d" % i) for i in range(n)]), report_of([unit("u%d" % i, "V%07d" % i) for i in range(n)])


def last_differs(n):
    right = units_rising(n)
    right["GpUnit"][-1]["Type"] = "state"
    return units_rising(n), right


def every_second(n):
    right = units_rising(n)
    right["GpUnit"] = right["GpUnit"][::2]
    return units_rising(n), right


def long_references_moved(n):
    right = references(n)
    right["GpUnit"][0]["ComposingGpUnitIds"].reverse()
    return references(n), right


def selections_moved(n):
    right = candidate_selections(n)
    right["Election"][0]["Contest"][0]["ContestSelection"].reverse()
    return candidate_selections(n), right


# ---- deep, long and colliding


def nested(levels, leaf):
    for _ in range(levels):
        leaf = [leaf]
    return leaf


def deep_identifiers(n):
    """Identifiers that differ a hundred levels deep alone, in two orders."""
    def held(order):
        deep = [identifier("U", Carried=nested(100, i)) for i in order]
        return report_of([unit("u0", "U0"), unit("u1", "U1", ExternalIdentifier=[identifier("U1"), *deep])])
    count = max(n // 20, 1)
    return held(range(count)), held(reversed(range(count)))


def opposite_sets(n):
    """Styles for 300 units each, in one order and in the other."""
    units = [unit("u%d" % i, "U%07d" % i) for i in range(300)]
    def held(step):
        names = ["u%d" % i for i in range(300)][::step]
        chosen = [selection("s0", "CandidateSelection", IsWriteIn=True)]
        styles_of = [style("S%d" % i, names, OrderedContent=[ordered_contest("c")]) for i in range(max(n // 100, 1))]
        return report_of(units, Contest=[contest_of(chosen)], BallotStyle=styles_of)
    return held(1), held(-1)


def with_parties(count, chosen):
    """So many parties, and a contest between selections that name all of them."""
    made = report_of(ONE, Contest=[contest_of(chosen, "PartyContest" if "PartyIds" in chosen[0] else "CandidateContest")])
    made["Party"] = [named("Party", "p%d" % i, "P%07d" % (i * 7919 % count), Name="Blue") for i in range(count)]
    return made


def party_tickets(n):
    """Tickets of a hundred parties."""
    names = ["p%d" % i for i in range(100)]
    return with_parties(100, [selection("s%d" % i, "PartySelection", PartyIds=names, SequenceOrder=i) for i in range(max(n // 25, 1))])


def endorsements(n):
    """Selections that two hundred parties endorse."""
    names = ["p%d" % i for i in range(200)]
    chosen = [selection("s%d" % i, "CandidateSelection", IsWriteIn=True, SequenceOrder=i, EndorsementPartyIds=names) for i in range(max(n // 50, 1))]
    return with_parties(200, chosen)


def faults_below_a_name(n):
    """Fractions in an array whose name is long: each fault has the name."""
    made = report_of(ONE)
    made["N" * n] = [0.5] * max(n // 4, 1)
    return made


def faults_in_headers(n):
    """Fractions below fifty headers: each fault has them all in its place."""
    made = report_of(ONE)
    made["Header"] = [named("Header", "h", "H", Name="State")]
    content = [{"@type": CLASS + "OrderedHeader", "HeaderId": "h", "Carried": [0.5] * n}]
    for _ in range(50):
        content = [{"@type": CLASS + "OrderedHeader", "HeaderId": "h", "OrderedContent": content}]
    made["Election"][0]["BallotStyle"] = [style_of(0, content)]
    return made


def colliding_ids(n):
    return report_of(ONE + [unit(id, "U%07d" % i) for i, id in enumerate(colliding.ids(n // 4))])


def colliding_keys(n):
    kind, values = colliding.values_of_keys(n // 4)
    made = report_of(ONE)
    made["Person"] = [{"@id": "p%d" % i, "@type": CLASS + "Person", "ExternalIdentifier": [identifier(value, kind)]} for i, value in enumerate(values)]
    return made


def colliding_labels(n):
    chosen = [selection("s%d" % i, "BallotMeasureSelection", Selection=text) for i, text in enumerate(colliding.labels(n // 4))]
    return report_of(ONE, Contest=[contest_of(chosen, "BallotMeasureContest")])


def units_named(ids):
    return report_of(ONE + [unit(id, "U%07d" % i) for i, id in enumerate(ids)])


def crowded_without_salt(n):
    """`@id`s that an index without a salt would put into one place."""
    return units_named(colliding.crowded(n // 4, [], colliding.ID))


def crowded_elsewhere(n):
    """`@id`s that crowd the index of another report: of the same one, with other `@id`s."""
    return units_named(colliding.crowded(n // 4, colliding.salt_of(units_rising(n // 4)), colliding.ID))


def crowded_in_rounds(n):
    """The same, three times over: each report has the `@id`s that crowd the index of the one before it."""
    made = units_rising(n // 4)
    for _ in range(3):
        made = units_named(colliding.crowded(n // 4, colliding.salt_of(made), colliding.ID))
    return made


YES = label([translation("Yes")])


def measures(kind, digits):
    """Selections of a measure whose labels differ in this alone."""
    chosen = [selection("s%d" % i, "BallotMeasureSelection", Selection=colliding.label_of(YES, kind, each)) for i, each in enumerate(digits)]
    return report_of(ONE, Contest=[contest_of(chosen, "BallotMeasureContest")])


def crowded_measures(kind, count, is_tagged=False):
    """Labels that crowd the index if its salt leaves out what they differ in."""
    key = colliding.label_key(YES, kind)
    return measures(kind, colliding.crowded(count, colliding.salt_of(measures(kind, key.others(count)), kind), key, is_tagged))


def crowded_names(n):
    return crowded_measures("names", n // 4)


def crowded_flags(n):
    return crowded_measures("flags", n // 4)


def crowded_nulls(n):
    return crowded_measures("nulls", n // 4)


def crowded_nesting(n):
    return crowded_measures("nesting", n // 4)


def crowded_tags(n):
    """Labels that would have one tag too."""
    return crowded_measures("names", n // 10, is_tagged=True)


SINGLE = [units_rising, units_falling, units_alike, candidate_selections, write_ins, measure_texts, ordered_selections, references,
          identifiers, translations, same_triples, unresolved, repeated, foreign, twins, same_ids, chain, styles, deep_headers,
          long_key, long_keys, long_tickets, long_twins, long_contents, long_labels,
          empty_arrays, elections, twin_elections, party_tickets, endorsements, faults_below_a_name, faults_in_headers,
          colliding_ids, colliding_keys, colliding_labels,
          crowded_without_salt, crowded_elsewhere, crowded_in_rounds,
          crowded_names, crowded_flags, crowded_nulls, crowded_nesting, crowded_tags]
PAIRS = [moved, nothing_common, last_differs, every_second, long_references_moved, selections_moved, elections_moved,
         deep_identifiers, opposite_sets]
