"""Builds the parts of reports that the other scripts in Python need, and finds parts of a report."""
CLASS = "ElectionResults."
# The arrays of keyed objects: those of a report, and those of an election.
OF_REPORTS = ["GpUnit", "Party", "Person", "Office", "Header"]
OF_ELECTIONS = ["Candidate", "Contest", "BallotStyle"]


# ---- parts


def identifier(value, kind="local-level", **more):
    return {"@type": CLASS + "ExternalIdentifier", "Type": kind, "Value": value, **more}


def named(class_name, id, value, **more):
    """An object of a keyed family, with one identifier."""
    return {"@id": id, "@type": CLASS + class_name, "ExternalIdentifier": [identifier(value)], **more}


def unit(id, value, **more):
    return named("ReportingUnit", id, value, Type="county", **more)


def candidate(id, value, **more):
    return named("Candidate", id, value, BallotName="Ann", **more)


def contest(id, value, district, selections, class_name="CandidateContest", **more):
    if class_name == "CandidateContest":
        more["VotesAllowed"] = 1
    return named(class_name, id, value, Name="Governor", ElectionDistrictId=district, ContestSelection=selections, **more)


def selection(id, class_name="CandidateSelection", **more):
    return {"@id": id, "@type": CLASS + class_name, **more}


def ordered_contest(id, **more):
    return {"@type": CLASS + "OrderedContest", "ContestId": id, **more}


def style(value, units, **more):
    return {"@type": CLASS + "BallotStyle", "ExternalIdentifier": [identifier(value)], "GpUnitIds": units, **more}


def translation(content, language="en", **more):
    return {"@type": CLASS + "LanguageString", "Language": language, "Content": content, **more}


def label(translations):
    return {"@type": CLASS + "InternationalizedText", "Text": translations}


def election(scope, **more):
    return {"@type": CLASS + "Election", "Name": "Test", "Type": "general", "StartDate": "2026-11-03",
            "EndDate": "2026-11-03", "ElectionScopeId": scope, **more}


def report(units, scope, **more):
    """A report with these units, and with one election, which has these further members."""
    return {"@type": CLASS + "ElectionReport", "Status": "pre-election", "GpUnit": units, "Election": [election(scope, **more)]}


# ---- places of a tree


def places(value, found=None):
    """Each array and object in the value."""
    found = [] if found is None else found
    if isinstance(value, (dict, list)):
        found.append(value)
        for inner in value.values() if isinstance(value, dict) else value:
            places(inner, found)
    return found


def keys_of(place):
    """The names of an object, or the positions of an array."""
    return list(place) if isinstance(place, dict) else list(range(len(place)))


def texts_in(value):
    """Every text in the value that is no name of a member. A text of a class of its own is none."""
    return [place[key] for place in places(value) for key in keys_of(place) if type(place[key]) is str]


def ids_in(value):
    """Every `@id` in the value."""
    return {place["@id"] for place in places(value) if isinstance(place, dict) and type(place.get("@id")) is str}
