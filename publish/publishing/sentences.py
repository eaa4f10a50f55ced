"""What a writer is told: a sentence for each fault of a build, each reply that builds nothing, and each refusal of a document.

docs/FAULTS.md says more of each; `tools/check-docs` holds it to this table."""

# What a fault says to a writer; {} is its detail.
SENTENCES = {
    "NoClass": "the element <{}> has no class: only what it holds is published",
    "BadClass": "the class `{}` can't be read: only what the element holds is published",
    "BadReference": "the reference `{}` can't be read, or leads out of the folder",
    "MapMissing": "there is no map `{}`: nothing of it is published",
    "MapCycle": "the map `{}` stands around this reference already: it is not included again",
    "TopicMissing": "there is no topic `{}`: it gets no page",
    "NotTopic": "`{}` is no topic: it gets no page",
    "MapConref": "a content reference in a map, `{}`, is passed over",
    "GroupValue": "the value of `{}` has groups in brackets: it is passed over",
    "DitavalMissing": "there is no DITAVAL `{}`: nothing is filtered by it",
    "DitavalTwice": "there is a rule for this value of `{}` already: the first one counts",
    "BadAction": "the action `{}` is none of include, exclude, passthrough and flag: the rule is dropped",
    "CopyTo": "copy-to=\"{}\" is passed over",
    "Chunk": "chunk=\"{}\" is passed over",
    "NameChanged": "the page could not have its own name: it is `{}`",
    "BadKeyName": "`{}` is no name for a key: it is dropped",
    "BadScopeName": "`{}` is no name for a key scope: it is dropped",
    "KeyUndefined": "no key `{}` is defined here",
    "KeyCycle": "the key `{}` leads back to itself",
    "KeyNoText": "the key `{}` has no text: its name stands there",
    "ConrefMissing": "`{}` names no element: the content is not brought in",
    "ConrefType": "`{}` is an element of another kind: the content is not brought in",
    "ConrefCycle": "`{}` brings in itself: the content is not brought in",
    "ConrefDepth": "`{}` goes through too many references, or stands too deep: the content is not brought in",
    "RangeEnd": "the end of the range, `{}`, is no later sibling of its start: the content is not brought in",
    "PushPlace": "nothing is pushed to `{}`: the mark or the target is missing, or of another kind",
    "PushTwice": "`{}` is replaced already: this replacement is dropped",
    "TooManyResolved": "its content references bring in too much: the page is empty",
    "LinkNoPage": "`{}` has no page in this map: no link leads there",
    "PageTooLarge": "its page has more than 4 MiB: it is empty",
    "Foreign": "the content of <{}> can't be published: it is left out",
}

# Why nothing was built; {} is the map and the DITAVAL.
STOPS = {
    "nomap": "`{}`: there is no such map, so nothing was built",
    "notmap": "`{}` is no map, so nothing was built",
    "noditaval": "`{}`: the DITAVAL is not there or is none, so nothing was built",
    "toomanynodes": "`{}`: the map has more than 65,536 nodes with all that it includes, so nothing was built",
    "toomanypages": "`{}`: the map has more than 4,096 pages, so nothing was built",
    "toolarge": "`{}`: the pages have more than 256 MiB together, so nothing was built",
}

# Why a document was not stored.
REFUSALS = {
    "TooDeep": "more than 256 elements stand within one another: the document is left out",
    "TooLong": "the document has more than 4 MiB as PYX: it is left out",
}


def sentence_of(code: str, detail: str) -> str:
    """The sentence of a fault whose code may be one that this table does not have."""
    sentence = SENTENCES.get(code, "`{}`")
    return sentence.format(detail) if detail else sentence.replace("`{}`", "(none)").replace("{}", "(none)")
