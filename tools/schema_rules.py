"""The rules that a schema keeps, in the plainest way: which is the first that it breaks, and the kind that is named for it."""

MOST_RUN = 16


def breach(schema):
    """The first broken rule and its kind, as (RULE, KIND); None where all seven hold."""
    for rule, broken in enumerate((bounds, short, split, names, alike, halves, reached), 1):
        kind = next(broken(schema), None)
        if kind is not None:
            return rule, kind
    return None


def pre_and_post(kind):
    """The names of a kind's links; None where there is no such link."""
    return {"post": (None, *kind.links[1:]), "ends": kind.links[1:], "woven": (None, None)}[kind.links[0]]


def named(schema, name):
    return next(kind for kind in schema.kinds if kind.name == name)


def bounds(schema):
    return (it.name for it in schema.kinds if not 1 <= it.low <= it.high <= MOST_RUN)


def short(schema):
    return (it.name for it in schema.kinds if it.links[0] != "woven" and it.low != 1)


def split(schema):
    return (it.name for it in schema.kinds if it.links[0] == "woven" and not (it.high >= 2 and it.low <= it.high // 2))


def names(schema):
    declared = [it.name for it in schema.kinds]
    yield from (name for place, name in enumerate(declared) if name in declared[:place])
    yield from (it.name for it in schema.kinds if any(link is not None and link not in declared for link in pre_and_post(it)))
    if schema.root not in declared:
        yield schema.root


def alike(schema):
    for it in schema.kinds:
        post = pre_and_post(it)[1]
        if post is not None and named(schema, post).links[0] != "woven" and pre_and_post(named(schema, post))[1] != post:
            yield it.name


def halves(schema):
    for it in schema.kinds:
        post = pre_and_post(it)[1]
        if post is not None and named(schema, post).links[0] != "woven" and (it.high + 1) // 2 > named(schema, post).high:
            yield it.name


def reached(schema):
    found = [schema.root]
    for name in found:
        found += [link for link in pre_and_post(named(schema, name)) if link is not None and link not in found]
    return (it.name for it in schema.kinds if it.name not in found)
