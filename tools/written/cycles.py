"""Types that contain themselves or each other, by the definitions of a file."""
import re


def all_fields(kind, content):
    """The fields of a struct, or of all variants of an enum."""
    return content[1] if kind == "struct" else [field for variant in content for field in variant[3]]


def reached(found, name, left_out=None):
    """The types that one of these contains, by however many of them but the one that is left out."""
    contained = {
        owner: {field.type for field in all_fields(kind, content)} for kind, owner, _, _, content in found
    }
    names, turns = set(), [name]
    while turns:
        types = contained[turns.pop()]
        more = {other for other in contained if any(re.search(rf"\b{other}\b", of) for of in types)}
        turns += more - names - {left_out}
        names |= more - {left_out}
    return names


def cycle_of(found, name):
    """The types that contain this one and that it contains, with itself if it contains itself, and their root."""
    names = [other for _, other, *_ in found if other in reached(found, name) and name in reached(found, other)]
    kinds = {other: kind for kind, other, *_ in found}
    roots = []
    for root in names:
        others = [other for other in names if other != root]
        if not any(other in reached(found, other, root) for other in others):
            roots.append((any(kinds[other] == "enum" for other in others), names.index(root), root))
    return names, min(roots)[2] if roots else None
