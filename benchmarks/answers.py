"""Answers of two programs compared: their bytes, and if these differ, what is best at each vertex or for each pair."""
import filecmp

from inputs import stop

SAME_BYTES, SAME_VALUES, NO_ANSWER, OTHER = (
    "the same bytes", "the same distances, other bytes", "no answer to compare", "OTHER DISTANCES")


def are_same_bytes(ours, theirs):
    filecmp.clear_cache()
    return filecmp.cmp(ours, theirs, shallow=False)


def compare_bytes(title, ours, theirs):
    """Stops if two answers differ in a byte, and leaves both."""
    if are_same_bytes(ours, theirs):
        return
    number, left, right = 0, b"", b""
    with open(ours, "rb") as a, open(theirs, "rb") as b:
        while left == right:
            number, left, right = number + 1, a.readline(), b.readline()
    stop("THE ANSWERS DIFFER for %s, first in line %d: %r and %r; they are left in %s and %s"
         % (title, number, left, right, ours, theirs))


def compared(ours, theirs):
    """How the answers of another program are beside ours, in words."""
    if are_same_bytes(ours, theirs):
        return SAME_BYTES
    wanted, found = list(questions_of(ours)), list(questions_of(theirs))
    if not found:
        return NO_ANSWER
    if len(wanted) != len(found):
        return OTHER + ": %d questions are answered, not %d" % (len(found), len(wanted))
    for place, (one, other) in enumerate(zip(wanted, found), 1):
        for at in sorted(one.keys() | other.keys()):
            if one.get(at) != other.get(at):
                return OTHER + ": answer %d, vertex %d: %s, not %s" % (place, at, other.get(at), one.get(at))
    return SAME_VALUES


def questions_of(path):
    """For each question of an answer text the distances that are not infinite, by vertices; by 0 for the target of a pair.

    A line `d VERTEX DISTANCE ..`, or of a pair `d DISTANCE ..`, gives one. Hops, parents, routes and lines `u` need not be there,
    and the lines of an answer may come in any order; without a line `s`, `q` or `m` all is one answer.
    """
    found, is_pair = None, False
    with open(path, "rb") as file:
        for line in file:
            fields = line.split()
            if fields and fields[0] in (b"s", b"q", b"m"):
                if found is not None:
                    yield found
                found, is_pair = {}, fields[0] == b"q"
            elif fields and fields[0] == b"d" and len(fields) > 2 - is_pair:
                found = {} if found is None else found
                found[0 if is_pair else int(fields[1])] = int(fields[2 - is_pair])
    if found is not None:
        yield found
