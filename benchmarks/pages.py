"""Pages that take figures between two marks: a line <!-- NAME --> and a line <!-- end of NAME -->."""
import sys


def around(path, name):
    """What a page has up to the first mark, and from the second on. Without them it ends the program."""
    begin, end = "<!-- %s -->\n" % name, "<!-- end of %s -->" % name
    with open(path, encoding="utf-8") as file:
        before, mark, rest = file.read().partition(begin)
    _, last, after = rest.partition(end)
    if not mark or not last:
        sys.exit("%s has no line %s with a line %s after it" % (path, begin.strip(), end))
    return before + mark, last + after


def put_into(path, name, text):
    """Puts a text between the marks."""
    before, after = around(path, name)
    with open(path, "w", encoding="utf-8") as file:
        file.write("%s\n%s\n\n%s" % (before, text, after))
