"""The bodies of Rattle's functions: where each begins, and how many lines it has."""
import re

COMMENT_OR_TEXT = re.compile(r'//[^\n]*|b?"(?:[^"\\]|\\.)*"|b?\'(?:[^\'\\\n]|\\[^\n]{1,6})\'', re.DOTALL)
FUNCTION = re.compile(r'\bfn\s+(\w+)')
BRACKET, OPENING_OR_END = re.compile(r'[{}()\[\]]'), re.compile(r'[{(\[;]')
CLAUSE = re.compile(r'\b(?:requires|ensures|reads|decreases)\b(?:\s+\w+)?\s*$')


def bare(text):
    """The same text with nothing in its comments and texts, line by line as long as it was."""
    return COMMENT_OR_TEXT.sub(lambda found: re.sub(r'[^\n]', ' ', found.group()), text)


def end_of(text, start):
    """Where the bracket ends that opens at a place."""
    depth = 0
    for found in BRACKET.finditer(text, start):
        depth += 1 if found.group() in '{([' else -1
        if depth == 0:
            return found.start()
    return len(text)


def body_behind(text, start):
    """Where the body begins and ends of a function whose name ends at a place; None if it has none."""
    at = start
    while True:
        found = OPENING_OR_END.search(text, at)
        if not found or found.group() == ';':
            return None
        end = end_of(text, found.start())
        if found.group() == '{' and not CLAUSE.search(text[max(start, found.start() - 80):found.start()]):
            return found.start(), end
        at = end + 1


def bodies_of(text):
    """Each function with a body: its name, its line, and how many lines stand between the brackets of the body."""
    text = bare(text)
    for found in FUNCTION.finditer(text):
        body = body_behind(text, found.end())
        if body:
            yield found[1], text.count('\n', 0, found.start()) + 1, max(1, text.count('\n', *body) - 1)
