"""Texts with one place altered, which a test has to detect: the edits of a file, and a text with an edit applied.

A file of edits has paragraphs separated by empty lines. `file: PATH` alone names the source of the edits below it. An edit is its name, `by: TEST`, and the
old text and the new one, on a line each. Lines that begin with # are comments."""
import re


def edits(path):
    """For each edit its name, the file, the test that has to fail, the old text and the new text."""
    file = None
    for part in open(path).read().split('\n\n'):
        lines = [it for it in part.splitlines() if it and not it.startswith('#')]
        if lines and lines[0].startswith('file: '):
            file = lines[0][6:]
        elif lines:
            name, by, old, new = lines
            yield name, file, by[4:], old[4:].strip(), new[4:].strip()


def edited(text, old, new):
    """The text with the one occurrence of the old text replaced. White space may differ between its words."""
    pattern = re.compile(r'\s+'.join(map(re.escape, old.split())))
    if len(pattern.findall(text)) != 1:
        raise RuntimeError(f'this text stands {len(pattern.findall(text))} times: {old}')
    return pattern.sub(lambda _: new, text)
