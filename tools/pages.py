"""What the scripts share that make a part of a page under docs from the shipped code: the lines of an example and the records of ./savrunte, tables, and a part of a page held against the one just made or replaced by it."""
import re
import struct
import subprocess
import sys
from pathlib import Path

TOP = Path(__file__).resolve().parents[1]


def lines_of(*command):
    """The lines that a command of the repository writes."""
    name, *rest = command
    return subprocess.run([TOP / name, *rest], stdout=subprocess.PIPE, text=True, check=True).stdout.splitlines()


def example(name):
    """The lines of a C example, each by the names in its header."""
    head, *lines = lines_of('examples/run.sh', name)
    return [dict(zip(head[1:].split('\t'), line.split('\t'))) for line in lines]


def records(lines):
    """The records of each kind that ./savrunte --tsv wrote, each by the names of its fields."""
    names, kinds = {}, {}
    for kind, *fields in (line.split('\t') for line in lines):
        if kind.startswith('#'):
            names[kind[1:]] = fields
        else:
            kinds.setdefault(kind, []).append(dict(zip(names[kind], fields)))
    return kinds


def number(bits):
    """A float by its bits, 16 hexadecimal digits."""
    return struct.unpack('>d', bytes.fromhex(bits))[0]


def table(head, rows):
    """A table in Markdown."""
    return ''.join(['| ' + ' | '.join(head) + ' |\n', '|---' * len(head) + '|\n'] + ['| ' + ' | '.join(row) + ' |\n' for row in rows])


def compare(path, made, stands=None):
    """Says whether the file holds what was made, in the place of `stands` where that is given; with the argument --write puts it there. Answers the status: 1 where it differs."""
    text = path.read_text() if path.exists() else ''
    stands = text if stands is None else stands
    name = path.relative_to(TOP)
    if stands == made:
        print(f'the same in {name}')
    elif sys.argv[1:] == ['--write']:
        path.write_text(text.replace(stands, made) if stands else made)
        print(f'written to {name}')
    else:
        print(f'differs: {name} has' + ('\n\n' + stands if stands.count('\n') < 40 else ' another'))
        return 1
    return 0


def compare_lines(document, made, pattern):
    """Prints lines and holds them against those in the document that this pattern finds."""
    print(made)
    found = re.search(pattern, document.read_text())
    if found is None:
        print(f'differs: {document.relative_to(TOP)} has nothing in its place')
        return 1
    return compare(document, made, found[0])


def compare_table(document, made):
    """The same for a table, found by its header."""
    return compare_lines(document, made, re.escape(made[:made.index('\n') + 1]) + r'(\|.*\n)*')
