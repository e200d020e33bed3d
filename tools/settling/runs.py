"""The spreads of examples/spreads.jobs with other tolerances and the option `catchup` off or on: written as a file of spreads, run by ./savrunte --tsv, and its records read (docs/FORMATS.md)."""
import struct
import sys
import tempfile
from collections import namedtuple
from pathlib import Path

sys.path.insert(0, str(Path(__file__).resolve().parents[1]))
from pages import TOP, lines_of, number, records  # noqa: E402
from switch import SPREADS, switched  # noqa: E402

DOCUMENT = TOP / 'docs' / 'SETTLING.md'

# RELTOL, VNTOL and ABSTOL, the loosest first
SETS = [('1e-3', '1e-6', '1e-6'), ('1e-3', '1e-6', '1e-9'), ('1e-3', '1e-6', '1e-12'), ('1e-6', '1e-6', '1e-9'), ('1e-9', '1e-9', '1e-12')]
PASSES = 100  # ITL1: no spread that can settle is stopped by it

# words of the head: the tolerances, the constants, ITL1
TOLERANCES, CONSTANTS, ITL1 = 4, 15, 17


class Spreads:
    """A file of spreads of form 1."""

    def __init__(self, path=TOP / 'examples' / 'spreads.jobs'):
        self.data = path.read_bytes()
        words = struct.unpack_from(f'<{SPREADS}Q', self.data)
        _, self.jobs, self.nodes, self.sources = words[:4]
        self.unknown = words[23]
        self.boltzmann, self.charge = struct.unpack_from('<2d', self.data, 8 * CONSTANTS)
        each = words[21] // self.jobs
        self.sheets = [self.data[8 * SPREADS + i * each:][:each] for i in range(self.jobs)]

    def written(self, tolerances, on):
        """The file with these tolerances, with passes enough, and with the option on or off."""
        data = bytearray(self.data)
        struct.pack_into('<3d', data, 8 * TOLERANCES, *map(float, tolerances))
        struct.pack_into('<Q', data, 8 * ITL1, PASSES)
        return switched(bytes(data), catchup=on)


def program(*form, content):
    """The lines that ./savrunte writes of a file of spreads, in this form."""
    with tempfile.NamedTemporaryFile(suffix='.jobs') as f:
        f.write(content)
        f.flush()
        return lines_of('savrunte', *form, 'spreads', f.name)


# a job: its cause, its passes, and its value of the chosen unknown
Job = namedtuple('Job', 'cause passes value')
SOUND, BEHIND = 0, 27


class Report:
    """What the program reports of a file of spreads: each job, and the two means."""

    def __init__(self, content):
        said = records(program('--tsv', content=content))
        self.jobs = [Job(int(r['cause']), int(r['passes']), number(r['value_bits'])) for r in said['run']]
        self.mean, self.settled = number(said['mean'][0]['value_bits']), int(said['mean'][0]['settled'])
        self.sound_mean, self.sound = number(said['sound_mean'][0]['value_bits']), int(said['sound_mean'][0]['sound'])
