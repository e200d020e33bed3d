#!/usr/bin/env python3
"""Stored files in form 2 (docs/FORMATS.md), from those in form 1: the same jobs, with heads that say how many words they have.

    form2.py            writes crates/engine_replay/data/answers2.bin, the same in bench, and, in crates/savrunte_tool/data, front_end1.jobs (which is of form 1), front_end2.jobs, spreads2.jobs, waiting2.jobs, judged2.jobs,
                        caught_up2.jobs, ramps2.jobs, ramp_spreads2.jobs, inductors2.jobs and inductor_spreads2.jobs
    form2.py --check    says whether they are what it would write

The list of answers takes the directed jobs at the front of bench/answers.bin, and of the random ones behind them the first small one of every outcome. Some heads get words more than
any version knows, all 0, and some lose the zeros at their end: neither changes a job. The next five have what form 1 cannot ask for: the option catchup, tolerances of spreads, and both, on a diode that is held back;
the option pattern_first, of jobs and of spreads, on patterns that start away from zero. The last two are about inductors.
"""
import struct
import sys
from pathlib import Path

TOP = Path(__file__).resolve().parents[2]
DATA = TOP / "crates"

sys.dont_write_bytecode = True
sys.path.insert(0, str(TOP / "tools" / "calls"))
import files as calls  # noqa: E402

DIRECTED = 97  # jobs at the front of bench/answers.bin that are no random ones
SMALL = 700  # bytes of a random job and its answer
SPREADS = 8  # jobs of the file of spreads
PLAIN = 4  # jobs at the front of the front end's file that ask for nothing that form 1 has not

JOB, ANSWER, SPREAD = 29, 13, 24  # words of the heads in form 1
MOST = 64  # words of a head

VOLTS = [0.1, 0.4, 0.5, 0.6, 0.8, 1.0, 2.0, 5.0, 12.0]
TOLERANCES = [1e-17, 1e-17, 1e-17, 1e-17]


def word(b, k):
    return struct.unpack_from("<Q", b, 8 * k)[0]


def words(*all):
    return struct.pack(f"<{len(all)}Q", *all)


def items(b, each):
    """The jobs of a file, or its jobs and answers, each as a tuple of `each` byte strings."""
    at = 32
    for _ in range(word(b, 1)):
        item = []
        for _ in range(each):
            size = struct.unpack_from("<Q", b, at)[0]
            item.append(b[at : at + size])
            at += size
        yield tuple(item)
    assert at == len(b)


def grown(b, old, first=None, size=None):
    """A head of `old` words in form 1 with what follows it, as form 2 has them. `size` is the number of words wanted; words beyond the old ones are 0."""
    size = size or old + 1
    head = list(struct.unpack_from(f"<{old}Q", b))[1:] + [0] * MOST
    kept, dropped = head[: size - 2], head[size - 2 : old - 1]
    assert 2 <= size <= MOST and not any(dropped)
    rest = b[8 * old :]
    return (first or words(8 * size + len(rest))) + words(size, *kept) + rest


def job_size(k, b):
    """How many words the head of job k gets: of every eight jobs one 1 to 34 more than it needs, one as few as it can."""
    if k % 8 == 1:
        return JOB + 2 + 5 * k % 34
    if k % 8 == 3:
        return max(i for i in range(JOB) if i == 0 or word(b, i)) + 2
    return JOB + 1


def outcome(job, answer):
    """The refusal; or the verdict, of DC or of a transient."""
    return word(answer, 1) or (word(job, 1), word(answer, 3))


def chosen(all):
    """The directed jobs, then the first small one of every outcome."""
    yield from all[:DIRECTED]
    seen = set()
    for job, answer in all[DIRECTED:]:
        key = outcome(job, answer)
        if key not in seen and len(job) + len(answer) < SMALL:
            seen.add(key)
            yield job, answer


def answers(b):
    pairs = [(grown(j, JOB, size=job_size(k, j)), grown(a, ANSWER)) for k, (j, a) in enumerate(chosen(list(items(b, 2))))]
    head = b"SAVANSW2" + words(len(pairs), max(len(j) for j, _ in pairs), max(len(a) for _, a in pairs))
    return head + b"".join(j + a for j, a in pairs)


def jobs(b):
    all = [grown(j, JOB, size=job_size(k, j)) for k, (j,) in enumerate(items(b, 1))]
    return b"SAVJOBS2" + words(len(all), max(map(len, all)), 0) + b"".join(all)


def front_end(b):
    """The plain jobs of the front end's file, which is of form 2 with whole heads, in form 1."""
    all = []
    for (job,) in list(items(b, 1))[:PLAIN]:
        size = word(job, 1)
        head, rest = struct.unpack_from(f"<{size}Q", job), job[8 * size :]
        assert not any(head[JOB + 1 :])
        all.append(words(8 * JOB + len(rest), *head[2 : JOB + 1]) + rest)
    return b"SAVJOBS1" + words(len(all), max(map(len, all)), 0) + b"".join(all)


def fewer(b):
    """The first spreads of a file of form 1, as a file of form 1."""
    each = word(b, 21) // word(b, 1)
    sheets = each * SPREADS
    assert each % 8 == 0
    points = b[8 * SPREAD + each * word(b, 1) :]
    return b[:8] + words(SPREADS) + b[16:168] + words(sheets) + b[176:192] + b[192 : 192 + sheets] + points


def spreads(b):
    return grown(fewer(b), SPREAD, first=b"SAVSPRD2", size=40)


def held(**how):
    """A diode behind a resistor, by itself: with 5 V its limiting still holds it back when the first passes agree."""
    return calls.job(calls.rectifier(5.0), nodes=3, sources=1, itl=(100, 0, 10), **how)


def waiting():
    """With the option catchup and without it, at DC and through a transient."""
    moving = dict(transient=True, rows=9)
    all = [calls.waiting(held(), 0), calls.waiting(held()), calls.waiting(held(**moving), 0), calls.waiting(held(**moving)), calls.waiting(held(budget=3, **moving), 0)]
    return calls.jobs(*all, form=2)


def judged(catchup):
    """Spreads of that circuit, one of them damaged, judged with one tolerance for each unknown."""
    sheets = [b"".join(calls.rectifier(v)) for v in VOLTS]
    sheets[2] = sheets[2][:-40] + bytes(40)
    return calls.judged_spreads(calls.spreads(*sheets, nodes=3, sources=1, unknown=2, itl=(100, 0, 10)), TOLERANCES, catchup=catchup)


def ramps():
    """Document 01's case h, a pattern from 3 to 4: with the option pattern_first, without it, with a head that ends before its word, and with another number than 1; and beside a second source, where the
    level that is no number is not hidden. Through a transient with and without it, and repeating with both options. Then a pattern whose first point stands after time 0, and one of a single point."""
    moving = dict(transient=True, rows=9, tstep=0.25, tstop=1.25)
    h, repeating, late, one = calls.CASE_H, (2, 2, 0.0, 1.0), (4, 2, 0.0, -1.0), (3, 1, 0.0, 1.0)
    all = [calls.first(calls.ramp(h)), calls.first(calls.ramp(h), 0), calls.waiting(calls.ramp(h), 0), calls.first(calls.ramp(h), 2**63)]
    all += [calls.first(calls.beside(h, tolerances=[0.0] * 5), on) for on in (1, 0)]
    all += [calls.first(calls.ramp(h, **moving), on) for on in (1, 0)] + [calls.first(calls.ramp(repeating, **moving), catchup=1)]
    all += [calls.first(calls.ramp(shape, **moving)) for shape in (late, one)]
    return calls.jobs(*all, form=2)


def ramp_spreads():
    """Spreads of such patterns at DC with the option, judged, and one whose points are not there."""
    sheets = [b"".join(calls.driven(shape)) for shape in calls.PATTERNS + [(5, 2, 0.0, -1.0)]]
    return calls.judged_spreads(calls.spreads(*sheets, sources=1, points=calls.LEVEL_BYTES), [0.0] * 3, 0, 1)


def inductors():
    """An inductor at DC, settled and with too few passes; behind such a DC; behind half an ohm and across a source alone; with a step that is cut, and with steps that are doubled; with a source number that it shares; from ground to ground."""
    cut = dict(rise=0.25, reltol=0.9, itl=(10, 0, 1), ft=0.5, tstop=0.25)
    v, inductor_record = calls.voltage(1, 0, 0, 1.0), calls.inductor(1, 0, 0, 1.0)
    ground = [calls.voltage(1, 0, 1, 1.0), calls.resistor(1, 0, 1.0), calls.inductor(0, 0, 0, 1.0)]
    all = [calls.job(calls.SHORT, sources=1, tolerances=[0.0] * 3), calls.job(calls.SHORT, sources=1, itl=(0, 0, 10))]
    all += [calls.job(calls.SHORT_BESIDE, nodes=3, sources=2, itl=(0, 0, 10), transient=True, rows=9), calls.choke(0.5, 1.0, tolerances=[0.0] * 5), calls.choke(49.0, 3.0, ohm=0)]
    all += [calls.choke(0.25, 1.0, **cut), calls.choke(0.5, 1.0, itl=(10, 5, 10), tstop=9.0), calls.job([v, v, inductor_record], sources=1), calls.job(ground, sources=2, transient=True, rows=9)]
    return calls.jobs(*[calls.form2(j, JOB) for j in all], form=2)


def inductor_spreads():
    """Spreads with two inductors each, judged: one behind the other, the first one turned round, side by side, from ground to ground, and with one number for both."""
    first, second, turned = calls.inductor(1, 2, 0, 3.0), calls.inductor(2, 0, 1, 0.5), calls.inductor(2, 1, 0, 3.0)
    pairs = [(first, second), (turned, second), (first, calls.inductor(1, 2, 1, 3.0)), (calls.inductor(0, 0, 0, 1.0), second), (first, calls.inductor(2, 0, 0, 0.5))]
    ohms = [calls.current(0, 1, 1.0), calls.resistor(1, 0, 4.0), calls.resistor(2, 0, 4.0)]
    return calls.judged_spreads(calls.spreads(*[b"".join([*ohms, *pair]) for pair in pairs], nodes=3, sources=2, unknown=3), [1e-9] * 5)


def main():
    tool = DATA / "savrunte_tool" / "data"
    plain = front_end((tool / "front_end.jobs").read_bytes())
    directed = answers((TOP / "bench" / "answers.bin").read_bytes())
    files = {
        DATA / "engine_replay" / "data" / "answers2.bin": directed,
        TOP / "bench" / "answers2.bin": directed,
        tool / "front_end1.jobs": plain,
        tool / "front_end2.jobs": jobs(plain),
        tool / "spreads2.jobs": spreads((tool / "spreads.jobs").read_bytes()),
        tool / "waiting2.jobs": waiting(),
        tool / "judged2.jobs": judged(0),
        tool / "caught_up2.jobs": judged(1),
        tool / "ramps2.jobs": ramps(),
        tool / "ramp_spreads2.jobs": ramp_spreads(),
        tool / "inductors2.jobs": inductors(),
        tool / "inductor_spreads2.jobs": inductor_spreads(),
    }
    if sys.argv[1:] == ["--check"]:
        same = all(p.exists() and p.read_bytes() == b for p, b in files.items())
        print("same" if same else "differs")
        sys.exit(0 if same else 1)
    for p, b in files.items():
        p.write_bytes(b)
        print(p.relative_to(TOP), len(b), "bytes")


if __name__ == "__main__":
    main()
