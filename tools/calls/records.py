"""The records that the program writes (docs/FORMATS.md, "For a machine"): read from --tsv and from --json, checked field by field, and said again as the sheet for a person.

tools/program is the caller. What is not as the document says is a Wrong, with what it is.
"""
import json
import re
import struct
import urllib.parse

NAN, INF = float('nan'), float('inf')

KINDS = {kind: fields.split() for kind, fields in {
    'format': 'version',
    'file': 'file holds name',
    'fault': 'file',
    'job': 'file job analysis nodes sources catchup pattern_first',
    'refused': 'file job number meaning place',
    'ended': 'file job verdict meaning dc_verdict passes rows end end_bits behind',
    'behind': 'file job place across across_bits limited limited_bits',
    'unknown': 'file job of index value value_bits',
    'row': 'file job row time time_bits values values_bits',
    'judged': 'file job answer row number',
    'spreads': 'file jobs nodes sources of index tolerances catchup pattern_first',
    'call_refused': 'file number meaning',
    'count': 'file number meaning jobs',
    'total': 'file runs jobs',
    'sound': 'file sound jobs',
    'cause': 'file cause meaning jobs',
    'not_sound': 'file job cause meaning place across across_bits limited limited_bits row',
    'sound_smallest': 'file value value_bits job',
    'sound_largest': 'file value value_bits job',
    'sound_mean': 'file value value_bits sound',
    'smallest': 'file value value_bits job',
    'largest': 'file value value_bits job',
    'mean': 'file value value_bits settled',
    'not_settled': 'file job number meaning place passes',
    'run': 'file job number passes cause place value value_bits',
    'status': 'status',
}.items()}

# the options that are on or off; a sheet of spreads says of the first one that it is off, too
SWITCHES = ['catchup', 'pattern_first']

# fields that are no whole number: words, of which some are these alone; the name of a file; floats; a list of floats
WORDS = {'holds': ['jobs', 'spreads'], 'analysis': ['dc', 'transient'], 'of': ['node', 'source'], 'answer': ['accepted', 'rejected', 'refused'], 'meaning': None}
FLOATS = ['end', 'value', 'time', 'across', 'limited']
LISTS = ['values']

# what a file's records are, in order
ORDER = {
    'jobs': r'(job (refused |ended (behind )?(unknown )*(row )*(judged )?))*(fault )?',
    'spreads': r'fault |spreads (call_refused fault |(count )+total sound (cause )+(not_sound )*(sound_smallest sound_largest sound_mean )?(smallest largest mean )?(not_settled )*(run )+)',
}

# the words of refusals, verdicts and causes; three numbers have others where they mean something else
MEANINGS = {
    0: 'settled',
    1: 'no node, or more than 48 unknowns',
    2: 'sheet not whole records, or too many',
    3: 'points not whole, or too many',
    4: 'a limit or the budget out of range',
    5: 'a lent buffer too short',
    6: 'kind not 1 to 11',
    7: 'an unused byte not zero',
    8: 'node not below the node count',
    9: 'source number not below the source count, or shared with an inductor',
    10: 'points beyond those given',
    11: 'a number not finite, or a tolerance below zero',
    13: 'no job, more than 256, or no such unknown',
    20: 'DC passes used up',
    21: 'convergence error',
    22: 'diode current not finite',
    23: 'step too small',
    24: 'budget spent',
    25: 'no room for the next row',
    26: 'sine refused',
    27: 'a diode is behind',
    28: 'the judge rejects its vector',
}
SHEETS = 'sheets not of one length, not whole records, or too many records'  # 2 of a whole call of spreads
AT_END = 'reached its end'  # 0 of a transient
SOUND = 'sound'  # 0 as a cause
OF_DC = [0, 6, 7, 8, 9, 10, 20, 21, 22, 24]  # the numbers that a DC job can have of its own
OF_JUDGE, NOT_SOUND = [11, 28], [11, 27, 28]  # the judge's causes, and all of a settled run that is not sound


class Wrong(Exception):
    """A text that is not as the document says."""


def demand(holds, what):
    if not holds:
        raise Wrong(what)


def bits_of(x):
    return '7ff8000000000000' if x != x else struct.pack('>d', x).hex()


def decimal_of(bits):
    """The shortest decimal that reads back: Python's digits, which have an exponent at the same places, with the exponent's plus sign and zeros left out."""
    x = struct.unpack('>d', bytes.fromhex(bits))[0]
    if x != x:
        return 'NaN'
    if x in (INF, -INF):
        return 'Infinity' if x > 0 else '-Infinity'
    return re.sub(r'e([-+])0*', lambda sign: 'e' + sign.group(1).strip('+'), repr(x))


def escaped(name):
    """A file's name as records have it; the case of hexadecimal digits is not said, so that names are compared in upper case behind a percent sign."""
    return ''.join(chr(b) if 0x21 <= b <= 0x7e and chr(b) not in '"%\\' else '%%%02X' % b for b in name)


def check_record(r):
    """Each field by its form, each float by its bits, each meaning by its number."""
    for field in KINDS[r['kind']]:
        text = r[field]
        if field in WORDS:
            demand(WORDS[field] is None or text in WORDS[field], f'{field} {text!r}')
        elif field in FLOATS or field in LISTS:
            texts, bits = (text, r[field + '_bits']) if field in LISTS else ([text], [r[field + '_bits']])
            demand(len(texts) == len(bits), f'{len(texts)} {field} and {len(bits)} {field}_bits')
            for t, b in zip(texts, bits):
                demand(re.fullmatch('[0-9a-f]{16}', b), f'{field}_bits {b!r}')
                demand(t == decimal_of(b), f'{field} {t!r} for the bits {b}, which are {decimal_of(b)}')
                demand(t != 'NaN' or b == bits_of(NAN), f'a NaN of the bits {b}')
                if t not in ('NaN', 'Infinity', '-Infinity'):
                    demand(bits_of(float(t)) == b, f'{t!r} does not read back to {b}')
        elif field == 'name':
            name = re.sub('%..', lambda m: m.group(0).upper(), text)
            demand(name == escaped(urllib.parse.unquote_to_bytes(text)), f'name {text!r}')
        elif not field.endswith('_bits'):
            demand(re.fullmatch('0|[1-9][0-9]*', text), f'{field} {text!r} is no whole number')
    if 'meaning' in r:
        number = int(r['cause'] if 'cause' in r else r['verdict'] if 'verdict' in r else r['number'])
        meanings = [SHEETS] if r['kind'] == 'call_refused' and number == 2 else [SOUND] if r['kind'] == 'cause' and number == 0 else [MEANINGS.get(number)]
        if r['kind'] == 'ended' and number == 0:
            meanings.append(AT_END)
        demand(r['meaning'] in meanings, f'meaning {r["meaning"]!r} of {number}, expected {meanings}')


def read_tsv(out):
    """The records of --tsv, read by its header lines."""
    demand(out.isascii() and out.endswith(b'\n'), 'a byte that is not ASCII, or no line end at the end')
    lines = out.decode()[:-1].split('\n')
    headers = [line[1:].split('\t') for line in lines if line.startswith('#')]
    demand(all(line.startswith('#') for line in lines[:len(headers)]), 'a header behind a record')
    for kind, *fields in headers:
        demand(KINDS.get(kind) == fields, f'header {kind} {fields}')
    demand(sorted(h[0] for h in headers) == sorted(KINDS), 'a kind without a header, or with two')
    records = []
    for line in lines[len(headers):]:
        kind, *fields = line.split('\t')
        demand(kind in KINDS and len(fields) == len(KINDS[kind]), f'line {line!r}')
        r = dict(zip(['kind'] + KINDS[kind], [kind] + fields))
        for field in LISTS:
            if field in r:
                r[field], r[field + '_bits'] = r[field].split(' '), r[field + '_bits'].split(' ')
        check_record(r)
        records.append(r)
    return records


class Number(str):
    """A number of JSON by its text."""


def of_json(field, value):
    """A field's text, where JSON has it as the number or the string that the document says."""
    if isinstance(value, list):
        demand(field.split('_')[0] in LISTS, f'{field} is a list')
        return [of_json('time_bits' if field.endswith('_bits') else 'time', item) for item in value]
    demand(isinstance(value, str), f'{field} {value!r}')
    number = isinstance(value, Number)
    if field in FLOATS:
        demand(number == (value not in ('NaN', 'Infinity', '-Infinity')), f'{field} {value!r}, a number: {number}')
    elif field in WORDS or field in ('kind', 'name') or field.endswith('_bits'):
        demand(not number, f'{field} {value} is a number')
    else:
        demand(re.fullmatch('0|[1-9][0-9]*', value), f'{field} {value!r} is no whole number')
        demand(number == (int(value) <= 2**53), f'{field} {value!r}, a number: {number}')
    return str(value)


def parse_json(text):
    def no_constant(word):
        raise Wrong(f'{word} is no JSON')
    try:
        return json.loads(text, parse_int=Number, parse_float=Number, parse_constant=no_constant, object_pairs_hook=tuple)
    except ValueError as e:
        raise Wrong(f'no JSON: {e}')


def read_json(out):
    """The records of --json: one array, one record a line, that cannot be read while its last line is missing."""
    demand(out.isascii() and out.endswith(b'\n'), 'a byte that is not ASCII, or no line end at the end')
    text = out.decode()
    array = parse_json(text)
    demand(isinstance(array, list), 'no array')
    objects = [line.strip('[],') for line in text.split('\n') if line.strip('[],')]
    demand([parse_json(line) for line in objects] == array, 'not one record a line')
    try:
        parse_json(text[:-1].rpartition('\n')[0])
    except Wrong:
        pass
    else:
        raise Wrong('without its last line it reads as JSON')
    records = []
    for pairs in array:
        fields = [name for name, _ in pairs]
        kind = dict(pairs).get('kind')
        demand(kind in KINDS and fields == ['kind'] + KINDS[kind], f'an object of the fields {fields}')
        r = {field: of_json(field, value) for field, value in pairs}
        check_record(r)
        records.append(r)
    return records


def of_files(records, status, named):
    """The records of each file without its number. `named` has what each file holds, and its name."""
    demand(records and records[0] == {'kind': 'format', 'version': '1'}, f'first record {records[:1]}')
    demand(records[-1] == {'kind': 'status', 'status': str(status)}, f'last record {records[-1]}, status {status}')
    parts = []
    for r in records[1:-1]:
        if r['kind'] == 'file':
            demand(len(parts) < len(named), 'more files than were named')
            holds, name = named[len(parts)]
            demand((r['file'], r['holds'], urllib.parse.unquote_to_bytes(r['name'])) == (str(len(parts)), holds, name), f'{r}, expected {named[len(parts)]}')
            parts.append([])
            continue
        demand(parts and r.get('file') == str(len(parts) - 1), f'{r} in file {len(parts) - 1}')
        parts[-1].append({k: v for k, v in r.items() if k != 'file'})
    demand(len(parts) == len(named), f'{len(parts)} files, expected {len(named)}')
    for part, (holds, _) in zip(parts, named):
        check_order(part, holds)
    return parts


def check_order(part, holds):
    """What belongs to what: the order of kinds, and the numbers that are said twice."""
    kinds = ''.join(r['kind'] + ' ' for r in part)
    demand(re.fullmatch(ORDER[holds], kinds), f'records in this order: {kinds}')
    got = {kind: [r for r in part if r['kind'] == kind] for kind in KINDS}
    demand([r['job'] for r in got['job']] == [str(k) for k in range(len(got['job']))], 'jobs not counted from 0')
    for job in got['job']:
        k, n = job['job'], [int(job['nodes']), int(job['sources'])]
        of_job = {kind: [r for r in got[kind] if r['job'] == k] for kind in ('refused', 'ended', 'behind', 'unknown', 'row', 'judged')}
        demand(len(of_job['refused']) + len(of_job['ended']) == 1, f'job {k} is not refused or ended once')
        for ended in of_job['ended']:
            names = [('node', str(i)) for i in range(n[0])] + [('source', str(i)) for i in range(n[1])]
            demand([(r['of'], r['index']) for r in of_job['unknown']] == names, f'unknowns of job {k}')
            demand([r['row'] for r in of_job['row']] == [str(i) for i in range(int(ended['rows']))], f'rows of job {k}')
            demand(all(len(r['values']) == sum(n) for r in of_job['row']), f'values of a row of job {k}')
            transient = job['analysis'] == 'transient'
            demand(transient or (ended['dc_verdict'], ended['rows'], ended['end_bits']) == ('0', '0', '0' * 16), f'DC job {k}: {ended}')
            demand((ended['meaning'] == AT_END) == (transient and ended['verdict'] == '0'), f'meaning of job {k}: {ended}')
            demand([int(r['place']) + 1 for r in of_job['behind']] == [int(ended['behind'])] * (ended['behind'] != '0'), f'job {k} is behind at {of_job["behind"]}: {ended}')
        for r in of_job['judged']:
            demand((r['row'] == '0' or r['answer'] == 'rejected') and (r['number'] != '0') == (r['answer'] == 'refused'), f'{r}')
    if got['total']:
        check_counts(got)


def check_counts(got):
    """The numbers of a call of spreads: by number, by cause, over all, and run by run."""
    jobs, judged, runs = got['spreads'][0]['jobs'], got['spreads'][0]['tolerances'] != '0', got['run']
    demand([r['job'] for r in runs] == [str(k) for k in range(int(jobs))], 'runs not counted from 0')
    for r in runs:
        demand(int(r['number']) == (0 if int(r['cause']) in NOT_SOUND else int(r['cause'])), f'number and cause: {r}')
        demand(r['place'] == '0' or int(r['cause']) in (6, 7, 8, 9, 10, 27, 28), f'a place: {r}')
    for kind, field, always in ('count', 'number', OF_DC), ('cause', 'cause', OF_DC + [27] + OF_JUDGE * judged):
        numbers = [int(r[field]) for r in got[kind]]
        demand(numbers == sorted(set(always) | {int(r[field]) for r in runs}), f'{kind} of {numbers}')
        for r in got[kind]:
            demand(int(r['jobs']) == sum(run[field] == r[field] for run in runs), f'{r} and the runs')
        demand(sum(int(r['jobs']) for r in got[kind]) == int(jobs), f'{kind}: not all jobs')
    demand([got['total'][0]['runs'], got['total'][0]['jobs']] == [jobs, jobs], f'{got["total"]}')
    settled, sound = got['count'][0]['jobs'], got['cause'][0]['jobs']
    demand([got['sound'][0]['sound'], got['sound'][0]['jobs']] == [sound, jobs], f'{got["sound"]}')
    demand([r['settled'] for r in got['mean']] == [settled] * (settled != '0'), 'the mean over the settled runs')
    demand([r['sound'] for r in got['sound_mean']] == [sound] * (sound != '0'), 'the mean over the sound runs')
    for kind, field, mine in ('not_settled', 'number', [r for r in runs if r['number'] != '0']), ('not_sound', 'cause', [r for r in runs if int(r['cause']) in NOT_SOUND]):
        demand([(r['job'], r[field]) for r in got[kind]] == [(r['job'], r[field]) for r in mine], f'{kind} and the runs')
    for r in got['not_sound']:
        place, cause = runs[int(r['job'])]['place'], r['cause']
        demand((r['place'], r['row']) == (place if cause == '27' else '0', place if cause == '28' else '0'), f'{r} and its run')
        demand(cause == '27' or (r['across_bits'], r['limited_bits']) == ('0' * 16, '0' * 16), f'voltages of {r}')
    for r in got['not_settled']:
        demand((r['place'], r['passes']) == (runs[int(r['job'])]['place'], runs[int(r['job'])]['passes']), f'{r} and its run')


def sheet_of(part):
    """What a person is told of a file's records."""
    def number(text): return text.replace('Infinity', 'inf')
    def meant(k, meaning): return {11: "judge's refusal", 27: 'cause', 28: 'cause'}.get(int(k), 'refused by' if 0 < int(k) < 20 else 'verdict') + f' {k} ({meaning})'
    def volts(r): return f'record {r["place"]}, voltage across the diode = {number(r["across"])}, limited to {number(r["limited"])}'
    lines, transient = [], False
    for r in part:
        kind = r['kind']
        if kind == 'job':
            transient = r['analysis'] == 'transient'
            on = ''.join(f', {switch} on' for switch in SWITCHES if r[switch] != '0')
            lines.append(f'Job {r["job"]}: {"transient analysis" if transient else "DC operating point"}, {r["nodes"]} nodes with ground, {r["sources"]} sources{on}')
        elif kind == 'refused':
            lines.append(f'{meant(r["number"], r["meaning"])}, record {r["place"]}')
        elif kind == 'ended':
            more = f', DC verdict {r["dc_verdict"]}, rows {r["rows"]}, end time {number(r["end"])}' if transient else ''
            lines.append(f'{meant(r["verdict"], r["meaning"])}, passes {r["passes"]}{more}')
        elif kind == 'behind':
            lines.append(f'BEHIND: {volts(r)}' + '; this speaks of the last vector alone' * transient)
        elif kind == 'unknown':
            lines.append(f'{r["of"]} {r["index"]} = {number(r["value"])}')
        elif kind == 'row':
            lines.append('\t'.join(['time ' + number(r['time'])] + [number(x) for x in r['values']]))
        elif kind == 'judged':
            lines.append({'accepted': 'the judge accepts every row', 'rejected': f'the judge rejects row {r["row"]}', 'refused': f'the judge refuses by {r["number"]}'}[r['answer']])
        elif kind == 'spreads':
            lines.append(f'Spreads: {r["jobs"]} jobs in one call, DC operating point, {r["nodes"]} nodes with ground, {r["sources"]} sources; the chosen unknown is {r["of"]} {r["index"]}; '
                         + (f'judged with {r["tolerances"]} tolerances' if r['tolerances'] != '0' else 'not judged') + f'; catchup {"on" if r["catchup"] != "0" else "off"}'
                         + ''.join(f'; {switch} on' for switch in SWITCHES[1:] if r[switch] != '0'))
        elif kind == 'call_refused':
            lines.append(f'the whole call is refused by {r["number"]} ({r["meaning"]}): no job ran')
    if any(r['kind'] == 'total' for r in part):
        lines += sheet_of_spreads({kind: [r for r in part if r['kind'] == kind] for kind in KINDS}, number, meant, volts)
    return ''.join(line + '\n' for line in lines).encode()


def sheet_of_spreads(got, number, meant, volts):
    """The sheet of a call of spreads that was done, below its first line. A person gets the causes and not the numbers, and not every run."""
    def value(name, r, what, k): return f'{name} = {number(r["value"])}, {what} {k}'
    for r in got['cause']:
        yield (r['meaning'] if r['cause'] == '0' else meant(r['cause'], r['meaning'])) + f': {r["jobs"]}'
    yield f'all: {got["total"][0]["runs"]} runs of {got["total"][0]["jobs"]} jobs given'
    if got['not_sound']:
        yield f'NOT SOUND: {len(got["not_sound"])} of {got["mean"][0]["settled"]} settled runs; they are in no value below but the last'
    for r in got['not_sound']:
        yield f'job {r["job"]}: {meant(r["cause"], r["meaning"])}' + {'27': f', {volts(r)}', '28': f', row {r["row"]}'}.get(r['cause'], '')
    if not got['mean']:
        yield 'no run settled: there is no smallest, no largest and no mean'
    elif not got['sound_mean']:
        yield 'no run is sound: there is no smallest, no largest and no mean of sound runs'
    for name in 'smallest', 'largest':
        yield from (value(name, r, 'job', r['job']) for r in got['sound_' + name])
    yield from (value('mean', r, 'sound runs', r['sound']) for r in got['sound_mean'])
    yield from (value('mean over the settled', r, 'settled runs', r['settled']) for r in got['mean'])
    yield f'not settled, and in no value above: {len(got["not_settled"])}' if got['not_settled'] else 'every run settled'
    for r in got['not_settled']:
        yield f'job {r["job"]}: {meant(r["number"], r["meaning"])}, ' + (f'record {r["place"]}' if int(r['number']) < 20 else f'passes {r["passes"]}')


def said(part):
    """What the runs of a file say, short, as the tables below have it."""
    says = []
    for r in part:
        if r['kind'] == 'refused':
            says.append(f'refused {r["number"]} at {r["place"]}')
        elif r['kind'] == 'ended':
            says.append(f'ended {r["verdict"]}' + (f' dc {r["dc_verdict"]}' if transient else '') + (f' rows {r["rows"]}' if transient else '') + (f' behind {r["behind"]}' if r['behind'] != '0' else ''))
        elif r['kind'] == 'judged':
            says[-1] += ', ' + r['answer'] + {'accepted': '', 'rejected': ' ' + r['row'], 'refused': ' ' + r['number']}[r['answer']]
        elif r['kind'] == 'call_refused':
            says.append(f'call refused {r["number"]}')
        elif r['kind'] == 'cause' and r['jobs'] != '0':
            says.append(f'{r["jobs"]} of {r["cause"]}')
        elif r['kind'] == 'job':
            transient = r['analysis'] == 'transient'
    return '; '.join(says)
