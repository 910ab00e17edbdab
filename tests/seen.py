"""What the answers are worth: the call's answers on real listings, beside what the statements gave when they were run.

    host/archive
    python3 tests/seen.py FOLDER...             the figures, as Markdown tables
    python3 tests/seen.py --wrong FOLDER...     one line for each answer that a run contradicts

A folder holds NAME.listing and NAME.catalog and, where the statement was run, NAME.seen: `runs=`, `rows=`, then for each column `col=`,
`null=` (yes, no, or none where no row came) and `types=` (the storage classes seen). Folders whose names differ only in digits at the
end make one set. The answers come from the proved archive through its C entry, with the largest work area.
"""
import collections
import ctypes
import os
import re
import subprocess
import sys

ROOT = os.path.dirname(os.path.dirname(os.path.abspath(__file__)))
ARCHIVE = os.path.join(ROOT, 'target', 'staticlib', 'libcolumn_kinds.a')
SHARED = os.path.join(ROOT, 'target', 'libcolumn_kinds.so')
AREA = 16_777_216
ANSWER = 262_144

# The storage classes that a kind promises. Null promises nothing. A declared date or time has NUMERIC affinity and is kept as any of three.
KINDS = {
    'Integer': {'integer'}, 'Int4': {'integer'}, 'Bool': {'integer'}, 'Float': {'real'}, 'Numeric': {'integer', 'real'}, 'Text': {'text'},
    'Blob': {'blob'}, 'Date': {'text', 'integer', 'real'}, 'Time': {'text', 'integer', 'real'}, 'Datetime': {'text', 'integer', 'real'},
}
STOPS = ('loopstops', 'gasstops', 'repeats')
STOP_NAMES = {'loopstops': 'loop stop', 'gasstops': 'gas stop', 'repeats': 'repeat'}
NEVER_BLANK, WRONG_KIND, NO_COLUMNS, TOO_FEW = 'never blank, but NULL', 'wrong kind', 'no columns, but rows', 'too few columns'
SHAPES = [('window functions (AggValue)', ['AggValue']), ('groups (Gosub and IfPos)', ['Gosub', 'IfPos']), ('coroutines (Yield)', ['Yield']),
          ('subroutines (Gosub)', ['Gosub']), ('counters (IfPos)', ['IfPos']), ('outer joins (NullRow)', ['NullRow'])]
ORDER = ['listings', 'refused', 'answered', 'shape', 'rows seen', 'columns', 'answers']
FIRST = re.compile('|'.join(ORDER))

Column = collections.namedtuple('Column', 'kind null')
Answer = collections.namedtuple('Answer', 'number counts columns')
Seen = collections.namedtuple('Seen', 'rows columns')
Case = collections.namedtuple('Case', 'set name listing catalogue seen')


class Port:
    """The C entry, with a work area and an answer buffer lent again and again."""

    def __init__(self):
        if not os.path.exists(ARCHIVE):
            sys.exit('no %s: run host/archive first' % ARCHIVE)
        if not os.path.exists(SHARED) or os.path.getmtime(SHARED) < os.path.getmtime(ARCHIVE):
            subprocess.run(['gcc', '-shared', '-o', SHARED, '-Wl,--whole-archive', ARCHIVE, '-Wl,--no-whole-archive'], check=True)
        self.call = ctypes.CDLL(SHARED).column_kinds
        self.call.restype = ctypes.c_uint64
        self.call.argtypes = [ctypes.c_void_p, ctypes.c_size_t] * 4
        self.area = ctypes.create_string_buffer(AREA)
        self.answer = ctypes.create_string_buffer(ANSWER)

    def ask(self, listing, catalogue):
        given = self.call(listing, len(listing), catalogue, len(catalogue), self.area, AREA, self.answer, ANSWER)
        return read_answer(given >> 32, self.answer.raw[:given & 0xFFFFFFFF].decode())


def pairs(text):
    return [line.split('=', 1) for line in text.splitlines()]


def read_answer(number, text):
    """The counts by name and the columns; neither where the call refused."""
    lines = pairs(text)
    counts = {name: int(value) for name, value in lines[:5]}
    body = lines[5:]
    columns = [Column(body[at + 1][1], body[at + 2][1]) for at in range(0, len(body), 3)]
    return Answer(number, counts, columns)


def read_seen(text):
    lines = pairs(text)
    body = lines[2:]
    columns = [(body[at + 1][1], set(filter(None, body[at + 2][1].split(',')))) for at in range(0, len(body), 3)]
    return Seen(int(lines[1][1]), columns)


def read(path):
    with open(path, 'rb') as file:
        return file.read()


def cases_of(folders):
    """The cases of the folders, and of the folders in them, by name."""
    for folder in folders:
        group = re.sub(r'\d+$', '', os.path.basename(os.path.normpath(folder)))
        for place, _, files in sorted(os.walk(folder)):
            for file in sorted(files):
                if not file.endswith('.listing'):
                    continue
                stem = os.path.join(place, file[:-len('.listing')])
                seen = read_seen(read(stem + '.seen').decode()) if os.path.exists(stem + '.seen') else None
                yield Case(group, os.path.basename(stem), read(stem + '.listing'), read(stem + '.catalog'), seen)


def stops_of(answer):
    """The causes for which an answer is partial, or `full`."""
    return ' and '.join(STOP_NAMES[name] for name in STOPS if answer.counts[name]) or 'full'


def shape_of(listing):
    """The first of these operations that a listing has, else how many loops: what makes an answer partial."""
    ops = collections.Counter(re.findall(r'^op=(.*)$', listing.decode(), re.M))
    loops = sum(ops[name] for name in ('Next', 'Prev', 'SorterNext', 'VNext'))
    for name, wanted in SHAPES:
        if all(ops[op] for op in wanted):
            return name
    return 'else, two loops or more' if loops > 1 else 'else, one loop' if loops else 'else, no loop'


def contradictions(answer, seen):
    """What a run shows to be wrong: (what, column or None, kind, storage class)."""
    if len(answer.columns) < len(seen.columns):
        yield TOO_FEW if answer.columns else NO_COLUMNS, None, '', ''
    for at, (column, (null, types)) in enumerate(zip(answer.columns, seen.columns)):
        if column.null == 'no' and null == 'yes':
            yield NEVER_BLANK, at, column.kind, 'null'
        for other in sorted(types - {'null'} - KINDS.get(column.kind, types)):
            yield WRONG_KIND, at, column.kind, other


def count_columns(answer, seen, extent, count):
    """What the columns say beside what was seen in them."""
    count['columns seen, %s answers' % extent] += len(seen.columns)
    count['answers with more columns than seen'] += len(answer.columns) > len(seen.columns)
    for column, (null, _) in zip(answer.columns, seen.columns):
        count['columns: `null=%s`, NULL seen: %s' % (column.null, null)] += 1
        count['columns: `null=%s`, %s answers' % (column.null, extent)] += 1
        count['columns: type Null'] += column.kind == 'Null'


def count_wrong(answer, seen, extent, count):
    found = list(contradictions(answer, seen))
    for what in sorted({what for what, *_ in found}):
        columns = {column for other, column, *_ in found if other == what}
        count['listings: %s, %s' % (what, extent)] += 1
        if what in (NEVER_BLANK, WRONG_KIND):
            count['columns: %s, %s' % (what, extent)] += len(columns)
    for what, _, kind, other in found:
        if what == WRONG_KIND:
            count['columns: %s, but %s seen' % (kind, other)] += 1


def count_case(case, answer, count):
    count['listings'] += 1
    count['refused with %d' % answer.number if answer.number else 'answered: ' + stops_of(answer)] += 1
    if not answer.number:
        count['shape: %s, %s' % (shape_of(case.listing), 'full' if stops_of(answer) == 'full' else 'partial')] += 1
    if not case.seen or not case.seen.rows:
        return
    count['rows seen'] += 1
    if answer.number:
        count['rows seen: refused'] += 1
        return
    extent = 'full' if stops_of(answer) == 'full' else 'partial'
    count['rows seen: %s' % extent] += 1
    count_columns(answer, case.seen, extent, count)
    count_wrong(answer, case.seen, extent, count)


def table(counts):
    """One Markdown row for each thing counted, one column for each set and one for all."""
    sets = sorted(counts)
    everything = collections.Counter()
    for count in counts.values():
        everything.update(count)
    lines = ['| | %s | all |' % ' | '.join(sets), '|---' * (len(sets) + 2) + '|']
    for name in sorted(everything, key=lambda name: (ORDER.index(FIRST.match(name).group()), name)):
        values = [counts[group][name] for group in sets] + [everything[name]]
        lines.append('| %s | %s |' % (name, ' | '.join(format(value, ',') for value in values)))
    return '\n'.join(lines)


def main(arguments):
    show_wrong = '--wrong' in arguments
    folders = [argument for argument in arguments if argument != '--wrong']
    if not folders:
        sys.exit(__doc__)
    port, counts = Port(), collections.defaultdict(collections.Counter)
    for case in cases_of(folders):
        answer = port.ask(case.listing, case.catalogue)
        count_case(case, answer, counts[case.set])
        if show_wrong and case.seen and case.seen.rows and not answer.number:
            for what, column, kind, other in contradictions(answer, case.seen):
                print(case.set, case.name, stops_of(answer), what, '' if column is None else 'column %d' % column, kind, other, sep='\t')
    if not show_wrong:
        print(table(counts))


if __name__ == '__main__':
    main(sys.argv[1:])
