#!/usr/bin/env python3
"""Result rows that lists of steps reach, against those that were counted.

    oracle random SEED COUNT --write FILE
    oracle/reach.py REFERENCE FILE [--limit STATES] [--least LISTINGS] [--jobs N]

REFERENCE is a folder with walkref.py, an independent reference of the walk; its `reach` searches all allowed steps
from the fresh start. FILE has cases with what the port answered, FILE.rows the result rows that the original counted.
For every answer without stop and repeat: the rows that the search reaches are those that the original counted, and
the port's columns are what those rows say. A search past STATES states is given up and not counted as a comparison.
The exit status is 0 if nothing differs and at least LISTINGS were compared.
"""
import argparse
import collections
import multiprocessing
import sys

BLANKS = {'yes': True, 'no': False, 'unknown': None}


def read_cases(path):
    """(name, listing, catalogue, answer) of each case."""
    with open(path, 'rb') as file:
        for head in iter(file.readline, b''):
            _, name, listing, catalogue, _, _, _, length = head.split()
            yield name.decode(), file.read(int(listing)), file.read(int(catalogue)), file.read(int(length)).decode()


def read_rows(path):
    """name -> set of (row, ((kind, blank), ...))."""
    found = {}
    with open(path) as file:
        for head in file:
            _, name, count = head.split()
            found[name] = {counted_row(file.readline().split()) for _ in range(int(count))}
    return found


def counted_row(words):
    columns = (word.split('/') for word in words[1:])
    return int(words[0]), tuple((kind, BLANKS[blank]) for kind, blank in columns)


def counts_and_columns(answer):
    """({key: number} of the head, [(kind, blank)])."""
    values = [line.split('=') for line in answer.splitlines()]
    head = {key: int(value) for key, value in values[:5]}
    kinds = [value for key, value in values[5:] if key == 'type']
    blanks = [BLANKS[value] for key, value in values[5:] if key == 'null']
    return head, list(zip(kinds, blanks))


def blank_of(blanks):
    return True if True in blanks else False if False in blanks else None


def columns_differ(columns, rows):
    """What the port's columns say that the rows do not, or None."""
    width = max((len(row[1]) for row in rows), default=0)
    if len(columns) != width:
        return 'the width is %d, of the widest row %d' % (len(columns), width)
    for i, (kind, blank) in enumerate(columns):
        here = [row[1][i] for row in rows if len(row[1]) > i]
        others = {k for k, _ in here if k != 'Null'}
        if blank != blank_of([b for _, b in here]):
            return 'the blank of column %d' % i
        if kind not in (others or {'Null'}):
            return 'the kind of column %d' % i
    return None


def compare(case):
    """(what became of the case, what differs or None)."""
    name, listing, catalogue, answer, counted = case
    head, columns = counts_and_columns(answer)
    if head['loopstops'] or head['gasstops'] or head['repeats']:
        return 'with a stop or a repeat', None
    rows, records = walkref.read_listing(listing), walkref.catalogue_of(walkref.read_records(catalogue))
    found = walkref.reach(rows, records, LIMIT)
    if found is None:
        return 'past the limit', None
    if found[0] != counted:
        return 'compared', '%s: reached %r, counted %r' % (name, sorted(found[0] - counted, key=repr), sorted(counted - found[0], key=repr))
    differs = columns_differ(columns, found[0]) if head['columns'] == len(columns) else 'the count of columns'
    return 'compared with result rows' if counted else 'compared without', differs and '%s: %s' % (name, differs)


def main():
    global walkref, LIMIT
    options = argparse.ArgumentParser()
    options.add_argument('reference')
    options.add_argument('file')
    options.add_argument('--limit', type=int, default=5000)
    options.add_argument('--least', type=int, default=1)
    options.add_argument('--jobs', type=int, default=multiprocessing.cpu_count())
    o = options.parse_args()
    sys.path.insert(0, o.reference)
    import walkref
    LIMIT = o.limit
    counted = read_rows(o.file + '.rows')
    cases = ((*case, counted[case[0]]) for case in read_cases(o.file))
    seen, wrong = collections.Counter(), 0
    with multiprocessing.get_context('fork').Pool(o.jobs) as pool:
        for became, differs in pool.imap_unordered(compare, cases, 100):
            seen[became] += 1
            if differs:
                wrong += 1
                print('DISAGREEMENT', differs)
    compared = sum(n for became, n in seen.items() if became.startswith('compared'))
    print('reach: %d listings compared, %d disagreements (%s)' % (compared, wrong, ', '.join('%s: %d' % x for x in sorted(seen.items()))))
    sys.exit(wrong != 0 or compared < o.least)


if __name__ == '__main__':
    main()
