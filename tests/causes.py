"""Why an answer is contradicted by a run: which operation is read otherwise than SQLite's opcode page has it.

    host/archive
    python3 tests/causes.py FOLDER...           the contradictions of tests/seen.py by cause, as Markdown tables
    python3 tests/causes.py --list FOLDER...    one line for each contradiction: every single repair that removes it
    python3 tests/causes.py --moved FOLDER...   checks the rewriting: every row moved, no answer changes; exit status 1 if one does
    python3 tests/causes.py --smallest          small listings that show the causes; exit status 1 if one is answered otherwise

Each repair below rewrites the rows of one operation into rows that the call reads as the opcode page describes that operation, the
rest of the listing staying as it is. A contradiction that is gone after one repair has that cause; where several repairs remove it, the
first in the order below counts. Where none does, pairs are tried, and then all together, thinned out to a smallest set that still
helps. What is left is unexplained. A repaired listing that is refused helps nothing; but where a listing had no columns and the
repaired one is too large for the work area (11), it is asked again with Halt in place of the rows between its first ResultRow and
the row that Init names.
"""
import collections
import itertools
import sys

import seen

Row = collections.namedtuple('Row', 'op p1 p2 p3 p4', defaults=('',))
Old = collections.namedtuple('Old', 'row')      # a row of the listing as it was
End = collections.namedtuple('End', 'row')      # the last of the rows that stand for a row of the listing as it was
Here = collections.namedtuple('Here', 'at')     # a row of the same block; one past its end is the row after it

SPARE, SPARE2 = 60_000, 60_001                  # registers that no real listing uses
KIND_UNKNOWN, KIND_NUMERIC, KIND_INTEGER, KIND_REAL = 64, 67, 68, 69     # the affinities that Cast takes

TWO_WAY = set('''DecrJumpZero ElseEq Eq Filter Found Ge Gt IdxGE IdxGT IdxLE IdxLT IfNoHope IfNot IfNotOpen IfNotZero IfNullRow IfSmaller
    IncrVacuum IsNullOrType Le Lt Ne Next NoConflict NotExists Once Prev Program RowSetRead RowSetTest SeekGE SeekGT SeekLE SeekLT SeekRowid
    SeekScan SequenceTest SorterNext VFilter VNext'''.split())
JUMPS = TWO_WAY | set('Init Goto Gosub FkIfZero IsNull NotNull MustBeInt If IfPos Rewind Last Sort SorterSort InitCoroutine Yield Jump'.split())
# Operations without an arm, by what they do.
JUMPS_UNREAD = set('NotFound IsType IfEmpty SorterCompare IFindKey'.split())
OPENS_UNREAD = set('ReopenIdx VOpen'.split())
WRITES_UNREAD = {'Int64': 'p2', 'IsTrue': 'p2', 'ReadCookie': 'p2', 'CreateBtree': 'p2', 'Destroy': 'p2', 'Pagecount': 'p2', 'MaxPgcnt': 'p2',
                 'Offset': 'p3', 'RowSetRead': 'p3', 'GetSubtype': 'p2'}
NULLS_UNREAD = {'VColumn': 'p3', 'Param': 'p2', 'SoftNull': 'p1', 'BeginSubrtn': 'p2', 'JournalMode': 'p2', 'VCheck': 'p2'}
FUNCTIONS = set('last_insert_rowid(0) date(-1) time(-1) datetime(-1) strftime(-1) julianday(-1) unixepoch(-1)'.split())
ARITHMETIC = set('BitAnd BitOr ShiftLeft ShiftRight Add Subtract Multiply Divide Remainder'.split())
NEVER_NULL = ('count(', 'row_number(', 'rank(', 'dense_rank(', 'ntile(', 'percent_rank(', 'cume_dist')


def rows_of(listing):
    lines = [value for _, value in seen.pairs(listing.decode())]
    return [Row(lines[at + 1], *map(int, lines[at + 2:at + 5]), lines[at + 5]) for at in range(0, len(lines), 6)]


def text_of(rows):
    form = 'addr={}\nop={}\np1={}\np2={}\np3={}\np4={}\n'
    return ''.join(form.format(at, *row) for at, row in enumerate(rows)).encode()


def with_old_targets(row):
    """The row with its jumps marked, so that they follow the rows they name."""
    if row.op == 'Jump':
        return row._replace(p1=Old(row.p1), p2=Old(row.p2), p3=Old(row.p3))
    if row.op == 'InitCoroutine':
        return row._replace(p2=Old(row.p2), p3=Old(row.p3))
    return row._replace(p2=Old(row.p2)) if row.op in JUMPS else row


def return_address(row, rows):
    """Whether an Integer is the row before the one that a Return goes to."""
    return row.op == 'Integer' and 0 < row.p1 < len(rows) and any(other.op == 'Return' and other.p1 == row.p2 for other in rows)


def unchanged(row, rows):
    return [row._replace(p1=End(row.p1)) if return_address(row, rows) else with_old_targets(row)]


def laid_out(blocks):
    """The blocks one after the other, every jump at its new place."""
    starts = [0]
    for block in blocks:
        starts.append(starts[-1] + len(block))

    def place(operand, start):
        if isinstance(operand, Here):
            return start + operand.at
        if isinstance(operand, End):
            return starts[operand.row + 1] - 1
        if not isinstance(operand, Old):
            return operand
        inside = 0 <= operand.row < len(blocks)
        return starts[operand.row] if inside else operand.row - len(blocks) + starts[-1] if operand.row > 0 else operand.row
    return [Row(row.op, *(place(operand, start) for operand in row[1:4]), row.p4) for start, block in zip(starts, blocks) for row in block]


def repaired(listing, names):
    """The listing with these repairs, one after the other."""
    rows = rows_of(listing)
    for name in names:
        repair = REPAIRS[name]
        blocks = [repair(row, rows) or unchanged(row, rows) for row in rows]
        rows = laid_out(blocks)
    return text_of(rows)


def p4_text(row):
    return bytes.fromhex(row.p4).decode(errors='replace')


# ---- the repairs: a row to the rows that stand for it, or None where it stays

def is_null_ends(row, _):
    if row.op == 'IsNull':
        return [Row('Eq', 0, Here(3), 0), Row('IsNull', row.p1, Old(row.p2), row.p3), Row('Goto', 0, Here(4), 0), Row('HaltIfNull', 0, 0, row.p1)]


def not_null_stays(row, _):
    if row.op == 'NotNull':
        return [Row('Eq', 0, Here(3), 0), Row('NotNull', row.p1, Old(row.p2), row.p3), Row('Goto', 0, Here(5), 0),
                Row('HaltIfNull', 0, 0, row.p1), Row('Goto', 0, Old(row.p2), 0)]


def unwritten_is_null(row, _):
    if row.op in ('IsNull', 'NotNull'):
        return [Row('Null', 0, SPARE, 0), Row('SCopy', row.p1, SPARE, 0), Row('Move', SPARE, row.p1, 1), with_old_targets(row)]


def null_side_is_null(row, _):
    if row.op == 'IsNull':
        return [Row('IsNull', row.p1, Here(2), row.p3), Row('Goto', 0, Here(4), 0), Row('Null', 0, row.p1, 0), Row('Goto', 0, Old(row.p2), 0)]
    if row.op == 'NotNull':
        return [with_old_targets(row), Row('Null', 0, row.p1, 0)]


def function_writes(row, _):
    if row.op in ('Function', 'PureFunc') and p4_text(row) not in FUNCTIONS:
        return [Row('Null', 0, row.p3, 0)]


def pure_function_writes(row, _):
    if row.op == 'PureFunc' and p4_text(row) in FUNCTIONS:
        return [row._replace(op='Function')]


def zero_or_null(row, _):
    if row.op == 'ZeroOrNull':
        return [Row('BitAnd', row.p1, row.p3, row.p2), Row('Cast', row.p2, KIND_INTEGER, 0)]


def bit_not(row, _):
    if row.op == 'BitNot':
        return [Row('Null', 0, SPARE, 0), Row('SCopy', row.p1, SPARE, 0), Row('Cast', SPARE, KIND_INTEGER, 0), Row('Move', SPARE, row.p2, 1)]


def logical_not(row, _):
    if row.op == 'Not':
        return [Row('Null', 0, SPARE, 0), Row('SCopy', row.p1, SPARE, 0), Row('Cast', SPARE, KIND_INTEGER, 0), Row('Move', SPARE, row.p2, 1)]


def add_imm(row, _):
    if row.op == 'AddImm':
        return [Row('Cast', row.p1, KIND_INTEGER, 0)]


def integrity_check(row, rows):
    if row.op == 'IntegrityCk':     # SQLite 3.40 has the text in P1, 3.46 the errors allowed there and the text behind
        counter = any(other.op == 'Integer' and other.p2 == row.p1 for other in rows)
        return [Row('Null', 0, row.p1 + counter, 0)]


def strftime_of_nothing(row, _):
    if row.op == 'Function' and p4_text(row) == 'strftime(-1)' and row.p2 == 0:
        return [Row('Null', 0, row.p3, 0)]


def writes(name):
    def repair(row, _):
        if row.op == name:
            return [Row('Count', 0, getattr(row, WRITES_UNREAD[name]), 0)]
    return repair


def nulls(name):
    def repair(row, _):
        if row.op == name:
            return [Row('Null', 0, getattr(row, NULLS_UNREAD[name]), 0)]
    return repair


def jumps(name):
    def repair(row, _):
        if row.op == name:
            return [Row('Eq', 0, Old(row.p2), 0)]
    return repair


def opens(name):
    def repair(row, _):
        if row.op == name:
            return [row._replace(op='OpenRead') if name == 'ReopenIdx' else Row('OpenRead', row.p1, 0, 9)]
    return repair


def rowid_of_null_row(row, rows):
    if row.op in ('Rowid', 'IdxRowid') and any(other.op == 'NullRow' and other.p1 == row.p1 for other in rows):
        return [Row('Null', 0, row.p2, 0), Row('Cast', row.p2, KIND_INTEGER, 0)]


def if_null_row_writes(row, _):
    if row.op == 'IfNullRow':
        return [Row('Eq', 0, Here(2), 0), Row('Goto', 0, Here(4), 0), Row('Null', 0, row.p3, 0), Row('Goto', 0, Old(row.p2), 0)]


def if_keeps(row, _):
    if row.op == 'If' and row.p3 == 0:
        return [Row('If', row.p1, Old(row.p2), 1)]


def if_pos_keeps(row, _):
    if row.op == 'IfPos' and row.p3 == 0:
        return [Row('IntCopy', row.p1, SPARE, 0), Row('IfPos', SPARE, Here(3), 0), Row('Goto', 0, Here(5), 0), Row('Null', 0, SPARE, 0),
                Row('Goto', 0, Old(row.p2), 0), Row('Null', 0, SPARE, 0)]


def may_be_null(register):
    return [Row('Null', 0, SPARE, 0), Row('BitOr', register, SPARE, register)]


def divided_by_zero(row, _):
    if row.op in ('Divide', 'Remainder'):
        return [row] + may_be_null(row.p3)


def unknown_operand(row, _):
    if row.op in ARITHMETIC | {'Concat', 'And', 'Or'}:
        return [Row('Null', 0, SPARE, SPARE2), Row('SCopy', row.p1, SPARE, 0), Row('SCopy', row.p2, SPARE2, 0),
                Row('Eq', 0, Here(8), 0), Row('Eq', 0, Here(9), 0), row, Row('Null', 0, SPARE, SPARE2), Row('Goto', 0, Here(11), 0),
                Row('IsNull', SPARE, Here(10), 0), Row('IsNull', SPARE2, Here(10), 0),
                Row('Null', 0, row.p3, 0), Row('Null', 0, SPARE, SPARE2)]


def value_of_aggregate(row, _):
    if row.op == 'AggValue' and not p4_text(row).startswith(NEVER_NULL):
        return [Row('Null', 0, row.p3, 0), Row('SCopy', row.p1, row.p3, 0)] + may_be_null(row.p3)


def nothing_aggregated(row, _):
    if row.op == 'AggFinal' and not p4_text(row).startswith(NEVER_NULL):
        return [row] + may_be_null(row.p1)


def coroutine_left(row, _):
    if row.op == 'Yield' and row.p2 != 0:
        return [Row('Eq', 0, Old(row.p2), 0), with_old_targets(row)]


def insert_adds(row, _):
    if row.op in ('Insert', 'IdxInsert', 'SorterInsert'):
        return [Row('Eq', 0, Here(2), 0), row]


def program_goes_on(row, _):
    if row.op == 'Program' and row.p2 == 0:
        return [Row('Noop', 0, 0, 0)]


def jump_three_ways(row, _):
    if row.op == 'Jump':
        return [Row('Eq', 0, Old(row.p1), 0), Row('Eq', 0, Old(row.p2), 0), Row('Goto', 0, Old(row.p3), 0)]


def result_unknown(row, _):
    if row.op == 'ResultRow':
        block = []
        for register in range(row.p1, row.p1 + row.p2):
            at = len(block)
            block += [Row('Null', 0, SPARE, 0), Row('SCopy', register, SPARE, 0), Row('Eq', 0, Here(at + 5), 0), Row('Null', 0, SPARE, 0),
                      Row('Goto', 0, Here(at + 8), 0), Row('IsNull', SPARE, Here(at + 6), 0), Row('Null', 0, SPARE, 0),
                      Row('Null', 0, register, 0)]
        return block + [row]


# ---- repairs of kinds: the operation says nothing of its result's kind

def kind_unknown(names, operand, chosen=lambda row: True):
    def repair(row, rows):
        if row.op in names and chosen(row):
            return [row, Row('Cast', getattr(row, operand), KIND_UNKNOWN, 0)]
    return repair


def is_sum(row):
    return p4_text(row).startswith('sum(')


def sum_is_a_number(row, _):
    if row.op in ('AggStep', 'AggValue') and is_sum(row):
        return [row, Row('Cast', row.p3, KIND_NUMERIC, 0)]


def table_column(row, rows):
    if row.op == 'Column' and any(other.op in ('OpenRead', 'OpenWrite', 'ReopenIdx') and other.p1 == row.p1 for other in rows):
        return [row, Row('Cast', row.p3, KIND_UNKNOWN, 0)]


def constants_say_nothing(row, rows):
    if row.op in ('String8', 'Real', 'Blob', 'Count', 'Rowid', 'IdxRowid', 'NewRowid', 'Integer') and not return_address(row, rows):
        return [row, Row('Cast', row.p2, KIND_UNKNOWN, 0)]
    if row.op == 'Cast':
        return [row._replace(p2=KIND_UNKNOWN)]
    if row.op in ('Function', 'PureFunc') and p4_text(row) in FUNCTIONS:
        return [row, Row('Cast', row.p3, KIND_UNKNOWN, 0)]


def affinity_applies(row, _):
    if row.op == 'RealAffinity':
        return [Row('Cast', row.p1, KIND_REAL, 0)]
    if row.op == 'Affinity':
        return [Row('Cast', row.p1 + at, KIND_UNKNOWN, 0) for at, letter in enumerate(p4_text(row)) if letter not in 'A@'] or None


KIND_REPAIRS = {
    'AggStep, AggValue: the sum of values of no known kind is Float': sum_is_a_number,
    'AggStep: the result has the argument\'s kind': kind_unknown({'AggStep'}, 'p3', lambda row: not is_sum(row)),
    'arithmetic: the result has the first operand\'s kind': kind_unknown(ARITHMETIC, 'p3'),
    'Concat: the result has an operand\'s kind': kind_unknown({'Concat'}, 'p3'),
    'And, Or: the result has an operand\'s kind': kind_unknown({'And', 'Or'}, 'p3'),
    'Affinity, RealAffinity: do nothing': affinity_applies,
}
NULL_REPAIRS = {
    'AggValue: reads register P2': value_of_aggregate,
    'ZeroOrNull: writes nothing': zero_or_null,
    'IntegrityCk: writes nothing': integrity_check,
    **{name + ': writes nothing': writes(name) for name in WRITES_UNREAD},
    **{name + ': writes nothing': nulls(name) for name in NULLS_UNREAD},
    'BitNot: writes nothing': bit_not,
    'PureFunc: writes nothing': pure_function_writes,
    'Function, PureFunc: an unlisted function writes nothing': function_writes,
    'strftime without arguments: never blank': strftime_of_nothing,
    'IsNull: a register never blank ends the branch': is_null_ends,
    'NotNull: a register of kind Null does not jump': not_null_stays,
    'IsNull, NotNull: a register never written ends the branch': unwritten_is_null,
    'IsNull, NotNull: on the NULL side blank is unknown': null_side_is_null,
    **{name + ': never jumps': jumps(name) for name in sorted(JUMPS_UNREAD)},
    **{name + ': opens no cursor': opens(name) for name in sorted(OPENS_UNREAD)},
    'Rowid, IdxRowid: never blank on a null row': rowid_of_null_row,
    'IfNullRow: does not write NULL': if_null_row_writes,
    'Divide, Remainder: by zero': divided_by_zero,
    'If: a NULL that falls through becomes 0': if_keeps,
    'IfPos: counts down where P3 is 0': if_pos_keeps,
    'Not: copies its operand': logical_not,
    'AddImm: adds nothing': add_imm,
    'Program: P2 = 0 starts again': program_goes_on,
    'Insert: the last record stands for all': insert_adds,
    'Yield: a coroutine of three rows or more ends in a loop stop': coroutine_left,
    'arithmetic: an operand that is unknown is left out': unknown_operand,
    'AggFinal: nothing aggregated': nothing_aggregated,
    'Jump: a fourth way': jump_three_ways,
    'results: a row that is unknown is left out': result_unknown,
}
RESULT_KINDS = {
    'Column: the value is not of the declared type': table_column,
    'results: of several kinds one is given': constants_say_nothing,
}
REPAIRS = {**KIND_REPAIRS, **NULL_REPAIRS, **RESULT_KINDS}


# ---- which repair removes a contradiction

def shortened(listing):
    rows = rows_of(listing)
    first = next((at for at, row in enumerate(rows) if row.op == 'ResultRow'), len(rows))
    return text_of([Row('Halt', 0, 0, 0) if first < at < rows[0].p2 else row for at, row in enumerate(rows)])


class Trial:
    """One listing under repairs; each set of repairs is asked for once."""

    def __init__(self, port, case):
        self.port, self.case, self.answers = port, case, {}

    def answer(self, names):
        """None where the repairs change nothing."""
        names = tuple(names)
        if names not in self.answers:
            listing = repaired(self.case.listing, names)
            self.answers[names] = None if listing == self.case.listing else self.ask(listing)
        return self.answers[names]

    def ask(self, listing):
        answer = self.port.ask(listing, self.case.catalogue)
        if answer.number == 11 and not self.port.ask(self.case.listing, self.case.catalogue).columns:
            answer = self.port.ask(shortened(listing), self.case.catalogue)
        return answer

    def removes(self, names, wrong):
        """Whether the contradiction is gone after these repairs."""
        answer = self.answer(names)
        if answer is None or answer.number:
            return False
        what, column, _, other = wrong
        if what in (seen.NO_COLUMNS, seen.TOO_FEW):
            return len(answer.columns) >= len(self.case.seen.columns)
        if column >= len(answer.columns):
            return False
        if what == seen.WRONG_KIND:
            return other in seen.KINDS.get(answer.columns[column].kind, {other})
        return answer.columns[column].null != 'no'

    def causes(self, wrong):
        """Every single repair that helps; else one set of several; else nothing."""
        names = list(REPAIRS if wrong[0] == seen.WRONG_KIND else NULL_REPAIRS)
        singles = [name for name in names if self.removes([name], wrong)]
        if singles:
            return singles
        names = [name for name in names if self.answer([name]) is not None]
        for pair in itertools.combinations(names, 2):
            if self.removes(pair, wrong):
                return [' + '.join(pair)]
        return [' + '.join(self.thinned(names, wrong))] if self.removes(names, wrong) else []

    def thinned(self, names, wrong):
        for name in list(names):
            fewer = [other for other in names if other != name]
            if self.removes(fewer, wrong):
                names = fewer
        return names


def contradicted(port, folders):
    """Each contradicted case with its contradictions."""
    for case in seen.cases_of(folders):
        if case.seen and case.seen.rows:
            answer = port.ask(case.listing, case.catalogue)
            wrong = [] if answer.number else list(seen.contradictions(answer, case.seen))
            if wrong:
                yield case, wrong


def by_cause(folders, listed):
    port, counts, places = seen.Port(), collections.defaultdict(collections.Counter), collections.defaultdict(set)
    for case, wrongs in contradicted(port, folders):
        trial = Trial(port, case)
        for wrong in wrongs:
            found = trial.causes(wrong)
            if listed:
                print(case.set, case.name, wrong[0], '' if wrong[1] is None else wrong[1], '; '.join(found), sep='\t', flush=True)
            cause = found[0] if found else 'unexplained'
            counts[wrong[0]][cause, case.set] += 1
            places[wrong[0], cause].add((case.set, case.name))
    return counts, places


def print_tables(counts, places):
    for what, count in sorted(counts.items()):
        sets = sorted({group for _, group in count})
        print('\n%s\n\n| cause | %s | all | listings |\n%s|' % (what, ' | '.join(sets), '|---' * (len(sets) + 3)))
        totals = collections.Counter()
        for (cause, _), number in count.items():
            totals[cause] += number
        for cause, total in sorted(totals.items(), key=lambda item: (item[0] == 'unexplained', -item[1], item[0])):
            print('| %s | %s | %d | %d |' % (cause, ' | '.join(str(count[cause, group]) for group in sets), total, len(places[what, cause])))


def padded(row, rows):
    """A Noop before each row, but not before Init, Yield and Gosub."""
    return None if row.op in ('Init', 'Yield', 'Gosub') else [Row('Noop', 0, 0, 0)] + unchanged(row, rows)


def moved(folders):
    """Whether the answers that are small enough stay when their rows are moved."""
    port, asked, changed = seen.Port(), 0, 0
    for case in seen.cases_of(folders):
        before = port.ask(case.listing, case.catalogue)
        rows = rows_of(case.listing)
        if before.number or before.counts['charged'] > 20_000 or 2 * len(rows) > 2_048:
            continue
        after = port.ask(text_of(laid_out([padded(row, rows) or unchanged(row, rows) for row in rows])), case.catalogue)
        same = not after.number and after.columns == before.columns and seen.stops_of(after) == seen.stops_of(before)
        asked, changed = asked + 1, changed + (not same)
        if not same:
            print('changed', case.set, case.name, sep='\t')
    print('asked %d, changed %d' % (asked, changed))
    return changed == 0


# ---- small listings that show the causes: rows, and what the call answers

# t(a INTEGER) at page 2, and at page 3 u(a INT NOT NULL, b TEXT, c TEXT, PRIMARY KEY(c)) WITHOUT ROWID, whose records hold c, a, b
CATALOGUE = ''.join('db=0\npage=%d\ncol=%d\ntype=%s\nnotnull=%d\n' % column for column in (
    (2, 0, 'INTEGER', 0), (3, 0, 'INT', 1), (3, 1, 'TEXT', 0), (3, 2, 'TEXT', 1))).encode()
SMALLEST = [
    ('OpenRead 0 2 0; NullRow 0 0 0; Rowid 0 1 0; ResultRow 1 1 0', 'Integer no'),
    ('Integer 1 1 0; Null 0 2 0; ZeroOrNull 2 1 2; ResultRow 1 1 0', 'Integer no'),
    ('Integer 1 1 0; Integer 0 2 0; Divide 2 1 3; ResultRow 3 1 0', 'Integer no'),
    ('Integer 1 1 0; OpenRead 0 2 0; NullRow 0 0 0; IfNullRow 0 4 1; ResultRow 1 1 0', 'Integer no'),
    ('Integer 1 1 0; IsNull 1 3 0; ResultRow 1 1 0', ''),
    ('IsNull 1 1 0; ResultRow 1 1 0', ''),
    ('NotNull 1 1 0; ResultRow 1 1 0', ''),
    ('Null 0 1 0; IsNull 1 2 0; ResultRow 1 1 0', 'Null no'),
    ('Real 0 1 0; Null 0 2 0; Add 1 2 1; NotNull 1 4 0; ResultRow 1 1 0', 'Float no'),
    ('Variable 1 1 0; NotNull 1 3 0; Halt 0 0 0; ResultRow 1 1 0', ''),
    ('Integer 1 1 0; AggValue 2 1 3 sum(1); ResultRow 3 1 0', 'Integer no'),
    ('Function 0 0 1 strftime(-1); ResultRow 1 1 0', 'Text no'),
    ('Integer 1 1 0; Null 0 2 0; Function 0 2 1 abs(1); ResultRow 1 1 0', 'Integer no'),
    ('Integer 7 2 0; Function 0 2 1 abs(1); IsNull 1 4 0; ResultRow 1 1 0', ''),
    ('OpenEphemeral 0 1 0; Null 0 1 0; MakeRecord 1 1 2; NewRowid 0 3 0; Insert 0 2 3; Integer 7 1 0; MakeRecord 1 1 2; NewRowid 0 3 0; '
     'Insert 0 2 3; Rewind 0 13 0; Column 0 0 4; ResultRow 4 1 0; Next 0 10 0', 'Integer no'),
    ('IntegrityCk 1 1 3; IsNull 2 3 0; ResultRow 2 1 0', ''),
    ('VColumn 0 0 1; IsNull 1 3 0; ResultRow 1 1 0', ''),
    ('Int64 0 1 0; ResultRow 1 1 0', 'Null unknown'),
    ('Int64 0 1 0; NotNull 1 3 0; Halt 0 0 0; ResultRow 1 1 0', ''),
    ('OpenRead 0 2 0; NotFound 0 3 1; Halt 0 0 0; Integer 7 1 0; ResultRow 1 1 0', ''),
    ('ReopenIdx 0 2 0; Rewind 0 4 0; Integer 7 1 0; ResultRow 1 1 0', ''),
    ('InitCoroutine 1 6 1; Integer 7 2 0; Yield 1 0 0; Yield 1 0 0; Yield 1 0 0; EndCoroutine 1 0 0; Yield 1 8 0; Goto 0 6 0; '
     'ResultRow 2 1 0', ''),
    ('Null 0 1 0; If 1 2 0; ResultRow 1 1 0', 'Integer no'),
    ('Integer 1 1 0; IfPos 1 3 0; Halt 0 0 0; If 1 5 1; Halt 0 0 0; ResultRow 1 1 0', ''),
    ('Jump 5 5 5; Integer 3 1 0; ResultRow 1 1 0; Halt 0 0 0', 'Integer no'),
    ('Variable 1 1 0; AggStep 0 1 2 sum(1); AggFinal 2 1 0 sum(1); ResultRow 2 1 0', 'Float yes'),
    ('Integer 1 1 0; AggStep 0 1 2 avg(1); AggFinal 2 1 0 avg(1); ResultRow 2 1 0', 'Integer no'),
    ('Integer 1 1 0; Real 0 2 0; Add 1 2 3; ResultRow 3 1 0', 'Integer no'),
    ('Integer 1 1 0; String8 0 2 0; Concat 1 2 3; ResultRow 3 1 0', 'Integer no'),
    ('Integer 1 1 0; RealAffinity 1 0 0; ResultRow 1 1 0', 'Integer no'),
    ('Integer 7 1 0; ResultRow 1 1 0; String8 0 1 0; ResultRow 1 1 0', 'Text no'),
    ('OpenRead 0 2 0; Rewind 0 4 0; Column 0 0 1; ResultRow 1 1 0', 'Integer yes'),
    ('OpenRead 0 3 0; Rewind 0 4 0; Column 0 2 1; ResultRow 1 1 0', 'Text no'),
    ('Goto 0 0 0', 'loop stop'),
    ('; '.join('If %d %d 0' % (at, at) for at in range(1, 17)) + '; Noop 0 0 0', 'gas stop'),
    ('IfPos 1 0 0', 'repeat'),
]


def small_rows(text):
    for row in text.split('; '):
        op, p1, p2, p3, *p4 = row.split()
        yield Row(op, int(p1), int(p2), int(p3), ' '.join(p4).encode().hex())


def smallest():
    """Each small listing with what the call answers; whether all are as written above."""
    port, good = seen.Port(), True
    for text, expected in SMALLEST:
        answer = port.ask(text_of(small_rows(text)), CATALOGUE)
        columns = ' '.join('%s %s' % column for column in answer.columns)
        stops = '' if answer.number else seen.stops_of(answer)
        given = 'refused %d' % answer.number if answer.number else columns or ('' if expected == '' or stops == 'full' else stops)
        good = good and given == expected
        print('%s | %s | %s%s' % (text, columns or 'no columns', stops, '' if given == expected else ' | EXPECTED ' + expected))
    return good


def main(arguments):
    if arguments == ['--smallest']:
        sys.exit(0 if smallest() else 1)
    if arguments[:1] == ['--moved']:
        sys.exit(0 if moved(arguments[1:]) else 1)
    folders = [argument for argument in arguments if argument != '--list']
    if not folders:
        sys.exit(__doc__)
    counts, places = by_cause(folders, '--list' in arguments)
    if '--list' not in arguments:
        print_tables(counts, places)


if __name__ == '__main__':
    main(sys.argv[1:])
