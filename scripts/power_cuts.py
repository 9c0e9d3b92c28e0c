#!/usr/bin/env python3
"""Checks by running that the records which `batch` answers can be written and read back wherever the power is cut.

    scripts/power_cuts.py [--batches N] [--seed S] [--any-commit] [--bin DIR]

Makes journals at random, each with a batch for one of at most eight replicas, until there are N (default 2,000) of which `batch` refuses
nothing and where the batch's own commit, if any, is not below the view's. For each k from 0 on, `steps` and `recover` then read the journal
with the answer's first k records behind it, under rising LSNs. Each record must be accepted, and every other replica stay as it was. After
all records the replica's entries, boundary, pointer and hard state must be, LSNs apart, what `preview` makes of the unfinished state before
the batch, even if the batch was prepared on the finished one. (Without a hard state such a batch leaves the unfinished one's.)

With --any-commit a batch's commit may be below the view's; then its record, the last, must be refused, by 38, and those before be accepted.
Document 01's case j comes first, with a batch that commits 4 and one that commits 5.

The same seed gives the same inputs. DIR has crates/NAME/out/NAME (default: this repository). Prints the files of the first five failing
inputs, and ends with 1 if any failed.
"""
import argparse, collections, itertools, multiprocessing, os, random, re, shutil, sys, tempfile
from robustness import run
from texts import SUM, journal

TOP = 2**64 - 1
COMMANDS = '41', '', '4242', '43' * 64, '41', 'abcd'
SHOWN = {f'N {number}': f'N {command}' for number, command in enumerate(COMMANDS, 1)}    # as `steps` prints them
PAYLOADS = *SHOWN, 'A 1 2', 'P 2 3', 'R 1 2'
CASE_J = [f'E {n} 1 1 1 {n} 2 N 1' for n in range(1, 6)] + ['H 6 1 1 1 1 - 5', f'P 7 1 1 1 7 3 2 3 9 3 {SUM}']
REPLICAS = [f'{group} {replica}' for group in (1, 2, 3) for replica in (1, 2, 3)]
BELOW = "with a commit below the view's"

# A replica: term and payload by index; boundary; a pointer's fields; term, vote and commit; the view's commit.
Log = collections.namedtuple('Log', 'entries boundary pointer hard commit')
EMPTY = Log({}, (0, 0), None, None, 0)
# A journal's lines, LSNs for 34 more, the batch, and the text with both. A record is its kind and what a line has behind the replica.
Input = collections.namedtuple('Input', 'lines lsns whose records text')


def last(log):
    return max(log.entries, default=log.boundary[0])


def preview(log, records):
    """The replica after records that it accepts (document 01, 'What each step does')."""
    for kind, *fields in records:
        if kind == 'P':
            index, term = fields[1:3]
            old, vote, commit = log.hard or (0, '-', 0)
            hard = (old, vote, max(commit, index)) if old >= term else (term, '-', index)
            kept = {n: entry for n, entry in log.entries.items() if n >= min(index + 1, TOP)}
            log = Log(kept, (index, term), tuple(fields), hard, max(log.commit, index))
        elif kind == 'H':
            log = log._replace(hard=tuple(fields), commit=fields[2])
        elif kind == 'E':
            index, term, payload = fields
            if index not in log.entries or log.entries[index][0] != term:
                kept = {n: entry for n, entry in log.entries.items() if n < index}
                log = log._replace(entries={**kept, index: (term, SHOWN.get(payload, payload))})
    return log


def some_pointer(rng, log):
    index = rng.randint(max(1, log.boundary[0]), min(last(log) + 2, TOP))
    lower = [n for n, (term, _) in log.entries.items() if log.hard and n < log.hard[2] and term > log.hard[0]]
    if lower and rng.random() < 0.5:
        index = rng.choice(lower)    # as in case j
    elif rng.random() < 0.02:
        index = TOP - rng.randrange(8)
    if log.pointer and index == log.boundary[0]:
        return 'P', *log.pointer
    term = log.entries[index][0] if index in log.entries else max(log.boundary[1], rng.randint(1, 4))
    return 'P', rng.randint(1, 9), index, term, index, rng.randint(1, 9), rng.randint(0, 3), SUM


def some_entry(rng, log):
    """Most often the next; else a held one again or, above the view's commit, another in its place."""
    index = min(last(log) + 1 if rng.random() < 0.7 else rng.randint(log.boundary[0] + 1, last(log) + 1), TOP)
    before, held = log.entries.get(index - 1, (log.boundary[1],))[0], log.entries.get(index)
    term = max(before, rng.randint(1, 3)) + (before < 4 and rng.random() < 0.2)
    if held and (index <= log.commit or rng.random() < 0.4):
        term = held[0]
    return 'E', index, term, PAYLOADS[(5 * index + term) % len(PAYLOADS)]


def some_hard_state(rng, log, was=None, least=1):
    """One that may follow the replica's, or `was`'s, of the least term or a higher one; at times with a commit below the view's."""
    old, vote, commit = (was or log).hard or (1, '-', 0)
    term, low = max(old, least) + rng.choice((0, 0, 0, 1)), max(commit, log.boundary[0])
    commit = rng.randint(log.commit, max(log.commit, last(log)))
    if low < log.commit and rng.random() < 0.5:
        commit = rng.randint(low, log.commit - 1)
    return 'H', term, vote if term == old and vote != '-' else rng.choice('-123'), commit


def nearly(rng, kind, *fields):
    """A record with one field a little off; a pointer's applied index stays its index."""
    fields, at = list(fields), rng.randrange(6 if kind == 'P' else 3)
    number = isinstance(fields[at], int)
    fields[at] = min(max(fields[at] + rng.choice((-2, -1, 1, 2)), 0), TOP) if number else rng.choice('-123' if kind == 'H' else PAYLOADS)
    if kind == 'P':
        fields[3] = fields[1]
    return kind, *fields


def some_input(rng):
    """A journal, most of whose records are accepted, and a batch for one of its replicas or, at times, for another."""
    def text(*words):
        return ' '.join(map(str, words))
    eight, logs, records = rng.random() < 0.05, {}, []
    owners = rng.sample(REPLICAS, 8 if eight else rng.randint(1, 3))
    whose = owners[0] if eight or rng.random() < 0.9 else rng.choice(REPLICAS)
    makers = some_entry, some_hard_state, some_pointer, lambda rng, log: ('F',)
    order = [(owner, some_entry) for owner in owners] * eight    # so that all eight are held
    order += [(rng.choice(owners), maker) for maker in rng.choices(makers, (12, 4, 3, 1), k=rng.randrange(20))]
    order += [(whose, maker) for maker in (some_entry, *makers[:3])] * (rng.random() < 0.2)    # two entries, a hard state, a pointer
    for owner, maker in order:
        log = logs.get(owner, EMPTY)
        records.append((owner, maker(rng, log)))
        logs[owner] = preview(log, [records[-1][1]])
    count = len(records) + 34
    lsns = [n - 1 for n in itertools.accumulate(rng.choices((1, 2, 9), (6, 2, 1), k=count))]
    if rng.random() < 0.05:
        lsns = range(TOP + 1 - count, TOP + 1)    # the highest that leave 34
    lines = [text(kind, lsn, *((1, owner) if fields else ()), *fields) for (owner, (kind, *fields)), lsn in zip(records, lsns)]
    was = logs.get(whose, EMPTY)
    batch = [some_pointer(rng, was)] if rng.random() < 0.3 else []
    hard = batch or rng.random() < 0.75
    for _ in range(rng.randint(7, 32) if rng.random() < 0.03 else rng.choice((0, 0, 1, 1, 2, 3, 4, 5, 6))):
        batch.append(some_entry(rng, preview(was, batch)))
    if hard:
        log = preview(was, batch)
        batch.append(some_hard_state(rng, log, was, max(1, log.boundary[1], *(term for term, _ in log.entries.values()))))
    if batch and rng.random() < 0.4:
        at = rng.randrange(len(batch))
        batch[at] = nearly(rng, *batch[at])
    asked = [text(kind, *((1, whose) if kind == 'P' else ()), *fields) for kind, *fields in batch]
    asked = [f'finish {rng.randrange(2)}', f'batch {whose}', *asked, '']
    return Input(lines, lsns[len(lines):], whose, batch, journal(lines, COMMANDS, '\n'.join(asked)))


def case_j(commit):
    asked = f'finish 0\nbatch 1 1\nH 2 - {commit}\n'
    return Input(CASE_J, range(8, 42), '1 1', [('H', 2, '-', commit)], journal(CASE_J, COMMANDS, asked))


def read(ask, lines):
    """What `steps` says of each record, and each replica's lines before `finished`; what `recover` says."""
    said, _, state = ask('steps', journal(lines, COMMANDS)).partition('\nfinished\n')[0].rpartition('scanned ')
    replicas = {m[1]: m[0].split('\n') for m in re.finditer(r'(?m)^replica (\d+ \d+) .*(\n  .*)*', state)}
    return said.splitlines(), replicas, ask('recover', journal(lines, COMMANDS))


def log_of(lines):
    """A replica as `steps` prints it; empty where it is not held."""
    if not lines:
        return EMPTY
    word = lines[0].split(' ')
    log = Log({}, (int(word[4]), int(word[5])), None, None if word[13] == '-' else (int(word[13]), word[14], int(word[15])), int(word[11]))
    for kind, *fields in (row[2:].split(' ') for row in lines[1:]):
        if kind == 'pointer':
            log = log._replace(pointer=(*map(int, fields[:6]), fields[6]))
        else:
            log.entries[int(fields[0])] = int(fields[1]), ' '.join(fields[3:])
    return log


def wrong_in(cut, before, count, whose, wanted):
    """What is wrong after a cut, and the number by which `steps` and `recover` refuse a record."""
    said, replicas, recovered = cut
    if len(said) != count or {**replicas, whose: None} != {**before[1], whose: None}:
        return '`steps` has another replica not as it was', ''
    for lsn, word, *number in (words.split(' ') for words in said):
        if word == 'refused':
            return f'the record at LSN {lsn} is refused by {number[0]}', number[0] if recovered == f'refused {lsn} {number[0]}\n' else ''
    if not recovered.startswith('replicas '):
        return f'`recover` says {recovered}', ''
    if wanted:
        log, rows = log_of(replicas.get(whose)), re.findall(rf'(?m)^{whose} (\d+) (\d+) ', recovered) or [(0, 0)]
        for name in 'entries', 'boundary', 'pointer', 'hard':
            if getattr(log, name) != getattr(wanted, name):
                return f'{name} {getattr(log, name)}, in the preview {getattr(wanted, name)}', ''
        if [(int(index), int(term)) for index, term in rows] != [wanted.boundary, *((n, entry[0]) for n, entry in wanted.entries.items())]:
            return '`recover` has other rows than the preview', ''
    return '', ''


def tried(given, ask, any_commit, counts):
    """Runs an input, counts it, and says what is wrong, if anything."""
    answer = ask('batch', given.text)
    if answer.startswith(('journal refused ', 'refused ')):
        counts['journals refused' if answer[0] == 'j' else 'batches refused'] += 1
        return ''
    written, kinds = re.findall(r'(?m)^([PEH]) (.*)', answer), [record[0] for record in given.records]
    before = read(ask, given.lines)
    log = log_of(before[1].get(given.whose))
    below = 'H' in kinds and given.records[-1][3] < log.commit
    counts[BELOW] += below
    if below and not any_commit:
        return ''
    seen = {'batches': True, 'with a pointer': 'P' in kinds, 'without records': not kinds,
            'for a replica not held': given.whose not in before[1], 'finished': '\nfinish 1\n' in given.text}
    counts.update(name for name in seen if seen[name])
    if [kind for kind, _ in written] != kinds or 'minimum ' not in answer:
        return "`batch` does not answer the batch's records"
    lines = [f'{kind} {lsn} {rest}' for (kind, rest), lsn in zip(written, given.lsns)]
    for k in range(len(lines) + 1):
        counts['cuts'] += 1
        wanted = preview(log, given.records) if k == len(lines) else None
        cut = read(ask, given.lines + lines[:k]) if k else before
        wrong, number = wrong_in(cut, before, len(given.lines) + k, given.whose, wanted)
        if below and any_commit and wanted:
            counts[f'refused by {number}'] += number != ''
            wrong = '' if number == '38' else wrong or f'a commit below {log.commit} is kept'
        if wrong:
            return f'{wrong}; behind the journal: {lines[:k]}'
    return ''


def part(job):
    batches, inputs, seed, given, folder = job
    rng, counts, failed = random.Random(seed), collections.Counter(), []

    def ask(program, text):
        counts['runs'] += 1
        status, answer = run([f'{given.bin}/crates/{program}/out/{program}'], text.encode(), folder)
        return answer.decode() if status == 0 else f'status {status}\n'
    for one in inputs or (some_input(rng) for _ in itertools.count()):
        wrong = tried(one, ask, given.any_commit, counts)
        if wrong:
            failed.append(f'{folder}/{seed}-{len(failed)}.txt: {wrong}')
            open(failed[-1].partition(':')[0], 'w').write(one.text)
        if counts['batches'] == batches:
            break
    return counts, failed


def main():
    parser = argparse.ArgumentParser()
    parser.add_argument('--batches', type=int, default=2000)
    parser.add_argument('--seed', type=int, default=1)
    parser.add_argument('--any-commit', action='store_true')
    parser.add_argument('--bin', default=os.path.dirname(os.path.dirname(os.path.abspath(__file__))))
    given = parser.parse_args()
    folder, parts = tempfile.mkdtemp(), min(20, given.batches)
    jobs = [(2, [case_j(4), case_j(5)], 'case-j', given, folder)] * given.any_commit
    jobs += [((given.batches + k) // parts, None, f'{given.seed}-{k}', given, folder) for k in range(parts)]
    with multiprocessing.Pool(2) as pool:
        results = pool.map(part, jobs, 1)
    counts, failed = sum((some for some, _ in results), collections.Counter()), sum((bad for _, bad in results), [])
    if given.any_commit and (results[0][0]['batches'], results[0][0]['refused by 38']) != (2, 1):
        failed.append('case j: not both batches are accepted and one of their records is refused by 38')
    listed = lambda *names: ', '.join(f'{counts[name]} {name}' for name in names)
    for what in failed[:5]:
        print(f'power_cuts: {what}')
    print('power_cuts:', listed('batches', 'with a pointer', 'without records', 'for a replica not held', 'finished'))
    print('power_cuts: left out:', listed('journals refused', 'batches refused', *[BELOW] * (not given.any_commit)))
    if given.any_commit:
        print('power_cuts:', listed(BELOW, *sorted(name for name in counts if name.startswith('refused by'))))
    print('power_cuts:', listed('cuts', 'runs'), f'and {len(failed)} failed')
    if not failed:
        shutil.rmtree(folder)
    sys.exit(1 if failed else 0)


if __name__ == '__main__':
    main()
