#!/usr/bin/env python3
"""Sweep of the definition: each small wrong change to it must fail a named computed test.

    scripts/sweep.py [--jobs N] [--only TEXT] [--list]

Takes a copy of crates/definition with its definitions and computed tests alone (no proof, no claim proved), and the tests of
crates/definition_stores beside them, changes one line at a time, and checks the copy. A mutant counts as killed only where a computed test (T (..)) fails. One that is refused for
another reason is 'broken' and counts as nothing. Those alive must stand in scripts/sweep.equal, with the reason why they are
equal. Prints a table by test; exit 0 only if none is alive or broken beyond that list.
"""
import os, re, shutil, subprocess, sys, tempfile
from concurrent.futures import ThreadPoolExecutor
from queue import Queue

top = os.path.dirname(os.path.dirname(os.path.abspath(__file__)))
crate = os.path.join(top, 'crates/definition')
stores = os.path.join(top, 'crates/definition_stores/specs/Stores.antt')
FILES = ['Table', 'Records', 'Frontier', 'Log', 'Recovery', 'Batch', 'Chaining', 'Healthy', 'Retired', 'ReadBack']
STAGES = [                  # files of tests, the quick ones first; a stage is run only on what the ones before leave alive
    ['Refusals', 'Checks', 'Batches', 'Guarantees'], ['Effects', 'Soundness', 'Readers', 'Cells', 'ReadBack'], ['Starred', 'TwoLists'], ['Stores'],
]
MACHINERY = {               # not rules: tables, options and lists, or what only the proofs and the store's laws speak of
    'Table': ['same_bytes', 'present', 'every', 'all_of', 'if_some', 'is_some', 'or_zero', 'unless', 'first_of', '◌=?◌', '◌≠?◌', '◌<?◌', '◌≤?◌'],
    'Retired': ['never_observing'],
}
IMPORTS = {                 # names that a mutant may need
    'Rattle.std.specs.Prelude': ['Bool', 'true', 'false', '◌&&◌', '◌||◌', 'not', 'min', 'max', 'None', 'Some'],
    'Rattle.definition.specs.Table': ['◌=?◌', '◌≠?◌', '◌<?◌', '◌≤?◌', 'u64_max'],
}
SWAPS = [('.last_included_index', '.last_included_term'), ('.snapshot_index', '.snapshot_term'), ('.group', '.replica'), ('.current_term', '.commit'),
         ('.truncated_through_index', '.truncated_through_term'), ('.applied_index', '.truncated_through_index'), ('.snapshot_pointer_lsn', '.hard_state_lsn'),
         ('.index', '.term'), ('was.hard_state', 'v.log.hard_state'), ('kept_pointer i was', 'kept_pointer i v.log'), ('.committed_index', '.snapshot_index')]
OTHER = {                   # what a field of an effect may wrongly become
    'entries': ['[]', 'log.entries'], 'snapshot_index': ['0', 'log.snapshot_index'], 'snapshot_term': ['0', 'log.snapshot_term'],
    'committed_index': ['0', 'log.committed_index'], 'last_replayed_lsn': ['None', 'log.last_replayed_lsn'], 'progress': ['progress_at 0 0', 'log.progress'],
    'hard_state': ['None', 'log.hard_state'], 'hard_state_lsn': ['None', 'Some t', 'log.hard_state_lsn'], 'snapshot': ['None', 'log.snapshot'],
    'snapshot_pointer_lsn': ['None', 'Some t', 'log.snapshot_pointer_lsn'], 'voted_for': ['None', 'o.voted_for'], 'lsn': ['v.lsn'],
    'last_scanned_lsn': ['None', 's.last_scanned_lsn'], 'replicas': ['[]', 's.replicas'], 'scanned_records': ['s.scanned_records'],
}

# neighbours that stand in expressions: file, declaration, old, new
MORE = [
    ('Frontier', 'progress_successor_rows', 'truncation_regression p previous ∷ applied_regression p previous', 'applied_regression p previous ∷ truncation_regression p previous'),
    ('Frontier', 'progress_successor_rows', 'applied_regression p previous ∷ boundary_term_changed p previous', 'boundary_term_changed p previous ∷ applied_regression p previous'),
    ('Frontier', 'progress_successor_rows', 'progress_rows p ++ truncation_regression p previous ∷ applied_regression p previous ∷ boundary_term_changed p previous ∷ []', 'truncation_regression p previous ∷ progress_rows p ++ applied_regression p previous ∷ boundary_term_changed p previous ∷ []'),
    ('Log', 'rows', 'entry_at_or_below_truncation e log ∷ replay_rows e log', 'replay_rows e log ++ entry_at_or_below_truncation e log ∷ []'),
    ('Log', 'rows', 'hard_state_successor_rows h log.hard_state ++ hard_state_commit_beyond_recovered_log h log ∷ view_commit_regression h log ∷ []', 'hard_state_commit_beyond_recovered_log h log ∷ hard_state_successor_rows h log.hard_state ++ view_commit_regression h log ∷ []'),
    ('Log', 'rows', 'hard_state_commit_beyond_recovered_log h log ∷ view_commit_regression h log ∷ []', 'view_commit_regression h log ∷ hard_state_commit_beyond_recovered_log h log ∷ []'),
    ('Log', 'rows', 'snapshot_successor_rows (record { identity = i; snapshot = p }) (kept_pointer i log) ++ install_rows p log', 'install_rows p log ++ snapshot_successor_rows (record { identity = i; snapshot = p }) (kept_pointer i log)'),
    ('Log', 'validate_hard_state_successor', 'map zero_voted_for_replica_id (h ∷ present old) ++ zero_current_term h ∷ hard_state_successor_rows h old', 'zero_current_term h ∷ map zero_voted_for_replica_id (h ∷ present old) ++ hard_state_successor_rows h old'),
    ('Log', 'validate_hard_state_successor', 'zero_current_term h ∷ hard_state_successor_rows h old', 'hard_state_successor_rows h old ++ zero_current_term h ∷ []'),
    ('Log', 'validate_hard_state_successor', '(h ∷ present old)', '(h ∷ [])'),
    ('Recovery', 'observe_state', 'unsound_state s ∷ non_increasing_wal_lsn s r.lsn ∷ []', 'non_increasing_wal_lsn s r.lsn ∷ unsound_state s ∷ []'),
    ('Recovery', 'visit', 'form_rows i k ++ too_many_replicas full was ∷ []', 'too_many_replicas full was ∷ form_rows i k'),
    ('Recovery', 'admitted', 'admitted (Some n) i k t was = out (refused n) None', 'admitted (Some n) i k t was = out (refused n) (Some (unwrap_or was empty))'),
    ('Recovery', 'judged', 'judged (Some n) k t log = out (refused n) (Some log)', 'judged (Some n) k t log = out (refused n) None'),
    ('Recovery', 'judged', 'judged (Some n) k t log = out (refused n) (Some log)', 'judged (Some n) k t log = out (refused n) (Some (accept k t log))'),
    ('Recovery', 'guarded', 'guarded (Some n) s lsn c = out (refused n) s', 'guarded (Some n) s lsn c = out (refused n) (scan s lsn s.replicas)'),
    ('Recovery', 'kept_lsns', 'present log.snapshot_pointer_lsn ++ ', ''),
    ('Recovery', 'kept_lsns', 'present log.hard_state_lsn ++ ', ''),
    ('Recovery', 'kept_lsns', ' ++ present log.last_replayed_lsn', ''),
    ('Recovery', 'kept_lsns', 'map (λ e. e.lsn) log.entries ++ ', ''),
    ('Recovery', 'minimum_recovery_lsn', '(least log.hard_state_lsn (first_retained_lsn log))', '(first_retained_lsn log)'),
    ('Recovery', 'minimum_recovery_lsn', '(least log.hard_state_lsn (first_retained_lsn log))', 'log.hard_state_lsn'),
    ('Recovery', 'finish_state', 'out finished (normalized_state s)', 'out finished s'),
    ('Recovery', 'stored', 'store = layout o.next.replicas', 'store = []'),
    ('Batch', 'pointed', 'pointed (Some p) v = previewed (batch_pointer_rows p v) (preview_pointer p v)', 'pointed (Some p) v = previewed (batch_pointer_rows p v) v'),
    ('Batch', 'extended', '(preview_entry i e.log_entry v) (extended es)', 'v (extended es)'),
    ('Batch', 'hardened', '(preview_hard_state i h v) concluded', 'v concluded'),
    ('Batch', 'concluded', 'previewed (hard_state_before_log_term b was v ∷ []) v Ok', 'Ok v'),
    ('Batch', 'shown_as', 'Some f ↦ of_batch f (length bytes)', 'Some f ↦ of_log at (length bytes)'),
    ('Batch', 'shown_bytes', 'shown_bytes store lent nothing = []', 'shown_bytes store lent nothing = store'),
    ('Batch', 'shown_bytes', '(of_log from n) = take n (drop from store)', '(of_log from n) = take n (drop from lent)'),
    ('Batch', 'shown_bytes', '(of_log from n) = take n (drop from store)', '(of_log from n) = take from (drop n store)'),
    ('Batch', 'shown_bytes', '(of_batch from n) = take n (drop from lent)', '(of_batch from n) = take n (drop from store)'),
    ('Batch', 'shown_bytes', '(of_batch from n) = take n (drop from lent)', '(of_batch from n) = take from (drop n lent)'),
    ('Batch', 'supplied', 'if is_some later then later else', 'if not (is_some later) then later else'),
    ('Chaining', 'validate_hard_state', 'zero_voted_for_replica_id h ∷ zero_current_term h ∷ []', 'zero_current_term h ∷ zero_voted_for_replica_id h ∷ []'),
    ('Chaining', 'validate_hard_state', 'zero_voted_for_replica_id h ∷ zero_current_term h ∷ []', 'zero_voted_for_replica_id h ∷ []'),
    ('Chaining', 'validate_hard_state', 'zero_voted_for_replica_id h ∷ zero_current_term h ∷ []', 'zero_current_term h ∷ []'),
    ('Chaining', 'polled', '(zero ∷ gaps) (a ∷ l) = a ∷ polled gaps l', '(zero ∷ gaps) (a ∷ l) = a ∷ polled gaps (a ∷ l)'),
    ('Chaining', 'polled', '(zero ∷ gaps) (a ∷ l) = a ∷ polled gaps l', '(zero ∷ gaps) (a ∷ l) = polled gaps l'),
    ('Chaining', 'polled', '(zero ∷ gaps) (a ∷ l) = a ∷ polled gaps l', '(zero ∷ gaps) (a ∷ l) = a ∷ []'),
    ('Chaining', 'polled', '(a ∷ l) = polled (gap ∷ gaps) l', '(a ∷ l) = polled gaps l'),
    ('Chaining', 'polled', '(a ∷ l) = polled (gap ∷ gaps) l', '(a ∷ l) = a ∷ polled (gap ∷ gaps) l'),
]


def mutants():
    for name, owner, old, new in MORE:
        text = open(f'{crate}/specs/{name}.antt').read()
        if text.count(old) != 1:
            sys.exit(f'sweep: not once in {name}: {old}')
        k = text[:text.index(old)].count('\n')
        line = text.split('\n')[k]
        yield name, k, line.replace(old, new), f'{name}:{k + 1} {owner} {old[:40]} to {new[:40]}'
    for name in FILES:
        lines = open(f'{crate}/specs/{name}.antt').read().split('\n')
        owner = ''
        for k, line in enumerate(lines):
            text = line.strip()
            m = re.match(r'(?:abbrev |unfoldable )?(?:pub )?([^\s(:]+) :', text)
            if m and not text.startswith(('--', 'pub record', 'pub data', 'infix')):
                owner = m.group(1)
            if not text or text.startswith(('--', 'use ', 'pub record', 'pub data', 'infix', 'module')) or re.match(r'(abbrev |unfoldable )?(pub )?[^\s(]+( [^\s]+)* : ', text):
                continue
            if owner in MACHINERY.get(name, []):
                continue
            for new, what in changes(line, lines, k):
                if owner in ('empty', 'fresh_state') and re.search(r' to (log|s)\.| to Some t$', what):
                    continue        # nothing of the kind is in scope there
                if new != line:
                    yield name, k, new, f'{name}:{k + 1} {owner} {what}'


def changes(line, lines, k):
    def each(pattern, repl, what):
        for m in re.finditer(pattern, line):
            r = repl(m) if callable(repl) else repl
            yield line[:m.start()] + r + line[m.end():], f'{what} {m.group(0).strip()} to {r.strip()} at {m.start()}'
    m = re.search(r'\b(\d+) when (.*)$', line)
    if m:
        yield line[:m.start(2)] + 'false', 'row off'
    yield from each(r'<\?', '≤?', 'test')
    yield from each(r'≤\?', '<?', 'test')
    yield from each(r'(?<!≠)=\?(?! 0\b)', '≤?', 'test')      # a ≤? 0 is a =? 0
    yield from each(r'(?<!≠)=\?', '≠?', 'test')
    yield from each(r'≠\?', '<?', 'test')
    yield from each(r'&&', '||', 'test')
    yield from each(r'\|\|', '&&', 'test')
    yield from each(r'\bmax\b', 'min', 'number')
    yield from each(r'\bmin\b', 'max', 'number')
    yield from each(r'\bnot \(', '(', 'test')
    yield from each(r"(?<![\w.'{⟨-])\d+(?![\w'])", lambda m: str(int(m.group(0)) + 1), 'number')
    yield from each(r"(?<![\w.'{⟨-])[1-9]\d*(?![\w'])(?! when)", lambda m: str(int(m.group(0)) - 1), 'number')
    yield from each(r'(?<=.)\bu64_max\b', '18446744073709551614', 'number')
    yield from each(r'(?<=.)\bu64_max\b', '18446744073709551616', 'number')
    if re.search(r'= (true|false)$', line):
        yield from each(r'\btrue$', 'false', 'value')
        yield from each(r'\bfalse$', 'true', 'value')
    for a, b in SWAPS:
        for x, y in ((a, b), (b, a)):
            yield from each(re.escape(x) + r'(?![\w])', y, 'operand')
    m = re.match(r'(\s+)(\w+) = (.*);$', line)
    if m and m.group(2) in OTHER:
        for other in OTHER[m.group(2)]:
            yield f'{m.group(1)}{m.group(2)} = {other};', f'field {m.group(2)} to {other}'
    if re.search(r'record \{.*=.*\}', line):
        for m in re.finditer(r'(\w+) = ([^;{}]*)(?=;| \})', line):
            for other in OTHER.get(m.group(1), []):
                yield line[:m.start(2)] + other + line[m.end(2):], f'field {m.group(1)} to {other}'
    # a list that stands in one line: an element left out, neighbours swapped
    if line.rstrip().endswith('∷ []') and ' = ' in line and '∷' in line:
        head, body = line.split(' = ', 1)
        parts = body.rsplit(' ∷ []', 1)[0]
        if '++' not in parts and '(' not in head.split()[-1]:
            items = parts.split(' ∷ ')
            for n in range(len(items)):
                yield head + ' = ' + ' ∷ '.join(items[:n] + items[n + 1:] + ['[]']), f'element {n + 1} out'
                if n + 1 < len(items) and 'clauses' not in head:      # a conjunction has no order
                    yield head + ' = ' + ' ∷ '.join(items[:n] + [items[n + 1], items[n]] + items[n + 2:] + ['[]']), f'elements {n + 1} and {n + 2} swapped'
    # an element in a line of its own: left out, or swapped with the next (the next line keeps its own change)
    m = re.match(r'(\s+∷ )(?!\w*_rows )(\w.*)$', line)
    if m and k + 1 < len(lines):
        yield '\0drop', f'{m.group(2).split()[0]} out'
        n = re.match(r'(\s+∷ )(?!\w*_rows )(\w.*)$', lines[k + 1])
        if n:
            yield '\0swap', f'{m.group(2).split()[0]} swapped with the next'
    m = re.match(r'(\s+)(\w[^∷=]*)$', line)
    if m and k + 1 < len(lines) and re.match(r'\s+∷ \w', lines[k + 1]) and lines[k - 1].rstrip().endswith('='):
        yield '\0first', f'{m.group(2).split()[0]} swapped with the next'
        yield '\0dropfirst', f'{m.group(2).split()[0]} out'
    if re.search(r'\bif (.+?) then', line):
        yield from each(r'\bif (?=.+? then)(.+?) then', lambda m: f'if not ({m.group(1)}) then', 'choice')


def apply(lines, k, new):
    out = list(lines)
    if new == '\0drop':
        del out[k]
    elif new == '\0swap':
        out[k], out[k + 1] = out[k + 1], out[k]
    elif new in ('\0first', '\0dropfirst'):
        indent = re.match(r'\s+', out[k]).group(0)
        body, following = out[k].strip(), re.sub(r'^\s+∷ ', '', out[k + 1])
        out[k] = indent + following
        if new == '\0first':
            out[k + 1] = f'{indent}∷ {body}'
        else:
            del out[k + 1]
    else:
        out[k] = new
    return '\n'.join(out)


def room():
    where = tempfile.mkdtemp(prefix='sweep-')
    shutil.copytree(f'{crate}/specs', f'{where}/crates/definition/specs')
    shutil.copytree(f'{crate}/src', f'{where}/crates/definition/src')
    open(f'{where}/crates.txt', 'w').write('definition:\n')
    for name in FILES[1:]:
        path = f'{where}/crates/definition/specs/{name}.antt'
        text = open(path).read()
        for module, names in IMPORTS.items():
            def wider(m):
                have = [x.strip() for x in m.group(2).split(',')]
                return m.group(1) + ', '.join(have + [x for x in names if x not in have]) + '}'
            text = re.sub(r'(use ' + re.escape(module) + r'\.\{)([^}]*)\}', wider, text)
        open(path, 'w').write(text)
    os.rename(f'{where}/crates/definition/specs/Cases', f'{where}/kept')
    open(f'{where}/kept/Stores.antt', 'w').write(open(stores).read())
    return where


def stage(where, names):
    folder = f'{where}/crates/definition/specs/Cases'
    shutil.rmtree(folder, ignore_errors=True)
    os.mkdir(folder)
    for name in ['Samples'] + names:
        shutil.copy(f'{where}/kept/{name}.antt', folder)
    open(folder + '.antt', 'w').write(''.join(f'pub mod {n}\n' for n in ['Samples'] + names))


NO_END = 'the check did not end: '


def check(where, named):
    for _ in range(2):          # once more if it did not come to an end
        run = subprocess.run(['rt', 'check'], cwd=f'{where}/crates/definition', capture_output=True, text=True, timeout=600)
        said = run.stdout + run.stderr
        verdict = re.search(r'^logic=(\S+)', said, re.M)
        if verdict:
            break
    killers, others = [], []
    for place, what in re.findall(r'^(?:\./)?([^:\n]+:\d+:\d+: )?error\b[^:\n]*: (.*(?:\n  .*)*)', said, re.M):
        name = re.match(r'`(\w+)`: ', what)
        if name and name.group(1) in named and 'the two types are `⊥` (expected) and' in what:
            killers.append(name.group(1))
        elif not re.search('which was (not admitted|rejected), (was|were) not checked', what):     # that only passes on another's error
            others.append(place + what[:90].split('\n')[0])
    if not (killers or others) and not (verdict and verdict.group(1) == 'proved' and run.returncode == 0):
        others.append(NO_END + said[-90:])
    return killers, others


def tests():
    found = set()
    for f in [f'{crate}/specs/Cases/{f}' for f in os.listdir(f'{crate}/specs/Cases')] + [stores]:
        found |= set(re.findall(r'^(?:pub )?(\w+) : T \(', open(f).read(), re.M))
    return found


def judge(where, named):
    for names in STAGES:
        stage(where, names)
        killers, others = check(where, named)
        if killers or others:
            break
    return killers, others


def main():
    args = sys.argv[1:]
    jobs = int(args[args.index('--jobs') + 1]) if '--jobs' in args else 2
    only = args[args.index('--only') + 1] if '--only' in args else ''
    todo = [m for m in mutants() if only in m[3]]
    if '--list' in args:
        print('\n'.join(m[3] for m in todo)); print(len(todo), 'mutants'); return 0
    named = tests()
    equal_path = f'{top}/scripts/sweep.equal'
    equal = [l.split(' -- ')[0].strip() for l in open(equal_path) if l.strip() and not l.startswith('#')] if os.path.exists(equal_path) else []
    rooms = Queue()
    for _ in range(jobs):
        w = room(); k, o = judge(w, named)
        if k or o:
            sys.exit(f'sweep: the definition itself fails: {k} {o}')
        rooms.put(w)

    def one(m):
        name, k, new, label = m
        where = rooms.get()
        path = f'{where}/crates/definition/specs/{name}.antt'
        before = open(path).read()
        try:
            open(path, 'w').write(apply(before.split('\n'), k, new))
            killers, others = judge(where, named)
            return label, killers, others
        finally:
            open(path, 'w').write(before)
            rooms.put(where)

    by, alive, broken, known, done = {}, [], [], 0, 0
    with ThreadPoolExecutor(jobs) as pool:
        for label, killers, others in pool.map(one, todo):
            done += 1
            if done % 50 == 0:
                print('tried', done, 'of', len(todo), file=sys.stderr, flush=True)
            short = re.sub(r'^(\w+):\d+ ', r'\1 ', label)
            if others:
                broken.append((label, others[0]))
            elif killers:
                by[killers[0]] = by.get(killers[0], 0) + 1
            elif short in equal:
                known += 1
            else:
                alive.append(label)
                print('ALIVE', label, flush=True)
    for label, why in broken:
        print('broken', label, '|', why)
    print('mutants', len(todo), 'killed', sum(by.values()), 'equal', known, 'broken', len(broken), 'alive', len(alive))
    for test, n in sorted(by.items(), key=lambda x: -x[1]):
        print(f'  {n:4} first killed by {test}')
    while not rooms.empty():
        shutil.rmtree(rooms.get())
    return 1 if alive or any(why.startswith(NO_END) for label, why in broken) else 0


sys.exit(main())
