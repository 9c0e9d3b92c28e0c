#!/usr/bin/env python3
"""Changes the stored inputs of tests/ at random and runs the four programs on them: each run must end in time, with status 0 and an answer
of the program's form.

    scripts/robustness.py [--runs N] [--seed S] [--valgrind K] [--oracle DIR] [PROGRAM...]

N runs a program (default 50,000); every K-th also under valgrind (default 500; 0: none), where an invalid read or write fails. With
the folder of the oracle's built programs each answer is also compared with the original's. The same seed gives the same inputs. Prints a
failing input's file and ends with 1 if any failed.
"""
import argparse, collections, hashlib, multiprocessing, os, random, re, shutil, signal, subprocess, sys, tempfile
from texts import plain

NUMBERS = [b'0', b'1', b'2', b'7', b'8', b'9', b'63', b'64', b'65', b'255', b'256', b'257', b'4095', b'4096', b'4097', b'4294967295', b'4294967296',
           b'18446744073709551614', b'18446744073709551615']
ODD = [b'18446744073709551616', b'-', b'', b'00', b'+1', b'-1', b'N', b'E']
MALFORMED = rb'line \d+ malformed\n'
REPLICA = (rb'replica \d+ \d+ boundary \d+ \d+ progress \d+ \d+ \d+ commit \d+ hard (-|\d+ (-|\d+) \d+) hard-lsn (-|\d+) pointer-lsn (-|\d+) '
           rb'replayed (-|\d+) minimum (-|\d+) log \d+ (-|\d+) (-|\d+) (-|\d+)\n(  pointer( \d+){6} [0-9a-f]{64}\n)?'
           rb'(  entry \d+ \d+ \d+ (N [0-9a-f]*|[APR] \d+ \d+)\n)*')
STATE = rb'scanned \d+ last (-|\d+)\n(' + REPLICA + rb')*'
FORMS = {
    'recover': MALFORMED + rb'|refused \d+ \d+\n|replicas \d\n(\d+ \d+ \d+ \d+ \d+ (-|\d+) \d+\n)*entries \d+\n(\d+ \d+ \d+ \d+ \d+\n)*',
    'steps': MALFORMED + rb'|(\d+ (appended|repeated|replaced \d+|hard-state|pointer|foreign|refused \d+)\n)*' + STATE + rb'finished\n' + STATE,
    'batch': MALFORMED + rb'|journal refused \d+ \d+\n|(refused \d+\n|(P( \d+){9} [0-9a-f]{64}\n)?(E( \d+){5} (N \d+|[APR] \d+ \d+)\n)*'
             rb'(H( \d+){4} (-|\d+) \d+\n)?)(shown \d+ (log|batch)( [0-9a-f]+)?\n)*minimum (-|\d+)\n',
    'checks': rb'((ok|refused \d+|malformed)\n)*',
}


def stored(program):
    """The inputs of a program, as bytes; the generated ones, which are mostly well formed, count ten times."""
    inputs = []
    for name in 'texts', 'vectors':
        path = f'tests/{program}/{name}.tsv'
        for line in open(path) if os.path.exists(path) else []:
            inputs += [plain(line.split('\t')[1])] * (10 if name == 'vectors' else 1)
    return inputs


def edited_lines(rng, text, other):
    """A line left out, written twice, moved, or taken from another input."""
    lines = text.split(b'\n')
    at, to = rng.randrange(len(lines)), rng.randrange(len(lines))
    how = rng.randrange(4)
    if how == 0:
        del lines[at]
    elif how == 1:
        lines.insert(to, lines[at])
    elif how == 2:
        lines.insert(to, lines.pop(at))
    else:
        lines[at] = rng.choice(other.split(b'\n'))
    return b'\n'.join(lines)


def edited_word(rng, text):
    """A number with another in its place, most often a number of the same text; seldom something odd."""
    words = [m.span() for m in re.finditer(rb'(?<= )\d+\b', text)]
    if not words:
        return text
    (begin, end), (first, last) = rng.choice(words), rng.choice(words)
    how = rng.random()
    return text[:begin] + (text[first:last] if how < 0.6 else rng.choice(NUMBERS) if how < 0.95 else rng.choice(ODD)) + text[end:]


def edited_byte(rng, text):
    """A byte changed, left out, or put in; or the text cut."""
    at = rng.randrange(len(text) + 1)
    how = rng.randrange(8)
    if how == 0:
        return text[:at]
    put = bytes([rng.choice(b'0123456789 \n-NEHPFARabf') if rng.random() < 0.8 else rng.randrange(256)])
    return text[:at] + (put if how < 6 else b'') + text[at + (how > 2):]


def counted(text):
    """The count of records set to the lines that stand behind it, so that a changed list is still read."""
    head, word, rest = text.partition(b'\nrecords ')
    _, _, lines = rest.partition(b'\n')
    records = re.findall(rb'(?m)^[EHPF] \d.*$', lines.partition(b'\nfinish')[0])
    return head + word + str(len(records)).encode() + b'\n' + lines if word else text


def changed(rng, inputs):
    """One to four edits, most often behind the line that counts the records."""
    text, other = rng.choice(inputs), rng.choice(inputs)
    at = re.search(rb'\nrecords .*\n', text)
    begin = at.end() if at and rng.random() < 0.9 else 0
    head, text, other = text[:begin], text[begin:], other[other.find(b'\nrecords') + 1:]
    for _ in range(rng.randrange(1, 5)):
        how = rng.random()
        text = edited_word(rng, text) if how < 0.6 else edited_lines(rng, text, other) if how < 0.95 else edited_byte(rng, text)
    return counted(head + text) if rng.random() < 0.9 else head + text


def run(command, text, folder):
    """The status (a word where it did not end in a minute) and the answer. The input goes through a file: quicker than a pipe."""
    path = f'{folder}/{os.getpid()}'
    with open(path, 'wb') as given:
        given.write(text)
    with open(path, 'rb') as given:
        running = subprocess.Popen(command, stdin=given, stdout=subprocess.PIPE, stderr=subprocess.DEVNULL, close_fds=False)
    signal.signal(signal.SIGALRM, lambda *_: running.kill())
    signal.alarm(60)
    answer = running.stdout.read()
    running.stdout.close()
    status = running.wait()
    return status if signal.alarm(0) else 'no end', answer


def kind_of(answer):
    """What an answer is, for the summary."""
    first = answer.split(b'\n', 1)[0]
    return 'malformed' if first.startswith(b'line ') or first == b'malformed' else 'refused' if b'refused' in first else 'accepted'


def part(job):
    program, runs, seed, every, oracle, folder = job
    rng, inputs, form = random.Random(seed), stored(program), re.compile(FORMS[program])
    kinds, failed = collections.Counter(), []
    for i in range(runs):
        text = changed(rng, inputs)
        status, answer = run([f'crates/{program}/out/{program}'], text, folder)
        kinds[kind_of(answer)] += 1
        why = '' if status == 0 else f'status {status}'
        if not why and not form.fullmatch(answer):
            why = 'an answer of another form'
        if not why and oracle and run([f'{oracle}/oracle-{program}'], text, folder) != (0, answer):
            why = 'another answer than the original'
        if not why and every and i % every == 0:
            kinds['under valgrind'] += 1
            status, _ = run(['valgrind', '--quiet', '--error-exitcode=99', f'crates/{program}/out/{program}'], text, folder)
            why = '' if status == 0 else f'valgrind: status {status}'
        if why:
            name = f'{folder}/{program}-{hashlib.sha1(text).hexdigest()[:12]}.txt'
            open(name, 'wb').write(text)
            failed.append(f'{name}: {why}')
    return program, kinds, failed


def main():
    parser = argparse.ArgumentParser()
    parser.add_argument('--runs', type=int, default=50000)
    parser.add_argument('--seed', type=int, default=1)
    parser.add_argument('--valgrind', type=int, default=500)
    parser.add_argument('--oracle')
    parser.add_argument('programs', nargs='*', default=list(FORMS))
    given = parser.parse_args()
    if given.valgrind and not shutil.which('valgrind'):
        print('robustness: no valgrind at hand: nothing is run under it')
        given.valgrind = 0
    folder, parts = tempfile.mkdtemp(), 10
    jobs = [(p, given.runs // parts, f'{given.seed} {p} {k}', given.valgrind, given.oracle, folder) for p in given.programs for k in range(parts)]
    kinds, failed = collections.defaultdict(collections.Counter), []
    with multiprocessing.Pool() as pool:
        for program, some, bad in pool.imap_unordered(part, jobs):
            kinds[program] += some
            failed += bad
    for line in failed[:20]:
        print(f'robustness: {line}')
    for program in given.programs:
        print(f'robustness: {program}: ' + ', '.join(f'{n} {kind}' for kind, n in sorted(kinds[program].items())))
    beside = ', all as by the original' if given.oracle and not failed else ''
    print(f'robustness: {len(failed)} failed{beside}')
    sys.exit(1 if failed else 0)


if __name__ == '__main__':
    main()
