#!/usr/bin/env python3
"""Times the programs beside the Rust original, in one run, alternating, and prints a table of ratios.

    scripts/benchmark.py [--oracle FOLDER] [--runs N] [--built]

FOLDER is the oracle's (default ../shared/oracle); it is built without overflow checks, as a user would, and ours by rt ci (--built:
both are there already, the oracle's programs in FOLDER itself). Medians of N runs (default 25; whole processes 5 N). By the clock: run it
on a machine that does nothing else. The journal is the one that crates/bench makes: six replicas, 4,096 records. The batch is 32
entries of 32 bytes and a hard state, on a replica that holds 32.
"""
import argparse, fcntl, os, re, statistics, subprocess, sys, tempfile, time

SET_PIPE_SIZE = 1031


def journal(records):
    lines = ['commands 256'] + [''.join(f'{(32 * n + j) % 251:02x}' for j in range(32)) for n in range(256)] + [f'records {records}']
    last, command = [0] * 6, [0] * 6
    for i in range(records):
        p, k, own = i % 6, i // 6, f'{1 + (i % 6) // 2} {1 + i % 2}'
        if k % 40 == 39:
            x = max(1, last[p] - 5)
            lines.append(f'P {i + 1} 1 {own} 7 {x} 1 {x} 77 5 ' + ''.join(f'{n:016x}' for n in (1, 2, 3, 4)))
        elif k % 4 == 3:
            lines.append(f'H {i + 1} 1 {own} 1 3 {max(1, last[p] - 1)}')
        else:
            if k % 16 != 5:
                last[p], command[p] = last[p] + 1, k
            lines.append(f'E {i + 1} 1 {own} {last[p]} 1 N {command[p] % 256 + 1}')
    return '\n'.join(lines) + '\n'


def text_of(*command):
    return subprocess.run(command, capture_output=True, text=True, check=True).stdout


def seconds(program, text):
    """Of a whole process, with a text or a file on standard input."""
    given = {'input': text} if isinstance(text, bytes) else {'stdin': open(text, 'rb')}
    before = time.perf_counter()
    subprocess.run([program], stdout=subprocess.DEVNULL, check=True, **given)
    return time.perf_counter() - before


def rounds(program, mode, count, each):
    """Nanoseconds for one of `each` times `count` rounds, what a run without a round takes left out."""
    return (seconds(program, f'{mode}{count}\n'.encode()) - seconds(program, f'{mode}0\n'.encode())) * 1e9 / (each * count)


def peak(program, path):
    """KiB held at most: read while the program, all but done, waits to write its answer into a full pipe."""
    out, full = os.pipe()
    os.write(full, bytes(fcntl.fcntl(full, SET_PIPE_SIZE, 4096)))
    with open(path, 'rb') as text:
        running = subprocess.Popen([program], stdin=text, stdout=full)
    os.close(full)
    time.sleep(0.5)
    held = int(re.search(r'VmHWM:\s*(\d+)', open(f'/proc/{running.pid}/status').read()).group(1))
    while os.read(out, 65536):
        pass
    os.close(out)
    running.wait()
    return held


def in_process(oracle, long, runs):
    """Rows of the jobs that are timed inside a process: the original's and ours, in turn."""
    times = {name: ([], []) for name in ('observing and finishing', 'one checked call', 'a batch of 32')}
    for _ in range(runs):
        said = text_of(f'{oracle}/oracle-bench', long, '90')
        assert 'accepted in each round 4096' in said, said
        rust = float(re.search(r'observe and finish only: .*\(([0-9.]+) us a journal\)', said).group(1)) * 1000 / 4096
        batch = float(re.search(r'([0-9.]+) us', text_of(f'{oracle}/oracle-bench-batch', '20000')).group(1)) * 1000
        for name, theirs, ours in (
            ('observing and finishing', rust, rounds('crates/bench/out/bench', '1 ', 9, 10 * 4096)),
            ('one checked call', rust, rounds('crates/bench/out/bench', '2 ', 1, 10 * 4096)),
            ('a batch of 32', batch, rounds('crates/bench_batch/out/bench_batch', '', 9, 1000)),
        ):
            times[name][0].append(theirs)
            times[name][1].append(ours)
    return {name: tuple(map(statistics.median, both)) for name, both in times.items()}


def processes(oracle, short, long, runs):
    """Milliseconds of whole processes, alternating: what does nothing, then the original's and ours on each journal."""
    programs = {'nothing': ('/bin/true', short)}
    for size, path in ('short', short), ('long', long):
        programs[f'rust {size}'] = (f'{oracle}/oracle-recover', path)
        programs[f'ours {size}'] = ('crates/recover/out/recover', path)
    times = {name: [] for name in programs}
    for _ in range(runs):
        for name, (program, path) in programs.items():
            times[name].append(seconds(program, path) * 1000)
    return {name: statistics.median(t) for name, t in times.items()}


def built(oracle, folder):
    """Builds both; answers where the original's programs are."""
    subprocess.run(['rt', 'ci'], stdout=subprocess.DEVNULL, check=True)
    subprocess.run(['cargo', 'build', '--profile', 'fast', '--offline', '--quiet', '--target-dir', folder], cwd=oracle, check=True)
    return f'{folder}/fast'


def main():
    parser = argparse.ArgumentParser()
    parser.add_argument('--oracle', default='../shared/oracle')
    parser.add_argument('--runs', type=int, default=25)
    parser.add_argument('--built', action='store_true')
    given = parser.parse_args()
    if not os.path.exists(given.oracle):
        sys.exit(f'benchmark: no oracle at {given.oracle}: there is nothing to measure beside')
    with tempfile.TemporaryDirectory() as folder:
        oracle = given.oracle if given.built else built(given.oracle, folder)
        short, long = f'{folder}/512', f'{folder}/4096'
        for path in short, long:
            open(path, 'w').write(journal(int(os.path.basename(path))))
        inside = in_process(oracle, long, given.runs)
        whole = processes(oracle, short, long, 5 * given.runs)
        held = peak(f'{oracle}/oracle-recover', long), peak('crates/recover/out/recover', long)
    own = {name: t - whole['nothing'] for name, t in whole.items()}
    rows = [(name, 'ns a batch' if '32' in name else 'ns a record', *inside[name]) for name in inside]
    rows += [
        ('`recover`, whole process', 'ms', whole['rust long'], whole['ours long']),
        ('`recover`, less a process that does nothing', 'ms', own['rust long'], own['ours long']),
        ('peak memory of `recover`', 'KiB', *held),
        ('growth of `recover`, 512 to 4,096 records', 'times', own['rust long'] / own['rust short'], own['ours long'] / own['ours short']),
    ]
    print('| Job | Unit | Rust | Ours | Ours / Rust |\n|---|---|---|---|---|')
    for name, unit, rust, ours in rows:
        print(f'| {name} | {unit} | {rust:.4g} | {ours:.4g} | {ours / rust:.2f} |')


if __name__ == '__main__':
    main()
