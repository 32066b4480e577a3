"""What compare, growth and peers share: both sides are built, run and shown in one way.

How long a small loop takes hangs on where its code lies: a few bytes further on it may take half as
long, or twice. So compare and peers link each side at four places, and their goes take these in turn.
"""
import os
import platform
import shutil
import statistics
import subprocess
import sys
import timeit

os.chdir(os.path.dirname(os.path.abspath(__file__)))
BENCH = '../crates/thread_local_bench'
HERE = BENCH + '/out/thread_local_bench'
THERE = 'target/release/times'

PROCESSORS = os.sched_getaffinity(0)

# How far on the code of a side lies, in bytes.
PLACES = (16, 32, 48, 64)

# What goes before the code, where `ld` puts it first.
BEFORE = '''.section .text.unlikely, "ax", @progbits
.skip {}
.section .note.GNU-stack, "", @progbits
'''


def arguments(goes, rounds):
    """The numbers of goes and of rounds that the command names, or these."""
    words = sys.argv[1:3]
    return int(words[0]) if words else goes, int(words[1]) if len(words) > 1 else rounds


def goes_by_place(goes, rounds):
    """The same where there must be a go for each place."""
    goes, rounds = arguments(goes, rounds)
    if goes < len(PLACES):
        sys.exit(f'there must be {len(PLACES)} goes, one for each place')
    return goes, rounds


def build():
    """Builds both sides, and answers the names of the workloads."""
    subprocess.run(['./build'], check=True)
    made = subprocess.run(['rt', 'run'], cwd=BENCH, capture_output=True, text=True)
    if made.returncode != 0:
        sys.exit(made.stdout + made.stderr)
    return [line.split()[0] for line in made.stdout.splitlines() if len(line.split()) == 1]


def placed():
    """Links both sides, which are built, at each place, and answers the programs of each place."""
    kit = os.path.dirname(output('rt', 'doc').strip())
    linked = [f'{BENCH}/out/thread_local_bench.o', f'{kit}/c/libos_c.a', f'{kit}/c/liblibc_c.a', '-lpthread']
    programs = []
    for far in PLACES:
        here, there = f'target/here_{far}', f'target/there_{far}'
        with open(f'target/before_{far}.s', 'w') as file:
            file.write(BEFORE.format(far))
        subprocess.run(['cc', f'target/before_{far}.s', *linked, '-o', here], check=True)
        subprocess.run(['./build'], check=True, env={**os.environ, 'PLACE': str(far)})
        shutil.copy(THERE, there)
        programs.append((here, there))
    return programs


def place_of(go):
    """The number of the place whose turn it is."""
    return go % len(PLACES)


def writes_at_once(name):
    """Whether several threads write at once in a round of a workload. In `thread_come_and_go` they come one after another."""
    return name.endswith(('_4_threads', '_4_threads_padded')) or name in ('pool_2', 'pool_4')


def has_threads(name):
    return writes_at_once(name) or name == 'thread_come_and_go'


def all_processors():
    """Lets what runs from now on use all processors."""
    os.sched_setaffinity(0, PROCESSORS)


def choose_processors(name):
    """Gives a workload with threads all processors, and another the one that is fastest just then. On a
    shared machine a processor may take twice as long as the others, for a second or for minutes."""
    if has_threads(name):
        all_processors()
    else:
        os.sched_setaffinity(0, {min(PROCESSORS, key=loop_time)})


def loop_time(processor):
    """The time of a loop on this processor, the least of three."""
    os.sched_setaffinity(0, {processor})
    return min(timeit.repeat('sum(number * number for number in range(10_000))', number=1, repeat=3))


def processes(name, rounds):
    """How many rounds each process of a go takes. Where threads write at once, each round is a process
    of its own: later rounds of one process lie where `malloc` finds room, and threads whose values
    share a line of the cache wait for each other."""
    return [1] * rounds if writes_at_once(name) else [rounds]


def least(by_place):
    """The mean of the leasts that the places have."""
    return statistics.mean(map(min, by_place.values()))


def median(by_place):
    """The median of all times."""
    return statistics.median(all_of(by_place))


def all_of(by_place):
    return [number for numbers in by_place.values() for number in numbers]


def output(*command):
    return subprocess.run([str(word) for word in command], check=True, capture_output=True, text=True).stdout


def measured(program, rounds, name):
    """The nanoseconds of one operation of a workload, the least of so many rounds."""
    answer = output(program, rounds, name).split()
    assert answer[0] == name and len(answer) == 2, answer
    return float(answer[1])


def shown(number):
    return f'{number:.2f}' if number < 10 else f'{number:.1f}' if number < 100 else f'{number:,.0f}'


def processor():
    with open('/proc/cpuinfo') as file:
        names = [line.split(':')[1].strip() for line in file if line.startswith('model name')]
    return f'{len(names)} x {names[0]}' if names else platform.machine()
