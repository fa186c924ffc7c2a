#!/usr/bin/env python3
"""Times the proved program against plain C on the same questions, both started in the same way, in turn; and against an SMT solver if there is one.

  bench/run.py ORACLE OURS... -- C...      the second program, which makes the plans, and the words that start each program

With NUTHATCHET_BENCH=captures in the environment it asks about captures alone, with NUTHATCHET_BENCH=figures for figures alone, and with
NUTHATCHET_BENCH=judge it reads files and judges rows alone. With NUTHATCHET_BENCH=instructions it takes no times: it counts the instructions of
both programs, which are the same in every run and on every machine (by the emulator of Debian's package qemu-user). With NUTHATCHET_SHARE=N it
takes one turn in N of each question but those about captures, since an emulator is that much slower.

Times are processor seconds. Both programs print a checksum of all answers, and it has to be the same. docs/BENCHMARKS.md has what this printed."""
import collections, math, os, random, shutil, subprocess, sys, tempfile

here = os.path.dirname(os.path.abspath(__file__))
sys.path.insert(0, here)
sys.dont_write_bytecode = True
import encode
import faulty

split = sys.argv.index('--')
oracle, ours, c = sys.argv[1], sys.argv[2:split], sys.argv[split + 1 :]
samples = os.path.join(here, '..', 'samples')
made = os.path.join(here, '..', 'target', 'bench')
repetitions = 5
mid = repetitions // 2
rounds = 9  # of all captures
solver = shutil.which('z3')
unsolved = 'no table of the solver: z3 is not on the PATH (Debian, Ubuntu: apt-get install z3)'
parts = os.environ.get('NUTHATCHET_BENCH', '')
share = int(os.environ.get('NUTHATCHET_SHARE', '1'))
limit = 120  # seconds for one question to the solver
asked = [
    ('large', 'read', 20000),
    ('large', 'judge', 20000),
    ('large', 'replay', 10000),
    ('large', 'verdict2', 200),
    ('accident', 'read', 65000),
    ('accident', 'judge', 65000),
    ('accident', 'replay', 65000),
    ('accident', 'verdict2', 40000),
    ('network-1', 'judge', 20000),
    ('faulty-7', 'judge', 20000),
    ('faulty-14', 'judge', 20000),
    ('faulty-15', 'judge', 20000),
    ('faulty-10', 'judge', 20000),
    ('faulty-16', 'judge', 20000),
    ('faulty-17', 'judge', 20000),
    ('faulty-18', 'judge', 20000),
    ('faulty-19', 'judge', 20000),
    ('large', 'verdict3', 20),
    ('network-1', 'verdict3', 300),
    ('network-2', 'verdict3', 50),
    ('network-3', 'verdict3', 30),
    ('chain-1', 'verdict3', 20),
    ('chain-2', 'verdict3', 20),
    ('chain-3', 'verdict3', 50),
    ('small-1', 'verdict3', 1000),
    ('small-2', 'verdict3', 4000),
    ('small-3', 'verdict3', 1000),
    ('wide-1', 'verdict3', 1500),
    ('wide-2', 'verdict3', 1000),
    ('wide-3', 'verdict3', 50),
    ('own-1', 'verdict3', 8000),
    ('own-2', 'verdict3', 8000),
    ('own-3', 'verdict3', 8000),
    ('gadget-1', 'verdict3', 3000),
    ('gadget-2', 'verdict3', 3000),
    ('gadget-3', 'verdict3', 3000),
    ('dual-1', 'verdict3', 500),
    ('dual-2', 'verdict3', 150),
    ('dual-3', 'verdict3', 100),
    ('grid-1', 'verdict3', 100),
    ('grid-2', 'verdict3', 40),
    ('grid-3', 'verdict3', 400),
]
asked = [(plan, question, max(1, turns // share)) for plan, question, turns in asked]
if parts == 'judge':
    asked = [each for each in asked if each[1] in ('read', 'judge')]
searched = {plan: turns for plan, question, turns in asked if question == 'verdict3'}
captured = ['%s-%d' % (kind, seed) for kind in ('network', 'chain', 'wide', 'own', 'gadget', 'dual', 'grid', 'wait') for seed in (1, 2, 3)]
solved = '3 cuts', 'late 3', '4 cuts', 'removed', 'empty'  # the captures that the solver is asked about


def folder(plan):
    return os.path.join(made if '-' in plan else samples, plan)


def run(words, where=None, given=None):
    """What a program prints, and the processor seconds that it takes."""
    with open(given or os.devnull, 'rb') as file:
        child = subprocess.Popen(words, cwd=where, stdin=file, stdout=subprocess.PIPE)
    said = child.stdout.read().decode()
    _, status, used = os.wait4(child.pid, 0)
    child.returncode = os.waitstatus_to_exitcode(status)
    return said, used.ru_utime + used.ru_stime, child.returncode


def ask(words, plan, question, turns, l=0, given=None):
    said, seconds, status = run(words + [question, ' %d' % turns, ' %d' % l], folder(plan), given)
    if status:
        sys.exit('%s %s: a program ended with status %d' % (plan, question, status))
    return said, seconds


def note(text):
    print(text, file=sys.stderr, flush=True)


def make_plans():
    for plan in dict.fromkeys([*searched, *captured]):
        if '-' in plan:
            os.makedirs(folder(plan), exist_ok=True)
            with open(os.path.join(folder(plan), 'plan.bin'), 'wb') as file:
                subprocess.run([oracle, 'bench-plan'] + plan.split('-'), stdout=file, check=True)
    with open(os.path.join(folder('grid-1'), 'plan.bin'), 'rb') as file:
        for number, plan in faulty.faulty(file.read()).items():
            os.makedirs(folder('faulty-%d' % number), exist_ok=True)
            with open(os.path.join(folder('faulty-%d' % number), 'plan.bin'), 'wb') as made_of_it:
                made_of_it.write(plan)


def against_c(goals):
    """The table of times. Returns our seconds for each plan's search at k 3."""
    heads = 'plan', 'question', 'turns', 'ours, s', 'C, s', 'ours, ms', repetitions
    print('%-10s %-8s %6s %9s %9s %9s   ours / C (lowest to highest of %d)' % heads, flush=True)
    each = {}
    for number, (plan, question, turns) in enumerate(asked):
        taken = []
        for _ in range(repetitions):
            said, mine = ask(ours, plan, question, turns)
            other, theirs = ask(c, plan, question, turns)
            if said != other:
                sys.exit('%s %s: ours says %s and C says %s' % (plan, question, said, other))
            taken.append((mine / theirs, mine, theirs))
        ratios, mine, theirs = (sorted(column) for column in zip(*taken))
        if question == 'judge':
            goals['judge, ours / C'].append((ratios[mid], plan))
        if question == 'verdict3':
            each[plan] = mine[mid] / turns
            goals['k 3, every l, ours / C'].append((ratios[mid], plan))
            goals['k 3, every l, ours, s'].append((each[plan], plan))
        print(
            '%-10s %-8s %6d %9.3f %9.3f %9.3f   %.2f (%.2f to %.2f)'
            % (plan, question, turns, mine[mid], theirs[mid], 1000 * mine[mid] / turns, ratios[mid], ratios[0], ratios[-1]),
            flush=True,
        )
        note('%d of %d' % (number + 1, len(asked)))
    return each


def counting(words):
    """The words that start a program under an emulator that counts its instructions."""
    emulator, compiler = shutil.which('qemu-x86_64'), shutil.which('cc')
    if not emulator or not compiler:
        sys.exit('instructions are counted by QEMU, with a plugin that cc compiles (Debian, Ubuntu: apt-get install qemu-user gcc)')
    plugin = os.path.join(made, 'instructions.so')
    subprocess.run([compiler, '-O2', '-shared', '-fPIC', os.path.join(here, 'instructions.c'), '-o', plugin], check=True)
    return [emulator, '-plugin', plugin] + words


def instructions():
    """The table of instructions a turn: those of some turns less those of none."""
    print('%-10s %-8s %12s %12s   ours / C' % ('plan', 'question', 'ours', 'C'), flush=True)
    both = [counting(words) for words in (ours, c)]
    questions = asked + [(plan, 'figures3', turns) for plan, turns in searched.items()]
    for number, (plan, question, turns) in enumerate(questions):
        turns = turns // 400 + 1
        taken = []
        for words in both:
            ends = []
            for n in 0, turns:
                ran = subprocess.run(words + [question, ' %d' % n, ' 0'], cwd=folder(plan), capture_output=True, text=True)
                if ran.returncode or not ran.stderr.endswith(' instructions\n'):
                    sys.exit('%s %s: not counted: %s' % (plan, question, ran.stderr.strip()))
                ends.append(int(ran.stderr.split()[-2]))
            taken.append((ends[1] - ends[0]) // turns)
        print('%-10s %-8s %12d %12d   %.2f' % (plan, question, *taken, taken[0] / taken[1]), flush=True)
        note('%d of %d' % (number + 1, len(questions)))


def figured(goals):
    """The table of figures: those for k 0 to 3 against all answers for k 3, both ours, and against C."""
    heads = 'plan', 'turns', 'figures3, ms', 'verdict3, ms', 'figures3 / verdict3', 'ours / C, figures3'
    print('\n%-10s %5s %12s %12s   %-21s   %s' % heads + ' (lowest to highest of %d)' % repetitions, flush=True)
    for number, (plan, turns) in enumerate(searched.items()):
        taken = []
        for _ in range(repetitions):
            verdict = ask(ours, plan, 'verdict3', turns)[1]
            said, mine = ask(ours, plan, 'figures3', turns)
            other, theirs = ask(c, plan, 'figures3', turns)
            if said != other:
                sys.exit('%s figures3: ours says %s and C says %s' % (plan, said, other))
            taken.append((1000 * mine / turns, 1000 * verdict / turns, mine / verdict, mine / theirs))
        mine, verdict, above, ratios = (sorted(column) for column in zip(*taken))
        goals['figures3 / verdict3, ours'].append((above[mid], plan))
        spread = ['%.2f (%.2f to %.2f)' % (column[mid], column[0], column[-1]) for column in (above, ratios)]
        print('%-10s %5d %12.3f %12.3f   %-21s   %s' % (plan, turns, mine[mid], verdict[mid], *spread), flush=True)
        note('figures: %d of %d' % (number + 1, len(searched)))


def plan_of(plan):
    with open(os.path.join(folder(plan), 'plan.bin'), 'rb') as file:
        return encode.read(file.read())


def walks(plan, k):
    """For each walk of the search: l, pairs, lists played, slots played, arrivals of the list found or -."""
    said, _ = ask(c, plan, 'count%d' % k, 1)
    return [line.split() for line in said.splitlines()]


def lists_played():
    """The table of lists. Returns for each plan the highest l that k 3 leaves resistant."""
    print('\n%-10s %1s %6s %12s %12s %18s %12s' % ('plan', 'k', 'walks', 'lists played', 'slots played', 'lists there are', 'played'), flush=True)
    edges = {}
    for plan in searched:
        timeout, names, _ = plan_of(plan)
        cables = len(set(names))
        for k in 1, 2, 3:
            rows = walks(plan, k)
            lists, slots = sum(int(row[2]) for row in rows), sum(int(row[3]) for row in rows)
            there = sum(math.comb(cables, n) * timeout**n for n in range(k + 1))
            print('%-10s %d %6d %12d %12d %18d %11.5f%%' % (plan, k, len(rows), lists, slots, there, 100 * lists / there), flush=True)
        last = rows[-1]
        edges[plan] = int(last[0] if last[4] == '-' else last[4])
    return edges


def each_walk():
    """The walks of two plans one by one."""
    print('\n%-10s %2s %5s %12s %12s %18s   %s' % ('plan, k 3', 'l', 'pairs', 'lists played', 'slots played', 'lists there are', 'found'), flush=True)
    for plan in 'network-1', 'wide-1':
        timeout, names, _ = plan_of(plan)
        cables = len(set(names))
        for l, pairs, lists, slots, found in walks(plan, 3):
            there = math.comb(cables, int(pairs)) * timeout ** int(pairs)
            arrivals = '-' if found == '-' else 'a list that leaves ' + found
            print('%-10s %2s %5s %12s %12s %18d   %s' % (plan, l, pairs, lists, slots, there, arrivals), flush=True)


def asked_of(plan, read, l, edge):
    """The solver's seconds for one l. Its answer has to be ours: the highest l that is resistant is the edge."""
    expected = 'sat' if l > edge else 'unsat'
    with tempfile.NamedTemporaryFile('w', suffix='.smt2') as question:
        question.write(encode.encode(*read, 3, l))
        question.flush()
        said, seconds, _ = run([solver, '-T:%d' % limit, question.name])
    said = said.strip()
    if said not in (expected, 'timeout'):
        sys.exit('%s, k 3, l %d: the solver says %s, and we say %s' % (plan, l, said, expected))
    note('%s, l %d: done' % (plan, l))
    return seconds, '> ' if said == 'timeout' else ''


def one_l(plan, l):
    """Our seconds for one l, of so many turns that they can be told."""
    turns = 1
    while ask(ours, plan, 'only3', turns, l)[1] < 0.05 and turns < 32768:
        turns *= 8
    if ask(ours, plan, 'only3', turns, l)[0] != ask(c, plan, 'only3', turns, l)[0]:
        sys.exit('%s only3, l %d: ours and C differ' % (plan, l))
    return sorted(ask(ours, plan, 'only3', turns, l)[1] for _ in range(repetitions))[mid] / turns


def against_solver(each, edges, goals):
    if not solver:
        print('\n' + unsolved)
        return
    version = subprocess.run([solver, '--version'], stdout=subprocess.PIPE, check=True).stdout.decode().split(' - ')[0]
    heads = 'plan', 'l', 'answer', 'solver, s', 'one l, s', 'every l, s', version
    print('\n%-10s %2s %-9s %10s %10s %10s   %s, one l / ours, one l; / ours, every l' % heads, flush=True)
    for plan in searched:
        read = plan_of(plan)
        for l in edges[plan] + 1, edges[plan]:
            if l == 0 or l > len(read[2]):
                continue
            seconds, more = asked_of(plan, read, l, edges[plan])
            one = one_l(plan, l)
            meant = 'failing' if l > edges[plan] else 'resistant'
            times = '; '.join(more + '%.1f' % (seconds / mine) for mine in (one, each[plan]))
            goals['k 3, one l, solver / ours'].append((seconds / one, plan))
            print('%-10s %2d %-9s %10s %10.5f %10.5f   %s' % (plan, l, meant, more + '%.2f' % seconds, one, each[plan], times), flush=True)


def given_of(plan, name):
    return os.path.join(folder(plan), name.replace(' ', '-') + '.bytes')


def put_bytes(plan, name, rows):
    with open(given_of(plan, name), 'wb') as file:
        file.write(bytes(number for row in rows for number in row))


def crossings(plan, cuts):
    """The capture of the replay under a list of cuts."""
    put_bytes(plan, 'cuts', cuts)
    said, _ = ask(c, plan, 'record', 1, given=given_of(plan, 'cuts'))
    return [tuple(map(int, line.split())) for line in said.splitlines()]


def captures(plan):
    """The captures that are asked about, by name. Random cuts are of cables that a message still has before it, each in a random slot up to its last
    place there; late cuts are those of the last places of the plan, each in the slot of its place."""
    _, names, messages = plan_of(plan)
    draw = random.Random(plan)
    last = {}
    for slot, link in sorted((slot, link) for places in messages for link, slot, _ in places):
        last[names[link]] = slot
    drawn = {'%d cuts' % n: sorted((draw.randrange(last[link] + 1), link) for link in draw.sample(sorted(last), min(n, len(last)))) for n in range(5)}
    late = sorted(((slot, link) for link, slot in last.items()), reverse=True)
    drawn.update(('late %d' % n, sorted(late[:n])) for n in (1, 2, 3))
    made = {name: crossings(plan, cuts) for name, cuts in drawn.items()}
    made['removed'] = list(made['3 cuts'])
    if made['removed']:
        made['removed'].pop(draw.randrange(len(made['removed'])))
    made['empty'] = []
    for name, triples in made.items():
        put_bytes(plan, name, triples)
    return made


def explained(goals):
    """The table of captures: for each sort and each k, over all plans. Returns our seconds for k 3 by plan and sort. A question takes microseconds, and a
    shared core is slow for a second now and then: all are asked in turn, again and again, and the middle one of what ours took against C is told."""
    heads = 'capture', 'k', 'plans', 'listed', 'most slots', 'longest, ms', 'plan'
    print('\n%-8s %1s %5s %6s %10s %11s %-10s   ours / C (lowest, median, highest, plan)' % heads, flush=True)
    rows, each, taken, questions = collections.defaultdict(list), {}, collections.defaultdict(list), []
    for plan in captured:
        for name in captures(plan):
            for k in 1, 2, 3:
                pairs, slots = ask(c, plan, 'slots%d' % k, 1, given=given_of(plan, name))[0].split()
                turns = 1 + 80000 // (8 + int(slots))  # so many that a run takes some 10 ms and more, of which less than one is its start
                questions.append((plan, name, k, pairs, int(slots), turns))
    for number in range(rounds):
        for plan, name, k, _, _, turns in questions:
            question, given = 'infer%d' % k, given_of(plan, name)
            said, mine = ask(ours, plan, question, turns, given=given)
            other, theirs = ask(c, plan, question, turns, given=given)
            if said != other:
                sys.exit('%s %s, %s: ours says %s and C says %s' % (plan, question, name, said, other))
            taken[plan, name, k].append((mine / theirs, mine / turns))
        note('captures: %d of %d' % (number + 1, rounds))
    for plan, name, k, pairs, slots, _ in questions:
        ratio, mine = (sorted(column)[rounds // 2] for column in zip(*taken[plan, name, k]))
        rows[name, k].append((plan, pairs != '-', slots, mine, ratio))
        if k == 3:
            each[plan, name] = pairs, mine
            goals['k 3, capture, ours / C'].append((ratio, plan + ', ' + name))
            goals['k 3, capture, ours, s'].append((mine, plan + ', ' + name))
    for (name, k), found in sorted(rows.items(), key=lambda row: list(row)[0]):
        slowest = max(found, key=lambda row: row[3])
        ratios = sorted((row[4], row[0]) for row in found)
        print(
            '%-8s %d %5d %6d %10d %11.3f %-10s   %.2f %.2f %.2f %s'
            % (
                (name, k, len(found), sum(row[1] for row in found), max(row[2] for row in found), 1000 * slowest[3], slowest[0])
                + (ratios[0][0], ratios[len(ratios) // 2][0])
                + ratios[-1]
            ),
            flush=True,
        )
    return each


def explained_by_solver(each, goals):
    """The same for k 3 of the first plan of each kind, asked of the solver."""
    if not solver:
        return
    print('\n%-10s %-8s %-11s %10s %10s   solver / ours' % ('plan, k 3', 'capture', 'answer', 'solver, s', 'ours, s'), flush=True)
    for plan in captured:
        if not plan.endswith('-1'):
            continue
        read = plan_of(plan)
        for name, triples in captures(plan).items():
            if name not in solved:
                continue
            pairs, mine = each[plan, name]
            with tempfile.NamedTemporaryFile('w', suffix='.smt2') as question:
                question.write(encode.encode(*read, 3, 0, triples))
                question.flush()
                said, seconds, _ = run([solver, '-T:%d' % limit, question.name])
            said, expected = said.strip(), 'unsat' if pairs == '-' else 'sat'
            if said not in (expected, 'timeout'):
                sys.exit('%s, %s: the solver says %s, and we say %s' % (plan, name, said, expected))
            more = '> ' if said == 'timeout' else ''
            meant = 'unexplained' if pairs == '-' else pairs + ' pairs'
            goals['k 3, capture, solver / ours'].append((seconds / mine, plan + ', ' + name))
            print('%-10s %-8s %-11s %10s %10.5f   %s%.1f' % (plan, name, meant, more + '%.2f' % seconds, mine, more, seconds / mine), flush=True)


def against_goals(goals):
    """The plan that is worst for each goal."""
    print('\n%-27s %12s %10s   %s' % ('goal', 'wanted', 'worst', 'plan'), flush=True)
    for goal, wanted, worst in (
        ('judge, ours / C', 'at most 2', max),
        ('k 3, every l, ours / C', 'at most 2.5', max),
        ('k 3, every l, ours, s', 'at most 1', max),
        ('k 3, one l, solver / ours', 'at least 100', min),
        ('figures3 / verdict3, ours', 'at most 3', max),
        ('k 3, capture, ours / C', 'at most 2.5', max),
        ('k 3, capture, ours, s', 'at most 0.2', max),
        ('k 3, capture, solver / ours', 'at least 100', min),
    ):
        if goals[goal]:
            figure, plan = worst(goals[goal])
            print('%-27s %12s %10.2f   %s' % (goal, wanted, figure, plan), flush=True)


goals = collections.defaultdict(list)
if not solver and parts in ('', 'captures'):
    note(unsolved)
make_plans()
if parts == 'instructions':
    sys.exit(instructions())
if parts in ('', 'judge'):
    times = against_c(goals)
if not parts:
    edges = lists_played()
    each_walk()
    against_solver(times, edges, goals)
if parts in ('', 'figures'):
    figured(goals)
if parts in ('', 'captures'):
    explained_by_solver(explained(goals), goals)
against_goals(goals)
