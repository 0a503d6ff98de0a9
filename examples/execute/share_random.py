#!/usr/bin/env python3
"""Changes a shared folder at random on both sides, and compares it with a model at each start of a program and at the end.

usage: share_random.py PROGRAM ROOM [CHANGES [SEED]]

A script changes files and directories, starts a program, which changes some too, and asks, and meanwhile others are changed. The
model says what must stand: what one side changed comes to the other; where both changed this machine's stands; what the Shell
changed and this machine deleted is written again; what is not as it was at the last time is never deleted; and nothing is deleted
while something that the Shell has is not written, or, to the end, after it gave way. What changed is written before a question too. What the script
moves to T: stays here until it comes in again elsewhere, or is kept if a program deletes it; what a program makes in its place comes in. The model
leaves out a file that a program makes anew with the same bytes. Of names that differ in case alone, which programs
make, the one that the Shell knew is shared, and otherwise none. share_losses.py tries what the model leaves out.
The last line is 'N changes, M starts: ok'.
"""
import copy, os, random, re, shutil, subprocess, sys, time

os.environ['XDG_CONFIG_HOME'] = '/dev/null'
STEPS = 120
MOST_TRIES = 20
FILES = ['a', 'b', 'c', 'd', 'p/a', 'p/b', 'q/a', 'q/b', 'r/a', 'v/a', 'v/b', 'w', 'x']
FOLDERS = ['p', 'q', 'r', 's', 'v']
# What only programs make: beside these of the same name.
CAPITALS, CAPITAL_FOLDERS = ['W', 'X', 'V/a', 'V/c'], ['V']
GONE, FOLDER = 'gone', 'folder'
KEPT = re.compile(r'\.kept\d*$')


def below(side, folder):
    return [path for path in side if path.startswith(folder + '/')]


class Unsure(Exception):
    """The model does not say what comes now: the plan is made anew."""


def has_capital(path):
    """Whether a path or its small form may have another beside it."""
    return path.split('/')[0].upper() in ('V', 'W', 'X')


class Model:
    """What stands in the Shell, on this machine, and at the last time on both; and what stands in T:. All that this machine has are the
    `names`; `machine` is what the Shell sees of it, by small letters, and `known` says how that is spelled. Of names `twice`, which the
    last look found without one that was known, the Shell sees none."""

    def __init__(self):
        self.shell, self.machine, self.last, self.out = {}, {}, {}, {}
        self.names, self.known, self.twice = {}, {}, set()
        self.told, self.let_go, self.copied, self.origins = set(), set(), set(), {}
        # what was moved to T: and is not deleted here yet, at the last time
        self.waiting = set()
        # something of the Shell gave way; it may do so
        self.gave_way, self.may_give_way = False, False

    def of(self, path):
        return (side.get(path, GONE) for side in (self.shell, self.machine, self.last))

    def look(self):
        """What the Shell sees of this machine."""
        spelled = {}
        for name in self.names:
            if '/' not in name:
                spelled.setdefault(name.lower(), []).append(name)
        tops = {path: each[0] if len(each) == 1 else self.known.get(path) if path in self.last else None for path, each in spelled.items()}
        twice = {path for path, top in tops.items() if top not in self.names}
        seen = {name: path for path, name in tops.items() if path not in twice}
        self.known = {name.lower(): name for name in self.names if name.split('/')[0] in seen}
        self.machine = {path: self.names[name] for path, name in self.known.items()}
        return twice

    def is_twice(self, path):
        return path.split('/')[0] in self.twice

    def spell(self):
        """Brings what was written to this machine."""
        for path in [path for path in self.known if path not in self.machine]:
            del self.names[self.known.pop(path)]
        for path in sorted(self.machine):
            if path not in self.known:
                above, _, name = path.rpartition('/')
                self.known[path] = f'{self.known[above]}/{name}' if above else name
            self.names[self.known[path]] = self.machine[path]

    def check_twice(self):
        """Whether the model says what comes of names that differ in case alone."""
        if self.look() != self.twice:
            raise Unsure
        for path, text in self.shell.items():
            if has_capital(path) and path not in self.last and path in self.machine and not self.is_twice(path):
                # it was deleted beside another, which the Shell does not know yet
                raise Unsure
            if self.is_twice(path) and text != FOLDER and text in [*self.names.values(), *self.last.values()]:
                # no program starts
                raise Unsure

    @staticmethod
    def put(side, path, value):
        if value == GONE:
            side.pop(path, None)
        else:
            side[path] = value

    def move(self, random_):
        """A line that moves a file to T:, whose bytes no other has and which stands on both sides, or one from there; or None."""
        if self.out and random_.random() < 0.6:
            free = [path for path in FILES if path not in self.shell and ('/' not in path or path.split('/')[0] in self.shell)]
            if not free:
                return None
            name, path = random_.choice(sorted(self.out)), random_.choice(free)
            self.shell[path] = self.out.pop(name)
            return f'Rename T:{name} {path}'
        all_texts = [text for side in (self.shell, self.machine, self.out) for text in side.values()]
        files = [path for path, text in self.shell.items()
                 if text == self.machine.get(path) == self.last.get(path) and text != FOLDER and all_texts.count(text) == 2]
        if not files:
            return None
        path, name = random_.choice(files), f't{len(self.out)}{random_.randrange(10 ** 6)}'
        self.out[name] = self.shell.pop(path)
        self.origins[self.out[name]] = path
        return f'Rename {path} T:{name}'

    def is_held(self, path):
        """Whether what stood here is in T: alone."""
        text = self.last.get(path)
        if text not in self.out.values() or self.machine.get(path) != text:
            return False
        others = [one for one, value in self.machine.items() if one != path and value == text]
        if any(self.last.get(one) != text for one in others):
            # the Shell does not know yet that there is another
            raise Unsure
        return not others

    def check_anew(self, before, lines, is_seen):
        """Whether the model says what comes of changes here: not if one makes anew, with the same bytes, or those of the last time, what the
        Shell no longer has, or, if no look sees it before, may delete."""
        for _, line in lines:
            path = line.rpartition('>')[2] if '>' in line else line.split()[-1]
            small = path.lower()
            made = self.names.get(path)
            is_same = path in before and before[path] == made or made != FOLDER and made == self.last.get(small)
            if is_same and small in self.last and not (is_seen and small in self.shell):
                raise Unsure

    def note_copied(self):
        """Notes what is in T: and stands here in another place than it had."""
        for text in self.out.values():
            if any(value == text for path, value in self.machine.items() if path != self.origins[text]):
                self.copied.add(text)

    def write_out(self, moment='start'):
        """At a question, a start or the end: what is new is written first, then what changed, unless it writes over what was moved to one
        that could not be written; then what is gone is deleted, the deepest first, unless something could not be written: then it waits."""
        self.check_twice()
        self.note_copied()
        self.waiting = set()
        paths = sorted(set(self.shell) | set(self.last))
        new, owes, unwritten = set(self.shell) - set(self.last), self.gave_way, []
        for path in ([p for p in paths if p in new] + [p for p in paths if p in self.shell and p not in new]
                     + [p for p in reversed(paths) if p not in self.shell]):
            shell, machine, last = self.of(path)
            if shell == last:
                continue
            if self.is_twice(path):
                owes = owes or shell not in (FOLDER, GONE)
                unwritten.append(shell)
                continue
            if self.is_held(path):
                if shell != GONE or owes:
                    raise Unsure
                self.waiting.add(path)
                continue
            if shell == GONE and machine == FOLDER and any(self.is_held(one) for one in below(self.machine, path)):
                raise Unsure
            if shell == GONE and machine == last and owes:
                # it waits: its bytes may be in what is not written
                pass
            elif shell == GONE and machine == FOLDER and below(self.machine, path):
                self.put(self.last, path, GONE)
            elif machine == last and machine != FOLDER and not shell.startswith(machine) and any(machine in text for text in unwritten):
                if moment == 'start':
                    # no program starts
                    raise Unsure
                if moment == 'end':
                    # it comes in again
                    self.put(self.last, path, GONE)
                unwritten.append(shell)
            elif machine in (last, shell, GONE):
                if shell == GONE and machine == last in self.out.values():
                    self.let_go.add(last)
                # a folder that was deleted on this machine is made again for what is in it
                for one in (path.split('/')[0], path):
                    if shell != GONE or one == path:
                        self.put(self.machine, one, self.shell.get(one, GONE))
                        self.put(self.last, one, self.shell.get(one, GONE))
            else:
                self.told.add(path)
                owes = owes or shell != GONE
                unwritten.append(shell)
        if moment == 'start' and any(text in [*self.names.values(), *self.last.values()] for text in unwritten if text not in (FOLDER, GONE)):
            # no program starts
            raise Unsure
        if any(text in self.let_go and text not in self.machine.values() for text in self.out.values()):
            # it is written back under a name of its own
            raise Unsure
        self.note_copied()
        self.spell()
        self.check_twice()

    def keep_moved(self):
        """At the end what only T: has, since a program deleted or wrote over it, stands under a name of its own beside where it was."""
        for text in [text for text in self.out.values() if text not in self.machine.values()]:
            if text in self.copied:
                # a program or the script put it elsewhere, and a program deleted it there
                raise Unsure
            path = self.origins[text] + '.kept'
            folder = os.path.dirname(path)
            if path in self.machine or folder and self.machine.get(folder) != FOLDER or has_capital(path):
                raise Unsure
            self.machine[path] = text
        self.spell()

    def come_in(self):
        known = set(self.known)
        self.twice = self.look()
        others = {name.lower() for name in self.names if name not in self.known.values()}
        if any(path in known and path not in self.last or path in self.last and path not in self.shell for path in others):
            # the Shell deleted one of two: it does not know the other yet, or has still to delete the one
            raise Unsure
        paths = sorted(set(self.machine) | set(self.last))
        deleted = [path for path in self.last if path not in self.shell]
        overrules = False
        for path in [p for p in reversed(paths) if p not in self.machine] + [p for p in paths if p in self.machine]:
            shell, machine, last = self.of(path)
            if machine == last:
                continue
            if machine == GONE and (shell != last or shell == FOLDER and below(self.shell, path)):
                self.put(self.last, path, GONE)
                continue
            if machine != GONE and shell == GONE and path in self.waiting:
                # a program made it anew, or wrote to it: what was moved away is gone for both
                pass
            elif machine != GONE and shell not in (last, machine):
                self.told.add(path)
                overrules = overrules or shell != GONE
            # so is a directory that was deleted in the Shell
            for one in (path.split('/')[0], path):
                if machine != GONE or one == path:
                    self.put(self.shell, one, self.machine.get(one, GONE))
                    self.put(self.last, one, self.machine.get(one, GONE))
        if overrules and (self.out or not self.may_give_way):
            raise Unsure
        if overrules:
            self.gave_way = True
            # what the Shell deleted may have been moved to what gave way: it comes in again
            for path in deleted:
                if path not in self.shell:
                    self.put(self.last, path, GONE)


def change(random_, side, number, all_files, all_folders):
    """A change of a side: its line for the Shell and its line for sh."""
    kind = random_.random()
    if kind < 0.5:
        path = random_.choice(all_files)
        if '/' in path and path.split('/')[0] not in side:
            return None
        text = f'{number}' if random_.random() < 0.5 else f'{number % 10}'
        side[path] = text + '\n'
        return f'Echo >{path} {text}', f'echo {text} >{path}'
    if kind < 0.7:
        files = [path for path in side if path in all_files]
        if not files:
            return None
        path = random_.choice(files)
        del side[path]
        return f'Delete {path} QUIET', f'rm {path}'
    if kind < 0.8:
        files = [path for path in side if path in all_files]
        free = [path for path in all_files if path not in side and ('/' not in path or path.split('/')[0] in side)]
        if not files or not free:
            return None
        path, new = random_.choice(files), random_.choice(free)
        side[new] = side.pop(path)
        return f'Rename {path} {new}', f'mv {path} {new}'
    path = random_.choice(all_folders)
    if path not in side:
        side[path] = FOLDER
        return f'MakeDir {path}', f'mkdir {path}'
    if kind < 0.86:
        free = [other for other in all_folders if other not in side]
        if not free:
            return None
        other = random_.choice(free)
        for one in [path, *below(side, path)]:
            side[other + one[len(path):]] = side.pop(one)
        return f'Rename {path} {other}', f'mv {path} {other}'
    if kind < 0.9:
        return None
    for one in below(side, path):
        del side[one]
    del side[path]
    return f'Delete {path} ALL QUIET', f'rm -r {path}'


def changes(random_, side, most, count, files=FILES, folders=FOLDERS):
    lines = [change(random_, side, next(count), files, folders) for _ in range(random_.randint(0, most))]
    return [line for line in lines if line]


def two_at_a_time(random_, side, number):
    """Two changes of a program that makes names which differ in case alone, or none."""
    name = random_.choice('vwx')
    if name in side or name.upper() in side:
        return []
    if name == 'v':
        side.update({'v': FOLDER, 'V': FOLDER, 'v/b': f'{number}\n'})
        return [('', 'mkdir v V'), ('', f'echo {number} >v/b')]
    side.update({name: f'{number}\n', name.upper(): f'{number % 10}\n'})
    return [('', f'echo {number} >{name}'), ('', f'echo {number % 10} >{name.upper()}')]


def changes_here(random_, model, most, count):
    """Those of a program on this machine."""
    lines = changes(random_, model.names, most, count, FILES + CAPITALS, FOLDERS + CAPITAL_FOLDERS)
    return lines + (two_at_a_time(random_, model.names, next(count)) if random_.random() < 0.2 else [])


def changes_meanwhile(random_, model, most, count):
    """Those on this machine that no look follows."""
    return changes(random_, model.names, most, count, [path for path in FILES if not has_capital(path)], [path for path in FOLDERS if not has_capital(path)])


def tree(folder):
    stands = {}
    for above, folders, files in os.walk(folder):
        for name in folders:
            stands[os.path.relpath(os.path.join(above, name), folder)] = FOLDER
        for name in files:
            with open(os.path.join(above, name)) as file:
                stands[os.path.relpath(os.path.join(above, name), folder)] = file.read()
    return stands


class Plan:
    """The script, what each program does, what is done at each question, and what must stand at each start and at the end."""

    def __init__(self, random_, count):
        self.model, self.script, self.acts, self.asks, self.wanted = Model(), ['FailAt 100'], [], [], []
        self.first = changes_here(random_, self.model, 12, count)
        self.done = 0
        self.model.come_in()

    def copied(self):
        """Another plan that goes on from here."""
        plan = copy.copy(self)
        plan.model = copy.deepcopy(self.model)
        for name in ('script', 'acts', 'asks', 'wanted'):
            setattr(plan, name, list(getattr(self, name)))
        return plan

    def step(self, random_, count):
        model = self.model
        lines = changes(random_, model.shell, 3, count)
        self.script += [line for line, _ in lines]
        # from then on nothing is deleted: that comes late
        model.may_give_way = len(self.acts) + len(self.asks) > STEPS * 2 / 3
        move = model.move(random_) if random_.random() < 0.2 and not model.gave_way else None
        self.script += [move] if move else []
        self.done += len(lines)
        if random_.random() < 0.4:
            model.write_out('question')
            before = dict(model.names)
            lines = changes_meanwhile(random_, model, 2, count)
            model.check_anew(before, lines, False)
            self.script.append(f'Ask {len(self.asks)}?')
            self.asks.append([line for _, line in lines])
        else:
            model.write_out()
            self.wanted.append(dict(model.names))
            before = dict(model.names)
            lines = changes_here(random_, model, 3, count)
            model.check_anew(before, lines, True)
            self.script.append(f'act {len(self.acts)}')
            self.acts.append([line for _, line in lines])
            model.come_in()
        self.done += len(lines)

    def end(self):
        self.model.write_out('end')
        self.model.keep_moved()
        self.wanted.append(dict(self.model.names))


def sh(lines, folder):
    if lines:
        subprocess.run(['sh', '-e', '-c', '\n'.join(lines)], cwd=folder, check=True)


def await_prompt(pipe, number):
    """Reads what comes up to the prompt of a question."""
    end = f'{number}? '.encode()
    said = b''
    while not said.endswith(end):
        byte = pipe.read(1)
        if not byte:
            raise SystemExit(f'the script ended before its question {number}: {said.decode()}')
        said += byte


def sure_plan(random_, count):
    """A plan of which the model knows all."""
    plan, tries = Plan(random_, count), 0
    while True:
        next_plan = plan.copied()
        try:
            next_plan.step(random_, count)
            plan, tries = next_plan, 0
            if len(plan.acts) + len(plan.asks) >= STEPS:
                next_plan = plan.copied()
                next_plan.end()
                return next_plan
        except Unsure:
            tries += 1
            if tries == MOST_TRIES:
                plan, tries = Plan(random_, count), 0


def await_input(pid):
    """Waits until a process that has asked waits for the answer: what changed is written by then."""
    idle = 0
    while idle < 3:
        with open(f'/proc/{pid}/stat') as file:
            idle = idle + 1 if file.read().rsplit(')', 1)[1].split()[0] == 'S' else 0
        time.sleep(0.002)


def run(program, room, random_, count):
    plan = sure_plan(random_, count)
    acts, asks, wanted, told = plan.acts, plan.asks, plan.wanted, plan.model.told
    shutil.rmtree(room, ignore_errors=True)
    for name in ('shared', 'acts', 'seen'):
        os.makedirs(os.path.join(room, name))
    folder = os.path.join(room, 'shared')
    sh([line for _, line in plan.first], folder)
    with open(os.path.join(room, 'script'), 'w') as file:
        file.write('\n'.join(plan.script) + '\n')
    for number, lines in enumerate(acts):
        with open(os.path.join(room, 'acts', str(number)), 'w') as file:
            file.write('\n'.join(['set -e', *lines]) + '\n')
    act = os.path.join(room, 'act')
    with open(act, 'w') as file:
        file.write(f'#!/bin/sh\ncp -R . {room}/seen/$1\n. {room}/acts/$1\n')
    os.chmod(act, 0o755)
    with open(os.path.join(room, 'faults'), 'w') as faults:
        child = subprocess.Popen([program, '--part', '--host', f'act={act}', '--share', folder, os.path.join(room, 'script')],
                                 stdin=subprocess.PIPE, stdout=subprocess.PIPE, stderr=faults, bufsize=0)
        for number, lines in enumerate(asks):
            await_prompt(child.stdout, number)
            await_input(child.pid)
            try:
                sh(lines, folder)
            except subprocess.CalledProcessError:
                raise SystemExit(f'question {number} in {room}: what the script changed before is not there: {lines}: FAILED')
            child.stdin.write(b'n\n')
        child.stdin.close()
        child.stdout.read()
        child.wait()
    for number, stands in enumerate(wanted):
        came = tree(os.path.join(room, 'seen', str(number)) if number < len(acts) else folder)
        if number < len(acts):
            # a copy of what was written over waits there
            came = {path: text for path, text in came.items() if not os.path.basename(path).startswith('.amishell-execute.')}
        else:
            # bytes that gave way to this machine's may be kept, and those that a program here has put elsewhere just now; what has to be
            # kept may have a number, and the name that its file had before
            names = {text: path for path, text in stands.items() if KEPT.search(path)}
            extra = {path for path, text in came.items() if KEPT.search(path) and text not in names}
            extra |= {os.path.dirname(path) for path in extra} - set(stands)
            came = {names[text] if KEPT.search(path) else path: text for path, text in came.items() if path not in extra}
        if came != stands:
            for path in sorted(set(came) | set(stands)):
                if came.get(path) != stands.get(path):
                    print(f'{path}: came {came.get(path)!r}, wanted {stands.get(path)!r}')
            raise SystemExit(f'start {number} of {len(acts)} in {room}: FAILED')
    with open(os.path.join(room, 'faults')) as file:
        lines = [line.rstrip('\n') for line in file]
    named = {line.rsplit(': ', 1)[-1].lower() for line in lines if 'both changed' in line}
    if not named <= told:
        raise SystemExit(f'{room}: told of {sorted(named - told)}, where not both sides changed')
    missing = {path for path in told if path not in FOLDERS} - named
    if missing:
        raise SystemExit(f'{room}: not told of {sorted(missing)}, where both sides changed')
    return plan.done, len(wanted)


def main():
    program, room = os.path.abspath(sys.argv[1]), os.path.abspath(sys.argv[2])
    wanted = int(sys.argv[3]) if len(sys.argv) > 3 else 10000
    seed = int(sys.argv[4]) if len(sys.argv) > 4 else 1
    random_ = random.Random(seed)
    count = iter(range(10, 10 ** 9))
    done = starts = 0
    while done < wanted:
        more, seen = run(program, room, random_, count)
        done, starts = done + more, starts + seen
    print(f'{done} changes, {starts} starts: ok')


main()
