#!/usr/bin/env python3
"""Tries at random to lose something in a shared folder, by what share_random.py leaves out.

usage: share_losses.py PROGRAM ROOM [CHANGES [SEED]]

A script and the programs that it starts move, copy, join and lengthen files, and make directories, links and names that begin with a
dot; files and directories are moved to T: and back; files become directories and directories files; files are too large for the Shell or for
the limit of this run, and get bits and comments; and both sides take the same names. Nothing of that destroys anything: no file is deleted, and
none is written over but by a longer one. So each line that was once in a file of the folder must be in one at each later look, under whatever
name. One run in four is killed; in the others no temporary file may be left at the end that is not told.
The last line is 'N changes, M looks: ok'.
"""
import os, random, re, resource, shutil, signal, subprocess, sys, time

os.environ['XDG_CONFIG_HOME'] = '/dev/null'
STEPS = 60
LIMIT = 700
NAMES = [f'n{n}' for n in range(60)]
FOLDERS = ['p', 'q', 'r']
DOTS = ['.x', '.y', 'p/.z', '.amishell-execute.7']


class Names:
    """The names that the script has not used yet; those of files and those that were moved away."""

    def __init__(self, random_):
        self.random, self.new = random_, list(NAMES)
        self.files, self.moved = ['a', 'b', 'c', 'p/a', 'q/b', 'big'], set()
        # what stands in T:, and what was lengthened since a program last started
        self.out, self.longer = [], set()

    def fresh(self):
        if self.random.random() < 0.1:
            return self.random.choice(DOTS)
        name = self.new.pop(self.random.randrange(len(self.new))) if self.new else f'm{self.random.randrange(10 ** 9)}'
        return self.random.choice(['', '', 'p/', 'q/']) + name

    def own(self):
        """A name that only the script uses: Copy and Join write over what is there."""
        return f'{self.random.choice(["", "p/", "q/"])}m{self.random.randrange(10 ** 9)}'

    def file(self):
        return self.random.choice(self.files)

    def kept(self):
        """A file that was not moved away, by itself or with its directory: what takes the old place of one writes over it."""
        return self.random.choice([name for name in self.files if not {name, name.split('/')[0]} & self.moved] or ['z'])


def by_way_of_memory(names):
    """A line that moves a file or a directory to T:, or one from there: as it was when a program last started, or it is another one."""
    if names.out and names.random.random() < 0.5:
        old, new = names.out.pop(names.random.randrange(len(names.out))), names.fresh()
        names.files.append(new)
        return [f'Rename {old} {new}']
    old, new = names.file(), f'T:m{names.random.randrange(10 ** 9)}'
    if not names.longer and names.random.random() < 0.3:
        old = names.random.choice(FOLDERS)
    if old in names.longer:
        return []
    names.moved.add(old)
    names.out.append(new)
    return [f'Rename {old} {new}']


def by_script(names, number):
    """Lines of a change by the script. It may fail: the names are those that there were without the other side."""
    token, kind = f't{number}x' + 'y' * 90, names.random.random()
    if kind < 0.1:
        return by_way_of_memory(names)
    if kind < 0.15:
        name = names.file()
        return [names.random.choice([f'Protect {name} rwed', f'Protect {name} +wd', f'Filenote {name} note'])]
    if kind < 0.3:
        name = names.kept() if names.random.random() < 0.5 else names.fresh()
        names.files.append(name)
        names.longer.add(name)
        return [f'Echo >>{name} {token}']
    if kind < 0.6:
        old, new = names.file(), names.fresh()
        names.moved.add(old)
        names.files.append(new)
        if old in names.longer:
            names.longer.add(new)
        return [f'Rename {old} {new}']
    if kind < 0.75:
        new = names.own()
        names.files.append(new)
        return [f'Copy {names.file()} {new} QUIET']
    if kind < 0.85:
        one, two, new = names.file(), names.file(), names.own()
        names.moved.update((one, two))
        return [f'Join {one} {two} AS {new}', f'Rename {one} {names.fresh()}']
    folder, new = names.random.choice(FOLDERS), names.fresh()
    if kind < 0.9:
        return [f'MakeDir {folder}']
    if kind < 0.95:
        old = names.file()
        names.moved.add(old)
        return [f'Rename {folder} {new}', f'Rename {old} {folder}']
    old = names.file()
    names.moved.add(old)
    return [f'Rename {old} {new}', f'MakeDir {old}', f'Rename {new} {old}/{new.split("/")[-1]}']


def by_user(random_, number):
    """Lines for sh of a change of the folder."""
    token, kind = f't{number}x' + 'y' * 90, random_.random()
    name = random_.choice(['', '', 'p/', 'q/']) + random_.choice(NAMES + ['a', 'b', 'c'])
    other = random_.choice(['', 'p/', 'q/']) + random_.choice(NAMES)
    if kind < 0.5:
        return f'[ -L {name} ] || echo {token} >>{name}'
    if kind < 0.6:
        return f'[ -e {other} ] || [ -L {other} ] || mv {name} {other}'
    if kind < 0.7:
        return f'mkdir {random_.choice(FOLDERS)}'
    if kind < 0.75:
        return f'[ -e {name} ] || ln -s nowhere {name}'
    if kind < 0.8:
        return f'[ ! -L {name} ] || rm {name}'
    if kind < 0.9:
        return f'[ ! -f {name} ] || chmod {random_.choice(["600", "640", "755", "444"])} {name}'
    if kind < 0.95:
        return f'echo {token} >>.hidden; echo {token} >>p/.hidden'
    return f'[ -e big ] || (echo {token}; head -c 70000 /dev/zero) >big'


def tokens(folder):
    """Each token of the files, with a file that has it."""
    found = {}
    for above, _, files in os.walk(folder):
        for name in files:
            path = os.path.join(above, name)
            if not os.path.islink(path):
                with open(path, 'rb') as file:
                    found.update((token, path) for token in re.findall(rb't\d+x', file.read()))
    return found


class Looks:
    """What was found in the folder so far."""

    def __init__(self, folder):
        self.folder, self.found, self.looks = folder, tokens(folder), 0

    def look(self, when):
        now = tokens(self.folder)
        lost = {token: path for token, path in self.found.items() if token not in now}
        if lost:
            raise SystemExit(f'{when}: lost {lost}: FAILED')
        self.found, self.looks = now, self.looks + 1


def sh(lines, folder):
    subprocess.run(['sh', '-c', '\n'.join(lines)], cwd=folder, stdin=subprocess.DEVNULL, stderr=subprocess.DEVNULL)


def await_input(pid):
    """Waits until a process that has asked waits for the answer: what changed is written by then."""
    idle = 0
    while idle < 3:
        with open(f'/proc/{pid}/stat') as file:
            idle = idle + 1 if file.read().rsplit(')', 1)[1].split()[0] == 'S' else 0
        time.sleep(0.002)


def limit():
    signal.signal(signal.SIGXFSZ, signal.SIG_IGN)
    resource.setrlimit(resource.RLIMIT_FSIZE, (LIMIT, resource.RLIM_INFINITY))


def run(program, room, random_, count):
    shutil.rmtree(room, ignore_errors=True)
    folder = os.path.join(room, 'shared')
    os.makedirs(folder)
    sh(['mkdir p q'], folder)
    for name in ('a', 'b', 'c', 'p/a', 'q/b'):
        with open(os.path.join(folder, name), 'w') as file:
            file.write(f't{next(count)}x' + 'y' * 90 + '\n')
    names, script, users, asks, done = Names(random_), ['FailAt 100'], [], [], 0
    for _ in range(STEPS):
        for _ in range(random_.randint(0, 3)):
            lines = by_script(names, next(count))
            script += lines
            done += len(lines)
        users.append([by_user(random_, next(count)) for _ in range(random_.randint(0, 2))])
        done += len(users[-1])
        asks.append(random_.random() < 0.4)
        if not asks[-1]:
            names.longer.clear()
        script.append(f'Ask {len(users) - 1}?' if asks[-1] else f'act {len(users) - 1}')
    with open(os.path.join(room, 'script'), 'w') as file:
        file.write('\n'.join(script) + '\n')
    # a program says that it has started, and ends when the change is done: its own standard input is empty
    act, done_at = os.path.join(room, 'act'), os.path.join(room, 'done.')
    with open(act, 'w') as file:
        file.write(f'#!/bin/sh\necho "$1? " | tr -d "\\n"\nuntil [ -e "{done_at}$1" ]; do sleep 0.01; done\n')
    os.chmod(act, 0o755)
    looks = Looks(folder)
    killed_at = random_.randrange(STEPS) if random_.random() < 0.25 else None
    with open(os.path.join(room, 'told'), 'w') as told:
        child = subprocess.Popen([program, '--core', '--host', f'act={act}', '--share', folder, os.path.join(room, 'script')], bufsize=0,
                                 stdin=subprocess.PIPE, stdout=subprocess.PIPE, stderr=told, preexec_fn=limit)
    reached = -1
    for number, lines in enumerate(users):
        if reached < number:
            reached = await_step(child, number, len(users), os.path.join(room, 'told'))
        if reached > number:
            # its program did not start, since something is not written
            continue
        if asks[number]:
            await_input(child.pid)
        looks.look(f'{room}, before step {number}')
        sh(lines, folder)
        looks.found = tokens(folder)
        if number == killed_at:
            child.send_signal(random_.choice([signal.SIGKILL, signal.SIGTERM, signal.SIGINT, signal.SIGHUP]))
        if asks[number] and number != killed_at:
            child.stdin.write(b'n\n')
        open(done_at + str(number), 'w').close()
        if number == killed_at:
            break
    child.stdin.close()
    child.stdout.read()
    child.wait()
    looks.look(f'{room}, at the end')
    if killed_at is None:
        nothing_is_left(room, folder)
    return done, looks.looks


def await_step(child, number, count, told_at):
    """Reads what the script prints up to a step, or to a later one (or the end) if programs do not start; gives which one that is."""
    said = b''
    while True:
        byte = child.stdout.read(1)
        said += byte
        come = re.search(rb'(\d+)\? $', said)
        if not byte or come and int(come[1]) >= number:
            break
    reached = int(come[1]) if byte else count
    # the limit of a file's size cuts the lines of standard error off
    with open(told_at) as told:
        if reached > number and 'no program starts' not in told.read() and b'act: object not found' not in said:
            raise SystemExit(f'the script ended before step {number}: {said[-300:].decode()}: FAILED')
    return reached


def nothing_is_left(room, folder):
    """Looks for temporary files that were not told."""
    with open(os.path.join(room, 'told')) as file:
        told = file.read()
    left = [name for _, _, files in os.walk(folder) for name in files if name.startswith('.amishell-execute.') and name not in told]
    if left:
        raise SystemExit(f'{room}: {left} is left: FAILED')


def main():
    program, room = os.path.abspath(sys.argv[1]), os.path.abspath(sys.argv[2])
    wanted = int(sys.argv[3]) if len(sys.argv) > 3 else 5000
    random_ = random.Random(int(sys.argv[4]) if len(sys.argv) > 4 else 1)
    count = iter(range(10, 10 ** 9))
    done = looks = 0
    while done < wanted:
        more, seen = run(program, room, random_, count)
        done, looks = done + more, looks + seen
    print(f'{done} changes, {looks} looks: ok')


main()
