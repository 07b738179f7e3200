"""The proved programs: whether they are there as the sources stand, and proving and building them where they are not.

Proving takes minutes, so it is done once: a stamp below target/ has the hash of all that the programs were made of, and of the
programs themselves. As long as it fits, `rt` is not asked."""
import fcntl
import hashlib
import os
import re
import select
import shutil
import subprocess
import time

# What of a crate's folder `rt` makes a program of; edits that must fail are no part of it.
MADE_OF = ('src', 'specs', 'proofs', 'stdin', 'stdout', 'args', 'status', 'data')

# Proves a program and builds it, in its crate's folder, and then runs it: so it is asked for nothing but its help.
PROVE = ('rt', 'run', '--', '--help')

# Seconds between two lines where no terminal shows one that changes.
BETWEEN_LINES = 30

# A crate's time goes by the length of its code and by how many crates are below it, with a start that all have: by these the
# estimate stays within two in ten of the time that is taken.
START_BYTES, START_CRATES = 1000, 20


class NotReady(Exception):
    """Why the programs can't be run, with what to do about it."""


def ready(root, programs, screen):
    """Proves and builds the programs unless they are there as the sources stand."""
    crates = needed(root, programs)
    if stamped(root, programs, crates):
        return
    if shutil.which('rt') is None:
        raise NotReady('the programs are not proved and built yet, and `rt` is not on the path: install the Rattle toolchain, '
                       'add its bin/ to PATH, and run this again')
    os.makedirs(os.path.join(root, 'target'), exist_ok=True)
    with open(os.path.join(root, 'target', 'declock.lock'), 'w') as lock:
        fcntl.flock(lock, fcntl.LOCK_EX)
        # Who waited for the lock may find all done.
        if not stamped(root, programs, crates):
            prove(root, programs, Progress(weights(root, crates), listed(root)), screen)
            stamp(root, programs, crates)


def built(root, program):
    """Where `rt` leaves a program."""
    return os.path.join(root, 'crates', program, 'out', program)


def needed(root, programs):
    """The programs and the repository's crates below them, sorted."""
    return sorted(closure(listed(root), programs))


def listed(root):
    """What crates.txt says: each crate, and those that it uses."""
    below = {}
    with open(os.path.join(root, 'crates.txt'), encoding='utf-8') as file:
        for line in file:
            # Behind the name may stand what kind of crate it is.
            head, colon, rest = line.split('#')[0].partition(':')
            if colon:
                below[head.split()[0]] = rest.split()
    return below


def closure(below, names):
    """These crates and all below them; libraries of the toolchain are none of the repository's."""
    found, waiting = set(), list(names)
    while waiting:
        name = waiting.pop()
        if name in below and name not in found:
            found.add(name)
            waiting.extend(below[name])
    return found


def files_of(root, crate):
    """The files that a crate is made of, sorted."""
    found = []
    for part in MADE_OF:
        path = os.path.join(root, 'crates', crate, part)
        if os.path.isfile(path):
            found.append(path)
        for folder, _, names in os.walk(path):
            found.extend(os.path.join(folder, name) for name in names)
    return sorted(found)


def fingerprint(root, programs, crates):
    """The hash of the sources and of the programs; none while a program is missing."""
    made = [built(root, name) for name in programs]
    if not all(map(os.path.isfile, made)):
        return None
    whole = hashlib.sha256()
    for path in [os.path.join(root, 'crates.txt')] + [p for c in crates for p in files_of(root, c)] + made:
        with open(path, 'rb') as file:
            data = file.read()
        whole.update(('%s %d\n' % (os.path.relpath(path, root), len(data))).encode())
        whole.update(data)
    return whole.hexdigest()


def stamp_path(root):
    """Where the stamp is kept."""
    return os.path.join(root, 'target', 'declock.stamp')


def stamped(root, programs, crates):
    """Whether the programs are there as the sources stand."""
    try:
        with open(stamp_path(root)) as file:
            return file.read().strip() == fingerprint(root, programs, crates)
    except OSError:
        return False


def stamp(root, programs, crates):
    """Keeps what the programs were made of."""
    with open(stamp_path(root), 'w') as file:
        file.write('%s\n' % fingerprint(root, programs, crates))


def weights(root, crates):
    """What share of the time each crate is expected to take."""
    below = listed(root)
    code = {c: sum(os.path.getsize(p) for p in files_of(root, c) if p.endswith('.rt')) for c in crates}
    return {c: (START_BYTES + code[c]) * (START_CRATES + len(closure(below, [c]))) for c in crates}


def prove(root, programs, progress, screen):
    """Runs `rt` for each program and shows how far it is; its lines are kept, and a refusal is told with where the prover's words are."""
    screen.say('proving and building the programs, once: fifteen to thirty minutes by the machine, less if some of it is there')
    with open(os.path.join(root, 'target', 'declock.log'), 'wb') as kept:
        for program in programs:
            status = proved(root, program, progress, screen, kept)
            if status != 0:
                break
    screen.end()
    if status != 0:
        raise NotReady(progress.failure() or '`rt` ended with status %d and proved nothing; what it said is in target/declock.log' % status)
    screen.say(progress.ended(time.monotonic()))


def proved(root, program, progress, screen, kept):
    """Proves and builds one program; the exit status of `rt`."""
    rt = subprocess.Popen(PROVE, cwd=os.path.join(root, 'crates', program), stdin=subprocess.DEVNULL, stdout=subprocess.PIPE,
                          stderr=subprocess.STDOUT)
    for line in lines(rt.stdout.fileno()):
        if line is not None:
            kept.write(line)
            progress.hear(line.decode('utf-8', 'replace'), time.monotonic())
        screen.show(progress.told(time.monotonic()))
    return rt.wait()


def lines(descriptor):
    """The lines that come in, and None for each second without one, so that the time shown goes on."""
    rest = b''
    while True:
        if not select.select([descriptor], [], [], 1)[0]:
            yield None
            continue
        part = os.read(descriptor, 65536)
        if not part:
            if rest:
                yield rest
            return
        *whole, rest = (rest + part).split(b'\n')
        for line in whole:
            yield line + b'\n'


class Progress:
    """How far `rt` is, by the lines that it says."""

    def __init__(self, expected, below):
        self.weights, self.waiting, self.below = expected, dict(expected), below
        self.began = self.last = time.monotonic()
        self.proved_weight, self.failed = 0, []
        self.crate, self.is_new = None, True

    def hear(self, line, now):
        """Takes in a line; those of other kinds say nothing of how far it is."""
        begun = re.match(r'rt: chose --jobs \d+ for (\S+)', line)
        checked = re.match(r'crate (\S+): modules loaded=\d+ checked=(\d+)', line)
        running = re.match(r'rt: running out/([^\s;]+)', line)
        if begun:
            self.crate, self.is_new = begun.group(1), True
            self.there(closure(self.below, [self.crate]) - {self.crate})
        elif checked:
            self.is_new = checked.group(2) != '0'
        elif line.startswith('logic=proved ') and self.crate in self.waiting:
            weight = self.waiting.pop(self.crate)
            # What was proved before takes no time, and would make the rest look quick.
            if self.is_new:
                self.proved_weight += weight
            self.last = now
        elif line.startswith('logic=not-proved') and self.crate:
            self.failed.append(self.crate)
        elif running:
            self.there(closure(self.below, [running.group(1)]))

    def there(self, crates):
        """These are proved: those of which `rt` said nothing, by an earlier run."""
        for name in crates:
            self.waiting.pop(name, None)

    def left(self, now):
        """The seconds that are left, by what the crates so far have taken; none before there is something to go by."""
        if not self.proved_weight:
            return None
        pace = (self.last - self.began) / self.proved_weight
        return max(0, pace * sum(self.waiting.values()) - (now - self.last))

    def told(self, now):
        """How far it is, in words."""
        left = self.left(now)
        return '%d of %d crates proved, %s%s' % (len(self.weights) - len(self.waiting), len(self.weights), minutes(now - self.began),
                                                 '' if left is None else ', about %s left' % roughly(left))

    def ended(self, now):
        """That all is proved, in words."""
        return 'all %d crates proved, in %s' % (len(self.weights), minutes(now - self.began))

    def failure(self):
        """Which crate is not proved, and where the prover says why."""
        if not self.failed:
            return None
        return 'crate %s is not proved, so nothing was run: target/declock.log says why' % self.failed[0]


def minutes(seconds):
    """A time in words."""
    whole = int(seconds)
    return '%d min %d s' % divmod(whole, 60) if whole >= 60 else '%d s' % whole


def roughly(seconds):
    """A time that is a guess, in words."""
    return '%d min' % round(seconds / 60) if seconds >= 90 else '%d s' % (10 * round(seconds / 10))


class Screen:
    """Shows one line that changes on a terminal, and a line now and then elsewhere."""

    def __init__(self, stream, between=BETWEEN_LINES):
        self.stream, self.between = stream, between
        self.terminal, self.next, self.shown = stream.isatty(), time.monotonic() + between, None

    def write(self, text):
        """Writes at once."""
        self.stream.write(text)
        self.stream.flush()

    def say(self, words):
        """A line that stays."""
        self.write('declock: %s\n' % words)

    def show(self, words):
        """A line that the next one replaces."""
        now = time.monotonic()
        if self.terminal and words != self.shown:
            self.write('\rdeclock: %s\x1b[K' % words)
            self.shown = words
        elif not self.terminal and now >= self.next:
            self.next = now + self.between
            self.say(words)

    def end(self):
        """Leaves the line that changes."""
        if self.shown:
            self.write('\r\x1b[K')
            self.shown = None
