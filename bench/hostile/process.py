#!/usr/bin/env python3
"""Gives hostile inputs to the built program, a process for each call: process.py [SEEDS [SEED]]. GIB names another program than the one
that ../../gib built, with its words. Each seed gives a source, a text, a packed file, an image and a journal, made by the grammar, and damaged
ones of each. After each call it looks at the status, at the line and the output, at the files, at the time and at the peak of memory."""
import os
import random
import subprocess
import sys
import tempfile
import time

# processor time of a call, and the time after which it counts as hanging
SECONDS = 60
HANGING = 900
KILOBYTES = 2_000_000
STATUSES = {
    'check': {0, 1}, 'core': {0, 1}, 'code': {0, 1}, 'pack': {0, 1, 8}, 'show': {0, 1, 8}, 'plain': {0, 1, 3, 8, 9},
    'run': {0, 1, 3, 4, 8, 9}, 'trace': {0, 1, 3, 4, 8, 9}, 'replay': {0, 1, 3, 4, 8, 9}, 'gen': {0, 3, 4}, 'walk': {2},
}
# The whole line of a status, or its front.
LINES = {0: b'', 1: b'gib: source: ', 2: b'gib: usage\n', 3: b'gib: depth\n', 4: b'gib: chunks\n', 8: b'gib: input: ', 9: b'gib: division by zero\n',
         10: b'gib: result longer than 16777216 bytes\n'}
TREE = 'data Tree = Leaf Int | Node Tree Tree ; '
KNOWN = [
    (TREE + 'fun add1 (t : Tree) : Tree = case t of { Leaf n -> Leaf (n + 1) ; Node l r -> let par a = add1 l and b = add1 r in Node a b } ; '
     'main (t : Tree) : Tree = add1 t ;', '(Node (Leaf 1) (Node (Leaf 2) (Leaf -3)))'),
    (TREE + 'fun sum (t : Tree) : Int = case t of { Leaf n -> n ; Node l r -> let par a = sum l and b = sum r in (a + b) } ; '
     'main (t : Tree) : Int = sum t ;', '(Node (Leaf 9223372036854775807) (Leaf 1))'),
    ('data List = Nil | Cons Int List ; data Two = Two List List ; fun copy (l : List) : List = case l of { Nil -> Nil ; '
     'Cons x r -> Cons x (copy r) } ; main (l : List) : Two = let par a = copy l and b = copy l in Two a b ;', '(Cons 1 (Cons 2 Nil))'),
    ('fun down (n : Int) : Int = if (n < 1) then 0 else (1 + down (n - 1)) ; main (n : Int) : Int = down n ;', '7'),
    ('main (b : Bool) : Bool = if b then False else True ;', 'True'),
]
TELLING = [0, 1, 2, 127, 128, 253, 254, 255] + list(b' \n(){};=-09Aa|:@')


class Grammar:
    """Derives programs from the productions of the grammar, by chance and mostly without types."""

    def __init__(self, rng):
        self.rng = rng

    def some(self, front):
        return front + self.rng.choice('abc')

    def type(self):
        return self.rng.choice(['Int', 'Bool', self.some('T')])

    def atom(self, fuel):
        if fuel > 0 and self.rng.random() < 0.5:
            return '( ' + self.expression(fuel - 1) + ' )'
        return self.rng.choice([self.some('x'), self.some('K'), 'True', 'False', str(self.rng.choice([0, 1, 7, 2 ** 63 - 1, 2 ** 63]))])

    def expression(self, fuel):
        e = lambda: self.expression(fuel - 1)
        kind = self.rng.randrange(7) if fuel > 0 else 6
        if kind == 0:
            return 'let %s = %s in %s' % (self.some('x'), e(), e())
        if kind == 1:
            return 'let par %s = %s and %s = %s in %s' % (self.some('x'), e(), self.some('x'), e(), e())
        if kind == 2:
            return 'if %s then %s else %s' % (e(), e(), e())
        if kind == 3:
            arms = [' '.join([self.some('K')] + [self.some('x') for _ in range(self.rng.randrange(3))]) + ' -> ' + e()
                    for _ in range(self.rng.randrange(1, 4))]
            return 'case %s of { %s }' % (self.some('x'), ' ; '.join(arms))
        if kind == 4:
            return '( %s %s %s )' % (e(), self.rng.choice(['+', '-', '*', '==', '<']), e())
        if kind == 5:
            return ' '.join([self.some(self.rng.choice('fK'))] + [self.atom(fuel - 1) for _ in range(self.rng.randrange(1, 4))])
        return self.atom(fuel)

    def program(self):
        parts = []
        for name in self.rng.sample('abc', self.rng.randrange(3)):
            cons = [' '.join(['K' + con] + [self.type() for _ in range(self.rng.randrange(4))])
                    for con in self.rng.sample('abc', self.rng.randrange(1, 4))]
            parts.append('data T%s = %s ;' % (name, ' | '.join(cons)))
        for name in self.rng.sample('abc', self.rng.randrange(3)):
            parts.append('fun f%s ( x%s : %s ) : %s = %s ;' % (name, name, self.type(), self.type(), self.expression(3)))
        parts.append('main ( xa : %s ) : %s = %s ;' % (self.type(), self.type(), self.expression(3)))
        return ' '.join(parts)


def damaged(rng, data):
    for _ in range(rng.randrange(1, 4)):
        at = rng.randrange(len(data) + 1)
        more = rng.randrange(9)
        kind = rng.randrange(5)
        byte = bytes([rng.choice(TELLING)])
        if kind == 0:
            data = data[:at] + byte + data[at + 1:]
        elif kind == 1:
            data = data[:at] + data[at + more:]
        elif kind == 2:
            data = data[:at] + data[at:at + more] + data[at:]
        elif kind == 3 and rng.random() < 0.3:
            data = data[:at]
        else:
            data = data[:at] + byte + data[at:]
    return data


class Trial:
    def __init__(self, program, seed, tally):
        self.program, self.seed, self.tally = program, seed, tally
        self.rng = random.Random(seed)
        self.files = {}

    def tell(self, what, words):
        self.tally['faults'] += 1
        print('seed %d: %s: %s' % (self.seed, what, ' '.join(words)), flush=True)

    def call(self, words, writes=()):
        """Calls with these words; answers status, output and line. Only the files of `writes` may change."""
        for name, data in self.files.items():
            with open(name, 'wb') as file:
                file.write(data)
        begun = time.monotonic()
        with open('.out', 'wb') as out, open('.err', 'wb') as err:
            process = subprocess.Popen(self.program + words, stdin=subprocess.DEVNULL, stdout=out, stderr=err)
            while True:
                pid, status, usage = os.wait4(process.pid, os.WNOHANG)
                if pid:
                    break
                if time.monotonic() - begun > HANGING:
                    process.kill()
                    _, status, usage = os.wait4(process.pid, 0)
                    self.tell('no end after %d seconds' % HANGING, words)
                    break
                time.sleep(0.0005)
        if usage.ru_utime + usage.ru_stime > SECONDS:
            self.tell('more than %d seconds of processor time' % SECONDS, words)
        process.returncode = status
        code = os.waitstatus_to_exitcode(status)
        with open('.out', 'rb') as out, open('.err', 'rb') as err:
            out, err = out.read(), err.read()
        self.tally[code] = self.tally.get(code, 0) + 1
        self.tally['calls'] += 1
        if usage.ru_maxrss > KILOBYTES:
            self.tell('more than %d kilobytes' % KILOBYTES, words)
        self.judge(words, code, out, err, writes)
        return code, out, err

    def judge(self, words, code, out, err, writes):
        if code not in STATUSES[words[0]]:
            self.tell('status %d' % code, words)
        is_line = err.startswith(LINES.get(code, b'gib: ')) and err.count(b'\n') == 1 and err.endswith(b'\n')
        if is_line == (code == 0) or (code == 0 and err):
            self.tell('no line, or more than one, or that of another status', words)
        if (code == 0) != (out != b'') or (code == 0 and not out.endswith(b'\n')):
            self.tell('an output without a value, or a value without one', words)
        for name, data in self.files.items():
            with open(name, 'rb') as file:
                if name not in writes and file.read() != data:
                    self.tell('the file %s has changed' % name, words)
        here = set(os.listdir('.')) - {'.out', '.err'} - set(self.files)
        for name in here - set(writes):
            self.tell('the file %s was made' % name, words)
        for name in here:
            with open(name, 'rb') as file:
                self.made = file.read()
            os.remove(name)

    def options(self, depth):
        r = self.rng
        words = depth + ['--chunks', str(r.randrange(16, 80)), '--fork', str(r.choice([0, 1, 4, 64])),
                         '--workers', str(r.choice([1, 2, 3, 8]))]
        return words + (['--skips'] if r.random() < 0.4 else [])

    def pack(self):
        if self.call(['pack', 'source', 'text', 'made'], ['made'])[0] == 0:
            self.files['packed'] = self.made
            if self.call(['show', 'source', 'packed'])[0] != 0:
                self.tell('what was packed is not shown', ['show'])

    def run(self):
        depth = ['--depth', str(self.rng.choice([1, 3, 50]))]
        meant = self.call(['plain', 'source', 'packed'] + depth)
        ran = self.call(['run', 'source', 'packed', '--image', 'made'] + depth, ['made'])
        if ran != meant and ran[0] != 4:
            self.tell('run is not plain', depth)
        if ran[0] == 0:
            self.files['image'] = self.made
            if self.call(['show', 'source', 'image']) != ran:
                self.tell('the image is not shown as the value', depth)
        words = ['run', 'source', 'packed'] + self.options(depth)
        ran = self.call(words)
        if ran != meant and ran[0] != 4:
            self.tell('a run by workers is not plain', words)

    def trace(self):
        self.made = None
        traced = self.call(['trace', 'source', 'packed', 'made'] + self.options(['--depth', str(self.rng.choice([1, 2, 10, 50]))]), ['made'])
        if traced[0] in (0, 3, 9):
            self.files['journal'] = self.made
            if self.call(['replay', 'source', 'packed', 'journal']) != traced:
                self.tell('the replay does not end as the trace', ['replay'])

    def input(self):
        r = self.rng
        source, text = r.choice(KNOWN)
        if r.random() < 0.5:
            source = Grammar(r).program()
        self.files = {'source': source.encode(), 'text': text.encode(), 'packed': b'', 'image': b'', 'journal': b''}
        self.tally['inputs'] += 10
        verdict = self.call(['check', 'source'])
        for command in ('core', 'code'):
            if self.call([command, 'source'])[::2] != verdict[::2]:
                self.tell('another verdict than check', [command])
        self.pack()
        self.run()
        self.trace()
        self.call(['gen', str(r.randrange(2 ** 31)), str(r.randrange(6)), 'made', 'made'], ['made'])
        self.call(['walk', 'source'])
        for name in ('image', 'journal', 'text', 'packed', 'source'):
            self.files[name] = damaged(r, self.files[name])
            if name == 'image':
                self.call(['show', 'source', 'image'])
            elif name == 'journal':
                self.call(['replay', 'source', 'packed', 'journal', '--image', 'made'], ['made'])
            elif name == 'text':
                self.pack()
            else:
                self.run()


def main():
    seeds = int(sys.argv[1]) if len(sys.argv) > 1 else 100
    seed = int(sys.argv[2]) if len(sys.argv) > 2 else 1
    root = os.path.join(os.path.dirname(os.path.abspath(__file__)), '..', '..')
    program = os.environ.get('GIB', os.path.join(root, 'crates', 'gib', 'out', 'gib')).split()
    tally = {'calls': 0, 'inputs': 0, 'faults': 0}
    with tempfile.TemporaryDirectory() as room:
        os.chdir(room)
        number = seed
        try:
            while number < seed + seeds:
                Trial(program, number, tally).input()
                number += 1
        except KeyboardInterrupt:
            pass
        os.chdir('/')
    statuses = {key: tally[key] for key in sorted(key for key in tally if isinstance(key, int))}
    print('%d seeds from %d, %d inputs, %d calls by status %s, %d faults'
          % (number - seed, seed, tally['inputs'], tally['calls'], statuses, tally['faults']))
    sys.exit(1 if tally['faults'] else 0)


if __name__ == '__main__':
    main()
