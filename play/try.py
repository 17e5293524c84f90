#!/usr/bin/env python3
"""Drives the desk in a real terminal, tmux, and compares what the screen shows.

    try.py PROGRAM FOLDER

PROGRAM is the program behind ./desk play, and FOLDER is empty and takes the files that are made. screens.txt beside this file has
the keys and what is to be seen; the state's file, the end of the program and the clock that runs are tried here. Nothing waits for a
fixed time: a screen is looked at until it shows what it has to, or until the limit.
"""
import os
import re
import shutil
import signal
import subprocess
import sys
import time
import zlib

HERE = os.path.dirname(os.path.abspath(__file__))
sys.path.insert(0, os.path.join(HERE, '..', 'vectors'))
import make

LIMIT = 30  # seconds, on a machine that is busy
BY_HAND = '--clock manual --radio held'
PROMPT = 'shell>'

# The sample, the sample with a first track that is still recorded, and one with a long title and one that is no text.
RUNNING_TRACKS = [(make.WORD, *make.SAMPLE_TRACKS[0][1:]), *make.SAMPLE_TRACKS[1:]]
ODD_TITLES = ['Ümläute über Ümläute und kein Ende'.encode(), b'\x1B[2J\x07\n']
ODD_TRACKS = [(6000, 0, 0, 0, 0, len(ODD_TITLES[0])), (6000, 0, 0, 0, len(ODD_TITLES[0]), len(ODD_TITLES[1]))]
CARDS = {
    'sample': make.SAMPLE_CARD,
    'running': make.card_of(make.SAMPLE_GROUPS, RUNNING_TRACKS, make.SAMPLE_SEGMENTS, make.SAMPLE_TEXT),
    'odd': make.card_of([(0, 0, 0), (0, 0, 2)], ODD_TRACKS, [], b''.join(ODD_TITLES)),
}


class Failed(Exception):
    pass


class Terminal:
    """A window with a shell in it, in which the program is started."""

    def __init__(self, folder):
        self.folder, self.size = folder, None
        self.server = ['tmux', '-u', '-L', 'play-%d' % os.getpid(), '-f', '/dev/null']
        self.environment = dict(os.environ, LC_ALL='C.UTF-8')
        self.environment.pop('TMUX', None)
        # It stays also while there is no window.
        self.tmux('start-server', ';', 'set-option', '-g', 'exit-empty', 'off')

    def tmux(self, *words):
        done = subprocess.run([*self.server, *words], env=self.environment, cwd=self.folder, capture_output=True, text=True)
        if done.returncode != 0:
            raise Failed('tmux %s: %s' % (' '.join(words), done.stderr))
        return done.stdout

    def open(self, columns, rows):
        if self.size is not None:
            self.shut()
        self.size = columns, rows
        self.tmux('new-session', '-d', '-s', 'desk', '-x', str(columns), '-y', str(rows), "exec env PS1='%s ' bash --norc --noprofile" % PROMPT)
        self.sees([PROMPT])

    def shut(self):
        self.tmux('kill-session', '-t', 'desk')
        self.size = None

    def close(self):
        subprocess.run([*self.server, 'kill-server'], env=self.environment, capture_output=True)

    def resize(self, columns, rows):
        self.size = columns, rows
        self.tmux('resize-window', '-t', 'desk', '-x', str(columns), '-y', str(rows))

    def keys(self, *names):
        for name in names:
            self.tmux('send-keys', '-t', 'desk', *([name] if len(name) > 1 else ['-l', '--', name]))

    def command(self, words):
        self.tmux('send-keys', '-t', 'desk', '-l', words)
        self.tmux('send-keys', '-t', 'desk', 'Enter')

    def screen(self):
        return [row.rstrip() for row in self.tmux('capture-pane', '-p', '-t', 'desk').split('\n')[:self.size[1]]]

    def says(self, form):
        return self.tmux('display-message', '-p', '-t', 'desk', form).strip()

    def has(self, lines, limit):
        """Whether the screen comes to show the lines, in this order, each as a row."""
        end = time.monotonic() + limit
        while True:
            rows = iter(self.screen())
            if all(any(is_line(row, line) for row in rows) for line in lines):
                return True
            if time.monotonic() > end:
                return False
            time.sleep(0.02)

    def sees(self, lines):
        if not self.has(lines, LIMIT):
            raise Failed('The screen has to show\n%s\nand shows\n%s' % ('\n'.join(lines), '\n'.join(self.screen())))


def is_line(row, line):
    return row.startswith(line[:-3].rstrip()) if line.endswith('...') else row == line.rstrip()


class Desk:
    """The program in the terminal."""

    def __init__(self, program, folder):
        self.program, self.folder, self.terminal = program, folder, Terminal(folder)
        for name, octets in CARDS.items():
            with open(self.path(name + '.card'), 'wb') as card:
                card.write(octets)

    def path(self, name):
        return os.path.join(self.folder, name)

    def start(self, size='80x24', card='sample', words=BY_HAND, before=''):
        self.terminal.open(*map(int, size.split('x')))
        self.run_again(card, words, before)

    def run_again(self, card='sample', words=BY_HAND, before=''):
        self.terminal.command('clear; %s %s %s.card %s; echo status $?' % (before, self.program, card, words))
        self.terminal.sees([' Desk: generic "Mantelhona", named "Reading room"...'])

    def ends(self, status):
        """The shell is there again, on the page and with the settings that it had."""
        self.terminal.sees(['status %d' % status, PROMPT])
        if self.terminal.says('#{alternate_on} #{cursor_flag} #{wrap_flag}') != '0 1 1':
            raise Failed('The terminal is left on its second page, or without a cursor or a wrap')

    def process(self):
        """The program's own number: what runs in the window's shell."""
        shell = self.terminal.says('#{pane_pid}')
        for name in filter(str.isdigit, os.listdir('/proc')):
            try:
                # Behind the name of a process, which is in brackets: its state, and its parent.
                if read('/proc/%s/stat' % name).rpartition(b')')[2].split()[1].decode() == shell:
                    return int(name)
            except OSError:
                pass  # it has ended
        raise Failed('the program does not run')


# ---- The screens


def screens(desk):
    """Each heading of screens.txt, and what is done and seen under it."""
    heading, lines, count = '', [], 0

    def compare():
        if lines:
            try:
                desk.terminal.sees(lines)
            except Failed as failed:
                raise Failed('%s: %s' % (heading, failed))
        seen = len(lines)
        lines.clear()
        return seen > 0

    with open(os.path.join(HERE, 'screens.txt'), encoding='utf-8') as text:
        for row in text:
            row = row.rstrip('\n')
            if row.startswith('|'):
                lines.append(row[1:])
                continue
            count += compare()
            if row.startswith('=='):
                heading = row.strip('= ')
            elif row.startswith('> start '):
                size, card, *before = row.split()[2:]
                desk.start(size, card, before=' '.join(before))
            elif row.startswith('> keys '):
                desk.terminal.keys(*row.split()[2:])
            elif row.startswith('> resize '):
                desk.terminal.resize(*map(int, row.split()[2].split('x')))
            elif row.startswith('>'):
                raise Failed('not understood: ' + row)
    count += compare()
    return '%d screens' % count


def a_wrong_screen(desk):
    """A line that is wrong by one character, rows in another order, and a row too many are each seen to be wrong."""
    desk.start()
    right = ['    0:00.00 ●───────────┼───────────────────┼──────────────── 1:00.00        1/3', '▸1 Pedal A  generic Paused   0:00.00    –            –']
    wrong = [[right[0].replace('1/3', '2/3')], [right[0].replace('●─', '─●')], right[::-1], right + right[1:], [right[1] + ' Play']]
    desk.terminal.sees(right)
    for lines in wrong:
        if desk.terminal.has(lines, 0.2):
            raise Failed('a wrong screen is taken for right: %s' % lines)
    return '%d wrong screens seen' % len(wrong)


# ---- The state's file

LAYOUT_AT, STATE_AT, ORDER_AT = 8, 16, 16 + 45 + 131


def with_sum(octets):
    return octets[:-4] + zlib.crc32(octets[:-4]).to_bytes(4, 'little')


def with_octet(octets, at, octet):
    return octets[:at] + bytes([octet]) + octets[at + 1:]


def read(path):
    with open(path, 'rb') as file:
        return file.read()


def write(path, octets):
    with open(path, 'wb') as file:
        file.write(octets)


def rows_of_the_desk(desk):
    """The rows that are the desk's own: both players and what is owed."""
    rows = desk.terminal.screen()
    return rows[1:5] + rows[11:15]


def saved_and_restored(desk):
    """Results wait and values are owed; all that is saved, and there again when the program is started again. Then each goes to the device that pressed."""
    state = desk.path('desk.state')
    desk.start(words=BY_HAND + ' --state desk.state')
    desk.terminal.keys('.', 'Space', 't', '2', 'b', 'v', '>')
    desk.terminal.sees(['    0:11.00 ...', ' 2 Pedal B                    ●·   ··                                 ●●   11'])
    before = rows_of_the_desk(desk)
    desk.terminal.keys('w')
    desk.terminal.sees(['desk.state is saved'])
    octets = read(state)
    if octets[:STATE_AT] != b'MCSSTATE' + (4).to_bytes(4, 'little') + zlib.crc32(CARDS['sample']).to_bytes(4, 'little') or octets != with_sum(octets):
        raise Failed('the header or the check sum of the saved state is wrong')
    if len(octets) != 16 + 649 + 4 or os.listdir(desk.folder).count('desk.state') != 1 or any(name.startswith('desk.state.') for name in os.listdir(desk.folder)):
        raise Failed('there is a file beside the saved state, or it has another length')
    desk.terminal.keys('t', 'k', 'k', 'q')
    desk.ends(0)
    desk.run_again(words=BY_HAND + ' --state desk.state')
    desk.terminal.sees(['  Desk    goes on with a state that was saved', 'desk.state is restored'])
    # The pedal in hand is the first one again, and so the generic player.
    if [row[1:] for row in rows_of_the_desk(desk)] != [row[1:] for row in before]:
        raise Failed('the restored state has another picture:\n%s' % '\n'.join(desk.terminal.screen()))
    desk.terminal.keys('h')
    desk.terminal.sees(['▸1 Pedal A  generic Playing  0:11.00    –            Play: Success', ' 2 Pedal B  generic Playing  0:11.00    –            Move Relative: Success'])
    desk.terminal.keys('l')
    desk.terminal.sees(['desk.state is restored'])
    desk.terminal.keys('q')
    desk.ends(0)
    return 'saved and restored'


def refused_states(desk):
    """Files that are no state here are told in words, at the start and by a key, and neither used nor written over."""
    right = read(desk.path('desk.state'))
    files = [
        (with_octet(right, LAYOUT_AT, 3), 'sample', 'holds a state of another layout'),
        (with_octet(right, STATE_AT + 200, right[STATE_AT + 200] ^ 1), 'sample', 'is damaged'),
        (right[:-1], 'sample', 'is damaged'),
        (right, 'running', 'holds a state on another card'),
        (with_sum(with_octet(right, ORDER_AT, 9)), 'sample', 'is refused, 201: the state breaks a rule'),
        (b'a letter', 'sample', 'holds no state of a desk'),
    ]
    start = '▸Generic Paused      group 1 track 0 "Prélude"        In Order Once      speed 0'
    for octets, card, words in files:
        write(desk.path('other.state'), octets)
        desk.start(card=card, words=BY_HAND + ' --state other.state')
        desk.terminal.sees([start, 'other.state ' + words])
        desk.terminal.keys('?', 'l', 'l')
        desk.terminal.sees([start, 'other.state ' + words])
        if not words.startswith('is refused'):
            desk.terminal.keys('w')
            desk.terminal.sees(['other.state %s, and is left as it is' % words])
        desk.terminal.keys('q')
        desk.ends(0)
        if read(desk.path('other.state')) != octets:
            raise Failed('a file that %s was written over' % words)
    desk.start()
    desk.terminal.keys('l')
    desk.terminal.sees(['mantelhona.state is not there'])
    desk.terminal.keys('Q')
    desk.ends(0)
    desk.run_again()
    desk.terminal.sees([start, 'mantelhona.state is there: l restores it'])
    return '%d states refused' % len(files)


# ---- The clock, and the end


def lead(desk):
    """How far the generic player's position is ahead of the clock on the wall, in seconds: the most of some looks, since a look may come late."""
    leads = []
    for _ in range(20):
        minutes, seconds = re.match(r' *(\d+):(\d\d\.\d\d) ', desk.terminal.screen()[2]).groups()
        leads.append(60 * int(minutes) + float(seconds) - time.monotonic())
    return max(leads)


def the_clock_that_runs(desk):
    """By the clock on the wall the position goes on as time does, and what is owed goes out. Each key has the desk told the time, so that what is below
    a hundredth of a second would be seen to be missing if it were not kept."""
    desk.start(words='')
    desk.terminal.keys('Space')
    desk.terminal.sees(['▸1 Pedal A  generic Playing  0:00.00    –            Play: Success'])
    for attempt in range(3):  # a machine that is busy may stop the program for a moment, and hardly three times
        before, began = lead(desk), time.monotonic()
        while time.monotonic() < began + 5:
            desk.terminal.keys(*'1' * 20)
        ahead = lead(desk) - before
        if abs(ahead) <= 0.4:
            break
    else:
        raise Failed('in %.2f s the position was %.2f s ahead' % (time.monotonic() - began, ahead))
    return 'time by the wall'


def the_end(desk):
    """By q, by Ctrl-C and by signals the program ends and the terminal is as it was; where the terminal is gone, it ends too."""
    ways = [('q', 0), ('C-c', 0), (signal.SIGTERM, 128 + signal.SIGTERM), (signal.SIGINT, 128 + signal.SIGINT), (signal.SIGHUP, 128 + signal.SIGHUP)]
    desk.terminal.open(80, 24)
    desk.terminal.command('stty -a >before.txt; echo settings')
    desk.terminal.sees(['settings', PROMPT])
    for way, status in ways:
        desk.run_again()
        if isinstance(way, str):
            desk.terminal.keys(way)
        else:
            os.kill(desk.process(), way)
        desk.ends(status)
        desk.terminal.command('stty -a >after.txt; echo settings')
        desk.terminal.sees(['settings', PROMPT])
        if read(desk.path('before.txt')) != read(desk.path('after.txt')):
            raise Failed('after %s the terminal has other settings' % way)
    desk.run_again()
    process = desk.process()
    desk.terminal.shut()
    end = time.monotonic() + LIMIT
    while os.path.exists('/proc/%d' % process):
        if time.monotonic() > end:
            raise Failed('the program goes on without its terminal')
        time.sleep(0.02)
    return '%d ends' % (len(ways) + 1)


def without_a_terminal(desk):
    """What it is called with otherwise, and without a terminal: a line that says so, and status 2."""
    card, usage = desk.path('sample.card'), 'play CARD [--state FILE] [--clock manual] [--radio held] '
    calls = [([], usage), (['--help'], usage), ([card, '--clock'], usage), ([card, '--clock', 'fast'], usage), ([card, '--state', ''], usage),
             ([card, 'more'], usage), ([desk.path('none.card')], 'play: cannot read '), ([card], 'play: standard input and standard output have to be a terminal')]
    for words, told in calls:
        done = subprocess.run([desk.program, *words], stdin=subprocess.DEVNULL, capture_output=True, text=True, timeout=LIMIT)
        if done.returncode != 2 or done.stdout != '' or not done.stderr.startswith(told):
            raise Failed('play %s: status %d, %s%s' % (' '.join(words), done.returncode, done.stdout, done.stderr))
    return '%d wrong calls' % len(calls)


def main():
    program, folder = map(os.path.abspath, sys.argv[1:])
    shutil.rmtree(folder, ignore_errors=True)
    os.makedirs(folder)
    desk, told = Desk(program, folder), []
    try:
        for trial in (without_a_terminal, a_wrong_screen, screens, saved_and_restored, refused_states, the_clock_that_runs, the_end):
            told.append(trial(desk))
    except Failed as failed:
        print(failed)
        return 1
    finally:
        desk.terminal.close()
    print(', '.join(told))
    return 0


sys.exit(main())
