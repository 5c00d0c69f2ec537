"""Makes hitlist fail in each way that it can at the bench, and looks at what it says.

    python3 crates/hitlist/failures.py [PROGRAM]     the program is crates/hitlist/out/hitlist, as
                                                     rt run builds it there, unless another is named
"""
import fcntl
import os
import pty
import subprocess
import sys
import tempfile
import time
import tty

ROOT = os.path.dirname(os.path.dirname(os.path.dirname(os.path.abspath(__file__))))
PROGRAM = sys.argv[1] if len(sys.argv) > 1 else os.path.join(ROOT, 'crates/hitlist/out/hitlist')
HEAD = b'G92X600.Y600.\nX1.Y1.T1\n'
PLATE = HEAD + b'G50\n'
LISTING = b'ENTRIES 1\n1 100 100 1 P\n1 1 1 1\n'
# 4,096 hits: one, and a grid of 64 by 64 without its start
LONG = HEAD + b'G36I1.P63J1.K63\nG50\n'
# 4,096 hits with 99 tools: each once, and the last for what is left
TOOLS = b'G92X600.Y600.\n' + b''.join(b'X1.Y1.T%d\n' % tool for tool in range(1, 100)) + b'X1.\n' * 3997 + b'G50\n'
USAGE = b'usage: hitlist [PLATE]\n'

failures = 0


def look(what, seen, wanted):
    global failures
    if seen != wanted:
        failures += 1
        print('%s: %r, not %r' % (what, seen, wanted))


def run(*words, text=b'', stdout=subprocess.PIPE, **more):
    """What the program prints on standard output and on standard error."""
    if 'stdin' not in more:
        more['input'] = text
    done = subprocess.run([PROGRAM, *words], stdout=stdout, stderr=subprocess.PIPE, timeout=60, **more)
    return done.stdout, done.stderr


def cut(reason):
    return b'hitlist: the list is cut short: standard output: %s\n' % reason


def unread(reason, name='standard input'):
    return b'', b'hitlist: %s: %s\n' % (name.encode(), reason)


def writes():
    """Standard output is full, closed, read by nobody, or does not wait."""
    with open('/dev/full', 'wb') as full:
        look('a full device', run(text=PLATE, stdout=full)[1], cut(b'No space left on device'))
        look('a full device, a refusal', run(text=b'X', stdout=full)[1], cut(b'No space left on device'))
    look('closed output', run(text=PLATE, stdout=None, preexec_fn=lambda: os.close(1))[1], cut(b'Bad file descriptor'))
    reader, writer = os.pipe()
    os.close(reader)
    look('output that nobody reads', run(text=PLATE, stdout=writer)[1], cut(b'Broken pipe'))
    os.close(writer)
    reader, writer = os.pipe()
    fcntl.fcntl(writer, fcntl.F_SETFL, os.O_NONBLOCK)
    fcntl.fcntl(writer, fcntl.F_SETPIPE_SZ, 4096)
    look('output that does not wait', run(text=LONG, stdout=writer)[1], cut(b'Resource temporarily unavailable'))
    os.close(writer)
    look('what it took', os.read(reader, 13), b'ENTRIES 4096\n')
    os.close(reader)


def reads():
    """Standard input is a directory, closed, open for writing alone, or fails in the middle."""
    folder = os.open(ROOT, os.O_RDONLY)
    look('a directory', run(stdin=folder), unread(b'Is a directory'))
    os.close(folder)
    look('closed input', run(stdin=None, preexec_fn=lambda: os.close(0)), unread(b'Bad file descriptor'))
    with open('/dev/null', 'wb') as other:
        look('input to write to', run(stdin=other), unread(b'Bad file descriptor'))
    # a terminal gives its first lines, and an error once its other end is gone
    outer, inner = pty.openpty()
    tty.setraw(inner)
    os.write(outer, HEAD)
    child = subprocess.Popen([PROGRAM], stdin=inner, stdout=subprocess.PIPE, stderr=subprocess.PIPE)
    os.close(inner)
    time.sleep(0.5)
    os.close(outer)
    look('an error in the middle', child.communicate(timeout=60), unread(b'Input/output error'))


def names():
    """A file by name, and what is none."""
    with tempfile.TemporaryDirectory() as folder:
        plate, lost = os.path.join(folder, 'plate.nc'), os.path.join(folder, 'lost.nc')
        with open(plate, 'wb') as f:
            f.write(PLATE)
        look('a file', run(plate), (LISTING, b''))
        look('standard input', run(text=PLATE), (LISTING, b''))
        look('a lost file', run(lost), unread(b'No such file or directory', lost))
        look('a directory by name', run(folder), unread(b'Is a directory', folder))
        look('a name too long', run('x' * 5000), unread(b'File name too long', 'the name of the plate'))
        look('a name not in UTF-8', run(b'\xff'), unread(b'invalid filename', 'the name of the plate'))
        look('an empty name', run(''), unread(b'No such file or directory', ''))
        for words in ['--help'], ['-'], [plate, plate]:
            out, err = run(*words)
            look(' '.join(words), (out, err[:len(USAGE)]), (b'', USAGE))


def lengths():
    """Texts about as long as a text may be, and lists up to the longest."""
    for size in 4095, 4096, 4097, 59999, 60000:
        look('%d bytes' % size, run(text=PLATE + b'\n' * (size - len(PLATE))), (LISTING, b''))
    look('60,001 bytes', run(text=PLATE + b'\n' * (60001 - len(PLATE))), (b'REFUSED 1 LINE 0\n', b''))
    look('no bytes', run(), (b'REFUSED 1 LINE 0\n', b''))
    for count in 0, 1, 2, 100, 127, 128, 1023, 1024, 2000, 4095:
        blocks = b'X1.Y1.T1\n' * count
        lines = run(text=b'G92X600.Y600.\n' + blocks + b'G50\n')[0].split(b'\n')
        tools = [b'1 %d 1 %d' % (count, count)] if count else []
        look('%d entries' % count, (lines[0], lines[count + 1:]), (b'ENTRIES %d' % count, tools + [b'']))
    lines = run(text=LONG)[0].split(b'\n')
    look('4,096 entries', (lines[0], lines[4096:]), (b'ENTRIES 4096', [b'4096 100 6400 1 P', b'1 4096 1 4096', b'']))
    lines = run(text=TOOLS)[0].split(b'\n')
    tools = [b'%d 1 %d %d' % (tool, tool, tool) for tool in range(1, 99)] + [b'99 3998 99 4096']
    look('99 tools', (lines[0], lines[4096:]), (b'ENTRIES 4096', [b'4096 100 100 99 P'] + tools + [b'']))
    look('4,097 entries', run(text=LONG.replace(b'G50', b'X1.\nG50'))[0], b'REFUSED 17 LINE 4\n')


for part in writes, reads, names, lengths:
    part()
print('each failure is told' if failures == 0 else '%d differ' % failures)
sys.exit(1 if failures else 0)
