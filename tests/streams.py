"""What the programs do where reading, writing or the arguments fail. Whatever happens, what came out is a prefix of the
right output, and a line on standard error says what is missing."""
import contextlib
import fcntl
import os
import resource
import select
import signal
import subprocess
import tempfile
import threading
import time

SECONDS = 20
UNREAD = b'standard input cannot be read\n'
UNWRITTEN = b'standard output cannot be written\n'
PIECE = 4096
PIPE = 65536  # what a pipe holds
QUIET = 0.05


class Run:
    """A program that has ended: its exit status, standard output as far as it was a pipe, and standard error. One that had
    to be killed has no exit status, or that of the signal, and one that printed too early has none: it is never right."""

    def __init__(self, code, out, err):
        self.code, self.out, self.err = code, out, err

    def is_right(self, wanted, said=b''):
        return (self.code, self.out, self.err) == (0, wanted, said)

    def told(self, line, wanted=b'', before=b''):
        """It ended by itself, said the line, perhaps behind another one, and wrote a prefix of what was wanted."""
        return (self.code, self.err) == (0, before + line) and wanted.startswith(self.out)


def run(command, text=b'', stdout=subprocess.PIPE, seconds=SECONDS, **more):
    """With a text as standard input, unless it is None."""
    try:
        done = subprocess.run(command, input=text, stdout=stdout, stderr=subprocess.PIPE, timeout=seconds, **more)
    except subprocess.TimeoutExpired as late:
        return Run(None, late.stdout or b'', b'not ended after %d seconds\n' % seconds)
    return Run(done.returncode, done.stdout or b'', done.stderr)


@contextlib.contextmanager
def started(command, **more):
    """A program that is fed and read piece by piece. It is killed when its time is over, which ends every wait for it."""
    with subprocess.Popen(command, stdin=subprocess.PIPE, stderr=subprocess.PIPE, bufsize=0, **more) as p:
        watch = threading.Timer(SECONDS, p.kill)
        watch.start()
        try:
            yield p
        finally:
            watch.cancel()
            watch.join()
            p.kill()


def feed(p, pieces, pause=0):
    """Writes pieces to a program's standard input, as far as it reads them."""
    with contextlib.suppress(BrokenPipeError):
        for piece in pieces:
            p.stdin.write(piece)
            time.sleep(pause)


def unblock(fd):
    fcntl.fcntl(fd, fcntl.F_SETFL, fcntl.fcntl(fd, fcntl.F_GETFL) | os.O_NONBLOCK)


def unready(command, front):
    """A non-blocking input that has some bytes, and more to come."""
    out, into = os.pipe()
    fcntl.fcntl(into, fcntl.F_SETPIPE_SZ, 1 << 20)
    unblock(out)
    os.write(into, front)
    try:
        return run(command, None, stdin=out)
    finally:
        os.close(out)
        os.close(into)


def slow_input(command, text, size=PIECE):
    """An input that comes in pieces, some of a byte. Nothing may be printed before its end."""
    with started(command, stdout=subprocess.PIPE) as p:
        feed(p, (text[k:k + 1] for k in range(3)), 0.02)
        feed(p, (text[at:at + size] for at in range(3, len(text), size)), 0.002)
        is_early = p.stdout in select.select([p.stdout], [], [], QUIET)[0]
        out, err = p.communicate()
        return Run(None if is_early else p.returncode, out, err)


def slow_output(command, text, is_blocking):
    """A reader that waits first, and then reads in pieces. If the output does not block, it waits for the end, so that what
    fits into the pipe is all that can be written."""
    out, into = os.pipe()
    if not is_blocking:
        unblock(into)
    with started(command, stdout=into) as p:
        os.close(into)
        feed(p, [text])
        p.stdin.close()
        if is_blocking:
            time.sleep(0.2)
        else:
            p.wait()
        pieces = []
        while piece := os.read(out, PIECE):
            pieces.append(piece)
        os.close(out)
        return Run(p.wait(), b''.join(pieces), p.stderr.read())


def left_output(command, text, size, preparation=None):
    """A reader that takes a piece, or nothing, and goes away."""
    out, into = os.pipe()
    with started(command, stdout=into, preexec_fn=preparation) as p:
        os.close(into)
        feed(p, [text])
        piece = b''
        if size:
            p.stdin.close()
            piece = os.read(out, size)
        os.close(out)
        p.stdin.close()
        return Run(p.wait(), piece, p.stderr.read())


def ignore_pipe():
    signal.signal(signal.SIGPIPE, signal.SIG_IGN)


def limit_files(size):
    signal.signal(signal.SIGXFSZ, signal.SIG_IGN)
    resource.setrlimit(resource.RLIMIT_FSIZE, (size, size))


def into_file(command, text, size):
    """Into a file that takes only so many bytes."""
    with tempfile.TemporaryFile() as file:
        done = run(command, text, file, preexec_fn=lambda: limit_files(size))
        file.seek(0)
        return Run(done.code, file.read(), done.err)


def arguments(program, usage, lists, text):
    """(good, words) for each list of arguments that is refused."""
    for words in lists:
        yield run([program, *words], text).told(usage), '%s with arguments %r' % (program, words)


def inputs(command, text, wanted, counts=()):
    """(good, words) for each kind of input that any length may have. The text's output is wanted; counts are more numbers
    of its bytes after which nothing comes."""
    name = ' '.join(command)
    directory = os.open('/', os.O_RDONLY)
    yield run(command, None, stdin=directory).told(UNREAD), name + ' on a directory'
    os.close(directory)
    yield run(command, None, preexec_fn=lambda: os.close(0)).told(UNREAD), name + ' on a closed input'
    for count in (0, 1, len(text) // 2, len(text), *counts):
        yield unready(command, text[:count]).told(UNREAD), '%s on a non-blocking input with %d bytes' % (name, count)
    yield slow_input(command, text).is_right(wanted), name + ' on a slow input'


def long_inputs(command, text, refused, said=b''):
    """(good, words) for inputs about 65,536 bytes and above, where that is refused, which is also said."""
    name = ' '.join(command)
    zeros = os.open('/dev/zero', os.O_RDONLY)
    yield run(command, None, stdin=zeros).is_right(refused, said), name + ' on an endless input'
    os.close(zeros)
    long = text + b'x' * (65536 - len(text))
    yield unready(command, long[:-1]).told(UNREAD), name + ' on a non-blocking input with 65535 bytes'
    yield unready(command, long).is_right(refused, said), name + ' on a non-blocking input with 65536 bytes'


def full_pipe():
    """Both ends of a pipe that does not block and takes nothing."""
    out, into = os.pipe()
    unblock(into)
    with contextlib.suppress(BlockingIOError):
        while os.write(into, bytes(PIECE)):
            pass
    return out, into


def unwritable(command, text, name, before=b''):
    """(good, words) for each output that takes nothing. Perhaps another line is said before that."""
    full = os.open('/dev/full', os.O_WRONLY)
    directory = os.open('/', os.O_RDONLY)
    out, into = full_pipe()
    for file, kind in ((full, '/dev/full'), (directory, 'a directory'), (into, 'a full pipe that does not block')):
        yield run(command, text, file).told(UNWRITTEN, before=before), '%s to %s' % (name, kind)
        os.close(file)
    os.close(out)
    done = run(command, text, None, preexec_fn=lambda: os.close(1))
    yield done.told(UNWRITTEN, before=before), name + ' to a closed output'
    # a Rattle program ignores SIGPIPE from its start on, so that the write fails
    for preparation, also in ((None, ''), (ignore_pipe, ', SIGPIPE ignored')):
        done = left_output(command, text, 0, preparation)
        yield done.told(UNWRITTEN, before=before), '%s to a reader that has gone%s' % (name, also)


def refusal(command, text, is_said):
    """(good, words) for each output that takes no refusal of the text, which may be said on standard error too."""
    name = '%s refusing %d bytes' % (' '.join(command), len(text))
    done = run(command, text)
    said = done.out if is_said else b''
    yield done.out.startswith(b'refused ') and done.is_right(done.out, said), name
    yield from unwritable(command, text, name, said)


def outputs(command, text, wanted):
    """(good, words) for each kind of output that any length may have."""
    name = ' '.join(command)
    yield from unwritable(command, text, name)
    for size in {0, 5, 4096, 65536, len(wanted) - 1}:
        if size < len(wanted):
            done = into_file(command, text, size)
            good = done.told(UNWRITTEN, wanted) and len(done.out) == size
            yield good, '%s to a file of at most %d bytes' % (name, size)
    yield slow_output(command, text, True).is_right(wanted), name + ' to a slow output'


def long_outputs(command, text, wanted):
    """(good, words) where a pipe takes a front part only."""
    name = ' '.join(command)
    yield len(wanted) > PIPE + PIECE, name + ' prints more than a pipe and a piece'
    yield slow_output(command, text, False).told(UNWRITTEN, wanted), name + ' to a slow non-blocking output'
    for preparation, also in ((None, ''), (ignore_pipe, ', SIGPIPE ignored')):
        done = left_output(command, text, PIECE, preparation)
        yield done.told(UNWRITTEN, wanted), '%s to a reader that goes away%s' % (name, also)
