"""What cannot be read or written, and the file that appears whole or not at all."""
import os
import pty
import resource
import signal
import stat
import subprocess
import tempfile

from common import EXAMPLE, EXAMPLE_FLAT, TOP, Run, cif, content, expect, leftovers, scratch


def expect_trouble(done, *words):
    """One line on standard error that holds the words, status 2, nothing else written."""
    told = done.stderr
    one_line = told.startswith(b"cif: ") and told.count(b"\n") == 1
    expect(done.returncode == 2 and not done.stdout and one_line and all(w in told for w in words), "trouble is told in a line and ends with 2", words, done)
    expect(not leftovers(Run.folder), "trouble leaves no file behind", words, leftovers(Run.folder))


def close(*files):
    """For a program that is started with some files closed."""
    def closing():
        for file in files:
            os.close(file)
    return closing


def test_input():
    for name, why in ((scratch("none.cif"), b"No such file"), (Run.folder, b"Is a directory"), (scratch("good.cif", EXAMPLE) + "/x", b"Not a directory"),
                      ("", b"No such file"), ("/proc/self/mem", b"Input/output error"), (scratch("n" * 300), b"name too long")):
        for task in ("check", "flat", "list", "plot"):
            expect_trouble(cif(task, name), b"cannot read " + name.encode(), why)
    if os.geteuid() == 0:
        print("not tried by root: files without permission to read or write")
    else:
        closed = scratch("closed.cif", EXAMPLE)
        os.chmod(closed, 0)
        expect_trouble(cif("check", closed), b"cannot read", b"Permission denied")
    expect_trouble(cif("check", "-", stdin=None, preexec_fn=close(0)), b"standard input", b"Bad file descriptor")


def test_slow_input():
    reading, writing = os.pipe()
    done = subprocess.Popen([Run.cif, "flat", "-"], stdin=reading, stdout=subprocess.PIPE)
    os.close(reading)
    for byte in EXAMPLE:
        os.write(writing, bytes([byte]))
    os.close(writing)
    expect(done.communicate()[0] == EXAMPLE_FLAT, "a text that comes byte by byte")


def limit_size():
    resource.setrlimit(resource.RLIMIT_FSIZE, (4096, 4096))


def test_output():
    good, large = scratch("good.cif", EXAMPLE), scratch("large.cif", b"LA;" + b"R123456 1 1;" * 20000 + b"E")
    old, fresh = scratch("old.out", b"as it was"), scratch("fresh.out")
    for out, why in ((scratch("nowhere/a.out"), b"No such file"), (Run.folder, b"Is a directory"), (good + "/a.out", b"Not a directory"), ("/proc/a.out", b""),
                     ("/dev/full", b"No space left"), (scratch("n" * 300), b"name too long"), ("", b"No such file")):
        for task in ("flat", "plot"):
            expect_trouble(cif(task, large, "-o", out), b"cannot write " + out.encode(), why)
    for task in ("flat", "plot"):
        for out in (old, fresh):
            expect_trouble(cif(task, large, "-o", out, preexec_fn=limit_size), b"cannot write", b"File too large")
        expect(content(old) == b"as it was" and not os.path.exists(fresh), "a file that does not fit is not written")
    if os.geteuid() != 0:
        os.chmod(old, 0o444)
        expect_trouble(cif("flat", good, "-o", old), b"cannot write", b"Permission denied")


def test_standard_output():
    good, bad = scratch("good.cif", EXAMPLE), scratch("bad.cif", b"X")
    for words in (["flat", good], ["list", good], ["plot", good], ["check", good], ["--help"], ["--version"], ["list", bad]):
        with open("/dev/full", "wb") as full:
            done = cif(*words, stdout=full)
        expect(done.returncode == 2 and b"cannot write standard output: No space left" in done.stderr, "a full standard output", words, done)
        done = cif(*words, stdout=None, preexec_fn=close(1))
        expect(done.returncode == 2 and b"cannot write standard output: Bad file" in done.stderr, "a closed standard output", words, done)
    reading, writing = os.pipe()
    os.close(reading)
    done = cif("flat", good, stdout=writing)
    expect((done.returncode, done.stderr) == (2, b""), "a pipe that nobody reads gets no message", done)
    os.close(writing)


def test_standard_files_closed():
    """No file of the tool may come to stand where a standard file was, or messages would go into it."""
    none = {"stdin": None, "stdout": None, "stderr": None, "preexec_fn": close(0, 1, 2)}
    for text, flat in ((EXAMPLE, EXAMPLE_FLAT), (b"DS1;DF;E", b"E\n")):
        name, out = scratch("quiet.cif", text), scratch("quiet.out", b"")
        done = cif("flat", name, "-o", out, **none)
        expect(done.returncode == 0 and content(out) == flat, "no standard file open, and no message in the file", done, content(out))
    expect(cif("check", scratch("bad.cif", b"X"), stderr=None, preexec_fn=close(2)).returncode == 1, "a refusal with standard error closed")


def mode(path):
    return stat.S_IMODE(os.stat(path).st_mode)


def umask():
    mask = os.umask(0)
    os.umask(mask)
    return mask


def test_output_file():
    good, folder = scratch("good.cif", EXAMPLE), tempfile.mkdtemp(dir=Run.folder)
    out, link = os.path.join(folder, "o" * 250), os.path.join(folder, "link")
    expect(cif("flat", good, "-o", out).returncode == 0 and content(out) == EXAMPLE_FLAT, "a name as long as names can be")
    expect(mode(out) == 0o666 & ~umask(), "a new file has the usual permissions", oct(mode(out)))
    os.chmod(out, 0o640)
    os.symlink(out, link)
    expect(cif("plot", good, "-o", out).returncode == 0 and cif("flat", good, "-o", link).returncode == 0, "a file and a link as OUT")
    expect(os.path.islink(link) and content(out) == EXAMPLE_FLAT and mode(out) == 0o640, "a link stays a link, and permissions stay")
    cif("flat", good, "-o", "plain.out", cwd=folder)
    expect(sorted(os.listdir(folder)) == ["link", "o" * 250, "plain.out"], "nothing else beside it", os.listdir(folder))
    both = scratch("both.cif", EXAMPLE)
    expect(cif("flat", both, "-o", both).returncode == 0 and content(both) == EXAMPLE_FLAT, "FILE as OUT")
    old, other = scratch("old.flat", b"old"), scratch("other name")
    os.link(old, other)
    expect(cif("flat", good, "-o", old).returncode == 0 and content(old) == EXAMPLE_FLAT and content(other) == b"old", "another hard link keeps what it had, as the man page says")
    expect(b"hard links to the old file keep the old content" in content(os.path.join(TOP, "tool", "cif.1")).replace(b"\n", b" "), "and the man page says so")


def test_open_files():
    """OUT that stands for an open file is written to where it is, and what it leads to is not replaced."""
    good, log = scratch("good.cif", EXAMPLE), scratch("log", b"")
    for words, more in ((["-o", "/dev/stdout"], {}), (["-o", "/dev/fd/1"], {}), (["-o", "/proc/self/fd/1"], {}), (["-o", "/dev/stderr"], {"stderr": "stdout"})):
        with open(log, "wb") as out:
            out.write(b"before\n")
            out.flush()
            before = os.fstat(out.fileno()).st_ino
            done = cif("flat", good, *words, stdout=out, stderr=out if more else subprocess.PIPE)
            out.seek(0, os.SEEK_END)
            out.write(b"after\n")
        expect(done.returncode == 0 and content(log) == b"before\n" + EXAMPLE_FLAT + b"after\n" and os.stat(log).st_ino == before, "an open file as OUT", words, done, content(log))
    expect_trouble(cif("flat", good, "-o", "/dev/fd/77"), b"cannot write /dev/fd/77", b"Bad file descriptor")


def test_progress():
    """A terminal is told what is being read. The file is a pipe that gives nothing until the terminal has been told."""
    pipe = scratch("slow.cif")
    os.mkfifo(pipe)
    reading, writing = pty.openpty()
    done = subprocess.Popen([Run.cif, "check", pipe], stdout=subprocess.DEVNULL, stderr=writing)
    os.close(writing)
    with open(pipe, "wb") as text:
        told = b""
        while b".." not in told:
            told += os.read(reading, 4096)
        text.write(EXAMPLE)
    expect(done.wait() == 0 and told.startswith(b"cif: reading " + pipe.encode() + b" .."), "progress on a terminal", told)
    os.close(reading)


def test_special_files():
    good, pipe = scratch("good.cif", EXAMPLE), scratch("pipe")
    expect(cif("flat", good, "-o", "/dev/null").returncode == 0 and stat.S_ISCHR(os.stat("/dev/null").st_mode), "a device stays a device")
    os.mkfifo(pipe)
    reading = os.open(pipe, os.O_RDONLY | os.O_NONBLOCK)  # opened first, so that neither side ever waits for the other
    expect(cif("flat", good, "-o", pipe).returncode == 0 and os.read(reading, 1 << 16) == EXAMPLE_FLAT, "a named pipe as OUT")
    expect(stat.S_ISFIFO(os.stat(pipe).st_mode), "a named pipe stays a pipe")
    os.close(reading)


ENDING = (signal.SIGTERM, signal.SIGINT, signal.SIGHUP, signal.SIGQUIT)


def no_core():
    resource.setrlimit(resource.RLIMIT_CORE, (0, 0))
    for number in ENDING:  # whoever starts the tests in the background has them ignored
        signal.signal(number, signal.SIG_DFL)


def test_mode_from_the_start():
    """Nobody may read the temporary file who may not read what it replaces."""
    folder = tempfile.mkdtemp(dir=Run.folder)
    good, out = scratch("good.cif", EXAMPLE), os.path.join(folder, "a.svg")
    for wanted in (0o600, 0o640, 0o666):
        with open(out, "wb"):
            os.chmod(out, wanted)
        done = subprocess.Popen([Run.held, "flat", good, "-o", out])
        _, status = os.waitpid(done.pid, os.WUNTRACED)
        expect(os.WIFSTOPPED(status) and [mode(os.path.join(folder, name)) for name in leftovers(folder)] == [wanted], "the mode of the temporary file", status)
        done.send_signal(signal.SIGCONT)
        expect(done.wait() == 0 and content(out) == EXAMPLE_FLAT and mode(out) == wanted, "the mode stays", oct(mode(out)))


def test_interrupted():
    """A build that stops before its file is whole gets the signal then, and goes on: no moment has to be met."""
    folder = tempfile.mkdtemp(dir=Run.folder)
    good, out = scratch("good.cif", EXAMPLE), os.path.join(folder, "a.svg")
    for number in ENDING:
        done = subprocess.Popen([Run.held, "plot", good, "-o", out], stderr=subprocess.DEVNULL, preexec_fn=no_core)
        _, status = os.waitpid(done.pid, os.WUNTRACED)
        seen = leftovers(folder)
        if not expect(os.WIFSTOPPED(status) and seen and not os.path.exists(out), "the tool stops while it writes", status, seen):
            continue
        done.send_signal(number)
        done.send_signal(signal.SIGCONT)
        expect(done.wait() in (-number, 128 + number), "a signal ends the tool while it writes", number, done.returncode)
        expect(os.listdir(folder) == [], "and nothing is left behind", os.listdir(folder))


def test_memory():
    for megabytes in (12, 30):
        done = cif("check", "-", text=EXAMPLE, preexec_fn=lambda: resource.setrlimit(resource.RLIMIT_AS, (megabytes << 20, megabytes << 20)))
        expect_trouble(done, b"emory")
