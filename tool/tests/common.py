"""What all tests of the tool use: the tool itself, files to try it on, and what is done when something is not as it should be."""
import os
import subprocess
import sys

TOP = os.path.dirname(os.path.dirname(os.path.dirname(os.path.abspath(__file__))))
sys.path.append(os.path.join(TOP, "tools"))
MOST = 16777216  # bytes of a text and of a flat file
BUILT = b"target/tool/cif and target/tool/libcif.so are built: try target/tool/cif --help\n"  # the build's last line
EXAMPLE = b"DS 7 50 2; L CM; B 4 2 1 0; DF; C 7 MX T 100 0; E"
EXAMPLE_FLAT = b"LCM;\nB100 50 75 0 -1 0;\nE\n"
EXAMPLE_LIST = b"shape\t1\tCM\tB\t100 50 75 0 -1 0\ntotal\t1\t1\t0\nwindow\t50\t-50\t250\t50\n"


class Run:
    """One run of the tests: the folder that was built and the programs in it, the folder of their files, and what came of it."""
    built = cif = host = held = folder = archive = None
    tried = wrong = 0


def expect(right, what, *shown):
    """Counts a check, and tells of one that fails with what was seen. Answers whether it held."""
    Run.tried += 1
    if not right:
        Run.wrong += 1
        print("not so:", what, *(repr(s)[:400] for s in shown), flush=True)
    return right


def cif(*words, text=None, **more):
    """Runs the tool to its end, however long that takes; `text` is its standard input."""
    more.setdefault("stdout", subprocess.PIPE)
    more.setdefault("stderr", subprocess.PIPE)
    if text is None:
        more.setdefault("stdin", subprocess.DEVNULL)
    return subprocess.run([Run.cif, *words], input=text, **more)


def scratch(name, content=None):
    """A file of the run's folder, written if there is something to write."""
    path = os.path.join(Run.folder, name)
    if content is not None:
        with open(path, "wb") as f:
            f.write(content)
    return path


def content(path):
    with open(path, "rb") as f:
        return f.read()


def leftovers(folder):
    """Temporary files that the tool left behind."""
    return [name for name in os.listdir(folder) if name.endswith(".tmp")]
