"""The build: in a folder with an odd name, by a compiler of several words, with the user's own flags. What it makes beside the tool: the shared library and
hosts over it. What is installed, and where."""
import os
import re
import shutil
import stat
import struct
import subprocess
import sys

from common import BUILT, EXAMPLE, EXAMPLE_FLAT, MOST, TOP, Run, cif, content, expect, scratch

LINKED = 6  # the tool, the tool with a stop in it, the shared library and three hosts


def ran(*words, **more):
    return subprocess.run(words, stdout=subprocess.PIPE, stderr=subprocess.STDOUT, **more)


def expect_host(program, name, env=None):
    """A host answers with the flat file, or with a line of its own name."""
    def host(text):
        done = subprocess.run(program, input=text, stdout=subprocess.PIPE, stderr=subprocess.PIPE, env=env)
        return done.returncode, done.stdout, done.stderr
    expect(host(EXAMPLE) == (0, EXAMPLE_FLAT, b""), "a host over the shared library", program, host(EXAMPLE))
    expect(host(b"C1;E") == (1, b"", name + b": refused 12 on line 1, column 1\n"), "such a host on a refusal", program, host(b"C1;E"))
    expect(host(b"E".ljust(MOST + 1)) == (1, b"", name + b": refused 1 on line 1, column 1\n"), "such a host on a text that is too long", program)


# ---- the shared library that was built from the proved archive

def dynamic(path):
    """The tags of a library's dynamic part, with their values, and the names of the functions that it offers and asks for."""
    data = content(path)
    offset, size, count = struct.unpack_from("<Q", data, 40)[0], *struct.unpack_from("<HH", data, 58)
    sections = [struct.unpack_from("<IIQQQQIIQQ", data, offset + i * size) for i in range(count)]

    def text(section, at):
        start = sections[section][4] + at
        return data[start:data.index(b"\0", start)].decode()
    tags, offered, wanted = [], set(), set()
    for _, kind, _, _, start, length, link, _, _, entry in sections:
        for at in range(start, start + length, entry) if kind in (6, 11) else ():
            if kind == 6:
                tag, value = struct.unpack_from("<QQ", data, at)
                tags.append((tag, text(link, value) if tag in (1, 14) else value))
            else:
                name, _, _, index = struct.unpack_from("<IBBH", data, at)
                (offered if index else wanted).add(text(link, name))
    return tags, offered - {""}, wanted - {""}  # a section has a nameless one


def expect_library(path):
    """It offers what the header declares and nothing else, asks for the C library alone, and can be laid anywhere in memory as it is."""
    tags, offered, wanted = dynamic(path)
    header = content(os.path.join(TOP, "include", "cif.h")).decode()
    expect(offered == set(re.findall(r"^(?:void|size_t) (cif_\w+)\(", header, re.M)) and len(offered) == 8, "what the shared library offers", offered)
    expect([value for tag, value in tags if tag == 1] == ["libc.so.6"] and wanted <= {"memset", "memcpy", "memmove", "memcmp", "__cxa_finalize", "__gmon_start__",
           "_ITM_deregisterTMCloneTable", "_ITM_registerTMCloneTable"}, "what it asks for", tags, wanted)
    expect([value for tag, value in tags if tag == 14] == ["libcif.so.4"] and os.readlink(path) == "libcif.so.4", "its name", tags)
    expect(all(tag != 22 for tag, _ in tags), "no code has to be changed where it is loaded", tags)


def test_shared_library():
    expect_library(os.path.join(Run.built, "libcif.so"))
    expect_host([os.path.join(Run.built, "host_shared")], b"host")


def test_python_host():
    """Over the proved code, by this Python."""
    script, library = os.path.join(TOP, "examples", "host.py"), os.path.join(Run.built, "libcif.so")
    expect_host([sys.executable, script, library], b"host.py")
    done = ran(sys.executable, script, scratch("none.so"), input=EXAMPLE)
    expect(done.returncode == 1 and done.stdout.startswith(b"host.py: the shared library cannot be loaded: "), "a library that is not there", done)
    expect(content(script).count(b"\n") <= 45, "the example host has at most forty-five lines")


# ---- built and installed elsewhere

def own_archive():
    """The proved archive, where there are the tools to link it; else None."""
    if not shutil.which("cc"):
        print("not tried, since there is no cc: a build in another folder, what it installs, and examples/host.py over that")
        return None
    if not os.path.exists(Run.archive):
        print("not tried, since there is no archive: a build in another folder, what it installs, and examples/host.py over that")
        return None
    return Run.archive


def copied(place):
    for part in ("tool", "include", "examples"):
        shutil.copytree(os.path.join(TOP, part), os.path.join(place, part))
    shutil.copy(os.path.join(TOP, "Makefile"), place)


def test_build_elsewhere():
    archive = own_archive()
    if archive is None:
        return
    place = scratch("it's a \"folder\"")
    copied(place)
    log, compiler = scratch("log.txt", b""), scratch("compiler", b'#!/bin/sh\necho "$@" >>"$LOG"\nshift\nexec cc "$@"\n')
    os.chmod(compiler, 0o755)
    env = {**os.environ, "LOG": log, "CC": compiler + " first", "CFLAGS": "-DSOME_FLAG -DOTHER_FLAG", "LDFLAGS": "-Wl,-O1 -Wl,-O2"}
    done = ran(os.path.join(place, "tool", "build"), archive, env=env)
    if not expect(done.returncode == 0 and done.stdout.endswith(BUILT), "a build in a folder with quotes in its name", done):
        return
    built = ran(os.path.join(place, "target", "tool", "cif"), "flat", "-", input=EXAMPLE)
    expect(built.stdout == EXAMPLE_FLAT, "what was built there works", built)
    lines = content(log).decode().split("\n")[:-1]
    expect(lines and all(line.startswith("first ") and "-DSOME_FLAG -DOTHER_FLAG" in line for line in lines), "CC of two words, and CFLAGS", lines)
    expect(sum("-Wl,-O1 -Wl,-O2" in line for line in lines) == LINKED, "LDFLAGS where programs are linked", lines)
    expect_library(os.path.join(place, "target", "tool", "libcif.so"))
    expect_host([os.path.join(place, "target", "tool", "host_shared")], b"host")
    expect_host([sys.executable, os.path.join(place, "examples", "host.py")], b"host.py")
    expect_package(place)


def expect_package(place):
    """What is installed from there is enough to build a host, by what pkg-config says."""
    prefix = scratch("prefix of it's own")
    done = ran("make", "-C", place, "install", "PREFIX=" + prefix) if shutil.which("make") else ran(os.path.join(place, "tool", "install"), env={**os.environ, "PREFIX": prefix})
    if not expect(done.returncode == 0, "an install", done):
        return
    if not shutil.which("pkg-config"):
        print("not tried, since there is no pkg-config: a host that is built by what it says")
        return
    env = {**os.environ, "PKG_CONFIG_PATH": os.path.join(prefix, "lib", "pkgconfig"), "LD_LIBRARY_PATH": os.path.join(prefix, "lib")}
    version = ran("pkg-config", "--modversion", "cif", env=env).stdout
    expect(b"cif " + version.strip() + b":" in cif("--version").stdout, "the package's version", version)
    program = scratch("packaged host")
    done = ran("sh", "-c", f"eval cc '\"$1\"' $(pkg-config --cflags --libs cif) -o '\"$2\"'", "sh", os.path.join(TOP, "examples", "host.c"), program, env=env)
    if expect(done.returncode == 0, "a host by what pkg-config says", done):
        expect_host([program], b"host", env)


def installed(folder):
    """Every file under a folder: its mode, or where it leads."""
    found = {}
    for top, _, names in os.walk(folder):
        for name in names:
            path = os.path.join(top, name)
            found[os.path.relpath(path, folder)] = os.readlink(path) if os.path.islink(path) else stat.S_IMODE(os.stat(path).st_mode)
    return found


def test_install():
    """The files and their modes, in a prefix and under DESTDIR; what is installed runs, and can be taken away again."""
    place, prefix, stage = scratch("install's place"), scratch("a \"prefix\" of it's own"), scratch("stage")
    copied(place)
    install = os.path.join(place, "tool", "install")
    done = ran(install, env={**os.environ, "PREFIX": prefix})
    expect(done.returncode == 2 and b"nothing is built yet" in done.stdout and not os.path.exists(prefix), "an install before the build", done)
    shutil.copytree(Run.built, os.path.join(place, "target", "tool"), symlinks=True)
    files = {"bin/cif": 0o755, "share/man/man1/cif.1": 0o644, "share/bash-completion/completions/cif": 0o644, "include/cif.h": 0o644, "lib/libcif.a": 0o644, "lib/libcif.so.4": 0o755,
             "lib/libcif.so": "libcif.so.4", "lib/pkgconfig/cif.pc": 0o644}
    env = {**os.environ, "PREFIX": prefix}
    done = ran(install, env=env)
    expect(done.returncode == 0 and done.stdout == f"installed under {prefix}: try {prefix}/bin/cif --help\n".encode(), "an install says what was done", done)
    expect(installed(prefix) == files, "what is installed", installed(prefix))
    link = scratch("a link to cif")
    os.symlink(os.path.join(prefix, "bin", "cif"), link)
    for program in (os.path.join(prefix, "bin", "cif"), link):
        expect(ran(program, "flat", "-", input=EXAMPLE).stdout == EXAMPLE_FLAT, "the installed tool", program)
    done = ran(install, env={**env, "DESTDIR": stage, "PREFIX": "/usr", "LIBDIR": "/usr/lib64"})
    expect(installed(stage) == {"usr/" + name.replace("lib/", "lib64/"): mode for name, mode in files.items()}, "an install under DESTDIR", done, installed(stage))
    package = content(os.path.join(stage, "usr", "lib64", "pkgconfig", "cif.pc")).decode()
    expect("prefix=/usr\nlibdir=/usr/lib64\n" in package and stage not in package, "DESTDIR is written into no file", package)
    for more in ({"PREFIX": "here"}, {"LIBDIR": "lib"}):
        expect(ran(install, env={**env, **more}).returncode == 2, "a folder that does not start with /", more)
    expect(ran(install, "--remove", env=env).returncode == 0 and installed(prefix) == {}, "and taken away", installed(prefix))


def test_fuzz():
    """A short run of the fuzz, so that it fits the tool as it is. It works in a folder of its own under $TMPDIR."""
    folder = scratch("fuzz's folder")
    os.mkdir(folder)
    done = ran(os.path.join(TOP, "tool", "fuzz"), "40", env={**os.environ, "TMPDIR": folder})
    if done.returncode == 2:
        print("not tried, since the fuzz cannot be built by this machine's own compiler:", done.stdout.decode(errors="replace").split("\n")[0])
        return
    expect(done.returncode == 0 and done.stdout == b"fuzz: 40 rounds, with 160 runs of the whole tool, nothing found\n", "the fuzz", done.stdout[-400:])
    expect(os.listdir(folder) == [], "the fuzz removes its folder", os.listdir(folder))
    done = ran(os.path.join(TOP, "target", "tool", "fuzzed", "fuzz"), "1", env={**os.environ, "TMPDIR": os.path.join(folder, "none")})
    expect(done.returncode == 2 and b"no folder can be made in" in done.stdout, "$TMPDIR is where it works", done)


def test_completion():
    """In bash: the tasks, and with each the options that the tool takes with it."""
    if not shutil.which("bash"):
        print("not tried, since there is no bash: completion")
        return
    names = scratch("completed")
    os.mkdir(names)
    for name in ("one two.cif", "other.txt"):
        open(os.path.join(names, name), "wb").close()

    def offered(*words):
        script = '. "$1"; shift; COMP_WORDS=(cif "$@"); COMP_CWORD=$#; _cif; ((${#COMPREPLY[@]} == 0)) || printf "%s\\n" "${COMPREPLY[@]}"'
        done = ran("bash", "-c", script, "bash", os.path.join(TOP, "tool", "cif.bash"), *words, cwd=names)
        return done.stdout.decode().split("\n")[:-1]
    text = cif("--help").stdout.decode()
    tasks = re.findall(r"^  cif (\w+) ", text, re.M)
    options = ["-o", *re.findall(r"^  (--?[\w-]+) ", text, re.M)]
    expect(len(tasks) == 9 and offered("") == [*tasks, "-h", "--help", "-V", "--version"] and offered("co") == ["compare"], "tasks", offered(""))
    for task in tasks:
        taken = [option for option in options if b"not go with" not in cif(task, option).stderr and b"no -o goes" not in cif(task, option).stderr]
        expect(sorted(offered(task, "--") + [o for o in offered(task, "-") if o[1] != "-"]) == sorted(taken), "the options that go with a task", task, offered(task, "-"), taken)
        expect(sorted(offered(task, "o")) == ["one two.cif", "other.txt"], "files", task, offered(task, "o"))
    expect(offered("plot", "--size", "") == [] and offered("plot", "-o", "ot") == ["other.txt"], "what follows an option")
