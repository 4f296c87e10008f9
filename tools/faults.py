#!/usr/bin/env python3
"""Tries the built program against faults of the system round it.

    tools/faults.sh [PROGRAM [KIND..]]

Each run is compared with what FORMATS.md and GUARANTEES.md promise: its exit status, its last line, and that all that was written is the text
of a run without faults, or what such a fault may leave of it. Nothing written is lost. The kinds are the functions of KINDS, each with its rule
in its first line; with none named all are tried. A line is printed for each kind: how many runs, and how many ended with each status (a signal
is a negative status). The exit status is 1 where anything was off. No part of the gate.

faultruns.py starts the program. faults.c, compiled by cc, stands in front of the C library of the program where single calls are to fail. Where this is run as root, a small
disk is mounted, and files without the right to read them are tried as the user nobody. It takes five to ten minutes.
"""
import collections
import os
import random
import resource
import select
import shutil
import signal
import socket
import subprocess
import sys
import tempfile
import threading
import time

sys.dont_write_bytecode = True
from faultruns import LIMIT, PAGE, Bench, Off, Run, begins, bound, shown  # noqa: E402

NOBODY = 65534
MEMORY = b"fault memory\n"
AT_READ = {name: b"fault read %s\n" % name.encode() for name in ["plant", "script", "record"]}


# ---- the kinds

def memory(bench):
    """Each request for memory is refused in turn, alone and with all later ones: status 9, no block, and `fault memory`; nothing at all where
    main wants it for the words."""
    for name, words in [*bench.rows.items(), ("make", ["make", "0"])]:
        _, text = bench.right(words)
        requests = bench.run(words, {}).calls["memory"]
        bench.notes.append("%s: %d requests" % (name, requests))
        for later in ["", ".."]:
            announced = False
            for at in range(1, requests + 1):
                run = bench.run(words, {"MEMORY": "%d%s" % (at, later)})
                is_good = run.status == 9 and (run.out == MEMORY or not run.out and not announced)
                announced = announced or run.out == MEMORY
                bench.count(run, is_good, "%s, request %d%s" % (name, at, later))
            run = bench.run(words, {"MEMORY": "%d%s" % (requests + 1, later)})
            bench.must(run, 0, text, "%s, past the last request" % name)


def space(bench):
    """An address space that can't grow past a bound, in steps of a page, once the stack is there: status 9 with `fault memory` or nothing, or
    the right text; never a signal."""
    for name, words in bench.rows.items():
        _, text = bench.right(words)
        need = bench.stack(words)
        at, enough = 0, 0
        while enough < 8 and at < 16 * 2 ** 20:
            run = bench.run(words, {"STACK": need, "SPACE": at})
            if run.status == 0 and not enough:
                bench.notes.append("%s: %d KiB of heap" % (name, at // 1024))
            enough = enough + 1 if run.status == 0 else 0
            is_good = run.out == text if run.status == 0 else run.status == 9 and run.out in (b"", MEMORY)
            bench.count(run, is_good, "%s, %d bytes" % (name, at))
            at += PAGE
        if not enough:
            bench.offs.append("%s: not enough with 16 MiB" % name)


def ulimit(bench):
    """`ulimit -v` in steps of 16 KiB: the program isn't begun, or ends with 9 or the right text. A signal comes only where the stack can't grow:
    where it is grown before main the same run ends with 9 or 0, or it can't be grown so far."""
    for name, words in bench.rows.items():
        _, text = bench.right(words)
        need = bench.stack(words)
        enough = 0
        for size in range(2 ** 20, 32 * 2 ** 20, 2 ** 14):
            limit = bound(resource.RLIMIT_AS, size)
            run = bench.run(words, {}, limit)
            if not run.began:
                is_good = run.out == b""
            elif run.status == -signal.SIGSEGV:
                again = bench.run(words, {"STACK": need}, limit)
                is_good = begins(run.out, text) and (not again.grew or again.status in (0, 9))
            else:
                is_good = run.out == text if run.status == 0 else run.status == 9 and run.out in (b"", MEMORY)
            bench.count(run, is_good, "%s, ulimit -v %d" % (name, size // 1024))
            if run.status == 0 and not enough:
                bench.notes.append("%s: ulimit -v %d" % (name, size // 1024))
            enough = enough + 1 if run.status == 0 else 0
            if enough == 8:
                break


def stack(bench):
    """`ulimit -s` in steps of 16 KiB: the right text, or, the one exception of all, a signal, where the stack can't grow; what was written till then
    is a prefix of the right text."""
    for name, words in bench.rows.items():
        _, text = bench.right(words)
        need = bench.stack(words)
        bench.notes.append("%s: ulimit -s %d" % (name, need // 1024))
        for size in range(4 * PAGE, need + 2 ** 18, 4 * PAGE):
            run = bench.run(words, None, bound(resource.RLIMIT_STACK, size))
            is_good = run.out == text if run.status == 0 else run.status == -signal.SIGSEGV and size < need and begins(run.out, text)
            bench.count(run, is_good, "%s, ulimit -s %d" % (name, size // 1024))


def failed_writes(bench):
    """Each write fails in turn, alone and with all later ones: status 4, and just what was written before; also /dev/full."""
    for name, words in bench.rows.items():
        _, text = bench.right(words)
        for most in [0, 50]:
            writes = bench.run(words, {"MOST": most}).calls["writes"]
            for later in ["", ".."]:
                length = -1
                for at in range(1, writes + 1):
                    run = bench.run(words, {"MOST": most, "WRITE": "%d%s" % (at, later)})
                    is_good = run.status == 4 and begins(run.out, text) and length < len(run.out) < len(text)
                    length = len(run.out)
                    bench.count(run, is_good, "%s, write %d%s of %d" % (name, at, later, writes))
        with open("/dev/full", "wb") as full:
            bench.must(bench.run(words, stdout=full), 4, None, "%s, /dev/full" % name)


def file_size(bench):
    """A file that may not grow past a bound (and SIGXFSZ ignored), byte by byte up to 600 and then in steps: it is filled to the bound, and the
    status is 4; or it holds the right text, and the status is 0. Where the signal isn't ignored it ends the program."""
    def limited(size):
        def before():
            signal.signal(signal.SIGXFSZ, signal.SIG_IGN)
            resource.setrlimit(resource.RLIMIT_FSIZE, (size, size))
        return before

    path = os.path.join(bench.folder, "out")
    for name, words in bench.rows.items():
        _, text = bench.right(words)
        for size in sorted({*range(min(600, len(text) + 2)), *range(600, len(text), 97), *range(len(text) - 2, len(text) + 2)}):
            with open(path, "wb") as file:
                run = bench.run(words, None, limited(size), stdout=file)
            with open(path, "rb") as file:
                run.out = file.read()
            bench.must(run, 0 if size >= len(text) else 4, text[:size], "%s, a file of %d bytes" % (name, size))
        with open(path, "wb") as file:
            run = bench.run(words, None, bound(resource.RLIMIT_FSIZE, 40), stdout=file)
        with open(path, "rb") as file:
            run.out = file.read()
        bench.must(run, -signal.SIGXFSZ, text[:40], "%s, a file of 40 bytes, and the signal" % name)


def full_disk(bench):
    """A disk of 16 pages with 0 to 15 of them free: it is filled to the last byte, and the status is 4. Only as root."""
    if os.geteuid():
        bench.notes.append("not tried: only root can mount a disk")
        return
    disk = os.path.join(bench.folder, "disk")
    os.mkdir(disk)
    subprocess.run(["mount", "-t", "tmpfs", "-o", "size=64k", "faults", disk], check=True)
    try:
        for words in [["make", "0"], ["replay", bench.s1, bench.made, bench.empty]]:
            _, text = bench.right(words)
            for free in range(16):
                path = os.path.join(disk, "out")
                with open(os.path.join(disk, "taken"), "wb") as taken, open(path, "wb") as file:
                    taken.write(bytes(PAGE * (16 - free)))
                    taken.flush()
                    run = bench.run(words, stdout=file)
                with open(path, "rb") as file:
                    run.out = file.read()
                bench.must(run, 4, text[: PAGE * free], "%s with %d pages free" % (shown(words), free))
                os.unlink(path)
                os.unlink(os.path.join(disk, "taken"))
    finally:
        subprocess.run(["umount", disk], check=True)


def closed_pipes(bench):
    """Nobody reads the output, or someone who stops: status 4, and what came till then is a prefix of the right text. `| head -1` too."""
    long_rows = [["make", "0"], ["replay", bench.s1, bench.made, bench.empty]]
    for words in [*bench.rows.values(), *long_rows]:
        reader, writer = os.pipe()
        os.close(reader)
        bench.must(bench.run(words, stdout=writer), 4, None, "%s, nobody reads" % shown(words))
        os.close(writer)
    for words in long_rows:
        _, text = bench.right(words)
        for wanted in [1, 2, 11, 100, 4095, 4096, 4097, 10000, 100000, 400000]:
            process = bench.start_narrow(words)
            out = process.stdout.read(wanted)
            process.stdout.close()
            run = Run(process.wait(LIMIT), out)
            bench.must(run, 4, text[:wanted], "%s, read up to %d" % (shown(words), wanted))
        line = 'exec 3>&1; { "$0" "$@"; echo $? >&3; } | head -1 >&2'
        done = subprocess.run(["sh", "-c", line, bench.program] + words, stdout=subprocess.PIPE, stderr=subprocess.PIPE, check=False)
        bench.must(Run(int(done.stdout), done.stderr), 4, text[: text.index(b"\n") + 1], "%s | head -1" % shown(words))


def closed_at_start(bench):
    """Standard input, output or error is closed, or the output is open for reading alone: status 4 where it can't be written, else the right text."""
    for name, words in bench.rows.items():
        _, text = bench.right(words)
        for closed in [[0], [2], [0, 2], [1], [0, 1], [1, 2], [0, 1, 2]]:
            run = bench.run(words, None, lambda them=closed: [os.close(it) for it in them])
            if 1 in closed:
                bench.must(run, 4, b"", "%s, closed %r" % (name, closed))
            else:
                bench.must(run, 0, text, "%s, closed %r" % (name, closed))
        with open(os.devnull, "rb") as file:
            bench.must(bench.run(words, stdout=file), 4, None, "%s, output that can't be written" % name)


def interrupted(bench):
    """Each read and write is interrupted by a signal so and so often before it is done: the right text."""
    for name, words in bench.rows.items():
        status, text = bench.right(words)
        for retry in [1, 2, 3, 100]:
            for most in [0, 1, 7]:
                bench.must(bench.run(words, {"RETRY": retry, "MOST": most}), status, text, "%s, %d times" % (name, retry))


def storms(bench):
    """Signals that interrupt calls (with a handler that begins none again), and stops that go on, while the record comes by a slow pipe and the
    output goes by one: the right text."""
    words = ["replay", bench.s1, "/dev/stdin", bench.acts]
    with open(bench.station, "rb") as file:
        record = file.read()
    _, text = bench.right(["replay", bench.s1, bench.station, bench.acts])
    for kind in ["interrupts", "stops"]:
        for piece in [1, 50, 700]:
            process = bench.start_narrow(words, {"SIGNAL": 1}, stdin=subprocess.PIPE)
            ended = threading.Event()
            thread = threading.Thread(target=storm, args=(process, kind, ended))
            time.sleep(0.05)
            thread.start()
            for at in range(0, len(record), piece):
                process.stdin.write(record[at : at + piece])
                process.stdin.flush()
                time.sleep(0.0005 * min(piece, 20))
            process.stdin.close()
            out = b""
            while len(out) < len(text):
                got = process.stdout.read1(100)
                if not got:
                    break
                out += got
                time.sleep(0.002)
            ended.set()
            thread.join()
            out += process.stdout.read()
            process.stdout.close()
            bench.must(Run(process.wait(LIMIT), out), 0, text, "%s, pieces of %d" % (kind, piece))


def late_writer(bench):
    """A pipe by its name that nobody writes to yet, while signals interrupt the opening: the right text once somebody does."""
    files = {"plant": bench.s1, "record": bench.station, "script": bench.acts}
    _, text = bench.right(["replay", *files.values()])
    for it, source in files.items():
        path = os.path.join(bench.folder, "late." + it)
        os.mkfifo(path)
        process = bench.start(["replay", *[path if at == it else name for at, name in files.items()]], {"SIGNAL": 1})
        ended = threading.Event()
        thread = threading.Thread(target=storm, args=(process, "interrupts", ended))
        time.sleep(0.1)
        thread.start()
        time.sleep(0.2)
        feed(path, source, 100)
        ended.set()
        thread.join()
        out = process.communicate(timeout=LIMIT)[0]
        bench.must(Run(process.returncode, out), 0, text, "%s by a pipe with a late writer" % it)


def storm(process, kind, ended):
    while not ended.is_set():
        for number in [signal.SIGUSR1] if kind == "interrupts" else [signal.SIGSTOP, signal.SIGCONT]:
            process.send_signal(number)
            time.sleep(0.0005)


def short_calls(bench):
    """A read or a write moves a few bytes at a time: the right text."""
    for name, words in [*bench.rows.items(), ("make", ["make", "0"])]:
        status, text = bench.right(words)
        for most in [1, 2, 7, 100, 4095]:
            bench.must(bench.run(words, {"MOST": most}), status, text, "%s, %d bytes a call" % (name, most))


def failed_reads(bench):
    """Each read, and each opening, fails in turn, alone and with all later ones: status 3 and the line of the file that it was of; before it, where
    that is the record, the blocks of all cycles that were over with the bytes read till then, and nothing else."""
    for name, words in bench.rows.items():
        status, text = bench.right(words)
        files = ["plant", "script", "record"][: 3 if words[0] == "replay" else 1]
        paths = [words[1], words[-1], words[-2]]
        for most in [0, 100, 37]:
            owners = read_by(paths[: len(files)], files, most)
            reads = bench.run(words, {"MOST": most}).calls["reads"]
            if reads != len(owners):
                bench.offs.append("%s: %d reads where %d are due" % (name, reads, len(owners)))
            for later in ["", ".."]:
                for at, (file, done) in enumerate(owners, 1):
                    run = bench.run(words, {"MOST": most, "READ": "%d%s" % (at, later)})
                    before = blocks_of(bench, words, done) if file == "record" else b""
                    bench.must(run, 3, before + AT_READ[file], "%s, read %d%s" % (name, at, later))
            bench.must(bench.run(words, {"MOST": most, "READ": "%d.." % (reads + 1)}), status, text, "%s, past the last read" % name)
        for at, file in enumerate(files, 1):
            for later in ["", ".."]:
                run = bench.run(words, {"OPEN": "%d%s" % (at, later)})
                bench.must(run, 3, AT_READ[file], "%s, opening %d%s" % (name, at, later))


def read_by(paths, files, most):
    """The file of each read in order, and how many bytes of it were read before."""
    owners = []
    for path, file in zip(paths, files):
        piece = PAGE if file == "record" else 16 * PAGE
        length = os.path.getsize(path)
        step = min(piece, most or piece)
        owners += [(file, done) for done in [*range(0, length, step), length]]
    return owners


def blocks_of(bench, words, done):
    """The blocks of the cycles that are over with the first so many bytes of a replay's record."""
    with open(words[2], "rb") as file:
        record = file.read(done)
    with open(words[3], "rb") as file:
        script = file.read()
    _, text = bench.right(["replay", words[1]], [record[: record.rfind(b"\n") + 1], script])
    starts = starts_in(text)
    return text[: starts[-1]] if starts else b""


def two_faults(bench):
    """A write fails while the line of another fault is written: status 4, and a prefix of what would have been written, that line included."""
    words = bench.rows["replay of three cycles"]
    requests = bench.run(words, {}).calls["memory"]
    reads = bench.run(words, {"MOST": 7}).calls["reads"]
    firsts = [{"READ": at} for at in [1, 2, *range(reads - 30, reads + 1)]] + [{"MEMORY": at} for at in [requests // 2, requests]]
    for first in firsts:
        first["MOST"] = 7
        whole = bench.run(words, first)
        for at in range(1, whole.calls["writes"] + 1):
            run = bench.run(words, {**first, "WRITE": at})
            is_good = run.status == 4 and begins(run.out, whole.out) and len(run.out) < len(whole.out)
            bench.count(run, is_good, "%r, then write %d" % (first, at))


def odd_files(bench):
    """Files that are no files, or can't be read: `fault read ..` of that file. What has an end or passes a limit is read as any file."""
    station, empty = bench.station, bench.empty
    names = {
        "a folder": bench.folder,
        "none there": os.path.join(bench.folder, "none"),
        "below a file": os.path.join(station, "x"),
        "a long name": "x" * 300,
        "an empty name": "",
        "a lone hyphen": "-",
        "a loop of links": os.path.join(bench.folder, "loop"),
        "a socket": os.path.join(bench.folder, "socket"),
        "memory that isn't there": "/proc/self/mem",
    }
    os.symlink(names["a loop of links"], names["a loop of links"])
    listener = socket.socket(socket.AF_UNIX)
    listener.bind(names["a socket"])
    for what, name in names.items():
        bench.must(bench.run(["check", name]), 3, AT_READ["plant"], "%s as a plant, checked" % what)
        bench.must(bench.run(["trial", name, "0"]), 3, AT_READ["plant"], "%s as a plant, tried" % what)
        bench.must(bench.run(["replay", name, station, empty]), 3, AT_READ["plant"], "%s as a plant" % what)
        bench.must(bench.run(["replay", bench.s1, station, name]), 3, AT_READ["script"], "%s as a script" % what)
        bench.must(bench.run(["replay", bench.s1, name, empty]), 3, AT_READ["record"], "%s as a record" % what)
        bench.must(bench.run(["replay", name, name, name]), 3, AT_READ["plant"], "%s as each" % what)
    listener.close()
    _, text = bench.right(["replay", bench.s1, station, empty])
    bench.must(bench.run(["replay", bench.s1, "/dev/null", empty]), 0, b"end 0\n", "/dev/null as a record")
    bench.must(bench.run(["replay", bench.s1, station, "/dev/null"]), 0, text, "/dev/null as a script")
    bench.must(bench.run(["check", "/dev/null"]), 5, b"fault plant missing plant.version\n", "/dev/null as a plant")
    bench.must(bench.run(["check", "/dev/zero"]), 10, b"fault long plant\n", "/dev/zero as a plant")
    bench.must(bench.run(["replay", bench.s1, station, "/dev/zero"]), 10, b"fault long script\n", "/dev/zero as a script")
    bench.must(bench.run(["check", bench.program]), 5, b"fault plant toml\n", "the program as a plant")


def forbidden(bench):
    """A file that may not be read: `fault read ..` of that file."""
    folder = os.path.join(bench.folder, "shut")
    os.mkdir(folder)
    as_nobody = as_user(NOBODY) if not os.geteuid() else None
    # Copies, since the user nobody may be shut out of the folder above.
    names = [os.path.join(folder, os.path.basename(it)) for it in [bench.s1, bench.station, bench.acts]]
    plant, record, script = names
    program = shutil.copy(bench.program, os.path.join(folder, "program"))
    for name, source in zip(names, [bench.s1, bench.station, bench.acts]):
        shutil.copy(source, name)
    os.chmod(program, 0o755)
    words = ["replay", plant, record, script]
    _, text = bench.right(["replay", bench.s1, bench.station, bench.acts])
    program, bench.program = bench.program, program
    try:
        bench.must(bench.run(words, None, as_nobody), 0, text, "all may be read")
        for name, file in zip(names, ["plant", "record", "script"]):
            os.chmod(name, 0)
            bench.must(bench.run(words, None, as_nobody), 3, AT_READ[file], "%s without the right to it" % file)
            os.chmod(name, 0o644)
        os.chmod(plant, 0)
        bench.must(bench.run(["check", plant], None, as_nobody), 3, AT_READ["plant"], "a plant without the right to it, checked")
        bench.must(bench.run(["trial", plant, "0"], None, as_nobody), 3, AT_READ["plant"], "a plant without the right to it, tried")
    finally:
        bench.program = program


def as_user(number):
    def before():
        os.setgroups([])
        os.setgid(number)
        os.setuid(number)
    return before


def pipes(bench):
    """Plant, script and record by pipes, alone and together, in pieces of any size, and as /dev/stdin: the right text."""
    files = {"plant": bench.s1, "record": bench.station, "script": bench.acts}
    _, text = bench.right(["replay", *files.values()])
    for them in [["plant"], ["script"], ["record"], ["plant", "script", "record"]]:
        for piece in [1, 7, PAGE, 100000]:
            names = dict(files)
            for it in them:
                names[it] = os.path.join(bench.folder, "pipe." + it)
                os.mkfifo(names[it])
            process = bench.start(["replay", *names.values()])
            threads = [threading.Thread(target=feed, args=(names[it], files[it], piece)) for it in them]
            for it in threads:
                it.start()
            run = Run(None, process.communicate(timeout=LIMIT)[0])
            run.status = process.returncode
            for it in threads:
                it.join()
            bench.must(run, 0, text, "%s by a pipe in pieces of %d" % (" and ".join(them), piece))
            for it in them:
                os.unlink(names[it])
    for it in files:
        words = ["replay", *[("/dev/stdin" if at == it else name) for at, name in files.items()]]
        with open(files[it], "rb") as file:
            bench.must(bench.run(words, stdin=file), 0, text, "%s as /dev/stdin, a file" % it)
        for piece in [1, 100000]:
            process = bench.start(words, stdin=subprocess.PIPE)
            feeder = threading.Thread(target=feed_into, args=(process.stdin, files[it], piece))
            feeder.start()
            out = process.stdout.read()
            feeder.join()
            process.stdout.close()
            bench.must(Run(process.wait(LIMIT), out), 0, text, "%s as /dev/stdin, in pieces of %d" % (it, piece))


def feed(name, source, piece):
    with open(name, "wb", buffering=0) as pipe:
        feed_into(pipe, source, piece)


def feed_into(pipe, source, piece):
    with open(source, "rb") as file:
        text = file.read()
    for at in range(0, len(text), piece):
        pipe.write(text[at : at + piece])
        if hasattr(pipe, "flush"):
            pipe.flush()
    pipe.close()


def block_by_block(bench):
    """A record that comes line by line: the block of a cycle is there once the first line of the next cycle was sent, before anything more is."""
    with open(bench.made, "rb") as file:
        lines = file.read().splitlines(True)[: 9 * 200]
    _, text = bench.right_of_record(b"".join(lines))
    starts = starts_in(text)
    process = bench.start(["replay", bench.s1, "/dev/stdin", bench.empty], stdin=subprocess.PIPE)
    out, on_time = b"", True
    for at, line in enumerate(lines):
        process.stdin.write(line)
        process.stdin.flush()
        # The first line of a cycle closes the one before.
        due = starts[at // 9] if at % 9 == 0 else 0
        while on_time and len(out) < due:
            on_time = bool(select.select([process.stdout], [], [], 10)[0])
            out += process.stdout.read1(PAGE) if on_time else b""
    process.stdin.close()
    out += process.stdout.read()
    process.stdout.close()
    run = Run(process.wait(LIMIT), out)
    bench.count(run, run.status == 0 and out == text and on_time, "the block came late" if not on_time else "the whole text")


def starts_in(text):
    """Where the blocks of a text begin."""
    return [at for at in range(len(text)) if text.startswith(b"cycle ", at) and (at == 0 or text[at - 1] == 10)]


def changing(bench):
    """A record that is renamed over, removed, grown, cut, or overwritten while it is read. Renamed over or removed: the text of the old file. Else
    the text of some record: what was read before, in whole pieces, and then what the file holds now."""
    with open(bench.made, "rb") as file:
        old = file.read()[:400000]
    old = old[: old.rfind(b"\n") + 1]
    other = old.replace(b" pos0 L ", b" pos0 L 1")
    changes = {
        "renamed over": lambda path: os.rename(bench.file("new", other), path),
        "removed": os.unlink,
        "grown": lambda path: append(path, b"3599000 pos0 L 5 5\n"),
        "overwritten": lambda path: overwrite(path, other[: len(old)]),
        "cut to nothing": lambda path: os.truncate(path, 0),
        "cut where it was read": lambda path: os.truncate(path, 10000),
        "cut ahead": lambda path: os.truncate(path, 300001),
        "cut and written anew": lambda path: rewrite(path, b"0 pos0 L 1 1\n" * 40000),
    }
    for seen in [1, 30000, 200000]:
        for what, change in changes.items():
            path = bench.file("record", old)
            process = bench.start_narrow(["replay", bench.s1, path, bench.empty])
            out = process.stdout.read(seen)
            time.sleep(0.02)
            change(path)
            new = b""
            if os.path.exists(path):
                with open(path, "rb") as file:
                    new = file.read()
            out += process.stdout.read()
            process.stdout.close()
            run = Run(process.wait(LIMIT), out)
            if what in ("renamed over", "removed"):
                bench.must(run, *bench.right_of_record(old), "%s after %d bytes of output" % (what, seen))
            else:
                mixed = {old[:at] + new[at:] for at in range(PAGE, len(old) + PAGE, PAGE)}
                is_good = any((run.status, out) == bench.right_of_record(text) for text in mixed)
                bench.count(run, is_good, "%s after %d bytes of output" % (what, seen))


def append(path, text):
    with open(path, "ab") as file:
        file.write(text)


def overwrite(path, text):
    with open(path, "r+b") as file:
        file.write(text)


def rewrite(path, text):
    with open(path, "wb") as file:
        file.write(text)


def racing(bench):
    """Record and script are renamed over again and again while runs go on: each run has one record's text with one script's."""
    with open(bench.made, "rb") as file:
        lines = file.read().splitlines(True)
    records = [b"".join(lines[: 9 * 60]), b"".join(lines[9 * 60 : 9 * 100])]
    with open(bench.acts, "rb") as file:
        scripts = [file.read(), b"".join(b"%d stop 1\n%d usual\n" % (at, at) for at in range(0, 300, 7))]
    rights = [bench.right_of_record(record, script) for record in records for script in scripts]
    record, script = bench.file("record", records[0]), bench.file("script", scripts[0])
    ended = threading.Event()

    def swap():
        rng = random.Random(1)
        while not ended.is_set():
            path, text = rng.choice([(record, rng.choice(records)), (script, rng.choice(scripts))])
            os.rename(bench.file("swap", text), path)

    thread = threading.Thread(target=swap)
    thread.start()
    met = set()
    try:
        for at in range(300):
            run = bench.run(["replay", bench.s1, record, script])
            met.add(run.out)
            bench.count(run, (run.status, run.out) in rights, "run %d" % at)
    finally:
        ended.set()
        thread.join()
    bench.notes.append("%d of the 4 texts came" % len(met))


def scribbling(bench):
    """A record is cut, written over and grown at random while runs go on: whatever comes is blocks from cycle 0 on, and the last line of its
    status."""
    with open(bench.made, "rb") as file:
        text = file.read()[:300000]
    record = bench.file("record", text)
    ended = threading.Event()

    def scribble():
        rng = random.Random(2)
        while not ended.is_set():
            at = rng.randrange(os.path.getsize(record) + 1)
            with open(record, "r+b") as file:
                if rng.randrange(10) == 0:
                    file.truncate(at)
                else:
                    file.seek(at)
                    file.write(text[at : at + rng.randrange(100000)])
            time.sleep(0.0002)

    thread = threading.Thread(target=scribble)
    thread.start()
    try:
        for at in range(200):
            run = bench.run(["replay", bench.s1, record, bench.empty])
            bench.count(run, is_formed(run), "run %d" % at)
    finally:
        ended.set()
        thread.join()


def is_formed(run):
    """The blocks of cycles 0, 1 and so on, and then the last line that goes with the status."""
    starts = starts_in(run.out)
    last = run.out[:-1][run.out[:-1].rfind(b"\n") + 1 :] + b"\n"
    lasts = {0: b"end %d\n" % len(starts), 7: b"fault record ", 10: b"fault long cycles "}
    counted = all(run.out.startswith(b"cycle %d " % n, at) for n, at in enumerate(starts))
    return run.status in lasts and last.startswith(lasts[run.status]) and run.out.endswith(b"\n") and counted


def endless(bench):
    """A record that never ends: 2^36 bytes are read, and the last line is `fault long record`. A minute or two."""
    run = bench.run(["replay", bench.s1, "/dev/zero", bench.empty])
    bench.must(run, 10, b"fault long record\n", "/dev/zero as a record")


KINDS = [memory, space, ulimit, stack, failed_writes, file_size, full_disk, closed_pipes, closed_at_start, interrupted, storms, late_writer,
         short_calls, failed_reads, two_faults, odd_files, forbidden, pipes, block_by_block, changing, racing, scribbling, endless]


def main():
    if len(sys.argv) < 2 or not os.access(sys.argv[1], os.X_OK):
        sys.exit("usage: tools/faults.sh [PROGRAM [KIND..]]: PROGRAM is to be the built program")
    wanted = sys.argv[2:]
    unknown = set(wanted) - {kind.__name__ for kind in KINDS}
    if unknown:
        sys.exit("no such kind: %s" % ", ".join(sorted(unknown)))
    runs, offs = 0, 0
    with tempfile.TemporaryDirectory(prefix="faults-") as folder:
        bench = Bench(os.path.abspath(sys.argv[1]), folder)
        for kind in KINDS:
            if wanted and kind.__name__ not in wanted:
                continue
            bench.counts, bench.offs, bench.notes = collections.Counter(), [], []
            try:
                kind(bench)
            except Off as off:
                bench.offs.append(str(off))
            tried = sum(bench.counts.values())
            statuses = ", ".join("%s: %d" % (status, bench.counts[status]) for status in sorted(bench.counts, key=str))
            print("%s: %d runs; %s" % (kind.__name__, tried, statuses))
            for note in bench.notes:
                print("    " + note)
            for off in bench.offs[:20]:
                print("    OFF: " + off)
            sys.stdout.flush()
            runs, offs = runs + tried, offs + len(bench.offs)
    print("%d runs, %d off" % (runs, offs))
    sys.exit(1 if offs else 0)


if __name__ == "__main__":
    main()
