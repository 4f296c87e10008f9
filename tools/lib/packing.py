"""A Debian package and a tarball of what is installed, the same bytes from the same tree."""
import calendar
import email.utils
import gzip
import hashlib
import os
import re
import shutil
import subprocess
import tarfile
import textwrap
import time

import placing

MAINTAINER = "Toxundeka maintainers <maintainers@users.noreply.toxundeka.example>"
MACHINES = {62: "amd64", 183: "arm64", 243: "riscv64"}      # e_machine of an ELF file
CONTROL = """Package: dp
Version: %(version)s
Architecture: %(machine)s
Maintainer: %(maintainer)s
Installed-Size: %(size)d
Depends: %(libc)spython3 (>= 3.11)
Recommends: parallel
Suggests: python3-cvxopt
Section: science
Priority: optional
Description: proved dynamic positioning controller, replayed from records
 The control software of a dynamic positioning system after equipment class 3:
 three computers and a voter for each thruster hold a vessel over one spot. It
 is proved, and replays records of sensor lines with scripted faults.
 .
 Tools turn a vessel's description into a plant file with a certificate, raw
 logs into a record, and a replay into a page.
"""
COPYRIGHT = """dp %(version)s

Copyright %(year)s, the owner of the project toxundeka.

No licence is given yet: the owner has still to choose one. Until then nothing
but what the law allows without one is allowed.
"""
OVERRIDES = """# The program is what was proved and built, byte for byte, so that its checksum is that of the build.
dp: unstripped-binary-or-object
dp: statically-linked-binary
dp: hardening-no-fortify-functions
# Versions begin with this one; no bug of a distribution asked for it.
dp: initial-upload-closes-no-bugs
"""


class Refused(Exception):
    """No package can be made."""


def newest():
    """The newest version of CHANGELOG.md: its day, and its points."""
    with open(os.path.join(placing.ROOT, "CHANGELOG.md"), encoding="utf-8") as file:
        text = file.read()
    found = re.search(r"^## ([0-9.]+), ([0-9]{4}-[0-9]{2}-[0-9]{2})\n(.*?)(?=^## |\Z)", text, re.MULTILINE | re.DOTALL)
    if not found or found[1] != placing.version():
        raise Refused("CHANGELOG.md doesn't begin with version %s" % placing.version())
    return found[2], re.findall(r"^- (.*(?:\n  .*)*)", found[3], re.MULTILINE)


def moment():
    """The time that each file gets, in seconds since 1970."""
    if os.environ.get("SOURCE_DATE_EPOCH"):
        return int(os.environ["SOURCE_DATE_EPOCH"])
    if os.path.exists(os.path.join(placing.ROOT, ".git")) and shutil.which("git"):
        done = subprocess.run(["git", "-C", placing.ROOT, "log", "-1", "--format=%ct"], capture_output=True, check=False)
        if done.returncode == 0 and done.stdout.strip().isdigit():
            return int(done.stdout)
    return calendar.timegm(time.strptime(newest()[0], "%Y-%m-%d"))


def machine_of(program):
    """The architecture by the program's own head; a script is of all."""
    with open(program, "rb") as file:
        head = file.read(20)
    if head[:4] != b"\x7fELF":
        return "all"
    number = int.from_bytes(head[18:20], "little")
    if number not in MACHINES:
        raise Refused("%s is of a machine that isn't known (%d)" % (program, number))
    return MACHINES[number]


def packed(text, name):
    """A text, packed without a time."""
    os.makedirs(os.path.dirname(name), exist_ok=True)
    with open(name, "wb") as file:
        file.write(gzip.compress(text, 9, mtime=0))


def changelog(stamp):
    points = "".join(textwrap.fill(" ".join(point.split()), 78, initial_indent="  * ", subsequent_indent="    ") + "\n" for point in newest()[1])
    return "dp (%s) unstable; urgency=medium\n\n%s\n -- %s  %s\n" % (placing.version(), points, MAINTAINER, email.utils.formatdate(stamp))


def set_times(folder, stamp):
    """Each file and folder has the same time, and folders may be read by all."""
    for top, folders, names in os.walk(folder, topdown=False):
        for name in folders + names:
            path = os.path.join(top, name)
            if os.path.isdir(path) and not os.path.islink(path):
                os.chmod(path, 0o755)
            os.utime(path, (stamp, stamp), follow_symlinks=False)
    os.chmod(folder, 0o755)
    os.utime(folder, (stamp, stamp))


def tarball(folder, name, stamp):
    """All of a folder, under the name that the folder has."""
    def plain(entry):
        entry.uid = entry.gid = 0
        entry.uname = entry.gname = "root"
        entry.mtime = stamp
        return entry
    with open(name, "wb") as raw, gzip.GzipFile("", "wb", 9, raw, mtime=stamp) as file, tarfile.open(fileobj=file, mode="w", format=tarfile.GNU_FORMAT) as tar:
        paths = [os.path.join(top, one) for top, folders, names in os.walk(folder) for one in folders + names]
        for path in [folder] + sorted(paths):
            tar.add(path, os.path.relpath(path, os.path.dirname(folder)), recursive=False, filter=plain)


def debian(program, folder, stamp, machine):
    """Lays a folder out as the package's root."""
    usr = os.path.join(folder, "usr")
    placing.install(program, usr)
    pages = os.path.join(usr, "share", "man", "man1")
    for page in os.listdir(pages):
        with open(os.path.join(pages, page), "rb") as file:
            packed(file.read(), os.path.join(pages, page + ".gz"))
        os.remove(os.path.join(pages, page))
    doc = os.path.join(usr, "share", "doc", "dp")
    packed(changelog(stamp).encode(), os.path.join(doc, "changelog.gz"))
    placing.put_text(COPYRIGHT % {"version": placing.version(), "year": newest()[0][:4]}, os.path.join(doc, "copyright"))
    placing.put_text(OVERRIDES, os.path.join(usr, "share", "lintian", "overrides", "dp"))
    size = sum(1 + (os.lstat(os.path.join(top, name)).st_size + 1023) // 1024 for top, _, names in os.walk(usr) for name in names)
    told = {"version": placing.version(), "machine": machine, "maintainer": MAINTAINER, "size": size, "libc": "" if machine == "all" else "libc6, "}
    placing.put_text(CONTROL % told, os.path.join(folder, "DEBIAN", "control"))
    sums = []
    for top, _, names in os.walk(usr):
        for name in names:
            path = os.path.join(top, name)
            if not os.path.islink(path):
                sums.append("%s  %s\n" % (md5(path), os.path.relpath(path, folder)))
    placing.put_text("".join(sorted(sums, key=lambda line: line[34:])), os.path.join(folder, "DEBIAN", "md5sums"))


def md5(name):
    """The checksum that dpkg keeps of a file; it guards against damage alone."""
    with open(name, "rb") as file:
        return hashlib.md5(file.read(), usedforsecurity=False).hexdigest()


def packages(program, out, folder):
    """Makes both in `out`, with `folder` to work in; gives their names."""
    if not shutil.which("dpkg-deb"):
        raise Refused("dpkg-deb isn't there (Debian: dpkg)")
    stamp, machine, version = moment(), machine_of(program), placing.version()
    tree = os.path.join(folder, "dp-%s" % version)
    placing.install(program, tree)
    set_times(tree, stamp)
    names = [os.path.join(out, "dp_%s_%s.deb" % (version, machine)), os.path.join(out, "dp-%s-%s.tar.gz" % (version, machine))]
    tarball(tree, names[1], stamp)
    root = os.path.join(folder, "root")
    debian(program, root, stamp, machine)
    set_times(root, stamp)
    done = subprocess.run(["dpkg-deb", "--root-owner-group", "-Zxz", "--build", root, names[0]], env={**os.environ, "SOURCE_DATE_EPOCH": str(stamp)},
                          stdout=subprocess.DEVNULL, stderr=subprocess.PIPE, check=False)
    if done.returncode:
        raise Refused("dpkg-deb: %s" % done.stderr.decode().strip())
    return names
