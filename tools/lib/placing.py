"""What is put in place, and where: the program, its pages, the tools, samples and documents."""
import hashlib
import os
import shutil

ROOT = os.path.dirname(os.path.dirname(os.path.dirname(os.path.realpath(__file__))))
PROGRAM = os.path.join(ROOT, "crates", "dp_app", "out", "dp_app")
# Tools that a user of the program calls; those of the repository stay in it.
TOOLS = [name for name in ("log2record", "look", "blocks2csv", "explain", "campaign", "trials", "design", "capability") if os.path.exists(os.path.join(ROOT, "tools", name))]
TEXTS = ["README.md", "CHANGELOG.md", "SECURITY.md"]


def version():
    with open(os.path.join(ROOT, "VERSION"), encoding="utf-8") as file:
        return file.read().strip()


def checksum(name):
    with open(name, "rb") as file:
        return hashlib.sha256(file.read()).hexdigest()


def put(source, target, mode):
    """Copies a file, with its folders."""
    os.makedirs(os.path.dirname(target), exist_ok=True)
    fresh = target + ".new"
    shutil.copyfile(source, fresh)
    os.chmod(fresh, mode)
    os.replace(fresh, target)


def put_text(text, target):
    os.makedirs(os.path.dirname(target), exist_ok=True)
    with open(target + ".new", "w", encoding="utf-8") as file:
        file.write(text)
    os.chmod(target + ".new", 0o644)
    os.replace(target + ".new", target)


def put_folder(source, target):
    """Copies all files below a folder."""
    for folder, _, names in os.walk(source):
        for name in names:
            if not name.endswith((".pyc", ".new")):
                put(os.path.join(folder, name), os.path.join(target, os.path.relpath(os.path.join(folder, name), source)), 0o644)


def install(program, prefix):
    """Puts everything below the prefix; gives the program's checksum."""
    share = os.path.join(prefix, "share", "dp")
    put(program, os.path.join(prefix, "bin", "dp"), 0o755)
    for page in ["dp.1"] + ["dp-%s.1" % tool for tool in TOOLS]:
        put(os.path.join(ROOT, "man", page), os.path.join(prefix, "share", "man", "man1", page), 0o644)
    put(os.path.join(ROOT, "tools", "completion.bash"), os.path.join(prefix, "share", "bash-completion", "completions", "dp"), 0o644)
    for folder in ("plants", "vessels", "samples", "docs"):
        put_folder(os.path.join(ROOT, folder), os.path.join(share, folder))
    for text in TEXTS:
        put(os.path.join(ROOT, text), os.path.join(share, text), 0o644)
    put_folder(os.path.join(ROOT, "tools", "lib"), os.path.join(share, "tools", "lib"))
    for tool in TOOLS:
        put(os.path.join(ROOT, "tools", tool), os.path.join(share, "tools", tool), 0o755)
        link = os.path.join(prefix, "bin", "dp-" + tool)
        if os.path.lexists(link):
            os.remove(link)
        os.symlink(os.path.join("..", "share", "dp", "tools", tool), link)
    mark = checksum(os.path.join(prefix, "bin", "dp"))
    put_text("dp %s\n%s  bin/dp\n" % (version(), mark), os.path.join(share, "VERSION"))
    return mark
