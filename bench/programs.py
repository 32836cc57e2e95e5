"""Builds a program of this folder in a copy of the crates that it stands on, since it is no part of the repository's own."""
import os
import shutil
import subprocess
import sys

HERE = os.path.dirname(os.path.abspath(__file__))
TOP = os.path.dirname(HERE)


def below(names):
    """The crates of these names and all below them, with their lines of crates.txt in its order."""
    with open(os.path.join(TOP, "crates.txt"), encoding="utf-8") as given:
        lines = {line.split(":")[0]: line for line in given}
    wanted = set(names)
    for name in reversed(lines):
        if name in wanted:
            wanted.update(word for word in lines[name].split(":")[1].split() if word in lines)
    return [(name, line) for name, line in lines.items() if name in wanted]


def built(scratch, name, source, crates, words, proofs=()):
    """The program of that source over these crates, with these files of proofs by their paths, proved and built by
    build/builder.py, which finds there what is proved here; it is run once, with these words."""
    stands_on = below(crates)
    for crate, _ in stands_on:
        here, there = os.path.join(TOP, "crates", crate), os.path.join(scratch, "crates", crate)
        shutil.copytree(here, there, ignore=shutil.ignore_patterns("out"))
        kept = os.path.join("crates", "velkatsa", "out", "rlib", crate)
        if os.path.isdir(os.path.join(TOP, kept)):
            shutil.copytree(os.path.join(TOP, kept), os.path.join(scratch, kept))
    folder = os.path.join(scratch, "crates", name)
    os.makedirs(os.path.join(folder, "src"))
    shutil.copy(os.path.join(HERE, source), os.path.join(folder, "src", "main.rt"))
    for path in proofs:
        os.makedirs(os.path.dirname(os.path.join(folder, "proofs", path)), exist_ok=True)
        with open(os.path.join(folder, "proofs", path), "w", encoding="utf-8") as wanted:
            wanted.write(proofs[path])
    with open(os.path.join(scratch, "crates.txt"), "w", encoding="utf-8") as wanted:
        wanted.writelines([line for _, line in stands_on] + [f"{name}: {' '.join(crates)}\n"])
    os.makedirs(os.path.join(scratch, "crates", "velkatsa"), exist_ok=True)
    os.mkdir(os.path.join(scratch, "build"))
    builder = shutil.copy(os.path.join(TOP, "build", "builder.py"), os.path.join(scratch, "build"))
    if subprocess.call([builder, name], stdin=subprocess.DEVNULL):
        sys.exit(1)
    program = os.path.join(folder, "out", name)
    subprocess.run([program, *words], cwd=folder, stdin=subprocess.DEVNULL, stdout=subprocess.DEVNULL)
    return program
