"""A workspace in a temporary folder, for a program that is timed: some crates of this repository, and the program."""

import os
import shutil
import subprocess

TOP = os.path.dirname(os.path.dirname(os.path.abspath(__file__)))


def make(folder, layers, name, stands_on, source, proofs, top=TOP):
    """Copies the crates `layers` of the checkout `top`, and makes the crate `name` of the file `source`.

    `stands_on` is what the program uses, as in crates.txt; `proofs` names a file for each place under the crate's
    folder `proofs`. The crate's folder is answered.
    """
    for layer in layers:
        shutil.copytree(os.path.join(top, "crates", layer), os.path.join(folder, "crates", layer),
                        ignore=shutil.ignore_patterns("out", "must-fail"))
    shutil.copy(os.path.join(top, "HANDLES"), folder)
    with open(os.path.join(top, "crates.txt")) as lines:
        kept = [line for line in lines if line.split(":")[0].split(" ")[0] in layers]
    with open(os.path.join(folder, "crates.txt"), "w") as out:
        out.writelines(kept + [f"{name}: {stands_on}\n"])
    crate = os.path.join(folder, "crates", name)
    os.makedirs(os.path.join(crate, "src"))
    shutil.copy(source, os.path.join(crate, "src", "main.rt"))
    for place, file in proofs.items():
        target = os.path.join(crate, "proofs", place)
        os.makedirs(os.path.dirname(target), exist_ok=True)
        shutil.copy(file, target)
    return crate


def build(crate, words):
    """Proves and builds the program, runs it once, and answers where it is."""
    subprocess.run(["rt", "run", "--", *words], cwd=crate, check=True, stdout=subprocess.DEVNULL)
    return os.path.join(crate, "out", os.path.basename(crate))


def build_plain(source, target, *flags):
    """Builds a program in plain Rust for the same processor."""
    command = ["rustc", "-A", "dead_code", "-A", "unexpected_cfgs", "-O", "-C", "target-cpu=x86-64-v2", *flags]
    subprocess.run([*command, "-o", target, source], check=True)
    return target
