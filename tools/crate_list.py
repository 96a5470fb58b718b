"""The crates of crates.txt, for the tools here."""
import os

ROOT = os.path.dirname(os.path.dirname(os.path.abspath(__file__)))


def crates_up_to(name):
    """The crates that a crate stands on, in their order, and itself at the end, each with its line of crates.txt."""
    with open(f"{ROOT}/crates.txt", encoding="utf-8") as file:
        lines = {line.split(":")[0].split()[0]: line for line in file if ":" in line and not line.startswith("#")}
    needed = {name}
    for crate in reversed(list(lines)):
        if crate in needed:
            needed.update(lines[crate].partition(":")[2].split())
    return {crate: lines[crate] for crate in lines if crate in needed}
