"""What the commands in bin share: their words, and how their programs are proved and built.

A program stands in out, beside a sum of the sources that it was made of. While these hold the same, whatever their
times are, it is run at once; tests, rows and documents aren't among them.
"""
import collections
import concurrent.futures
import hashlib
import os
import shutil
import subprocess
import sys
import time

ROOT = os.path.dirname(os.path.dirname(os.path.realpath(__file__)))

OUT = f"{ROOT}/out"
OF_WORDS, UNREAD = 2, 6
TAKES_NEXT = ("--workers", "--gen", "--jobs")
LINES_SHOWN = 20

# `flag` is what may stand among the words beside those that all programs take; `notes` is where refusals go.
Program = collections.namedtuple("Program", "name flag notes")
RUN = Program("frame_run", "--depth", sys.stdout)
GRAPH = Program("frame_graph", "--dot", sys.stderr)
TRACE = Program("frame_trace", None, sys.stderr)


def built(name):
    """Where a program stands once its command in bin has made it."""
    return f"{OUT}/{name}"


def usage_of(program):
    options = f"{program.name} [--workers N]" + (f" [{program.flag}]" if program.flag else "")
    return f"usage: {options} SCRIPT [TABLE] or {options} --gen NUMBER --jobs K"


def places_of_files(words):
    """The places of SCRIPT and TABLE among words of the command."""
    place = 0
    while place < len(words):
        if words[place] in TAKES_NEXT:
            place += 1
        elif not words[place].startswith("-"):
            yield place
        place += 1


def are_of_command(program, words):
    """Whether these are words of the program, as the model of the language reads them."""
    if "--depth" in words and program.flag != "--depth":
        return False
    if program.flag == "--dot" and "--dot" in words:
        words = [*words]
        words.remove("--dot")
    sys.path.insert(0, f"{ROOT}/tools/model")
    from command import Answer, read_words  # where the program stands, it isn't needed
    try:
        read_words([os.fsencode(word) for word in words])
    except Answer:
        return False
    return True


def answer_before(program, words):
    """The text and the status of words that need no program: those of no command, and files that can't be read."""
    if "--help" in words or not are_of_command(program, words):
        return usage_of(program), OF_WORDS
    files = [words[place] for place in places_of_files(words)]
    for path, what in zip(files, ("script", "table")):
        if os.path.isdir(path) or not os.access(path, os.R_OK):
            return f"cannot read {what}", UNREAD
    return None


def end_where_answered(program, words):
    """Ends with the answer of words that need no program."""
    answer = answer_before(program, words)
    if answer is not None:
        text, status = answer
        print(text, file=program.notes)
        sys.exit(status)


def lines_of(program):
    """The lines of crates.txt for what a program stands on, itself last, each by its crate."""
    with open(f"{ROOT}/crates.txt", encoding="utf-8") as file:
        lines = {line.split(":")[0].split()[0]: line for line in file if ":" in line and not line.startswith("#")}
    needed = {program.name}
    for crate in reversed(list(lines)):
        if crate in needed:
            needed.update(lines[crate].partition(":")[2].split())
    return {crate: line for crate, line in lines.items() if crate in needed}


def crates_under(program):
    """The crates that a program stands on, itself last, each with those that it stands on."""
    lines = lines_of(program)
    return {crate: [used for used in line.partition(":")[2].split() if used in lines] for crate, line in lines.items()}


def is_test(name):
    return name in ("tests", "tests.rt") or name.endswith(("_tests", "_tests.rt"))


def sources_of(crate):
    """The files that a crate is made of: neither its tests nor their proofs."""
    for part in ("src", "specs", "proofs"):
        for folder, folders, names in os.walk(f"{ROOT}/crates/{crate}/{part}"):
            folders[:] = [each for each in folders if not is_test(each)]
            yield from (f"{folder}/{each}" for each in names if not is_test(each))


def sum_of(program):
    """A sum of all that a program is made of."""
    whole = hashlib.sha256()
    for crate, line in lines_of(program).items():
        whole.update(line.encode())
        for path in sorted(sources_of(crate)):
            with open(path, "rb") as file:
                held = file.read()
            whole.update(f"{os.path.relpath(path, ROOT)} {len(held)}\n".encode())
            whole.update(held)
    return whole.hexdigest()


def is_built(program):
    """Whether the program stands and is that of these sources."""
    path = built(program.name)
    if not os.access(path, os.X_OK) or not os.path.isfile(f"{path}.sum"):
        return False
    with open(f"{path}.sum", encoding="utf-8") as file:
        return file.read().strip() == sum_of(program)


def prove(program, crate):
    """Proves and builds one crate, all under it being built. Gives what was said where that fails, and else None.

    rt runs a program that it built, here on an example.
    """
    words = ["run", "--", f"{ROOT}/examples/triple.frame"] if crate == program.name else ["lib"]
    done = subprocess.run(["rt", *words], cwd=f"{ROOT}/crates/{crate}", stdin=subprocess.DEVNULL,
                          stdout=subprocess.PIPE, stderr=subprocess.STDOUT, text=True, errors="replace", check=False)
    return None if done.returncode == 0 else done.stdout


def say(program, text):
    print(f"{program.name}: {text}", file=sys.stderr, flush=True)


def end_without_kit(name):
    """Ends where the kit isn't on the path."""
    if shutil.which("rt") is None:
        print(f"{name}: needs the Rattle kit, and there is no rt on the path", file=sys.stderr)
        sys.exit(1)


def prove_all(program):
    """Proves and builds all crates of a program, those that don't stand on each other side by side. Says whether all
    are proved."""
    uses = crates_under(program)
    began = time.monotonic()
    say(program, f"proving and building {len(uses)} crates, up to {os.cpu_count()} side by side. From nothing that takes "
        "some 45 minutes on 4 processors; what is proved stays, and later runs start at once")
    done, running = set(), {}
    with concurrent.futures.ThreadPoolExecutor(os.cpu_count()) as pool:
        while len(done) < len(uses):
            for crate in uses:
                if crate not in done and crate not in running.values() and done.issuperset(uses[crate]):
                    running[pool.submit(prove, program, crate)] = crate
            ended, _ = concurrent.futures.wait(running, return_when=concurrent.futures.FIRST_COMPLETED)
            for each in ended:
                crate, fault = running.pop(each), each.result()
                if fault is not None:
                    print("\n".join(fault.splitlines()[-LINES_SHOWN:]), file=sys.stderr)
                    say(program, f"not built, since {crate} isn't; `rt check` in crates/{crate} says why")
                    pool.shutdown(cancel_futures=True)
                    return False
                done.add(crate)
                say(program, f"{len(done)} of {len(uses)} after {(time.monotonic() - began) / 60:.0f} min: {crate}")
    return True


def build(program):
    """Proves and builds a program. The one that stood before stays until the new one stands. Says whether it does."""
    summed = sum_of(program)
    if not prove_all(program):
        return False
    os.makedirs(OUT, exist_ok=True)
    path = built(program.name)
    subprocess.run(["cp", f"{ROOT}/crates/{program.name}/out/{program.name}", f"{path}.new"], check=True)
    os.replace(f"{path}.new", path)
    with open(f"{path}.sum", "w", encoding="utf-8") as file:
        file.write(summed + "\n")
    return True


def launch(program):
    """Runs a program with the words of this process, and proves and builds it before where it has to be."""
    words = sys.argv[1:]
    if not is_built(program):
        end_where_answered(program, words)
        end_without_kit(program.name)
        try:
            if not build(program):
                sys.exit(1)
        except KeyboardInterrupt:
            say(program, "stopped; what is proved stays")
            sys.exit(130)
    path = built(program.name)
    os.execv(path, [path, *words])
