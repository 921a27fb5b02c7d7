#!/usr/bin/env python3
"""Builds the program `larch`, with as many crates proved side by side as the machine has cores.

`rt` locks the folders of all crates below the one that it proves, so two runs in one checkout wait for each other. So
the crates are proved in as many copies of the tree as there are cores, the longest chain of crates first; what one copy
built is linked into all others and into the checkout, where `rt` takes it by its stamp, a sum of what it was made of. A
crate is begun as soon as those that it stands on are built; it gets the cores that no other crate waits for. `rt` keeps
what it proved, so a later run does only what changed, also after one that was cut off. Says on standard error which
crate is begun and which is done; ends with 1 where a crate is not proved. `--crates` has it prove every crate of
crates.txt, programs left out, in place of those of the program. `--all` goes on where a crate fails, with those that
don't stand on it; with `--log FOLDER` what `rt` said of each crate that fails goes into FOLDER/CRATE.log.
"""
import concurrent.futures
import os
import pathlib
import shutil
import subprocess
import sys
import tempfile
import time

TOP = pathlib.Path(__file__).resolve().parents[2]
PROGRAM = "larch"
# The parts of a crate that a proof reads.
PARTS = ("src", "specs", "proofs")


def needs_of_crates():
    """Each crate of crates.txt with those of the repository that it names."""
    named = {}
    for line in (TOP / "crates.txt").read_text().splitlines():
        head, colon, needs = line.partition("#")[0].partition(":")
        if colon:
            named[head.split()[0]] = needs.split()
    return {crate: [need for need in needs if need in named] for crate, needs in named.items()}


def crates_below(name, needs):
    """The crate and all that it stands on, lowest first."""
    found = {}

    def visit(crate):
        if crate not in found:
            for need in needs[crate]:
                visit(need)
            found[crate] = needs[crate]

    visit(name)
    return found


def is_program(crate):
    return (TOP / "crates" / crate / "src" / "main.rt").is_file()


def lines_of(crate):
    """How many lines a proof of the crate reads, a measure of its time."""
    return sum(file.read_bytes().count(b"\n") for part in PARTS
               for file in (TOP / "crates" / crate / part).rglob("*") if file.is_file())


def weights(crates):
    """Of each crate the lines of the longest chain of crates that begins with it and goes up."""
    weight = {crate: lines_of(crate) for crate in crates}
    chain = dict(weight)
    for crate in reversed(list(crates)):
        for need in crates[crate]:
            chain[need] = max(chain[need], weight[need] + chain[crate])
    return chain


def copy_tree(to):
    """A copy of what proofs read, over an older one; what was proved there stays."""
    for crate in needs_of_crates():
        for part in PARTS:
            shutil.rmtree(to / "crates" / crate / part, ignore_errors=True)
            if (TOP / "crates" / crate / part).is_dir():
                shutil.copytree(TOP / "crates" / crate / part, to / "crates" / crate / part)
    for name in ("crates.txt", "HANDLES"):
        shutil.copy(TOP / name, to / name)
    # The top of a repository, as the tool asks.
    (to / ".git").mkdir(exist_ok=True)


def room_for_copies():
    """Where the copies lie: in git's own folder, where a build that was cut off finds them again."""
    git = subprocess.run(["git", "rev-parse", "--absolute-git-dir"], cwd=TOP, text=True, capture_output=True)
    if git.returncode:
        return pathlib.Path(tempfile.mkdtemp(prefix="larch-build-"))
    return pathlib.Path(git.stdout.strip()) / "larch-build"


def say(text):
    sys.stderr.write(f"larch: {text}\n")
    sys.stderr.flush()


def prove(top, crate, jobs):
    """Proves and builds one crate in this copy; what was printed, where it failed."""
    program = is_program(crate)
    command = ["rt", "run", "--jobs", str(jobs), "--", "--build"] if program else ["rt", "lib", "--jobs", str(jobs)]
    run = subprocess.run(command, cwd=top / "crates" / crate, stdin=subprocess.DEVNULL, text=True,
                         stdout=subprocess.PIPE, stderr=subprocess.STDOUT)
    # The program is run with words that mean no command: it says so with status 2.
    return "" if run.returncode == (2 if program else 0) else run.stdout


def share(crate, copy, others):
    """Links what a copy built of a crate into the others, which take it by its stamp."""
    built = pathlib.Path("crates", crate, "out", "rlib")
    for other in others:
        if other != copy:
            shutil.rmtree(other / built, ignore_errors=True)
            (other / built).parent.mkdir(parents=True, exist_ok=True)
            shutil.copytree(copy / built, other / built, copy_function=link)


def link(source, to):
    """A file under a second name, or a copy where the two lie on different disks."""
    try:
        os.link(source, to)
    except OSError:
        shutil.copy2(source, to)


def copy_for(crate, free):
    """A free copy of the tree: the one in which an earlier run began with the crate, if it is among them."""
    begun = [copy for copy in free if (copy / "crates" / crate / "out" / "incremental").is_dir()]
    chosen = begun[-1] if begun else free[-1]
    free.remove(chosen)
    return chosen


def prove_side_by_side(crates, copies, goes_on=False):
    """Proves the crates, each once those below it are proved; what failed, with what was printed."""
    cores = len(copies)
    chain, free, left = weights(crates), list(copies), dict(crates)
    done, failed, running = set(), {}, {}
    with concurrent.futures.ThreadPoolExecutor(cores) as pool:
        while running or (left and (goes_on or not failed)):
            ready = sorted((crate for crate in left if done.issuperset(left[crate])), key=lambda it: -chain[it])
            if not ready and not running:
                break
            longest = max(chain[crate] for crate in crates if crate not in done)
            for at, crate in enumerate(ready):
                idle = cores - sum(jobs for _, _, jobs in running.values())
                if (failed and not goes_on) or idle <= 0 or not free:
                    break
                del left[crate]
                # All waits for the longest chain, so its crate gets a second core even where none is idle.
                jobs = max(2 if chain[crate] == longest else 1, idle // (len(ready) - at))
                copy = copy_for(crate, free)
                say(f"proving {crate}" + (f" on {jobs} cores" if jobs > 1 else ""))
                running[pool.submit(prove, copy, crate, jobs)] = crate, copy, jobs
            for it in concurrent.futures.wait(running, return_when=concurrent.futures.FIRST_COMPLETED).done:
                crate, copy, _ = running.pop(it)
                free.append(copy)
                if it.result():
                    failed[crate] = it.result()
                    say(f"{crate} is NOT proved")
                    keep_log(crate, it.result())
                else:
                    done.add(crate)
                    share(crate, copy, [*copies, TOP])
                    say(f"{crate} is proved, {len(done)} of {len(crates)}")
    return failed


def keep_log(crate, printed):
    if "--log" in sys.argv[1:]:
        folder = pathlib.Path(sys.argv[sys.argv.index("--log") + 1])
        folder.mkdir(parents=True, exist_ok=True)
        (folder / f"{crate}.log").write_text(printed)


def build(crates):
    """Proves the crates in copies of the tree, and then the program in the checkout; what failed."""
    libraries = {crate: needs for crate, needs in crates.items() if not is_program(crate)}
    cores, room = len(os.sched_getaffinity(0)), room_for_copies()
    copies = [room / str(number) for number in range(cores)]
    for copy in copies:
        copy.mkdir(parents=True, exist_ok=True)
        copy_tree(copy)
    failed = prove_side_by_side(libraries, copies, goes_on="--all" in sys.argv[1:])
    if not failed:
        say("proving and linking the program")
        failed = {PROGRAM: printed for printed in [prove(TOP, PROGRAM, cores)] if printed}
    if not failed:
        shutil.rmtree(room)
    return failed


def main():
    needs, start = needs_of_crates(), time.monotonic()
    failed = build(needs if "--crates" in sys.argv[1:] else crates_below(PROGRAM, needs))
    for crate, printed in failed.items():
        say(f"{crate} could not be built; the last lines of what rt said:")
        sys.stderr.write("\n".join(printed.splitlines()[-15:]) + "\n")
    used = os.times()
    say(f"{time.monotonic() - start:.0f} s, {used.children_user + used.children_system:.0f} s of processor time")
    return 1 if failed else 0


if __name__ == "__main__":
    sys.exit(main())
