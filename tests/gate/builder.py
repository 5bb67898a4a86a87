"""Proves and builds crates of crates.txt, those that don't stand on one another side by side.

First come those with the longest chain of others after them. On the longest chain, which all else
waits for, a crate gets as many jobs as there are processors, and two nearly on it, for the
processors that become idle while it is proved: its jobs stay as many as at its start. Any other gets
one where there is work for each processor, since two take a fifth more of them, and a lower priority
where it is far behind.

A library is proved from nothing, and its statements alone are kept, in its out/statements: those
above it load them sooner than its proofs. What was built here from the same text is left as it is.
What `rt` builds isn't taken: a verdict may not stand on what earlier checks kept. What HANDLES
allows is held by `rt ci` alone."""
import contextlib
import fcntl
import hashlib
import os
import shutil
import signal
import time
from concurrent.futures import FIRST_COMPLETED, ThreadPoolExecutor, wait

from toolchain import RT, TOP, kit, read, version

EACH = 30
# what it takes to load a line of the libraries below, where to prove a line takes 1
LOADING = 0.03
# chains of crates that are so long, as parts of the longest that is left, count as it does, and as nearly on it; those
# that are shorter than the last are far behind
AS_LONG, NEARLY, BEHIND = 0.98, 0.8, 0.65
# by so much the priority of the other crates is lower
LOWER = 10
# the memory of each job but the first, as a part of the first one's
FURTHER = 0.3


def processors():
    number = os.environ.get("RT_JOBS", "")
    return int(number) if number.isdigit() and int(number) else len(os.sched_getaffinity(0))


def room():
    """How much memory there is for checks, in bytes, under the control group's limit too."""
    free = next(1024 * int(line.split()[1]) for line in read("/proc/meminfo").split(b"\n") if line.startswith(b"MemAvailable"))
    with contextlib.suppress(OSError, ValueError):
        free = min(free, int(read("/sys/fs/cgroup/memory.max")) - int(read("/sys/fs/cgroup/memory.current")))
    return 0.85 * free


def chains_of(crates):
    """What waits for each crate: the work of the longest chain of others after it, with its own. Lowest crates first."""
    work = {it: it.lines + LOADING * sum(below.lines for below in it.below) for it in crates}
    chains = {**work}
    for crate in reversed(crates):
        for below in {*crate.below} & {*work}:
            chains[below] = max(chains[below], work[below] + chains[crate])
    return chains


def jobs_for(crate, share, idle, lanes, memory):
    """How many jobs a crate gets whose chain has this share of the longest one: as many as there are processors on the
    longest one, else two nearly on it, else one; and more where idle processors are of no use to any other."""
    least = lanes if share >= AS_LONG else min(lanes, 2) if share >= NEARLY else 1
    wanted = 1 if os.environ.get("RT_JOBS") else max(least, idle)
    return min(wanted, int((memory / crate.memory - 1) // FURTHER) + 1)


def run(crates, say):
    """Builds each crate once those below it stand, as many side by side as there are processors and memory for, and
    returns those that don't stand in the end."""
    chains, lanes, memory = chains_of(crates), processors(), room()
    waiting, running, stands = sorted(crates, key=lambda it: -chains[it]), {}, {}
    with ThreadPoolExecutor(len(crates)) as pool:
        while waiting or running:
            longest = max(chains[it] for it in crates if it not in stands)
            ready = [it for it in waiting if {*it.below} & {*crates} <= {*stands}]
            for number, crate in enumerate(ready):
                left, share = memory - sum(held for _, held, _ in running.values()), chains[crate] / longest
                idle = lanes - sum(jobs for *_, jobs in running.values()) - len(ready[number + 1:])
                jobs = max(jobs_for(crate, share, idle, lanes, left), int(not running))
                if not all(stands.get(it, True) for it in crate.below):
                    waiting.remove(crate)
                    stands[crate] = False
                elif jobs > 0 and (len(running) < lanes or lanes > 1 and share >= NEARLY):
                    waiting.remove(crate)
                    held = crate.memory * (1 + FURTHER * (jobs - 1))
                    running[pool.submit(make, crate, jobs, share < BEHIND)] = crate, held, jobs
            ended = wait(running, EACH - time.monotonic() % EACH, FIRST_COMPLETED).done
            for it in ended:
                crate, (status, text) = running.pop(it)[0], it.result()
                stands[crate] = not status
                if status:
                    say(f"{crate.name} is not proved:\n{text}")
            if running and not ended:
                at = ", ".join(crate.name for crate, *_ in running.values())
                say(f"at {at}; {len(waiting) + len(running)} crate{'s' * (len(waiting) + len(running) != 1)} left")
    return [it for it in crates if not stands[it]]


def sum_of(crate):
    """What a crate is made from: the kit, its name and text, and the libraries below as they are."""
    # (--extern: "must be the crate that DIR/format names". The file holds the sum of the rlib's files too)
    texts = [(it.removeprefix(crate.folder), read(it)) for it in crate.files]
    below = [read(f"{it.rlib}/format") for it in crate.below]
    return hashlib.sha256(repr((version(), crate.name, crate.of_kit, texts, below)).encode()).hexdigest()


def is_made(crate):
    """Whether what stands in its out/ was made from the crate's text over the libraries as they stand."""
    with contextlib.suppress(OSError):
        made = read(f"{crate.folder}/out/{crate.name}") if crate.is_program else read(f"{crate.rlib}/format")
        return read(crate.stamp).decode() == sum_of(crate) + hashlib.sha256(made).hexdigest()
    return False


def make(crate, jobs, is_lowered):
    """Proves a crate from nothing, and builds it: a library as its statements alone. Exit status, and what is said."""
    # (what is made of a crate whose proof fails, or whose text changes meanwhile, has no stamp)
    with contextlib.suppress(FileNotFoundError):
        os.remove(crate.stamp)
    before, places, program = sum_of(crate), kit(), f"{crate.folder}/out/{crate.name}"
    shutil.rmtree(f"{crate.folder}/out/statements", ignore_errors=True)
    os.makedirs(os.path.dirname(program if crate.is_program else crate.rlib), exist_ok=True)
    # (--statements: "have the library's rlib hold its statements, and not its checked proofs")
    of_program = ["--toolchain", places["toolchain"], "-o", f"{program}.o"]
    kind = of_program if crate.is_program else ["--statements", "-o", crate.rlib]
    nice = ["nice", "-n", str(LOWER)] if is_lowered else []
    words = lambda jobs: [*nice, places["rattle"], "build", *crate.words("--jobs", str(jobs), *kind)]
    status, text = crate.call(*words(jobs))
    if status == -signal.SIGKILL and jobs > 1:
        # (most likely for memory)
        status, text = crate.call(*words(1))
    if crate.is_program and not status:
        status, text = crate.call(places["link"], "--target", "x86_64-unknown-linux-gnu", *of_program[:2], "-o", program,
                                  f"{program}.o", places["c"], places["more_c"])
    made = program if crate.is_program else f"{crate.rlib}/format"
    if not status and before == sum_of(crate):
        with open(crate.stamp, "w", encoding="ascii") as file:
            file.write(before + hashlib.sha256(read(made)).hexdigest())
    return status, text


def build(needed):
    """Proves and builds those of these crates that aren't built, lowest first, while no other build works here, and
    returns the names of those that don't stand then. All that is below one of them has to be among them."""
    if not kit():
        return built_by_rt([it for it in needed if it.is_program])
    with open(f"{TOP}/crates.txt", encoding="utf-8") as lock:
        fcntl.flock(lock, fcntl.LOCK_EX)
        crates = [it for it in needed if not is_made(it)]
        # (what stands on one that is made anew is made anew)
        crates = [it for it in needed if {it, *it.below} & {*crates}]
        if not crates:
            return []
        # (with its own handler Python would wait for the threads' commands)
        usual = signal.signal(signal.SIGINT, signal.SIG_DFL)
        start = time.monotonic()
        say = lambda line: print(f"{time.monotonic() - start:5.0f} s  {line}", flush=True)
        say(f"{len(crates)} of {len(needed)} crates to prove and build")
        lacking = [it.name for it in run(crates, say)]
        say(f"not built: {', '.join(lacking)}" if lacking else "built")
        signal.signal(signal.SIGINT, usual)
        return lacking


def built_by_rt(programs):
    """Has `rt run` build these programs, with the libraries below, and returns the names of those that it did not build.
    It leaves each as out/NAME, and runs it too, here with a word that none of them knows."""
    lacking = []
    for it in programs:
        with contextlib.suppress(FileNotFoundError):
            os.remove(f"{it.folder}/out/{it.name}")
        _, text = it.call(RT, "run", "--", "no-such-word")
        if not os.path.isfile(f"{it.folder}/out/{it.name}"):
            print(f"{it.name} is not built:\n{text}", flush=True)
            lacking.append(it.name)
    return lacking
