"""The trying part of `bench/memory`: PROGRAM LIBRARY COUNTED, the program, the library that refuses a request, and
the file that it writes their number to."""
import os
import subprocess
import sys

PROGRAM, LIBRARY, COUNTED = sys.argv[1:]
NO_MEMORY = 6


def ran(words, script, refused=0):
    """Status and output of a run whose request with this number is refused."""
    setting = dict(os.environ, LD_PRELOAD=LIBRARY, REFUSED=str(refused), COUNTED=COUNTED)
    run = subprocess.run([PROGRAM, *words], input=script, capture_output=True, env=setting, timeout=60)
    return run.returncode, run.stdout, run.stderr


def requests():
    with open(COUNTED) as file:
        return int(file.read())


def tried(name, words, script):
    """Whether each run ends as it may."""
    ample = ran(words, script)
    count = requests()
    none, same, wrong = 0, 0, 0
    for number in range(1, count + 1):
        run = ran(words, script, number)
        if run == ample:
            same += 1
        elif run[0] == NO_MEMORY and ample[1].startswith(run[1]) and not run[2]:
            none += 1
        else:
            wrong += 1
            print(f"{name}, request {number}: status {run[0]}, {len(run[1])} bytes, {run[2][:200]}")
    print(
        f"{name}: status {ample[0]}, {len(ample[1])} bytes, {count} requests for memory; with each refused in turn"
        f" {none} runs run out of memory with status 6 and a front of the output, {same} as the ample run, {wrong} otherwise",
        flush=True,
    )
    return wrong == 0


def file(name):
    with open(f"bench/memory/{name}.script", "rb") as script:
        return script.read()


fine = [
    tried("a canister gets code", [], file("install")),
    tried("canisters call each other", [], file("relay")),
    tried("--generate 20", ["--generate", "20"], b""),
    tried("--generate 20 --workers 2", ["--generate", "20", "--workers", "2"], b""),
    tried("--generate 20 --workers 7", ["--generate", "20", "--workers", "7"], b""),
]
sys.exit(0 if all(fine) else 1)
