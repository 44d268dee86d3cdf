"""Times the proved readers and plain Rust on the same inputs in turn, for bench/run: the least time of many rounds."""
import os
import shutil
import subprocess
import sys

ROUNDS = "5"
TURNS = 5


def nanoseconds(program, kind, file):
    return int(subprocess.run([program, kind, ROUNDS, file], stdout=subprocess.PIPE, check=True).stdout)


def least(programs, kind, file):
    """The least time of each program, in turn."""
    times = {program: [] for program in programs}
    for _ in range(TURNS):
        for program in programs:
            times[program].append(nanoseconds(program, kind, file))
    return [min(times[program]) for program in programs]


def kilobytes(program, kind, file):
    """The most memory of a run, as time(1) tells it."""
    command = ["time", "-f", "%M", program, kind, "1", file]
    out = subprocess.run(command, stdout=subprocess.DEVNULL, stderr=subprocess.PIPE, check=True)
    return int(out.stderr.split()[-1])


def main():
    proved, plain, folder = sys.argv[1:4]
    path = {name: os.path.join(folder, name) for name in ("registry", "registry_half", "table", "numbers")}
    for kind, what in (
        ("registry", "a Registry of 50,000 lines, against splitting it into words"),
        ("table", "a table of 256 phases with 1,024 nodes each"),
        ("numbers", "25,000,000 numbers of a netCDF file"),
    ):
        ours, theirs = least([proved, plain], kind, path[kind])
        print(f"{what}: {ours / 1e6:.1f} ms, plain Rust {theirs / 1e6:.1f} ms, ratio {ours / theirs:.2f}")
    half, whole = (nanoseconds(proved, "registry", path[name]) for name in ("registry_half", "registry"))
    print(f"a Registry twice as long: {whole / half:.2f} times the time")
    if shutil.which("time"):
        base = kilobytes(proved, "registry", os.devnull)
        for name, lines in (("registry_half", "25,000"), ("registry", "50,000")):
            size = os.path.getsize(path[name]) / 1024
            more = kilobytes(proved, "registry", path[name]) - base
            print(f"memory of a Registry of {lines} lines: {more} KB, {more / size:.1f} times its text")
    else:
        print("memory: skipped: no time(1)")


main()
