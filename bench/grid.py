"""Times the command `plain` and the same run written plainly in Rust, in turn, for bench/run: the least time of many
rounds. Both read the same input file of 1001 by 500 points, take 10 steps of a table of two phases, and write three
records. The same of a table of one phase that calls a stored function, which plain Rust finds by a `match`."""
import os
import shutil
import subprocess
import sys
import time

NAME = "wrfout_d01_2000-01-01_00:00:00"
ROUNDS = 15


def remove_output():
    if os.path.exists(NAME):
        os.remove(NAME)


def run(folder, command):
    """The seconds of a run in a folder, that makes its file anew, and what it prints."""
    os.chdir(folder)
    remove_output()
    start = time.perf_counter()
    out = subprocess.run(command, stdout=subprocess.PIPE, check=True).stdout
    return time.perf_counter() - start, out


def kilobytes(folder, command):
    """The most memory of a run, as time(1) tells it."""
    os.chdir(folder)
    remove_output()
    out = subprocess.run(["time", "-f", "%M"] + command, stdout=subprocess.DEVNULL, stderr=subprocess.PIPE, check=True)
    return int(out.stderr.split()[-1])


def output():
    with open(NAME, "rb") as file:
        return file.read()


def main():
    proved, plain, top = (os.path.abspath(word) for word in sys.argv[1:4])
    folder = {name: os.path.join(top, name) for name in ("written", "stepped", "unstepped", "relaxed", "relaxed_in_frames", "small")}
    ours, theirs = [proved, "plain"], [plain, "1001", "500", "10", "5"]

    for name, words in (("written", theirs), ("relaxed_in_frames", theirs + ["relax"])):
        run(folder[name], ours)
        file = output()
        run(folder[name], words)
        assert file == output(), "the files differ"

    least = {name: 9.0 for name in ("written", "stepped", "unstepped", "relaxed", "theirs", "walk", "copy", "relax")}

    def took(name, seconds):
        least[name] = min(least[name], seconds)

    for _ in range(ROUNDS):
        for name in ("written", "stepped", "unstepped", "relaxed"):
            took(name, run(folder[name], ours)[0])
        seconds, printed = run(folder["written"], theirs)
        took("theirs", seconds)
        for name, nanoseconds in zip(("walk", "copy"), printed.split()):
            took(name, int(nanoseconds) / 1e9)
        took("relax", int(run(folder["relaxed"], theirs[:4] + ["0", "relax"])[1].split()[0]) / 1e9)
    stepping = least["stepped"] - least["unstepped"]
    print(f"10 steps of 1001 by 500 points, two phases: {1000 * stepping:.1f} ms, plain Rust {1000 * least['walk']:.1f} ms, ratio {stepping / least['walk']:.2f}")
    relaxing = least["relaxed"] - least["unstepped"]
    print(f"10 steps of a phase that calls relax: {1000 * relaxing:.1f} ms, plain Rust with a match {1000 * least['relax']:.1f} ms, ratio {relaxing / least['relax']:.2f}")
    both = least["walk"] + least["copy"]
    print(f"the same read, stepped and written: {1000 * least['written']:.1f} ms, {least['written'] / both:.2f} times the steps in plain Rust and writing the bytes alone ({1000 * both:.1f} ms), {least['written'] / least['theirs']:.2f} times all of it in plain Rust")

    if shutil.which("time"):
        points = 1001 * 500 * 4 / 1024
        more = kilobytes(folder["written"], ours) - kilobytes(folder["small"], ours)
        plainly = kilobytes(folder["written"], theirs) - kilobytes(folder["small"], [plain, "3", "3", "10", "5"])
        print(f"memory above a small case: {more} KB, {more / points:.2f} times a field; plain Rust {plainly} KB, {plainly / points:.2f} times")
    else:
        print("memory: skipped: no time(1)")


main()
