"""Times programs on the built-in case in turn, for bench/run: the least time of many rounds."""
import os
import shutil
import subprocess
import sys
import time

NAME = "wrfout_d01_2000-01-01_00:00:00"
ROUNDS = 30


def seconds(command):
    """The time of a run that makes its file anew. One that replaces a file which the run before left to the disk waits
    for the disk, whichever program it is: 16 ms become 45, and plain Rust after plain Rust 57."""
    if os.path.exists(NAME):
        os.remove(NAME)
    start = time.perf_counter()
    subprocess.run(command, stdout=subprocess.DEVNULL, check=True)
    return time.perf_counter() - start


def written():
    with open(NAME, "rb") as file:
        return file.read()


def kilobytes(command):
    """The most memory of a run, as time(1) tells it."""
    out = subprocess.run(["time", "-f", "%M"] + command, stdout=subprocess.DEVNULL, stderr=subprocess.PIPE, check=True)
    return int(out.stderr.split()[-1])


def main():
    proved, plain = sys.argv[1], sys.argv[2]
    size = ["200", "200", "100"]
    commands = {"plain Rust": [plain] + size}
    for patches in ("1", "4", "16"):
        commands[patches] = [proved, "demo"] + size + [patches]

    files = {}
    for name, command in commands.items():
        seconds(command)
        files[name] = written()
    assert all(file == files["1"] for file in files.values()), "the files differ"

    least = {name: 9.0 for name in commands}
    for _ in range(ROUNDS):
        for name, command in commands.items():
            least[name] = min(least[name], seconds(command))
    ours = least["1"]
    print(f"demo 200 200 100 1: {1000 * ours:.1f} ms, plain Rust {1000 * least['plain Rust']:.1f} ms, ratio {ours / least['plain Rust']:.2f}")
    for patches in ("4", "16"):
        print(f"demo 200 200 100 {patches}: {1000 * least[patches]:.1f} ms, {least[patches] / ours:.2f} times one patch")

    if shutil.which("time"):
        more = kilobytes(commands["1"]) - kilobytes([proved, "demo", "1", "1", "0", "1"])
        one = (2 * 4 * 200 * 200 + 20) / 1024
        print(f"memory above an empty case: {more} KB, {more / one:.2f} times the field and its record")
    else:
        print("memory: skipped: no time(1)")


main()
