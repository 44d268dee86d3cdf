"""Writes the inputs of the measurements of readers and of whole domains into the folder that is named: for bench/run."""
import os
import struct
import sys

LETTERS = "abcdefghijklmnopqrstuvwxyz"


def registry(lines):
    """A Registry of so many lines: fields with one level, and halos that name them."""
    out = ["dimspec i 1 standard_domain x west_east", "dimspec j 3 standard_domain y south_north"]
    for n in range((lines - 2) // 2):
        out.append(f'state integer field{n} ij misc 1 - i0rh "NAME{n}" "some description" "units"')
        out.append(f"halo halo{n} misc 8:field{n};24:field{n // 2},field{n // 3}")
    return "\n".join(out) + "\n"


def tree(leaves):
    """A sum of so many reads, halved again and again. A chain would be too deep."""
    if leaves == 1:
        return "a[-1,0,1]"
    return f"({tree(leaves // 2)} + {tree(leaves - leaves // 2)})"


def table():
    """256 phases with an expression of 1,024 nodes each: 512 reads, 511 sums and a sign."""
    return "".join(f"phase p{n} writes a margin 1 1 = -{tree(512)}\n" for n in range(256))


def words(*numbers):
    return b"".join(struct.pack(">I", number) for number in numbers)


def named(name):
    return words(len(name)) + name + bytes(-len(name) % 4)


def numbers(side):
    """A netCDF classic file with one record of so many numbers by so many."""
    size = 4 * side * side
    front = b"CDF\x01" + words(1, 10, 3) + named(b"Time") + words(0) + named(b"south_north") + words(side)
    front += named(b"west_east") + words(side, 0, 0, 11, 1) + named(b"A") + words(3, 0, 1, 2, 0, 0, 4, size)
    return front + words(len(front) + 4) + (bytes(range(256)) * (size // 256 + 1))[:size]


REGISTRY = """\
dimspec i 1 standard_domain x west_east
dimspec k 2 standard_domain z bottom_top
dimspec j 3 standard_domain y south_north
state integer a ij misc 1 - i0rhudf "A" "" ""
state integer b ij misc 1 - rh "B" "" ""
halo h24 misc 24:a,b
"""

TABLE = """\
halo h24
phase q writes a margin 1 1 extend 1 = (4*a[0,0,0] + a[-1,0,0] + a[1,0,0] + a[0,0,-1] + a[0,0,1]) div 8
phase p writes b margin 2 1 = a[-1,0,0] + a[1,0,0]
"""
RELAX = "phase q writes a = call relax(a[0,0,0], 100, 4)\n"


def namelist(nx, ny, steps, every):
    """A run of so many steps of a minute, with a frame at the start and after each so many minutes; 0 for none."""
    return (
        "&time_control\n start_year = 2000, start_month = 1, start_day = 1,\n"
        f" run_minutes = {steps}, history_interval = {every}, frames_per_outfile = 100,\n/\n"
        f"&domains\n time_step = 60, max_dom = 1, e_we = {nx + 1}, e_sn = {ny + 1}, e_vert = 2,\n/\n"
    )


def attribute(name, kind, values):
    count = len(values) // 4 if kind == 4 else len(values)
    return named(name) + words(kind, count) + values + bytes(-len(values) % 4)


def input_file(nx, ny):
    """The input file of a whole domain: one record of A = (37(i-1) + 53(j-1)) mod 100."""
    front = b"CDF\x01" + words(1, 10, 4) + named(b"Time") + words(0) + named(b"DateStrLen") + words(19)
    front += named(b"west_east") + words(nx) + named(b"south_north") + words(ny)
    front += words(12, 2) + attribute(b"START_DATE", 2, b"2000-01-01_00:00:00") + attribute(b"GRID_ID", 4, words(1))
    front += words(11, 2) + named(b"Times") + words(2, 0, 1, 0, 0, 2, 20, 380)
    front += named(b"A") + words(3, 0, 3, 2, 12, 5) + attribute(b"FieldType", 4, words(106))
    front += attribute(b"MemoryOrder", 2, b"XY ") + b"".join(attribute(name, 2, b"") for name in (b"description", b"units", b"stagger"))
    front += words(4, 4 * nx * ny, 400) + b"2000-01-01_00:00:00\0"
    return front + words(*((37 * i + 53 * j) % 100 for j in range(ny) for i in range(nx)))


def case(folder, nx, ny, steps, every, phases=TABLE):
    """A folder with the four files of a run of a table."""
    os.makedirs(folder)
    texts = {"Registry": REGISTRY, "stencil.table": phases, "namelist.input": namelist(nx, ny, steps, every)}
    for name, text in texts.items():
        with open(os.path.join(folder, name), "w") as file:
            file.write(text)
    with open(os.path.join(folder, "wrfinput_d01"), "wb") as file:
        file.write(input_file(nx, ny))


def main():
    os.chdir(sys.argv[1])
    case("written", 1001, 500, 10, 5)
    case("stepped", 1001, 500, 10, 0)
    case("unstepped", 1001, 500, 0, 0)
    case("relaxed", 1001, 500, 10, 0, RELAX)
    case("relaxed_in_frames", 1001, 500, 10, 5, RELAX)
    case("small", 3, 3, 10, 5)
    for name, text in [("registry", registry(50_000)), ("registry_half", registry(25_000)), ("table", table())]:
        with open(name, "w") as file:
            file.write(text)
    with open("numbers", "wb") as file:
        file.write(numbers(5000))


main()
