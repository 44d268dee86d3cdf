"""The cases of cases/, stepped once more in a few lines each, and compared with what ncdump tells of the files that the
proved program wrote: cases.py FOLDER NAME, with the folder that the case was run in and the case's name."""
import re
import subprocess
import sys


def variable(path, name):
    """The numbers of a variable, as ncdump prints them."""
    text = subprocess.run(["ncdump", "-v", name, path], stdout=subprocess.PIPE, check=True, text=True).stdout
    data = re.search(rf"\n {name} =(.*?);", text[text.index("\ndata:") :], re.S).group(1)
    return [int(word) for word in data.replace(",", " ").split()]


def times(path):
    text = subprocess.run(["ncdump", "-v", "Times", path], stdout=subprocess.PIPE, check=True, text=True).stdout
    return re.findall(r'"(\d{4}[^"]*)"', text[text.index("\ndata:") :])


def read(folder, name, *lengths):
    """An input variable as nested lists."""
    values = variable(f"{folder}/wrfinput_d01", name)
    for length in reversed(lengths[1:]):
        values = [values[at : at + length] for at in range(0, len(values), length)]
    return values


def flat(values):
    return [n for one in values for n in (flat(one) if isinstance(one, list) else [one])]


# each case gives its frames: variables by name


def base(folder):
    a = read(folder, "A", 3, 3)
    yield {"A": a, "B": [0] * 9}
    a[1][1] = (4 * a[1][1] + a[1][0] + a[1][2] + a[0][1] + a[2][1]) // 8
    yield {"A": a, "B": [0] * 9}


def periodic_row(folder):
    a = read(folder, "A", 4)
    for _ in range(5):
        yield {"A": a}
        a = a[-1:] + a[:-1]


def relaxed(folder):
    a = read(folder, "A", 2)
    yield {"A": a, "B": [0] * 2}
    yield {"A": [number + (100 - number) // 4 for number in a], "B": [0] * 2}


def staggered(folder):
    q = read(folder, "Q", 3, 6, 8)
    u = [[[0] * 9 for _ in range(6)] for _ in range(3)]
    v = [[[0] * 8 for _ in range(7)] for _ in range(3)]
    w = [[[0] * 8 for _ in range(6)] for _ in range(4)]
    cells = [(k, j, i) for k in range(3) for j in range(6) for i in range(8)]
    for step in range(31):
        if step % 10 == 0:
            yield {"Q": q, "U": u, "V": v, "W": w}
        for k, j, i in cells:
            if i > 0:
                u[k][j][i] = (q[k][j][i - 1] - q[k][j][i]) // 8
            if j > 0:
                v[k][j][i] = (q[k][j - 1][i] - q[k][j][i]) // 8
            if k > 0:
                w[k][j][i] = (q[k - 1][j][i] - q[k][j][i]) // 8
        for k, j, i in cells:
            q[k][j][i] += u[k][j][i] - u[k][j][i + 1] + v[k][j][i] - v[k][j + 1][i] + w[k][j][i] - w[k + 1][j][i]


def waves(folder):
    new = read(folder, "H", 100, 160)
    old = [row[:] for row in new]
    for step in range(121):
        if step % 30 == 0:
            yield {"H": new}
        next_ = [
            [
                2 * new[j][i] - old[j][i] + (new[j][i - 1] + new[j][(i + 1) % 160] + new[j - 1][i] + new[(j + 1) % 100][i] - 4 * new[j][i] + 2) // 4
                for i in range(160)
            ]
            for j in range(100)
        ]
        old, new = new, next_


FILES = {
    "base": ["wrfout_d01_2000-01-01_00:00:00"],
    "periodic_row": [f"wrfout_d01_2000-01-01_00:0{n}:00" for n in (0, 2, 4)],
    "relaxed": ["wrfout_d01_2000-01-01_00:00:00"],
    "staggered": ["wrfout_d01_2000-01-01_00:00:00"],
    "waves": ["wrfout_d01_2000-01-01_00:00:00"],
}


def main():
    folder, name = sys.argv[1:3]
    wanted, stamps = {}, 0
    for frame in globals()[name](folder):
        stamps += 1
        for variable_name, values in frame.items():
            wanted.setdefault(variable_name, []).extend(flat(values))
    paths = [f"{folder}/{file}" for file in FILES[name]]
    assert sum(len(times(path)) for path in paths) == stamps, "the number of frames"
    for variable_name, values in wanted.items():
        found = [n for path in paths for n in variable(path, variable_name)]
        assert found == values, f"the numbers of {variable_name}"


main()
