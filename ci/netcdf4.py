"""Compares the numbers of a variable as Python's netCDF4 reads them with those that ncdump prints: netcdf4.py FILE VARIABLE."""
import re
import subprocess
import sys

import netCDF4


def main():
    path, name = sys.argv[1:3]
    with netCDF4.Dataset(path) as file:
        assert file.data_model == "NETCDF3_CLASSIC", file.data_model
        found = [int(n) for n in file.variables[name][:].flatten()]
    text = subprocess.run(["ncdump", "-v", name, path], stdout=subprocess.PIPE, check=True, text=True).stdout
    data = re.search(rf"\n {name} =(.*?);", text[text.index("\ndata:") :], re.S).group(1)
    assert found == [int(word) for word in data.replace(",", " ").split()], "the numbers differ"


main()
