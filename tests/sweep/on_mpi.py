"""numaplan.sweep on processes of MPI: mpiexec -n 4 python3 -m mpi4py.futures on_mpi.py. Prints a line;
not proved."""

import sys

import hosts
import numaplan
from mpi4py.futures import MPIPoolExecutor

COUNT = 200

if __name__ == "__main__":
    with MPIPoolExecutor() as executor:
        asked = ((hosts.script(number), None, hosts.THEN) for number in range(COUNT))
        wrong = hosts.faults(list(numaplan.sweep(asked, executor)), COUNT)
    print(f"FAILED hosts on processes of MPI: {wrong}" if wrong else f"ok {COUNT} hosts on processes of MPI")
    sys.exit(bool(wrong))
