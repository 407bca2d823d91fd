#!/usr/bin/env python3
"""What a must-fail edit costs in processor time, with its share of the proofs.

    tests/budget.py LOG SECONDS [BOUND]

LOG is what rt ci printed, SECONDS the processor time that it took. rt ci doesn't tell how long a check or an edit took, and it
keeps what an earlier run on the machine proved and tried; so the cost is told where one run did all of it: its whole time over
its edits. Fails if that is more than BOUND seconds, 48 unless given, and if no edit was refused."""
import re
import sys


def main():
    log, seconds, bound = open(sys.argv[1]).read(), float(sys.argv[2]), float((sys.argv[3:] or ["48"])[0])
    ok = re.search(r"^rt: ok.*; must-fail edits: (\d+) refused.*$", log, re.M)
    if not ok or int(ok[1]) == 0:
        sys.exit("budget: no edits in the log")
    count = int(ok[1])
    if "every proof and must-fail edit was done in this run" not in ok[0]:
        print(f"{count} edits refused; what one costs is not told, since some were kept from an earlier run")
        return
    one = seconds / count
    print(f"{count} edits refused, {seconds:.0f} s of processor time, {one:.1f} s for each with its share of the proofs")
    if one > bound:
        sys.exit(f"budget: an edit costs more than {bound:.0f} s: split the crates that cost most")


main()
