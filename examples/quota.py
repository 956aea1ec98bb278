"""A quota, as a count of the eighties had it: the votes by one more than the seats, the whole part of that, and 1. Here 1,000 votes and
6 seats. It prints the quota and its five bytes.

From an installed tree, or from the repository after ./trenailer library:

    PYTHONPATH=PREFIX/share/trenailer/python python3 quota.py
    PYTHONPATH=python python3 examples/quota.py
"""

import sys

from trenailer import BLANK, ODD, REFUSED, Literal, Report, Stack, whole


def push(stack, n):
    report = stack.push(whole(n))
    if report != Report.DONE:
        sys.exit(f"push {n}: report {report}")


stack = Stack()
push(stack, 1000)  # votes
push(stack, 6)  # seats
push(stack, 1)
divided = [Literal.ADD, Literal.DIVIDE, Literal.INT]
report, done = stack.run(divided)
if report != Report.DONE:
    sys.exit(f"{divided[done].name}: report {report}")
push(stack, 1)
cell = stack.cell(stack.operate(Literal.ADD))

if cell.kind == REFUSED:
    sys.exit(f"the quota: report {cell.refused}")
elif cell.kind == BLANK:
    print("blank")
elif cell.kind == ODD:
    print("odd")
else:
    print(f"{cell.value:.17g} {stack.view().hex(' ').upper()}")
