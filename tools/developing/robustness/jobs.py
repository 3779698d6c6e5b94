"""Jobs from statements."""

import json
from collections.abc import Iterable
from typing import Any


SUM = ["SUBROUTINE ADD(I,J,K)", "K=I+J", "END"]
LOOP = [
    "SUBROUTINE LOOP(N,K)", "K=0", "IF (N.LT.0) GO TO 20", "DO 10 I=1,N", "10 K=K+I", "20 K=K+1", "30 RETURN", "END",
]  # fmt: skip


def source_of(statements: Iterable[str]) -> str:
    """The lines in fixed form of statements, each with its label, if any, and a blank before it."""
    return "".join(line_of(statement) for statement in statements)


def continued(text: str) -> str:
    """A statement on as many lines as it needs."""
    return "\n     +".join(text[first : first + 66] for first in range(0, len(text), 66))


def line_of(statement: str) -> str:
    label, _, rest = statement.partition(" ")
    return f"{label:>5} {rest}\n" if label.isdigit() else f"      {statement}\n"


def job_of(statements: Iterable[str], suite: list[Any] | None = None) -> bytes:
    """The bytes of a job, without an end of line behind them."""
    tests = {} if suite is None else {"suite": suite}
    return json.dumps({"source": source_of(statements), **tests}, separators=(",", ":")).encode()
