"""The stored lists of tests/data: their records, and the answers after =>."""
import pathlib
import re
import subprocess

ROOT = pathlib.Path(__file__).resolve().parent.parent


def records(name):
    return subprocess.run([ROOT / "tools/fanstream", "encode", ROOT / "tests/data" / f"{name}.txt"], capture_output=True, check=True).stdout


def repeated(times, answer):
    """The answers that a line stores for so many calls: the same to each, or where it ends in A..B with numbers from A down to B."""
    if ".." not in answer:
        return [answer] * times
    before, space, last = answer.rpartition(" ")
    found = re.fullmatch(r"([0-9]+)\.\.([0-9]+)", last)
    high, low = map(int, found.groups()) if found else (0, 0)
    if not found or ".." in before or high >= 2**64 or high < low or high - low + 1 != times:
        raise ValueError(f"not {times} answers that count down: {answer}")
    return [f"{before}{space}{here}" for here in range(high, low - 1, -1)]


def answers(name):
    lines = []
    for line in (ROOT / "tests/data" / f"{name}.txt").read_text().splitlines():
        call, arrow, answer = line.partition(" => ")
        if arrow:
            lines += repeated(int(call.split(" * ")[0]) if " * " in call else 1, answer)
    return "".join(line + "\n" for line in lines).encode()
