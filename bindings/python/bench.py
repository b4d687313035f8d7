"""Figures: two passes of the station's five columns through every step of `dust`, against the same work in plain Python with tuples.

    python3 bench.py [ROWS]

It makes two CSV files in a temporary folder, runs each way in a process of its own, and says the processor time of each step (all is one
thread, so that on a machine with nothing else to do this is the time itself), how much of it the station's own entries took, the rows a
second, and the most memory. Both ways must find the same ink and dust.
"""

from __future__ import annotations

import csv
import os
import subprocess
import sys
import tempfile
import time
from pathlib import Path
from typing import Dict, List

KEY = "plate,glyph,contour,position"
STEP = 0.01


def make(folder: Path, rows: int) -> None:
    """Two passes over the same points in another order, an eighth of each being dust, and each position off by a little noise."""
    import numpy as np

    rng = np.random.default_rng(1)
    names = np.array([f"{a}.{b}" for a in "a b c ae oe germandbls ampersand".split() for b in "alt sc swash lf 1 2 3".split()] + [""])
    many = rows + rows // 8
    plate = rng.integers(1, 2 + rows // 500, many)
    name = names[rng.integers(0, len(names), many)]
    contour = rng.integers(0, 6, many)
    position = np.round(rng.normal(0, 1000, many), 2)
    nanoseconds = rng.integers(1, 4, many) * 250
    for which, file in enumerate(("a.csv", "b.csv")):
        some = rng.permutation(np.arange(rows) if which == 0 else np.arange(many - rows, many))
        seen = position[some] + rng.normal(0, 0.0005, rows)
        columns = (plate[some].tolist(), name[some].tolist(), contour[some].tolist(), [f"{x:.6f}" for x in seen.tolist()],
                   [f"0 0 {ns}" for ns in nanoseconds[some].tolist()])
        with open(folder / file, "w", newline="") as out:
            writer = csv.writer(out, lineterminator="\n")
            writer.writerow("plate,glyph,contour,position,exposure".split(","))
            writer.writerows(zip(*columns))


def station(a: str, b: str) -> Dict[str, float]:
    """The command itself, with the counts of every group written as CSV."""
    from rowstation import library
    from rowstation.command import do_dust, parser
    from rowstation.files import Progress

    inside, answer = [0.0], library.answer

    def timed(*words):
        began = time.process_time()
        try:
            return answer(*words)
        finally:
            inside[0] += time.process_time() - began

    library.answer = timed
    progress = Progress(clock=time.process_time)
    do_dust(parser().parse_args(["dust", a, b, "--key", KEY, "--quantise", f"position={STEP}", "--csv", f"{a}.station"]), progress)
    return {**progress.seconds, "(of these in the station's entries)": inside[0]}


def tuples(a: str, b: str) -> Dict[str, float]:
    """The same with the csv module, tuples, sort and a merge."""
    seconds: Dict[str, float] = {}

    def step(name: str, began: float) -> float:
        now = time.process_time()
        seconds[name] = seconds.get(name, 0.0) + now - began
        return now

    now = time.process_time()
    passes = []
    for path in (a, b):
        with open(path, newline="") as file:
            reader = csv.reader(file)
            next(reader)
            points = [(int(r[0]), r[1] != "", r[1].encode(), int(r[2]), round(float(r[3]) / STEP) * STEP + 0.0) for r in reader]
        now = step(f"reading {path}", now)
        points.sort()
        now = step("sorting", now)
        passes.append(points)
    first, second = passes
    groups: Dict[tuple, List[int]] = {}
    i = j = 0
    while i < len(first) or j < len(second):
        point = first[i] if j == len(second) or (i < len(first) and first[i] <= second[j]) else second[j]
        start_i, start_j = i, j
        while i < len(first) and first[i] == point:
            i += 1
        while j < len(second) and second[j] == point:
            j += 1
        counts = groups.setdefault(point[:3], [0, 0, 0, 0, 0])
        counts[0 if i > start_i and j > start_j else 1 if i > start_i else 2] += 1
        counts[3] += max(i - start_i - 1, 0)
        counts[4] += max(j - start_j - 1, 0)
    now = step("joining and counting", now)
    with open(f"{a}.tuples", "w", newline="") as out:
        writer = csv.writer(out, lineterminator="\n")
        writer.writerow("plate,glyph,ink,dust_a,dust_b,duplicates_a,duplicates_b".split(","))
        writer.writerows([plate, name.decode(), *counts] for (plate, _, name), counts in groups.items())
    step("writing", now)
    return seconds


def main() -> None:
    if len(sys.argv) == 4:
        seconds = {"station": station, "tuples": tuples}[sys.argv[1]](*sys.argv[2:])
        for name, spent in seconds.items():
            print(f"{spent:8.2f} s  {os.path.basename(name)}")
        memory = next(int(line.split()[1]) for line in open("/proc/self/status") if line.startswith("VmHWM"))
        print(f"{time.process_time():8.2f} s  in all, {memory // 1024} MiB")
        return
    rows = int(sys.argv[1]) if len(sys.argv) == 2 else 1_000_000
    with tempfile.TemporaryDirectory() as name:
        folder = Path(name)
        make(folder, rows)
        print(f"two passes of {rows:,} rows", flush=True)
        for way in ("station", "tuples"):
            print(f"{way}:", flush=True)
            out = subprocess.run([sys.executable, __file__, way, str(folder / "a.csv"), str(folder / "b.csv")], check=True, stdout=subprocess.PIPE)
            lines = out.stdout.decode().splitlines()
            print("\n".join(line for line in lines if " s  " in line))
            total = float(lines[-1].split()[0])
            print(f"{2 * rows / total:8,.0f} rows a second", flush=True)
        same = (folder / "a.csv.station").read_bytes() == (folder / "a.csv.tuples").read_bytes()
        print("both found the same" if same else "they found different things")
        sys.exit(0 if same else 1)


if __name__ == "__main__":
    main()
