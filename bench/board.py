#!/usr/bin/env python3
"""Times a board's takes and puts, and weighs a board. Not part of the gate.

usage: bench/board.py [RUNS]

It builds bench/board/main.rt.in in a copy of the crates, with the kit's rt. One worker works all jobs of a board, and a
core alone is stepped through the pages and launches of the largest release. Of some runs it keeps the one of the least
time. Each time has one reading of the clock in it. Memory is what is touched, so not what is only reserved.
"""
import subprocess
import sys

from crates import built, least

KINDS = ["pages", "launches"]


def lines_of(program, words):
    """The numbers of each line of a run, by the line's first word."""
    ran = subprocess.run([program, *words], check=True, capture_output=True, text=True)
    return {line.split()[0]: [int(word) for word in line.split()[1:]] for line in ran.stdout.splitlines()}


def time_of(run):
    """The nanoseconds of all takes and puts."""
    return sum(run[kind][1] + run[kind][2] for kind in KINDS)


def best(program, words, runs):
    return min((lines_of(program, words) for _ in range(runs)), key=time_of)


def show(run):
    for kind in KINDS:
        jobs, takes, puts, least_take, least_put = run[kind]
        if jobs > 0:
            mean = f"a take {takes / jobs / 1000:.3f} us, a put {puts / jobs / 1000:.3f} us in the mean"
            print(f"  {jobs:,} {kind}: {mean}, at least {least_take / 1000:.3f} us and {least_put / 1000:.3f} us")


def board(program, size, runs):
    words = [str(number) for number in size]
    run = best(program, ["run", *words], runs)
    jobs = sum(run[kind][0] for kind in KINDS)
    print("a board of {:,} pages and {:,} launches of {:,} pages".format(*size))
    print(f"  a take and a put: {time_of(run) / jobs / 1000:.3f} us in the mean")
    show(run)
    base, new, worked = (least(program, [task, *words], 1)[1] for task in ["base", "new", "run"])
    print(f"  made in {run['made'][0] / 1e6:.0f} ms; {new - base:.0f} MB beside table and plans, {worked - base:.0f} MB at the end")
    print(f"  an event of the history: {run['event'][0]} bytes")


def core(program, size, runs):
    run = best(program, ["core", *(str(number) for number in size)], runs)
    print("a core of {:,} pages and {:,} launches of {:,} pages".format(*size))
    show(run)
    print(f"  that no launch is ready, while one page is held: {run['later'][0] / 1000:.0f} us")


def prepare():
    return built("board", "job_core job_board job_board_tests launch_plan page_jobs page_jobs_tests refusal rim_chain rim_desc", ["run", "8", "2", "4"])


def main():
    runs = int(sys.argv[1]) if len(sys.argv) > 1 else 5
    program = prepare()
    board(program, (131_080, 200, 12_800), runs)
    board(program, (131_080, 200, 0), runs)
    board(program, (35_699, 8, 30_000), runs)
    core(program, (1_048_576, 1_024, 12_800), runs)


if __name__ == "__main__":
    main()
