#!/usr/bin/env python3
"""Shows that tests refuse wrong bodies of the code of workers and files. Contracts accept most of these bodies, because no contract covers a run that
does not end, who did what, the gate, or memory that is refused for no reason.

    tools/trials/wrong_workers.py [WORD]    tries the bodies, or those whose name contains WORD
    tools/trials/wrong_workers.py --check   status 1 if a text that a body replaces is not in its file exactly once; the gate runs this

Each body is written into a copy of the crates. `rt try --test` runs the tests of the named crate or module there, without proofs, and one of them
must fail.
"""
import os
import shutil
import subprocess
import sys
import tempfile

top = os.path.dirname(os.path.dirname(os.path.dirname(os.path.abspath(__file__))))

# what is wrong, the file, what it has and what it has in place of that, and the crate whose tests refuse it, with the
# module where it has many
BODIES = [
    (
        "results of launches are dropped",
        "job_board/src/state.rt",
        [("        let number = launch.number();\n", "        let number = launch.number();\n        if number < results.len() {\n            return Ok(());\n        }\n")],
        "job_board_tests",
    ),
    (
        "the gate is called under the lock",
        "job_workers/src/worker.rt",
        [
            (
                "        let given = if gate.lets_launches_wait() {\n            board.take_or_wait(rt, worker)\n        } else {\n"
                "            board.take(rt, worker)\n        };\n",
                "        let mut state = board.lock(rt);\n        let given = state.take(worker);\n"
                "        match &given {\n            Work::Page(task) => gate.before(worker, JobId::Page(task.number())),\n"
                "            Work::Launch(task) => gate.before(worker, JobId::Launch(task.number())),\n            _ => {}\n        }\n"
                "        drop(state);\n",
            ),
            ("            gate.before(worker, job);\n            let page =", "            let page ="),
            ("            gate.before(worker, job);\n            let launch =", "            let launch ="),
        ],
        "job_workers_tests",
    ),
    (
        "the gate is not called when a worker begins",
        "job_workers/src/worker.rt",
        [("    gate.start(worker);\n", "")],
        "job_workers_tests",
    ),
    (
        "workers take turns",
        "job_workers/src/workers.rt",
        [
            ("            work(rt, gate, board, 0, mine);\n        },\n    )", "            let _ = mine;\n        },\n    )"),
            ("    let lent = shares.as_mut_slice();", "    work(rt, gate, board, 0, &mut shares[0]);\n    let lent = shares.as_mut_slice();"),
        ],
        "job_workers_tests",
    ),
    (
        "no launch waits for another",
        "job_board/src/state/giving.rt",
        [("        if self.core.is_some_held() {\n", "        if false {\n")],
        "job_workers_tests",
    ),
    (
        "no launch waits for the pages of another",
        "job_core/src/machine.rt",
        [("            if self.held(worker).is_some() {\n", "            if matches!(self.held(worker), Some(JobId::Launch(_))) {\n")],
        "job_workers_tests",
    ),
    (
        "a prefix that is handed over is not kept",
        "job_board/src/state.rt",
        [("        let followers = if prefixes.keep(launch, prefix) {\n", "        let followers = if false {\n")],
        "job_workers_tests",
    ),
    (
        "a prefix that is handed over is offered to nobody",
        "job_board/src/state.rt",
        [("            preferences.note_chained(SharedPrefix { launch, links })\n", "            0\n")],
        "job_workers_tests",
    ),
    (
        "a worker that finds nothing ends",
        "job_workers/src/board.rt",
        [("            state = self.changed.wait(rt, state);\n", "            return given;\n")],
        "job_workers_tests",
    ),
    (
        "a worker that may leave launches for later ends where nothing is ready",
        "job_workers/src/worker.rt",
        [("            board.take_or_wait(rt, worker)\n", "            board.lock(rt).take_or_wait(worker)\n")],
        "job_workers_tests",
    ),
    (
        "a page's put wakes nobody",
        "job_workers/src/board.rt",
        [("put_page(worker, page, share);\n        if answer.is_ok() {\n", "put_page(worker, page, share);\n        if false {\n")],
        "job_workers_tests",
    ),
    (
        "a launch's put wakes nobody",
        "job_workers/src/board.rt",
        [("        self.wake_unless(goes_on);\n        answer\n", "        let _ = goes_on;\n        answer\n")],
        "job_workers_tests",
    ),
    (
        "a launch that is put is always handed back",
        "job_workers/src/board.rt",
        [("        let answer = state.put_launch(worker, launch);\n", "        let answer: Result<(), ChainedLaunch<'a, L>> = Err(launch);\n")],
        "job_workers_tests",
    ),
    (
        "a launch that is put is dropped, and its worker retires",
        "job_workers/src/board.rt",
        [("        let answer = state.put_launch(worker, launch);\n", "        let _launch = launch;\n        let _free = state.retire(worker);\n        let answer: Result<(), ChainedLaunch<'a, L>> = Ok(());\n")],
        "job_workers_tests",
    ),
    (
        "a worker ends where a job comes later",
        "job_workers/src/board.rt",
        [("        self.given(rt, worker, false)\n", "        let given = self.state.lock(rt).take(worker);\n        if matches!(given, Work::Later) { Work::Done } else { given }\n")],
        "job_workers_tests",
    ),
    (
        "a worker that leaves launches for later ends where a job comes later",
        "job_workers/src/board.rt",
        [("        self.given(rt, worker, true)\n", "        let given = self.state.lock(rt).take_or_wait(worker);\n        if matches!(given, Work::Later) { Work::Done } else { given }\n")],
        "job_workers_tests",
    ),
    (
        "a worker that ends keeps its job",
        "job_workers/src/worker.rt",
        [("    board.retire(rt, worker);\n", "")],
        "job_workers_tests",
    ),
    (
        "a barrier",
        "job_core/src/machine.rt",
        [
            ("        self.jobs.ready_launch()\n", "        if self.pages_left > 0 {\n            return None;\n        }\n        self.jobs.ready_launch()\n"),
            ("        self.jobs.is_free(job) && self.jobs.is_ready(job)\n", "        self.jobs.is_free(job) && self.jobs.is_ready(job) && self.pages_left == 0\n"),
        ],
        "job_workers_tests",
    ),
    (
        "memory is always wanting",
        "rim_report/src/workers.rt",
        [("    let plans = accepted_plans(alloc, accepted)?;\n", "    if workers > 0 {\n        return Err(StartFault::NoMemory);\n    }\n    let plans = accepted_plans(alloc, accepted)?;\n")],
        "rim_tests::workers",
    ),
    (
        "a worker that has put no page is not counted",
        "job_board/src/share.rt",
        [("        self.is_started\n", "        self.count > 0\n")],
        "rim_tests::workers",
    ),
    (
        "the number of workers in the words is not used",
        "rim_cli/src/answer.rt",
        [("            measure(rt, alloc, gate, opener, path, workers, format, explain)\n", "            measure(rt, alloc, gate, opener, path, workers.min(1), format, explain)\n")],
        "rim_tests::workers",
    ),
    (
        "the program's gate is not called",
        "rim_cli/src/answer.rt",
        [
            (
                "            measure(rt, alloc, gate, opener, path, workers, format, explain)\n",
                "            let _ = gate;\n            measure(rt, alloc, &mut job_workers::FreeGate, opener, path, workers, format, explain)\n",
            )
        ],
        "rim_tests::workers",
    ),
    (
        "interruptions are counted in all and not in a row",
        "rim_files/src/patient.rt",
        [("                self.interruptions = 0;\n                answer", "                answer")],
        "rim_tests::faults",
    ),
]


# Tests that take longer than `rt try` waits, whatever the bodies are.
SLOW = ["openings::nothing_after_a_file_too_large", "waiting::runs_end_with_the_same_values"]


def keep_module(source, module):
    """Takes all modules of tests from a crate but this one, and the fakes."""
    kept = [module, "fakes"]
    root = os.path.join(source, "lib.rt")
    with open(root) as file:
        head, *modules = file.read().split("#[cfg(test)]\n")
    with open(root, "w") as file:
        file.write(head + "".join("#[cfg(test)]\n" + line for line in modules if line.strip() in [f"mod {name};" for name in kept]))
    for name in os.listdir(source):
        if name.removesuffix(".rt") not in ["lib", *kept]:
            os.remove(os.path.join(source, name))


def made(body):
    """Returns the text of a body's file with its changes."""
    what, file, changes, _ = body
    with open(os.path.join(top, "crates", file)) as right:
        text = right.read()
    for old, new in changes:
        if text.count(old) != 1:
            raise SystemExit(f"wrong_workers.py: {what}: {file} has a replaced text {text.count(old)} times, expected once: {old.strip()}")
        text = text.replace(old, new)
    return text


def refused(body, folder):
    """Whether a test fails. A test that is still running after a minute fails too."""
    what, file, changes, tests = body
    path = os.path.join(folder, "crates", file)
    with open(path) as right:
        text = right.read()
    wrong = made(body)
    with open(path, "w") as edited:
        edited.write(wrong)
    crate, _, module = tests.partition("::")
    source = os.path.join(folder, "crates", crate, "src")
    if module:
        keep_module(source, module)
    ran = subprocess.run(["rt", "try", "--test"], cwd=os.path.dirname(source), capture_output=True, text=True)
    shutil.copytree(os.path.join(top, "crates", crate, "src"), source, dirs_exist_ok=True)
    with open(path, "w") as edited:
        edited.write(text)
    lines = [line for line in (ran.stdout + ran.stderr).splitlines() if not any(name in line for name in SLOW)]
    failed = [line for line in lines if line.startswith("test ") and line.endswith("FAILED")]
    print(f"{'ok' if failed else 'WRONG'}: {what}", *failed[:4], sep="\n  ", flush=True)
    return bool(failed)


def main():
    word = sys.argv[1] if len(sys.argv) > 1 else ""
    if word == "--check":
        for body in BODIES:
            made(body)
        return
    with tempfile.TemporaryDirectory() as folder:
        shutil.copytree(os.path.join(top, "crates"), os.path.join(folder, "crates"), ignore=shutil.ignore_patterns("out"))
        for name in ("HANDLES", "crates.txt"):
            shutil.copy(os.path.join(top, name), folder)
        done = [refused(body, folder) for body in BODIES if word in body[0]]
    sys.exit(0 if all(done) else 1)


if __name__ == "__main__":
    main()
