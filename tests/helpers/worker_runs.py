"""Programs that are woven and run by workers, and what is wrong with the records that are printed, for the scripts of tests/runs.

A machine in Python makes the steps of a record again (machine.py, recorded_runs.py): each has to be one that can be made, each answer the plain one
(docs/RUNS.md), and the events, the lines in which they stand and the end have to be those of the record. The events have to obey the
policy, by the words of docs/POLICIES.md (judged_events.py) and by `policy`; `replay` has to print the same events and the same end; and
standard error has what the program printed. Of one worker the record itself is known.
"""
import os
import subprocess

from command_runs import BUDGET, DEVICE, DONE, put
from judged_events import Judge
from recorded_runs import Run, steps_of

ENDS = {"finished": DONE, "deadlock": DONE, "stopped": DONE, "budget": BUDGET, "device": DEVICE}


def status_of(record):
    """The status with which a record comes."""
    return ENDS[record.rsplit("end ", 1)[1].split(" ")[0]]


def read_in(path):
    with open(path, "rb") as file:
        return file.read()


def made_again(contents, listing, main, record):
    """The run of the machine with the steps of a record, and the first step that cannot be made or answer that is not plain, or None."""
    run = Run(contents, listing, main)
    for place, (number, answer) in enumerate(steps_of(record)):
        if not run.machine.takes(number, answer):
            return run, f"step {place} cannot be made"
        call = run.waiting(number)
        if call and answer != call.plain():
            return run, f"step {place} is not the plain answer {call.plain()}"
        run.make(number, answer)
    return run, None


def wrong_record(run, ended, workers, budget):
    """What is wrong with a record whose steps the machine made, and with how `run` ended."""
    end, status, errors = run.machine.end(), *ended[0::2]
    if end == "running" and len(run.lines) == budget:
        end = "budget"
    if ended[1] != run.record(end):
        return f"the record is not {run.record(end)!r}"
    if status != ENDS.get(end.split()[0]) or len(run.lines) > budget:
        return f"status {status}, and {len(run.lines)} steps"
    if errors != run.printed():
        return f"standard error has {errors!r}, not {run.printed()!r}"
    if workers == 1:
        alone = Run(*run.sources)
        return "" if alone.record(alone.alone(budget)) == ended[1] else "one worker makes other steps"
    return ""


class Program:
    """A woven program, in a folder of its own."""

    def __init__(self, program, folder, files, main, outputs, mode="auto"):
        """`files` are its policy, its listing and its class files; `outputs` names what is written of these, in the order of `check`."""
        self.program, self.folder, self.main, self.outputs = program, folder, main, outputs
        for name, content in files.items():
            put(folder, name, content)
        self.listing, self.judge = files["listing"], Judge(files["policy"].decode("ascii"))
        classes = [name for name in files if name.endswith(".class")]
        self.inlined = self.answer("inline", "policy", "listing", main, "out", mode, *classes)[1]
        self.contents = [read_in(os.path.join(folder, name)) for name in outputs] if self.inlined.startswith("inlined") else []
        self.is_held = self.inlined.startswith("inlined hold")

    def answer(self, *words):
        """The status, what is printed, and what is printed as its errors."""
        ran = subprocess.run([self.program, *words], cwd=self.folder, stdout=subprocess.PIPE, stderr=subprocess.PIPE, check=False)
        return ran.returncode, ran.stdout.decode("latin-1"), ran.stderr

    def run(self, workers, budget):
        return self.answer("run", "policy", "listing", "out/certificate", self.main, str(workers), str(budget), *self.outputs)

    def replayed(self, record):
        put(self.folder, "record", record.encode("ascii"))
        return self.answer("replay", "listing", self.main, "record", *self.outputs)

    def wrong(self, ended, workers, budget):
        """What is wrong with how `run` ended, and the run as the machine made it."""
        if ended[0] not in (DONE, DEVICE, BUDGET):
            return f"status {ended[0]}, and {ended[1]!r}", None
        run, fault = made_again(self.contents, self.listing, self.main, ended[1])
        fault = fault or wrong_record(run, ended, workers, budget)
        if fault:
            return fault, run
        events = run.events()
        refused, may_come = self.judge.refused(events)
        if refused is not None and not (may_come and self.is_held):
            return f"event {refused} is refused", run
        wanted = DONE, "".join(line + "\n" for line in [*events, run.end_line()])
        if self.replayed(ended[1])[:2] != wanted:
            return "replay prints others", run
        judged, line = self.answer("policy", "policy", "listing", "record"), self.judge.line(events)
        return "" if judged[:2] == (DONE, line + "\n") else f"policy says {judged[1]!r}, not {line!r}", run
