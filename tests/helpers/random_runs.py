"""Runs of programs of several threads with random turns and answers, for the scripts of tests/runs."""

ANSWERS = ["nothing", "int 0", "int 1", "int -7", "int 2", "null", "text -", "text 6869", "fresh api/Net", "fresh api/Broken", "arg 0", "receiver"]
THROWING = ["throws api/Broken", "throws java/lang/RuntimeException"]


def answer_for(draw, run, number):
    """An answer to the call in which the thread waits."""
    return draw.choice(THROWING if draw.randrange(8) == 0 else [answer for answer in ANSWERS if run.machine.takes(number, answer)])


def turns(draw, run, most, longest, is_late=False):
    """Makes steps of the run until it has ended or has so many, in turns of a thread that have at most so many. Where answers are late,
    none comes while another thread can go on without. Gives each step as it is made: the thread, the words of the answer, and what the
    library saw."""
    while run.machine.end() == "running" and len(run.lines) < most:
        enabled = [one for one in range(len(run.machine.threads)) if run.machine.enabled(one)]
        free = [one for one in enabled if not run.waiting(one)] if is_late else []
        number = draw.choice(free or enabled)
        for _ in range(draw.randint(1, longest)):
            if not run.machine.enabled(number) or len(run.lines) == most or number in free and run.waiting(number):
                break
            run.make(number, answer_for(draw, run, number) if run.waiting(number) else None)
            yield run.lines[-1]
