"""How many steps the parts of a block are (docs/BLOCKS.md); a call is one, and so is its answer. And lines of records, and what is
printed of runs."""
LOCK, TEST, SET, ADD, GOTO, STOP, UNLOCK, CALL = 2, 3, 2, 4, 1, 2, 2, 1
STOPPED, FINISHED = "end stopped 77", "end finished"
NOTHING, SENT = "answer 0 nothing", ["call 0 api/Net send ()V", "return 0 api/Net send ()V"]
MADE = ["call 0 api/Net <init> ()V", "return 0 api/Net <init> ()V"]


def asked(answer):
    return ["call 0 api/Net ask ()Z", f"return 0 api/Net ask ()Z {answer}"]
