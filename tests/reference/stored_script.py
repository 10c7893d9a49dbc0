"""stored_script.py: a script of lines answered by a plain reference, and compared with what is stored beside it."""
import os
import sys


def read_file(path):
    with open(path) as f:
        return f.read()


def each_line(script, answer, unreadable):
    """The answer to each line, a line each; a line that the reference cannot read ends it."""
    replies = []
    for number, text in enumerate(script.splitlines(), 1):
        try:
            replies.append(answer(text))
        except unreadable:
            sys.exit(f"line {number} is unreadable: {text}")
    return "".join(reply + "\n" for reply in replies)


def answered(words, answers):
    """FILE: writes the answers; check FILE: whether stdout beside it has them. None for other words."""
    if len(words) == 1:
        sys.stdout.write(answers(read_file(words[0])))
        return 0
    if len(words) == 2 and words[0] == "check":
        stdout = os.path.join(os.path.dirname(words[1]), "stdout")
        return 0 if read_file(stdout) == answers(read_file(words[1])) else f"{stdout} is not what the reference answers"
    return None
