"""Asks a program at a terminal, line by line: its prompts and its answers must come as they are due (consoles.py)."""

import os
import select
import subprocess
import termios
import tty

from model.console import GREETING, begun
from model.console_words import full_name

# What ends the input at a terminal that gathers lines.
CTRL_D = b'\x04'


def read(number, length, seconds):
    """What comes from a terminal, up to so many bytes, or until nothing comes any more."""
    told = b''
    while len(told) < length and select.select([number], [], [], seconds)[0]:
        try:
            piece = os.read(number, length - len(told))
        except OSError:
            # (so a terminal says that nobody has it open any more)
            break
        if not piece:
            break
        told += piece
    return told


def ends_by_word(row):
    """Whether the last line of a dialogue is the word that ends it."""
    return full_name(row.turns[-1][0].decode('latin-1')) == 'quit'


def gather_lines(terminal):
    """Has a terminal that passes each byte as it is gather lines, and end the input behind CTRL_D."""
    *flags, local, inward, outward, letters = termios.tcgetattr(terminal)
    letters = [CTRL_D if place == termios.VEOF else b'\x00' for place in range(len(letters))]
    termios.tcsetattr(terminal, termios.TCSANOW, [*flags, local | termios.ICANON, inward, outward, letters])


def wrong_at_terminal(program, words, row, seconds):
    """What is otherwise than it must be where the lines of a worked dialogue are typed, each behind its prompt; None where nothing is."""
    ours, theirs = os.openpty()
    tty.setraw(theirs)
    if not ends_by_word(row):
        gather_lines(theirs)
    process = subprocess.Popen([program, *words], stdin=theirs, stdout=theirs, stderr=theirs)
    os.close(theirs)
    try:
        return wrong_in_talk(ours, row, seconds) or wrong_end(process, ours, seconds)
    finally:
        process.kill()
        process.wait()
        os.close(ours)


def wrong_in_talk(terminal, row, seconds):
    """The same of the prompts and answers, up to the end of the input; where no word ends it, a line feed is written last. Of every second
    dialogue the last line has no end then."""
    console = begun(row.text, row.mode, row.witness_text, row.run)
    due = f'{GREETING}\n{row.first}{console.prompt()}'.encode()
    for number, (typed, wanted) in enumerate(row.turns, 1):
        if (told := read(terminal, len(due), seconds)) != due:
            return f'{told} and not {due} before {typed}'
        is_cut = number == len(row.turns) and number % 2 == 1 and typed and not ends_by_word(row)
        os.write(terminal, typed + (CTRL_D if is_cut else b'\n'))
        if (said := console.answer(typed)) != wanted:
            return f'the model answers {said} to {typed}'
        if console.is_over:
            return None
        due = (wanted + console.prompt()).encode()
    os.write(terminal, CTRL_D)
    told = read(terminal, len(due) + 1, seconds)
    return None if told == due + b'\n' else f'{told} and not {due} and a line feed at the end'


def wrong_end(process, terminal, seconds):
    """What is wrong with the end of a program that was told to end."""
    told = read(terminal, 1, seconds)
    status = process.wait(seconds)
    return None if (told, status) == (b'', 0) else f'{told} behind the end, status {status}'
