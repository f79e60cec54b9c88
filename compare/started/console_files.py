"""Asks a program whose script's file is written anew before each `reload`, line by line, and one beside whose script files of words stand
(consoles.py): the answers must come as they are due."""

import os
import subprocess

from model.console_words import words_of
from started.console_terminal import read


def write_over(path, text):
    """Has a file have this text, or none be there."""
    if text is None:
        os.remove(path)
        return
    with open(f'{path}.new', 'wb') as file:
        file.write(text.encode())
    os.replace(f'{path}.new', path)


def wrong_with_files(program, words, path, row, seconds):
    """What is otherwise than it must be where the lines of a worked dialogue are asked one by one, without a terminal, the file of its script being
    written before each `reload`; None where nothing is."""
    process = subprocess.Popen([program, *words], stdin=subprocess.PIPE, stdout=subprocess.PIPE, stderr=subprocess.DEVNULL, bufsize=0)
    try:
        return wrong_in_turns(process, path, row, seconds)
    finally:
        process.kill()
        process.wait()


def wrong_in_turns(process, path, row, seconds):
    files, due = iter(row.files), row.first.encode()
    for typed, wanted in row.turns:
        if (told := read(process.stdout.fileno(), len(due), seconds)) != due:
            return f'{told} and not {due} before {typed}'
        if words_of(typed) == [b'reload']:
            write_over(path, next(files))
        process.stdin.write(typed + b'\n')
        due = wanted.encode()
    process.stdin.close()
    told = read(process.stdout.fileno(), len(due) + 1, seconds)
    return None if (told, process.wait(seconds)) == (due, 0) else f'{told} and not {due} at the end'


def wrong_with_words(program, words, folder, row, look, seconds):
    """What is otherwise than it must be where the lines of a worked dialogue are asked in one, in a folder with its files of words; None where
    nothing is."""
    for name, text in row.words:
        with open(os.path.join(folder, name), 'wb') as file:
            file.write(text.encode('latin-1'))
    done = subprocess.run([program, *words], input=row.data, capture_output=True, timeout=seconds, check=False, cwd=folder)
    wanted = (row.shown() if look.is_echoing else row.wanted(), b'', 0)
    return None if (done.stdout, done.stderr, done.returncode) == wanted else f'{done} and not {wanted}'


def path_in(folder):
    """Where the script of a dialogue stands."""
    return os.path.join(folder, 'script.mpd')
