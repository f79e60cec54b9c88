"""Opens rank scripts in Vim and Neovim with the files of `editors/`, and compares what the editors make of them with what was worked out by hand.

    python3 compare/runs/in_vim.py PROGRAM    each of the two editors that is on the path
    python3 compare/runs/in_vim.py            in the place of a program a file says what it would of the script

The editors run without a window (compare/started/drive_vim.vim). They know a script by its name, though both take it for XML by themselves, and
leave XML of that name as it is; words and a comment have their colours; `:make` goes to the line of a fault; Neovim finds what starts the
debugger. Files of `editors/` that are broken on purpose must be noticed. An editor that isn't on the path is skipped, which is said. The status is 0
where nothing differed.
"""

import argparse
import os
import shutil
import subprocess
import sys
import tempfile

sys.path.insert(0, os.path.dirname(os.path.dirname(os.path.abspath(__file__))))

from places import TOP

# Each with the words that start it without a window.
EDITORS = {'vim': ('-e', '-s', '-N'), 'nvim': ('--headless',)}
# The name has what a shell would take for something else.
NAME = "it's a fault.mpd"
SCRIPT = 'mpd 1;\nranks 2;\nvar x; # a cell\nif rank == 0 { send 1 to 1 tag 7 }\n'
XML_NAME, XML = 'video.mpd', '<?xml version="1.0"?>\n<MPD/>\n'
SAID = 'mpdbg: script refused 4 expected at 64 line 4'
# By hand, from docs/LANGUAGE.md ("Tokens") and docs/EDITORS.md.
TOLD = ('filetype mpd', 'comments # %s', '1:1 mpd mpdDeclaration', '3:8 # mpdComment', '4:1 if mpdControl', '4:4 rank mpdConstant', '4:12 0 mpdNumber',
        '4:16 send mpdCall', '4:21 1 mpdNumber', '4:23 to mpdMessage', '4:26 1 mpdNumber')
DEBUGGER = 'debugger mpdbg dap this.mpd'
FAULT = (f'fault {NAME}:4 expected', 'cursor 4')
# What is put in the place of what in files of editors/, so that it is noticed.
BROKEN = (('vim/ftdetect/mpd.vim', 'set filetype=', 'setfiletype '), ('vim/ftdetect/mpd.vim', "getline(1) !~# '^\\s*<'", '1'),
          ('vim/ftplugin/mpd.vim', '#\\ %s', '//%s'), ('vim/syntax/mpd.vim', ' rank', ''), ('vim/syntax/mpd.vim', '/#.*$/', '/%.*$/'),
          ('vim/compiler/mpdbg.vim', '%-Pscript', '%-Pfile'), ('vim/compiler/mpdbg.vim', 'line\\ %l', 'line\\ %n'),
          ('vim/compiler/mpdbg.vim', '%:S', '%'), ('neovim/mpdbg.lua', 'configurations.mpd', 'configurations.xml'))


def told_by(editor, name, home, editors):
    """What an editor makes of a script, with the files of a folder in the place of `editors/`."""
    told, start = f'{home}/told', f'{home}/start.vim'
    with open(start, 'w', encoding='utf-8') as file:
        file.write(f'set runtimepath+={editors}/vim\nfiletype plugin on\nsyntax on\n')
    if os.path.exists(told):
        os.remove(told)
    environment = {**os.environ, 'HOME': home, 'SHELL': '/bin/sh', 'TERM': 'dumb', 'TOLD': told, 'EDITORS': editors, 'STARTS': '',
                   'PATH': f'{home}/bin:{os.environ["PATH"]}', 'XDG_CONFIG_HOME': home, 'XDG_DATA_HOME': home, 'XDG_STATE_HOME': home}
    words = [editor, *EDITORS[editor], '-u', start, '-i', 'NONE', '-n', name, '-S', f'{TOP}/compare/started/drive_vim.vim']
    subprocess.run(words, stdin=subprocess.DEVNULL, capture_output=True, timeout=60, check=False, env=environment, cwd=home)
    if not os.path.exists(told):
        return ['nothing is told']
    with open(told, encoding='utf-8') as file:
        return file.read().splitlines()


def wrong_of(editor, home, editors):
    """What an editor makes otherwise than it must of a script, and of XML of that name."""
    wanted = [*TOLD, *[DEBUGGER] * (editor == 'nvim'), *FAULT]
    told, of_xml = told_by(editor, NAME, home, editors), told_by(editor, XML_NAME, home, editors)[0]
    wrong = [f'told {line!r}, not {right!r}' for line, right in zip(told, wanted) if line != right]
    wrong += [f'{len(told)} lines, not {len(wanted)}'] * (len(told) != len(wanted))
    return wrong + [f'{XML_NAME} is told as {of_xml!r}'] * (of_xml != 'filetype xml'), len(wanted) + 1


def unnoticed(home, there):
    """Which files of editors/ that are broken on purpose are told as the right ones by all editors that are there."""
    for place, (path, before, after) in enumerate(BROKEN):
        editors = f'{home}/broken-{place}'
        shutil.copytree(f'{TOP}/editors', editors)
        with open(f'{editors}/{path}', encoding='ascii') as file:
            text = file.read()
        with open(f'{editors}/{path}', 'w', encoding='ascii') as file:
            file.write(text.replace(before, after))
        those = [editor for editor in there if editor == 'nvim' or not path.startswith('neovim/')]
        if before not in text or those and not any(wrong_of(editor, home, editors)[0] for editor in those):
            yield f'{path} with {after!r} in the place of {before!r}'


def make_files(program, home):
    """Writes the scripts, and puts the program, or what says as much of the script, where editors find it."""
    os.mkdir(f'{home}/bin')
    for name, text in ((NAME, SCRIPT), (XML_NAME, XML)):
        with open(f'{home}/{name}', 'w', encoding='ascii') as file:
            file.write(text)
    if program is not None:
        os.symlink(os.path.abspath(program), f'{home}/bin/mpdbg')
        return
    with open(f'{home}/bin/mpdbg', 'w', encoding='ascii') as file:
        file.write(f'#!/bin/sh\necho "{SAID}" >&2\nexit 2\n')
    os.chmod(f'{home}/bin/mpdbg', 0o755)


def main():
    parser = argparse.ArgumentParser(description=__doc__, formatter_class=argparse.RawDescriptionHelpFormatter)
    parser.add_argument('program', metavar='PROGRAM', nargs='?')
    program = parser.parse_args().program
    there = [editor for editor in EDITORS if shutil.which(editor)]
    for editor in EDITORS:
        if editor not in there:
            print(f'skipped: no {editor} on the path')
    wrong, count = [], 0
    with tempfile.TemporaryDirectory(prefix='in-vim-') as home:
        make_files(program, home)
        for editor in there:
            told, lines = wrong_of(editor, home, f'{TOP}/editors')
            wrong += [f'{editor}: {line}' for line in told]
            count += lines
        wrong += [f'not noticed: {it}' for it in unnoticed(home, there)] if there else []
    print('\n'.join([*wrong, f'{count} lines of {len(there)} editors, {len(wrong)} wrong']))
    return 1 if wrong else 0


if __name__ == '__main__':
    sys.exit(main())
