"""Compares what `editors/` says of rank scripts with the model's reader: which words there are, which colour each token of a script gets, and
where a fault is found; and that each editor's files start the debug adapter alike.

    python3 compare/runs/editors.py [PROGRAM]

Each token of each example has the class that the grammar for VS Code gives it, as its editor would: at each place the first pattern that
matches there. The words of Vim's syntax and of the mode for Emacs are those of the grammar, by the same classes. With a program, the task of
docs/EDITORS.md, run with it and with a front door that first says that the program is a checked one, tells a fault so that the problem matchers
find its name and its line. The files for debuggers name one type, and `dap` with the script after it. The package that editors/vsix.py makes has
each file with its type, and a manifest that says what package.json does. Grammars, files for debuggers, and packages that are broken on purpose
must be noticed each time. The status is 0 where all is so.
"""

import io
import json
import os
import re
import shlex
import subprocess
import sys
import tempfile
import zipfile
from glob import glob
from xml.etree import ElementTree

sys.path.insert(0, os.path.dirname(os.path.dirname(os.path.abspath(__file__))))

from model.language import NUMBER, RESERVED, SIGN, WORD
from places import EXAMPLES, TOP

sys.path.insert(0, f'{TOP}/editors')
import vsix  # noqa: E402  pylint: disable=wrong-import-position

EDITORS = f'{TOP}/editors'
GRAMMAR = f'{EDITORS}/vscode/syntaxes/mpd.tmLanguage.json'
# The classes of words, by the first of each.
WORDS = {
    'keyword.other.declaration.mpd': 'mpd ranks var req', 'keyword.control.mpd': 'if else while',
    'support.function.mpd': 'print assert send ssend isend issend recv irecv wait waitany barrier',
    'keyword.other.message.mpd': 'to from tag status', 'constant.language.mpd': 'any rank size',
}
CLASS_OF = {word: name for name, words in WORDS.items() for word in words.split()}
PUNCTUATION = ';{}()[]'
# What starts the debug adapter in each editor, with what must stand there of the type of debugger and of the language.
STARTS = {
    'vscode/extension.js': (r"registerDebugConfigurationProvider\('{type}', provider\)", r"registerDebugAdapterDescriptorFactory\('{type}', factory\)",
                            r"type: '{type}', request: 'launch'", r"configuration\.mpdbg \|\| 'mpdbg', \['dap', configuration\.program, "),
    'neovim/mpdbg.lua': (r'dap\.adapters\.{type} = function\(callback, config\)', r'dap\.configurations\.{language} = ',
                         r"type = '{type}', request = 'launch'",
                         r"command = config\.mpdbg or 'mpdbg'", r"\{{ 'dap', config\.program \}}"),
    'emacs/mpd-dap.el': (r'\(dap-register-debug-provider\n "{type}"', r':type "{type}" :request "launch"', r'\(defvar mpd-dap-program "mpdbg"',
                         r'\(list mpd-dap-program "dap" file\)',
                         '"stepBack"', '"reverseContinue"')}
# What is put in the place of what, so that it is noticed.
BROKEN_STARTS = (('vscode/extension.js', "'dap'", "'debug'"), ('vscode/extension.js', "Factory('mpdbg'", "Factory('mpd'"),
                 ('vscode/extension.js', 'configuration.program', 'configuration.script'),
                 ('neovim/mpdbg.lua', 'configurations.mpd ', 'configurations.rank '), ('neovim/mpdbg.lua', "{ 'dap', config.program }", "{ 'dap' }"),
                 ('neovim/mpdbg.lua', 'adapters.mpdbg', 'adapters.mpd'),
                 ('emacs/mpd-dap.el', '"dap" file', 'file "dap"'), ('emacs/mpd-dap.el', 'provider\n "mpdbg"', 'provider\n "mpd"'),
                 ('emacs/mpd-dap.el', '"stepBack"', '"back"'))
REFUSED = 'mpd 1;\nranks 2;\nvar x;\nsend 1 to 1 tag 0\nrecv x from 0 tag 0;\n'
# The name has what a shell would take for something else.
REFUSED_NAME = 'a $fault (of mine).mpd'
# In the place of the program: what the front door says first at a terminal, where the checked program answers.
FRONT_DOOR = '#!/bin/sh\necho "checked as it runs, not proved yet: ./mpdbg --prove (up to an hour)" >&2\nexec {} "$@"\n'
# What is put in the place of what in a member of the package, so that it is noticed; where there is no other text the member goes.
BROKEN_MEMBERS = (('[Content_Types].xml', '.js"', '.css"'), ('[Content_Types].xml', 'application/json', 'text/json'), ('[Content_Types].xml', 'Types>', 'Kinds>'),
                  ('extension.vsixmanifest', 'Version="0', 'Version="9'), ('extension.vsixmanifest', 'Id="mpdbg"', 'Id="mpd"'),
                  ('extension.vsixmanifest', 'extension/package.json', 'package.json'), ('extension.vsixmanifest', 'VisualStudio.Code"', 'VisualStudio"'),
                  ('extension.vsixmanifest', 'Value="^1', 'Value="^2'), ('extension.vsixmanifest', '<Assets>', '<Asset>'),
                  ('extension.vsixmanifest', None, None), ('extension/extension.js', None, None), ('extension/syntaxes/mpd.tmLanguage.json', None, None))


def classes(text):
    """Each token of a script and each comment: its place, its text, and the class that it must have."""
    place = 0
    while place < len(text):
        if text[place] in '\t\n\r ':
            place += 1
            continue
        if text[place] == '#':
            found, name = re.compile(r'#[^\n]*').match(text, place), 'comment.line.number-sign.mpd'
        elif found := NUMBER.match(text, place):
            name = 'constant.numeric.mpd'
        elif found := WORD.match(text, place):
            name = CLASS_OF.get(found[0], 'variable.other.mpd')
        else:
            found = SIGN.match(text, place)
            name = 'punctuation.mpd' if found[0] in PUNCTUATION else 'keyword.operator.mpd'
        yield place, found[0], name
        place = found.end()


def coloured(patterns, text):
    """What an editor makes of a text by a grammar: line by line, at each place the first pattern that matches; what none does is passed over."""
    begun = 0
    for line in text.split('\n'):
        place = 0
        while place < len(line):
            matches = [(name, found) for name, pattern in patterns if (found := pattern.match(line, place)) and found[0]]
            if matches:
                name, found = matches[0]
                yield begun + place, found[0], name
                place = found.end()
            else:
                place += 1
        begun += len(line) + 1


def patterns_of(grammar):
    """The patterns of a grammar, in order."""
    return [(it['name'], re.compile(it['match'])) for it in grammar['patterns']]


def scripts():
    """The texts of all examples, and one that has every word and every sign."""
    yield 'all words', f'{" ".join(sorted(RESERVED))} _a1 19 == != <= >= && || ; {{ }} ( ) [ ] = < > + - * / % ! # to\n'
    for path in sorted(glob(f'{EXAMPLES}/**/*.mpd', recursive=True)):
        with open(path, encoding='ascii') as it:
            yield os.path.relpath(path, TOP), it.read()


def wrong_colours(patterns, texts):
    """Which scripts get another colour somewhere, each with the first token that does."""
    for path, text in texts:
        for wanted, given in zip([*classes(text), None], [*coloured(patterns, text), None]):
            if wanted != given:
                yield f'{path}: {given}, and not {wanted}'
                break


def wrong_words():
    """What the files of editors have of words that the language doesn't, or lack."""
    if {*CLASS_OF} != RESERVED:
        yield f'the classes here have not the reserved words: {RESERVED ^ {*CLASS_OF}}'
    with open(f'{EDITORS}/vim/syntax/mpd.vim', encoding='ascii') as it:
        vim = {line.split()[2]: line.split()[3:] for line in it if line.startswith('syntax keyword ')}
    if [*vim.values()] != [words.split() for words in WORDS.values()]:
        yield f'the words for Vim: {vim}'
    with open(f'{EDITORS}/emacs/mpd-mode.el', encoding='ascii') as it:
        emacs = [re.findall('"([a-z]+)"', words) for words in re.findall(r"\(regexp-opt '\(([^)]*)\)", it.read())]
    if emacs != [words.split() for words in WORDS.values()]:
        yield f'the words for Emacs: {emacs}'


def named_by(extension):
    """The files that the extension names."""
    return [it['configuration'] for it in extension['contributes']['languages']] + [it['path'] for it in extension['contributes']['grammars']] + [extension['main']]


def files_that_lack(extension):
    """The files that the extension names and that aren't there."""
    return [it for it in named_by(extension) if not os.path.exists(f'{EDITORS}/vscode/{it}')]


def starts():
    """The files that start the debug adapter."""
    found = {}
    for path in STARTS:
        with open(f'{EDITORS}/{path}', encoding='ascii') as it:
            found[path] = it.read()
    return found


def wrong_starts(texts, extension):
    """Which files start no debug adapter of the type and the language that the extension for VS Code has."""
    debugger, = extension['debuggers']
    language, = (it['id'] for it in extension['languages'])
    if debugger['languages'] != [language] or extension['breakpoints'] != [{'language': language}]:
        yield f'the debugger is of {debugger["languages"]}, its breakpoints of {extension["breakpoints"]}'
    if any(it['type'] != debugger['type'] for it in debugger['initialConfigurations']):
        yield f'a first launch is not of {debugger["type"]}'
    for path, forms in STARTS.items():
        for form in forms:
            pattern = form.format(type=debugger['type'], language=language)
            if not re.search(pattern, texts[path]):
                yield f'{path} has no {pattern}'


def unnoticed_starts(texts, extension):
    """Which files that are broken on purpose start the debug adapter all the same."""
    for path, before, after in BROKEN_STARTS:
        broken = texts[path].replace(before, after)
        if broken == texts[path] or not any(wrong_starts({**texts, path: broken}, extension)):
            yield f'{path} with {after!r} in the place of {before!r}'


def found_by(patterns, lines):
    """What the patterns of a problem matcher find in lines, one after another: the groups of the first place where they all match."""
    for first in range(len(lines) - len(patterns) + 1):
        groups = {}
        for pattern, line in zip(patterns, lines[first:]):
            found = re.search(pattern['regexp'], line)
            if not found:
                break
            groups.update({name: found[number] for name, number in pattern.items() if name != 'regexp'})
        else:
            return groups
    return None


def shown_json(first):
    """The JSON that docs/EDITORS.md shows of a file, by how its text begins."""
    with open(f'{TOP}/docs/EDITORS.md', encoding='utf-8') as it:
        blocks = [json.loads(block) for block in re.findall(r'^```json\n(.*?)^```$', it.read(), re.M | re.S)]
    found, = (block for block in blocks if first in block)
    return found


def wrong_problems(program, extension):
    """Where the problem matchers don't find what the task of docs/EDITORS.md tells of a script with a fault."""
    task, = shown_json('tasks')['tasks']
    matchers = {f'${it["name"]}': it['pattern'] for it in extension['problemMatchers']}
    for starts in (f'#!/bin/sh\nexec {shlex.quote(program)} "$@"\n', FRONT_DOOR.format(shlex.quote(program))):
        with tempfile.TemporaryDirectory() as folder:
            for name, text in ((REFUSED_NAME, REFUSED), ('mpdbg', starts)):
                with open(f'{folder}/{name}', 'w', encoding='ascii') as it:
                    it.write(text)
            os.chmod(f'{folder}/mpdbg', 0o755)
            command = task['command'].replace('${relativeFile}', REFUSED_NAME)
            said = subprocess.run(['sh', '-c', command], stdin=subprocess.DEVNULL, stdout=subprocess.PIPE, stderr=subprocess.STDOUT, text=True, cwd=folder,
                                  timeout=20).stdout
        found = [it for name in task['problemMatcher'] if (it := found_by(matchers[name], said.splitlines()))]
        if found != [{'file': REFUSED_NAME, 'message': 'expected', 'line': '5'}]:
            yield f'the problem matchers find {found} in {said!r}'


def wrong_launches(whole):
    """What of launches that are shown or offered has another type than the debugger, or a field that it hasn't."""
    debugger, = whole['contributes']['debuggers']
    fields = {'type', 'request', 'name', *debugger['configurationAttributes']['launch']['properties']}
    offered = [it['body'] for it in debugger['configurationSnippets']]
    for it in [*debugger['initialConfigurations'], *offered, *shown_json('configurations')['configurations']]:
        if it['type'] != debugger['type'] or it['request'] != 'launch' or not it.keys() <= fields or 'program' not in it:
            yield f'a launch is {it}'
    if any(it['program'] != '^"\\${file}"' for it in offered):
        yield 'a launch that is offered names no file that is open'
    if f'onDebugResolve:{debugger["type"]}' not in whole['activationEvents']:
        yield f'nothing begins the extension at a launch: {whole["activationEvents"]}'


def package(members):
    """The bytes of a package with these members."""
    made = io.BytesIO()
    vsix.write(made, members)
    return made.getvalue()


def wrong_types(types, names):
    """Which members of a package have no type, or another one than their names say."""
    space = '{http://schemas.openxmlformats.org/package/2006/content-types}'
    told = {it.get('Extension'): it.get('ContentType') for it in types.iter(f'{space}Default')}
    for name in names - {'[Content_Types].xml'}:
        end = os.path.splitext(name)[1]
        if told.get(end) != {'.js': 'application/javascript', '.json': 'application/json', '.vsixmanifest': 'text/xml'}.get(end, ''):
            yield f'{name} is of the type {told.get(end)}'


def wrong_manifest(manifest, whole):
    """What the manifest of a package says otherwise than package.json, or not so that VS Code finds it."""
    space = '{http://schemas.microsoft.com/developer/vsx-schema/2011}'

    def one(path):
        return next(manifest.iterfind('/'.join(space + part for part in path.split('/'))), ElementTree.Element('none'))

    identity, asset, engine = one('Metadata/Identity'), one('Assets/Asset'), one('Metadata/Properties/Property')
    if [identity.get(it) for it in ('Id', 'Version', 'Publisher')] != [whole[it] for it in ('name', 'version', 'publisher')]:
        yield f'the manifest is of {identity.attrib}'
    if [asset.get(it) for it in ('Type', 'Path')] != ['Microsoft.VisualStudio.Code.Manifest', 'extension/package.json']:
        yield f'the asset is {asset.attrib}'
    if one('Installation/InstallationTarget').get('Id') != 'Microsoft.VisualStudio.Code':
        yield 'the manifest is for another program'
    if engine.attrib != {'Id': 'Microsoft.VisualStudio.Code.Engine', 'Value': whole['engines']['vscode']}:
        yield f'the engine is {engine.attrib}'
    if (one('Metadata/DisplayName').text, one('Metadata/Description').text) != (whole['displayName'], whole['description']):
        yield 'the manifest tells something else of it'


def wrong_package(data, whole):
    """What is wrong with the form of a package for VS Code."""
    read = zipfile.ZipFile(io.BytesIO(data))
    if read.testzip() is not None:
        yield 'a member of the package is not what its sum says'
    members = {name: read.read(name) for name in read.namelist()}
    try:
        types, manifest = (ElementTree.fromstring(members[name]) for name in ('[Content_Types].xml', 'extension.vsixmanifest'))
    except (KeyError, ElementTree.ParseError) as why:
        yield f'no types or no manifest: {why}'
        return
    yield from wrong_types(types, members.keys())
    yield from wrong_manifest(manifest, whole)
    for name in ['package.json', *named_by(whole)]:
        if f'extension/{os.path.normpath(name)}' not in members:
            yield f'no {name} in the package'


def unnoticed_packages(whole):
    """Which packages that are broken on purpose have nothing wrong."""
    members = vsix.members()
    for name, before, after in BROKEN_MEMBERS:
        if before is None:
            broken = {other: data for other, data in members.items() if other != name}
        else:
            broken = {**members, name: members[name].replace(before.encode(), after.encode())}
        if broken == members or not any(wrong_package(package(broken), whole)):
            yield f'a package with {after!r} in the place of {before!r} in {name}'


def unnoticed(grammar, texts):
    """Which grammars that are broken on purpose colour all examples rightly."""
    for number, it in enumerate(grammar['patterns']):
        others = grammar['patterns'][:number] + grammar['patterns'][number + 1:]
        if not any(wrong_colours(patterns_of({'patterns': others}), texts)):
            yield f'a grammar without {it["name"]}'
    for before, after in ('ssend|', ''), ('else|', ''), ('|waitany', ''), ('#.*$', '#[^;]*'):
        broken = json.loads(json.dumps(grammar).replace(before, after, 1))
        if broken == grammar or not any(wrong_colours(patterns_of(broken), texts)):
            yield f'a grammar with {after!r} in the place of {before!r}'


def main():
    program = os.path.abspath(sys.argv[1]) if len(sys.argv) > 1 else None
    with open(GRAMMAR, encoding='ascii') as it:
        grammar = json.load(it)
    with open(f'{EDITORS}/vscode/package.json', encoding='ascii') as it:
        whole = json.load(it)
    texts, extension = [*scripts()], whole['contributes']
    wrong = [*wrong_words(), *wrong_colours(patterns_of(grammar), texts), *(f'no file {it}' for it in files_that_lack(whole)),
        *wrong_starts(starts(), extension), *wrong_launches(whole), *wrong_package(package(vsix.members()), whole)]
    wrong += [*wrong_problems(program, extension)] if program else []
    wrong += [f'not noticed: {it}' for it in [*unnoticed(grammar, texts), *unnoticed_starts(starts(), extension), *unnoticed_packages(whole)]]
    for it in wrong:
        print(it)
    print(f'{len(texts)} scripts, {sum(len([*classes(text)]) for _, text in texts)} tokens and comments; {len(wrong)} wrong')
    return 1 if wrong or not texts else 0


if __name__ == '__main__':
    sys.exit(main())
