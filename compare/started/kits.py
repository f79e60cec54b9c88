"""A kit that is the one on the path, but for clang and the linker, which keep what they are given and may refuse it."""

import os
import shutil
import subprocess

# In place of a tool: keeps the parts of a module that it is called with (tools/parts.py), and refuses to be called with one word.
TOOL = '''#!/bin/sh
for word; do
  case $word in
  {refused}) exit 1 ;;
  */[0-9].ll) cp "$word" "{kept}" || exit ;;
  esac
done
exec "{real}" "$@"
'''


def write(path, text):
    """Writes a file, in a folder that is made for it."""
    os.makedirs(os.path.dirname(path), exist_ok=True)
    with open(path, 'w', encoding='utf-8') as file:
        file.write(text)


def real_kit():
    """The folder of the kit on the path."""
    return os.path.dirname(os.path.dirname(os.path.realpath(shutil.which('rt'))))


class Kit:
    """Such a kit in a folder, with a word that clang refuses, as a pattern of the shell, and one that the linker does."""

    def __init__(self, folder, by_clang=None, by_linker=None):
        self.folder, self.kept, self.tools = folder, f'{folder}/kept', f'{folder}/toolchain/bin'
        self.clang, self.linker = f'{self.tools}/clang', f'{self.tools}/ld.lld'
        os.makedirs(self.kept)
        ours = {'bin', 'bin/rt', 'toolchain', 'toolchain/bin', 'toolchain/bin/clang', 'toolchain/bin/ld.lld'}
        for part in ('', 'bin/', 'toolchain/', 'toolchain/bin/'):
            os.makedirs(f'{folder}/{part}', exist_ok=True)
            for name in {part + it for it in os.listdir(f'{real_kit()}/{part}')} - ours:
                os.symlink(f'{real_kit()}/{name}', f'{folder}/{name}')
        # (a kit is found by its `rt`, which is no link)
        shutil.copy(f'{real_kit()}/bin/rt', f'{folder}/bin')
        for path, refused in ((self.clang, by_clang), (self.linker, by_linker)):
            real = f'{real_kit()}/toolchain/bin/{os.path.basename(path)}'
            write(path, TOOL.format(refused=refused or 'none', kept=self.kept, real=real))
            os.chmod(path, 0o755)

    def environment(self):
        """The environment with this kit first on the path."""
        return {**os.environ, 'PATH': f'{self.folder}/bin:{os.environ["PATH"]}'}

    def parts(self):
        """The text of each part that was kept."""
        texts = []
        for name in sorted(os.listdir(self.kept)):
            with open(f'{self.kept}/{name}', encoding='utf-8', errors='replace') as file:
                texts.append(file.read())
        return texts

    def link(self, module, program):
        """Links an object into a program, and says whether it could."""
        lib = f'{self.folder}/toolchain/lib'
        words = ['-pie', '--dynamic-linker', '/lib64/ld-linux-x86-64.so.2', f'{lib}/Scrt1.o', module, f'{lib}/libc.so.6']
        return subprocess.run([self.linker, *words, '-o', program], check=False).returncode == 0
