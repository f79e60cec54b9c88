"""Builds the small libraries that are preloaded to refuse memory or to interrupt a program."""

import os
import shutil
import subprocess

HERE = os.path.dirname(os.path.abspath(__file__))


def compiler():
    """The words of a C compiler: $CC, cc, or the clang of the kit."""
    if named := os.environ.get('CC') or shutil.which('cc'):
        return named.split()
    kit = os.path.dirname(os.path.dirname(os.path.realpath(shutil.which('rt') or '/')))
    return [f'{kit}/toolchain/bin/clang', '--target=x86_64-linux-gnu', '-fuse-ld=lld']


def built(source, folder):
    """The library that is built of a C file, in a folder."""
    path = os.path.join(folder, os.path.basename(source).removesuffix('.c') + '.so')
    subprocess.run([*compiler(), '-O2', '-shared', '-fPIC', '-nostdlib', '-o', path, source], check=True)
    return path
