"""Reads crates.txt, for the scripts beside it: the crates in the order of their layers, and the libraries that each names."""
import functools, os, re

TOP = os.path.dirname(os.path.dirname(os.path.abspath(__file__)))


@functools.cache
def layers():
    """The headings of crates.txt, in order, each with its crates and the libraries that they name."""
    found, heading = {}, ''
    for line in open(os.path.join(TOP, 'crates.txt')):
        crate = re.match(r'(\w+)(?: \w+)*:(.*)$', line)
        if crate:
            found.setdefault(heading, {})[crate.group(1)] = crate.group(2).split()
        elif line.startswith('#'):
            heading = line[1:].strip()
    return found


@functools.cache
def lines():
    """Each crate with the libraries that it names."""
    return {crate: libraries for layer in layers().values() for crate, libraries in layer.items()}


@functools.cache
def below(crate):
    """The crates of this repository that a crate stands on."""
    named = [library for library in lines()[crate] if library in lines()]
    return frozenset(named).union(*map(below, named))
