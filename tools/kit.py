"""What the scripts of this folder take from the kit that is installed: the crates of a clone, and how `rt` proves them."""

import os
import shutil
import sys
import types

RT = os.path.realpath(shutil.which("rt") or sys.exit("the Rattle kit is not installed: rt is not found"))
sys.path.insert(0, os.path.dirname(RT))
rt = types.ModuleType("rt_command")
rt.__file__ = RT
with open(RT, encoding="utf-8") as source:
    exec(compile(source.read(), RT, "exec"), rt.__dict__)
rtlib = rt.rtlib

_stamps = {}
_stamp = rtlib.Crate.stamp
_belows = {}
_below = rtlib.Crate.below
_made = rtlib.Crate.__init__


def stamp(crate):
    """The kit's sum of all that a library is made from, computed once for each crate."""
    if crate.folder not in _stamps:
        _stamps[crate.folder] = _stamp(crate)
    return _stamps[crate.folder]


def below(crate):
    """The libraries below a crate, found once for each, and not along every path of crates.txt."""
    if crate.folder not in _belows:
        _belows[crate.folder] = _below(crate)
    return _belows[crate.folder]


def make(crate, *given, **named):
    _made(crate, *given, **named)
    rt.read_files(crate)


def forget(crate):
    """Has its sum computed anew."""
    _stamps.pop(crate.folder, None)


def forget_all():
    """Has all sums computed anew, as those of another clone."""
    _stamps.clear()
    _belows.clear()


def remember():
    """From here on each sum is computed once."""
    rtlib.Crate.stamp, rtlib.Crate.below = stamp, below


def crates_of(folder):
    """The crates of a clone, lowest first."""
    os.chdir(os.path.realpath(folder))
    remember()
    rtlib.Crate.__init__ = make
    rtlib.guarded()
    return sorted(rtlib.crates_below(os.getcwd()), key=lambda it: len(it.below()))
