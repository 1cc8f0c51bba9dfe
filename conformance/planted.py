"""The faults that can be planted in the reflector of `reflector.py`, each with the scenes of the probe that are meant to find
it. A fault puts a function of its own in place of one there."""

from collections import namedtuple

# `scenes` have to find it, and those of `may` find it or not, by what they draw.
Fault = namedtuple("Fault", "plant scenes may")

FAULTS = {}


def fault(name, scenes, may=""):
    """Puts a function that plants a fault on the list. The scenes are names with a space between two."""

    def put(plant):
        FAULTS[name] = Fault(plant, scenes.split(), may.split())
        return plant

    return put


def instead(owner, name):
    """Puts the function in place of the owner's one, which is its first argument, before those of the call."""

    def put(function):
        old = getattr(owner, name)
        setattr(owner, name, lambda *words: function(old, *words))
        return function

    return put


import planted_floor  # noqa: E402, F401
import planted_link  # noqa: E402, F401
import planted_module  # noqa: E402, F401
