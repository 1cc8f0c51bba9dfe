"""What a scene is: a name, the sections whose rule it shows, what it needs, and how it is played."""

from collections import namedtuple

QUICK, USUAL, FULL = range(3)  # the levels: --quick, none of both, --full

# `pages`: the sections of docs/ that carry its rule, one or two. `modules`: how many modules it has for itself, and `parrot`,
# whether they are parrots. `members`: how many places it takes. `talks`: a limit on talking has to be above so many seconds, or
# none. `wants`: what it needs of a reflector beside these, or None.
Scene = namedtuple("Scene", "name pages rule play modules parrot members level seconds talks wants")

scenes = []


def scene(name, *pages, modules=1, parrot=False, members=3, level=QUICK, seconds=0.1, talks=0, wants=None):
    """Puts a function on the list of scenes. The rule is its docstring; `seconds` is how long it takes."""

    def put(play):
        rule = " ".join(play.__doc__.split())
        scenes.append(Scene(name, pages, rule, play, modules, parrot, members, level, seconds, talks, wants))
        return play

    return put
