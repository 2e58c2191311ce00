"""The demands of the scripts of this folder, for 64 terminals in 16 beams and a frame of 4,096 slots."""
import collections
import os
import random

BEAMS = 16
TERMINALS = 64
SLOTS = 4096

# The last are all links that there are.
LINKS = (500, 1000, 2000, 4032)


def traffic_lines(count):
    """The lines of a demand of so many links that fits the frame, its links in order."""
    draw = random.Random(count)
    every = [(sender, receiver) for sender in range(TERMINALS) for receiver in range(TERMINALS) if sender != receiver]
    links = sorted(draw.sample(every, count))
    most = most_units(links)
    return [f"link t{sender} t{receiver} {draw.randint(1, most)}" for sender, receiver in links]


def most_units(links):
    """So many units may each link have, and yet no line asks for more slots than the frame has."""
    rows = collections.Counter(sender % BEAMS for sender, _ in links)
    columns = collections.Counter(receiver % BEAMS for _, receiver in links)
    return SLOTS // max(*rows.values(), *columns.values())


def write_traffics(folder, count):
    """The paths of a traffic file of so many links in order, and of one with the same links shuffled."""
    lines = traffic_lines(count)
    ordered = write_lines(folder, f"traffic-{count}", lines)
    random.Random(count).shuffle(lines)
    return ordered, write_lines(folder, f"shuffled-{count}", lines)


def write_lines(folder, name, lines):
    path = os.path.join(folder, name)
    with open(path, "w") as text:
        text.writelines(f"{line}\n" for line in lines)
    return path


def write_plan(folder, count, printed):
    """The path of a printed plan."""
    path = os.path.join(folder, f"plan-{count}")
    with open(path, "wb") as text:
        text.write(printed)
    return path
