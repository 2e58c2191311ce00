"""The networks of the scripts of this folder: terminal `tk` is in beam `k mod BEAMS`."""
import json
import os


def write_network(folder, beams, terminals, slots):
    """The path of a network file with so many beams, terminals, and traffic slots of a frame."""
    path = os.path.join(folder, "network")
    network = {
        "beams": [f"b{beam}" for beam in range(beams)],
        "terminals": [{"name": f"t{number}", "beam": f"b{number % beams}"} for number in range(terminals)],
        "slots": slots,
        "frames": 32,
        "lead": 4,
        "patience": 3,
    }
    with open(path, "w") as text:
        json.dump(network, text)
    return path
