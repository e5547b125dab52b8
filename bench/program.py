"""The program that is measured, and the sets of options with which it is."""
import copy
import json
import subprocess

SECONDS = 120
# Where the program takes such an option, it is measured with it too.
MODES = ({}, {"layered.slots": "UNCROSSED"})


def with_options(node, options):
    """The document with more options at every level."""
    node = copy.copy(node)
    if "children" in node:
        node["layoutOptions"] = {**node.get("layoutOptions", {}), **options}
        node["children"] = [with_options(child, options) for child in node["children"]]
    return node


def laid_out(program, document):
    """The answer, or nothing and why."""
    ran = subprocess.run([program, "layout"], input=json.dumps(document).encode(), capture_output=True, timeout=SECONDS)
    return (json.loads(ran.stdout), "") if ran.returncode == 0 else (None, f"status {ran.returncode}, {ran.stderr.decode().strip()}")


def takes(program, options):
    """Whether the program reads these options: one that it reads is refused with a value that no option has."""
    return all(laid_out(program, {"id": "r", "layoutOptions": {name: "NO SUCH VALUE"}})[0] is None for name in options)


def modes(program):
    return [options for options in MODES if takes(program, options)]
