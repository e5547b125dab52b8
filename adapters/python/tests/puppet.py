"""A program whose replies the tests choose: the id of a graph says what to do, and else the graph is given back."""
import json
import os
import signal
import sys
import time

if sys.argv[1:] != ["--lines"]:
    sys.exit(5)


def say(reply):
    sys.stdout.write((reply if isinstance(reply, str) else json.dumps(reply, ensure_ascii=False)) + "\n")
    sys.stdout.flush()


def perform(request):
    graph = request.get("graph", {})
    word, *rest = str(graph.get("id")).split(" ", 1)
    if word == "pid":
        graph["pid"] = os.getpid()
    elif word == "kill":
        os.kill(os.getpid(), signal.SIGKILL)
    elif word == "once":
        # Ends at its first time alone: what it leaves behind tells the next run.
        if not os.path.exists(rest[0]):
            open(rest[0], "w").close()
            os.kill(os.getpid(), signal.SIGKILL)
    elif word == "exit":
        sys.stderr.write("the notes of the end\n")
        sys.exit(int(rest[0]))
    elif word == "twice":
        say({"placed": {}})
    elif word == "refuse":
        rule, name, id = rest[0].split()
        return say({"fault": {"rule": int(rule), "name": name, "id": int(id), "message": "it is refused"}})
    elif word == "warn":
        return say({"placed": graph, "warnings": [{"kind": "unknownOption", "steps": [rest[0]], "message": f"{rest[0]} is odd"}]})
    elif word == "most":
        # As the program after 2^32 bytes.
        graph["pid"] = os.getpid()
        if had > 1000:
            sys.exit(2)
    elif word == "odd":
        return say("no answer")
    elif word == "pieces":
        for byte in (json.dumps({"placed": graph}, ensure_ascii=False) + "\n").encode():
            os.write(1, bytes([byte]))
            time.sleep(0.001)
        return None
    elif word == "slow":
        time.sleep(float(rest[0].split()[0]))
    return say({"placed": graph})


had = 0
for line in sys.stdin:
    had += len(line)
    perform(json.loads(line))
