#!/usr/bin/env python3
"""Reads a scene in the form of examples/ and prints its scope, reasons and labels, by the shared library:

    bindings/build && bindings/python/example.py examples/half_adder_glitch.scene

The lines are those that the report program prints. It only checks the form of a scene as far as it needs to.
"""
import sys

sys.dont_write_bytecode = True
import library  # noqa: E402

# the lists of a scene, by the names of the fields in its text
COMPONENT = {"id": "ids", "kind": "kinds", "delay": "delays", "locked": "locked", "x": "xs", "y": "ys", "z": "zs"}
CONNECTION = {"source": "sources", "sink": "sinks", "transfer": "transfers"}


def read_scene(path, absent_delay):
    """The ten lists of a scene."""
    components, connections = ({name: [] for name in fields.values()} for fields in (COMPONENT, CONNECTION))
    with open(path, encoding="ascii") as file:
        for line in file:
            field, value = line.strip().split("=")
            number = absent_delay if value == "none" else value
            if field in COMPONENT:
                components[COMPONENT[field]].append(int(number))
            elif field in CONNECTION:
                connections[CONNECTION[field]].append(int(number))
    return {"components": components, "connections": connections}


def reason(kind, assessment, i, feedback):
    reasons = assessment.reasons
    if kind == "feedback":
        return "feedback:" + ",".join(map(str, assessment.feedback_ids[:feedback]))
    if kind == "unequal_reconvergent_delay":
        return f"unequal:{reasons.components[i]}:{reasons.minimums[i]}:{reasons.maximums[i]}"
    return f"{kind.split('_')[0]}:{reasons.components[i]}"


def label(labels, i):
    return f"{labels.lows[i]},{labels.highs[i]}" if labels.settled[i] else "unsettled"


def main():
    calls = library.Library()
    given = read_scene(sys.argv[1], calls.header.constants["ABSENT_DELAY"])
    ids, sources = given["components"]["ids"], given["connections"]["sources"]
    scene, lists = calls.make("SizhbantoScene", given), calls.room("SizhbantoSceneLists", N=len(ids), M=len(sources))
    answer = calls.call("sizhbanto_analyze_scene", scene, lists)
    if answer.number:
        print(f"refusal={answer.number}\nplace={answer.place}")
        return
    print(f"scope={calls.names('TemporalScope')[answer.scope]}\nreasons={answer.reasons}")
    for i in range(answer.reasons):
        kind = calls.names("TimingReason")[lists.assessment.reasons.kinds[i]]
        print("reason=" + reason(kind, lists.assessment, i, answer.feedback))
    for i, component in enumerate(ids):
        print(f"component={component}\nlabel={label(lists.assessment.labels, i)}")


if __name__ == "__main__":
    main()
