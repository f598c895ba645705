#!/usr/bin/env python3
"""Calls by ctypes: a record that goes by value, lists as long as the header says and one shorter, and a check."""
import sys

sys.dont_write_bytecode = True
import library  # noqa: E402

COMPONENTS = {"ids": [1, 2, 3], "kinds": [3, 10, 6], "delays": [256, 4, 256], "locked": [0, 0, 0], "xs": [0, 1, 2],
              "ys": [0, 0, 0], "zs": [0, 0, 0]}
CONNECTIONS = {"sources": [1, 1, 2, 1, 2], "sinks": [2, 3, 3, 2, 3], "transfers": [1, 1, 1, 1, 1]}


def pulse(component):
    """Off at 10, on at 12, off at 14, and the component must stay off."""
    events = {"ticks": [10, 12, 14], "components": [component] * 3, "powered": [0, 1, 0]}
    contracts = {"components": [component], "intents": [1], "powered": [0], "polarities": [0], "units": [0],
                 "smallest": [0], "largest": [0]}
    return {"unit": 0, "events": events, "contracts": contracts}


def record(calls):
    held, findings = calls.types["SizhbantoTransientRecord"](), calls.room("SizhbantoFindings", H=1, E=3)
    for count, component in enumerate((7, 2), 1):
        trace = calls.make("SizhbantoTrace", pulse(component))
        answer = calls.call("sizhbanto_record_trace", held, trace, findings)
        assert (answer.number, answer.place, answer.findings, answer.contracts_applied) == (0, 0, 1, 1)
        assert findings.components[:4] == [7, 2 * (count == 2), 0, 0]
        assert findings.widths[count - 1] == 2
        held = answer.held
        assert (held.traces, held.findings, held.tallies[:]) == (count, count, [0, 0, 0, count, 0])
    held.tallies[0] = 1
    answer = calls.call("sizhbanto_record_trace", held, trace, findings)
    assert (answer.number, answer.place, answer.held.tallies[:]) == (15, 0, [1, 0, 0, 2, 0])


def rooms(calls, name, given, lists):
    """Lists as long as the header says are long enough; each of them one shorter is refused by its number."""
    assert calls.call(name, *given, lists).number == 0
    for struct, field in calls.lists(lists):
        length = getattr(struct, field.name + "_length")
        setattr(struct, field.name + "_length", length - 1)
        answer = calls.call(name, *given, lists)
        assert (answer.number, f"list {answer.place}") == (7, field.group.split(",")[0]), field
        setattr(struct, field.name + "_length", length)


def main():
    calls = library.Library()
    record(calls)
    scene = calls.make("SizhbantoScene", {"components": COMPONENTS, "connections": CONNECTIONS})
    rooms(calls, "sizhbanto_analyze_scene", [scene], calls.room("SizhbantoSceneLists", N=3, M=5))
    held = calls.types["SizhbantoTransientRecord"](traces=1, findings=2, tallies=(2, 0, 0, 0, 0))
    trace = calls.make("SizhbantoTrace", pulse(1))
    rooms(calls, "sizhbanto_record_trace", [held, trace], calls.room("SizhbantoFindings", H=2, E=3))
    rooms(calls, "sizhbanto_assess_transients", [trace], calls.room("SizhbantoFindings", H=0, E=3))
    answer = calls.call("sizhbanto_check_scene", scene, 3, [7, 3, 2])
    assert (answer.number, answer.place) == (7, 5)
    answer = calls.call("sizhbanto_feedback_scene", scene, (calls.types["uint64_t"] * 3)())
    assert (answer.number, answer.feedback) == (0, 0)
    print("ctypes: ok")


if __name__ == "__main__":
    main()
