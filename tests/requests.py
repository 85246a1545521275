#!/usr/bin/env python3
"""Runs the cases of a change request through plain.py, and compares every answer, every word of every report, both figures and the image.

    requests.py FILE.jsonl ..

A line is a case: a rule in hex, with the reach and free variables that checking answers (`check`), or its refusal (`refused`), the other of
the two null or left out; and calls, each an event's words (`take`) or a notice's time (`notice`) with a report buffer of `room` words. Then
come the `words` written and the `report`, or the `number` and `place` of a refusal, and the figures `kept` and `open` after the call. From
request 104 on `image` is the image after the last call. Exits with 1 on any difference.
"""
import collections
import json
import sys

import plain


def checked(rule):
    """What checking answers, as a case has it."""
    if isinstance(rule, tuple):
        return {"refused": list(rule)}
    return {"check": [rule.reach[-1], sum(1 << v for v in rule.free[-1])]}


def called(rule, log, call):
    """The log after a call, and what it answers, as a case has it."""
    if "notice" in call:
        answer, points = plain.notice(rule, log, call["notice"], call["room"])
    else:
        answer, points = plain.take(rule, log, call["take"], call["room"])
    if points is None:
        number, place = answer
        return log, {"number": number, "place": place, "kept": log.kept(), "open": log.open()}
    words = plain.report(rule, points)
    return answer, {"words": len(words), "report": words, "kept": answer.kept(), "open": answer.open()}


def run(where, case, met):
    """The differences of one case."""
    unknown = set(case) - {"profile", "seed", "rule", "check", "refused", "calls", "image"}
    if unknown:
        sys.exit(f"{where}: what {sorted(unknown)} asks isn't known here")
    met["cases"] += 1
    file = bytes.fromhex(case["rule"])
    rule = plain.check(file)
    met["rule", rule[0] if isinstance(rule, tuple) else 0] += 1
    expected = {key: case[key] for key in ("check", "refused") if case.get(key) is not None}
    if checked(rule) != expected:
        yield f"{where}: checking answers {checked(rule)} for {expected}"
        return
    log = None if isinstance(rule, tuple) else plain.Log(rule, [])
    for k, call in enumerate(case.get("calls", [])):
        kind = "notice" if "notice" in call else "take"
        log, answer = called(rule, log, call)
        expected = {key: value for key, value in call.items() if key not in (kind, "room")}
        met[kind] += 1
        met[kind, answer.get("number", 0)] += 1
        if answer != expected:
            yield f"{where}, call {k}, {kind} {call[kind]}: {answer} for {expected}"
            return
    if "image" in case:
        image = plain.image(file, log)
        met["images"] += 1
        met["image words"] += len(image)
        if image != case["image"]:
            yield f"{where}: the image is {image} for {case['image']}"


def main():
    if len(sys.argv) < 2:
        sys.exit(__doc__)
    differences = 0
    for name in sys.argv[1:]:
        met = collections.Counter()
        with open(name) as lines:
            for number, line in enumerate(lines, 1):
                for difference in run(f"{name}, line {number}", json.loads(line), met):
                    print(difference)
                    differences += 1
        refusals = {kind: ", ".join(f"{met[kind, n]} by {n}" for n in range(1, 17) if met[kind, n]) for kind in ("rule", "take", "notice")}
        print(f"{name}: {met['cases']} cases, rules refused {refusals['rule'] or 'none'}; {met['take']} events, refused {refusals['take'] or 'none'}; {met['notice']} notices, refused {refusals['notice'] or 'none'}; {met['images']} images of {met['image words']} words")
    print(f"{differences} differ")
    sys.exit(differences > 0)


if __name__ == "__main__":
    main()
