#!/usr/bin/env python3
"""Turns the independent program's cases into the input and the expected output of the crate `vectors`.

usage: vectors.py DIR      DIR holds turn.json, strike.json and the others

Each case becomes one line of crates/vectors/stdin (the call and its numbers) and one of crates/vectors/stdout (the expected answer).
"""
import json
import os
import sys

source = sys.argv[1]
here = os.path.join(os.path.dirname(os.path.abspath(__file__)), "..", "crates", "vectors")
asked, told = [], []


def cases(name):
    with open(os.path.join(source, name + ".json")) as f:
        return json.load(f)["cases"]


def put(call, numbers, answer):
    asked.append(" ".join([call] + [str(n) for n in numbers]))
    told.append(answer)


def or_refused(case, answer):
    return "refused %d" % case["refused"] if "refused" in case else answer(case)


def line(numbers):
    return " ".join(str(n) for n in numbers)


for c in cases("turn"):
    put("turn", c["bearing"], or_refused(c, lambda c: line(c["answer"])))

for c in cases("strike"):
    put("strike", c["a"] + c["b"] + c["c"] + c["P"] + c["run"], or_refused(c, lambda c: "yes" if c["answer"] else "no"))

for c in cases("reach"):
    put("reach", c["run"], "%d %s" % (c["k"], line(c["E"])))

WAY = {1: "up", -1: "down", 0: "beside"}


def face(c):
    words = [line(c["normal"]), WAY[c["covers"]]]
    return " ".join(words + ([str(c["floor"] + 1)] if c["covers"] else []))


for c in cases("floor"):
    put("floor", c["a"] + c["b"] + c["c"] + c["p"], face(c))

for c in cases("wall"):
    put("wall", c["u"] + c["v"] + c["run"] + c["p"], face(c))


def flat(lists):
    return [n for l in lists for n in l]


def misfit(c):
    return " ".join(["refused", str(c["refused"])] + [str(w) for w in c.get("where", [])])


for c in cases("match"):
    n = c["list_length"]
    told_list = c["answer"] if "answer" in c else [0] * n
    put("match", [len(c["corners"]), len(c["triangles"]), n] + flat(c["corners"]) + flat(c["triangles"]),
        " ".join(["matched" if "answer" in c else misfit(c)] + [str(x) for x in told_list]))

for c in cases("match_big"):
    put("many", [c["corners_count"], c["triangles_count"], c["list_length"]] + c["corner"] + c["triangle"], misfit(c))


def tables(s):
    return [len(s["corners"]), len(s["triangles"]), len(s["partners"])] + flat(s["corners"]) + flat(s["triangles"]) + s["partners"]


for c in cases("load"):
    put("load", tables(c), "%s triangles %d" % (misfit(c) if "refused" in c else "loaded", 0 if "refused" in c else len(c["triangles"])))

for c in cases("pair"):
    p = c["pair"]
    put("pair", tables(c["first"]) + tables(c["second"]),
        " ".join([str(n) for n in flat(p["corners"]) + flat(p["triangles"]) + p["partners"]] + ["end"]))

def has_solid(corners, triangles):
    """No closed solid has an odd number of triangles, nor triangles without corners."""
    return triangles % 2 == 0 and (triangles == 0 or corners >= 3)


for c in cases("pair_check"):
    if has_solid(*c["first_counts"]) and has_solid(*c["second_counts"]):
        put("sizes", c["first_counts"] + c["second_counts"], or_refused(c, lambda c: c["answer"]))

OPS = ["wipe", "raise", "more", "less", "height", "count"]
for c in cases("planes"):
    before = c["before"]
    stored = before["packed"] if c["kind"] == "pack" else before["heights"] + before["counts"]
    frame = [0] if c["frame"] is None else [1] + c["frame"]
    ops = [len(c["ops"])] + flat([[OPS.index(o[0])] + o[1:] for o in c["ops"]])
    asked_for = [a for o, a in zip(c["ops"], c["answers"]) if o[0] in ("height", "count")]
    answers = ["none" if a is None else str(a) for a in asked_for]
    put(c["kind"], [c["width"], c["rows"]] + stored + frame + ops,
        " ".join(answers + ["window", line(c["window"]), "modulus", str(c["modulus"]), line(flat(c["reads_after"]))]))

for c in cases("plane_check"):
    put("check", [c["width"], c["rows"], len(c["lists"])] + c["lists"], or_refused(c, lambda c: c["answer"]))

for name, lines in (("stdin", asked), ("stdout", told)):
    with open(os.path.join(here, name), "w") as f:
        f.write("\n".join(lines) + "\n")
print(len(asked), "cases")
