#!/usr/bin/env python3
"""A second checker, for a reader who trusts no prover: it prints what `ccr_verify` prints, and was written from docs/FORMATS.md alone.

usage: check.py [PROBLEM PROOF]      (without arguments it reads standard input; it waits for an input that never ends)"""
import os
import re
import sys

class Refused(Exception):
    """Why a text is refused: the words behind `refused: `."""

def demand(rule, words):
    if not rule:
        raise Refused(words)

class Lines:
    """The lines of a text. The bad line is the first that breaks a rule, lacks its line feed or is missing."""

    def __init__(self, text, bad):
        self.lines, self.bad, self.number = text.split("\n"), bad, 0

    def keep(self, rule):
        demand(rule, self.bad.format(self.number))

    def next(self, form, most=4294967295):
        """Reads a line. Its form is a pattern in which # is a number, up to most. The answer has a list of numbers for each group."""
        self.number += 1
        found = self.number < len(self.lines) and re.fullmatch(form.replace("#", "(?:0|[1-9][0-9]{0,9})"), self.lines[self.number - 1])
        self.keep(found)
        groups = [[int(word) for word in group.split()] for group in found.groups("")]
        self.keep(all(n <= most for group in groups for n in group))
        return groups

def read_problem(text):
    """The inputs, each with its scope, its jobs, and its places, the most preferred first; and for each job the pairs of its builds, by number."""
    lines = Lines(text, "problem line {}")
    [[version]], [[count]] = lines.next("problem (1|2)"), lines.next("inputs (#)", 32)
    inputs, scopes, mentioned, needed = [], 0, 0, 1
    for _ in range(count):
        [scope], named, after, places = lines.next("(#) jobs((?: #)*)(?: after (#))? places((?: #)*)", 100000)
        lines.keep(scope <= scopes and len(set(named)) == len(named) and len(after) < version)
        lines.keep(places == sorted(set(places)) and 0 not in places + after)
        for job in named:
            lines.keep(job <= mentioned and job <= 31)
            mentioned = max(mentioned, job + 1)
        scopes, needed = max(scopes, scope + 1), max(needed, len(after) + 1)
        inputs.append((scope, named, sorted(places, key=lambda p: (0, p) if after and p > after[0] else (1, -p))))
    lines.keep(lines.next("jobs (#)") == [[mentioned]] and version == needed)
    jobs = [{} for _ in range(mentioned)]
    for builds in jobs:
        [[count]], newer = lines.next("builds (#)", 1000000), 1000001
        for _ in range(count):
            [number], numbers = lines.next("(#) pairs((?: # #)*)")
            pairs = list(zip(numbers[::2], numbers[1::2]))
            lines.keep(1 <= number < newer and pairs == sorted(set(pairs)) and all(s < scopes and 1 <= p <= 100000 for s, p in pairs))
            builds[number], newer = set(pairs), number
    demand(lines.lines[lines.number:] == [""], "problem trailing")
    return inputs, jobs

def read_claim(text):
    """The claim's line, its places and its builds; and for a proof the nodes in preorder, each as the numbers on its line."""
    lines, version, nodes, missing = Lines(text, "claim line"), 1, None, []
    if text.startswith("proof"):
        lines, nodes, missing = Lines(text, "proof line {}"), [], [1]
        [[version]] = lines.next("proof (1|2)")
    places, builds = lines.next("none|best((?: #){0,32}) builds((?: #){0,32})")
    claim = lines.lines[lines.number - 1]
    while missing:  # 1 for the root, and for each job node above the next node how many of its children are still to be read
        demand(len(nodes) < 1000000, "too many nodes")
        job, children, empty, same = lines.next("job (#) (#)|empty (#)|same (#)|bounded")
        lines.keep(version == 2 if same else not job or children[0] <= 1000000 and len(missing) <= 32)
        nodes.append((job, children, empty, same))
        missing[-1] -= 1
        missing += children
        while missing and missing[-1] == 0:
            missing.pop()
    lines.keep(version == 1 or any(same for _, _, _, same in nodes))
    demand(lines.lines[lines.number:] == [""], "claim line" if nodes is None else "proof trailing")
    return claim, places, builds, nodes

def demand_satisfies(inputs, jobs, places, builds):
    demand(len(places) == len(inputs) and len(builds) == len(jobs), "choice: wrong length")
    for i, (_, _, allowed) in enumerate(inputs):
        demand(places[i] in allowed, f"choice: input {i} not allowed")
    for j, job in enumerate(jobs):
        demand(builds[j] in job, f"choice: job {j} not successful")
    for i, (scope, named, _) in enumerate(inputs):
        for j in named:
            demand((scope, places[i]) in jobs[j][builds[j]], f"choice: input {i} not passed job {j}")

def demand_refutes(inputs, jobs, claimed, nodes):
    """The nodes go through the builds of jobs, and show in each case that no choice has better places than those claimed (None: any places)."""
    bound = claimed and [allowed.index(place) for (_, _, allowed), place in zip(inputs, claimed)]
    jobs = [list(builds.values()) for builds in jobs]
    of_any = [set().union(*builds) for builds in jobs]
    passed = list(of_any)  # what passed each job: the pairs of the build that is fixed for it, or if none is, those of all its builds
    above = []  # the job nodes above the node: for each its job, and which of its children up to the node are `same`

    def best(i):  # how many places are preferred to the best possible one of input i: all of them if none is possible
        scope, named, places = inputs[i]
        return next((k for k, place in enumerate(places) if all((scope, place) in passed[j] for j in named)), len(places))

    for n, (job, children, empty, same) in enumerate(nodes):
        if above:
            fixed, said = above[-1]
            passed[fixed] = jobs[fixed][len(said)]
            said.append(bool(same))
        if job:
            demand(job[0] < len(jobs), f"node {n}: no such job")
            demand(all(job[0] != j for j, _ in above), f"node {n}: job twice")
            demand(children[0] == len(jobs[job[0]]), f"node {n}: wrong children")
            above.append((job[0], []))
        elif empty:
            demand(empty[0] < len(inputs), f"node {n}: no such input")
            demand(best(empty[0]) == len(inputs[empty[0]][2]), f"node {n}: not empty")
        elif same:
            demand(above and same[0] < len(said) and not said[same[0]], f"node {n}: not same")
            count = [scope for scope, named, _ in inputs if fixed in named]
            demand(all(it in jobs[fixed][same[0]] for it in passed[fixed] if it[0] in count), f"node {n}: not same")
        else:
            demand(bound is not None and [best(i) for i in range(len(inputs))] >= bound, f"node {n}: not bounded")
        while above and len(above[-1][1]) == len(jobs[above[-1][0]]):
            fixed, _ = above.pop()
            passed[fixed] = of_any[fixed]

def judged(text):
    """The line for a text, and the exit status."""
    cut = re.search(r"^(?:proof|best|none)|\Z", text, re.M).start()
    try:
        inputs, jobs = read_problem(text[:cut])
        claim, places, builds, nodes = read_claim(text[cut:])
        demand(nodes is not None or claim != "none", "a bare none")
        if claim != "none":
            demand_satisfies(inputs, jobs, places, builds)
        if nodes is not None:
            demand_refutes(inputs, jobs, None if claim == "none" else places, nodes)
        return claim.replace("best", "satisfies") if nodes is None else f"accepted {claim}", 0
    except Refused as refused:
        return f"refused: {refused}", 1

if __name__ == "__main__":
    line, status = "usage: check.py [PROBLEM PROOF]", 2
    try:
        if len(sys.argv) in (1, 3):
            names = [it.encode() for it in sys.argv[1:]] or [0]
            line, status = judged(b"".join(open(it, "rb").read() for it in names).decode("latin-1"))
    except (OSError, UnicodeError, MemoryError) as fault:
        line, status = "out of memory" if isinstance(fault, MemoryError) else "cannot read", 4
    os.write(1 if status < 2 else 2, f"{line}\n".encode())
    sys.exit(status)
