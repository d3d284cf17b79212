"""Why each job of a database stands still, worked out from what `explain`, `jobs`, `builds` and `build` say: what a page has to say of it."""
import re

from page_reader import cut, shown, short
from page_worlds import asked

BAD = ("failed", "errored", "aborted")
PINNED = ("pinned by pin-resource", "pinned by the resource", "pinned by the get")
HELD = ("disabled", "others come first", *PINNED)
STANDS = {"runs": "is running with", "succeeded without it": "succeeded without", **{word: f"{word} on" for word in BAD}}


def few(version):
    return cut(short(version), 18)


class Story:
    """What a database says of its jobs."""

    def __init__(self, db):
        self.db = db
        self.jobs = asked(db, "jobs")
        self.names = [it["name"] for it in self.jobs]
        self.explained = {name: asked(db, "explain", name) for name in self.names}
        builds = asked(db, "builds")
        self.newest = {it["job_name"]: it for it in builds}
        self.good = {it["job_name"]: it for it in builds if it["status"] == "succeeded"}
        self.counts = {it["name"]: it["version_count"] for it in asked(db, "resources")}

    # ---- what holds an input
    def stop(self, reason):
        """The job, the number and the rest of the words of a reason that names where a version stopped; None of another one."""
        for name in self.names:
            if reason == f"not built by {name}":
                return name, None, None
            found = re.fullmatch(re.escape(name) + r" (\d+) (failed|errored|aborted|runs|succeeded without it)", reason, re.S)
            if found:
                return name, found[1], found[2]
        return None

    def unbuilt(self, name, of, place):
        """How a job stands to a version that no build of it has."""
        told = self.explained[name]
        same = [it for it in told["inputs"] if it["resource"] == of]
        if told["has_new_inputs"] and any(it["place"] == place for it in same):
            return "is due with"
        return "doesn't take" if any(newer["place"] == place for it in same for newer in it["newer"]) else "hasn't built"

    def other(self, version, reason):
        """A reason that names no job where the version stopped."""
        if reason in PINNED:
            return f"a pin leaves out {version}"
        if reason.startswith("clash: "):
            return f"{version} can't be taken, since these can't all hold: {cut(reason[7:], 200)}"
        return version + {"disabled": " is disabled", "others come first": " has its turn later"}.get(reason, f": {cut(reason, 200)}")

    def hold(self, taken, newer):
        """How urgent it is that an input doesn't take a version, and the reason."""
        version, stop = few(newer["version"]), self.stop(newer["reason"])
        if not stop:
            return "p" if newer["reason"] in HELD else "x", self.other(version, newer["reason"])
        name, number, words = stop
        if number is None:
            stands = self.unbuilt(name, taken["resource"], newer["place"])
            return "r" if self.explained[name]["has_new_inputs"] else "x", f"{cut(name, 40)} {stands} {version}"
        return "r" if words == "runs" else "x", f"{cut(name, 40)} {number} {STANDS[words]} {version}"

    def holds(self, inputs):
        found = [(it, it["newer"][0], *self.hold(it, it["newer"][0])) for it in inputs if it["newer"]]
        worst = next((kind for kind in "xpr" if any(it[2] == kind for it in found)), None)
        return worst, [it for it in found if it[2] == worst]

    def live(self, name):
        """What the newest build of a job that succeeded took, each as (input, resource, place)."""
        good = self.good.get(name)
        return {(it["name"], it["resource"], it["place"]) for it in asked(self.db, "build", name, good["name"])["inputs"]} if good else set()

    def holds_words(self, name, inputs, told, by_itself):
        live, words = self.live(name), "" if by_itself else "is built by command only; the next build would take "
        for k, (taken, newer, _, reason) in enumerate(told[:3]):
            words += "; " if k else ""
            if by_itself:
                words += "stays at " if (taken["name"], taken["resource"], taken["place"]) in live else "would take "
            words += f"{cut(taken['resource'], 40)} " if len(inputs) > 1 else ""
            words += f"{few(taken['version'])}: {reason}"
        return words + (f"; and {len(told) - 3} more" if len(told) > 3 else "")

    # ---- a job
    def bad(self, job, build, inputs, by_itself):
        took = asked(self.db, "build", job["name"], build["name"])["inputs"]
        triggers = [it["name"] for it in job["inputs"] if it["trigger"]]
        on = [it for it in took if [it["name"]] == triggers]
        words = f"stopped: build {build['name']} {build['status']}"
        if on:
            words += f" on {cut(on[0]['name'], 40) + ' ' if len(took) > 1 else ''}{few(on[0]['version'])}"
        worst, told = self.holds(inputs)
        if worst is None:
            return words + (", and nothing newer has come" if by_itself else ", and only a command makes the next")
        return f"{words}; {self.holds_words(job['name'], inputs, told, by_itself)}"

    def unmet(self, job, reason):
        """Why no choice satisfies the inputs of a job."""
        for get in job["inputs"]:
            allowed = f"clash: {get['name']} takes an allowed version"
            if reason == allowed:
                if self.counts[get["resource"]]:
                    return f"can't be built: pins and disabled versions leave no version of {cut(get['resource'], 40)}"
                return f"waits: {cut(get['resource'], 40)} has no version yet"
            for name in get["passed"]:
                of = cut(get["resource"], 40)
                if reason == f"clash: {get['name']} passed {name}":
                    return f"waits: no version of {of} has passed {cut(name, 40)}"
                if reason == f"{allowed}, {get['name']} passed {name}":
                    return f"waits: no version of {of} that is allowed has passed {cut(name, 40)}"
        if reason.startswith("clash: "):
            return f"can't be built: these can't all hold: {cut(reason[7:], 400)}"
        return f"can't be built: {cut(reason, 400)}"

    def why(self, job):
        """How urgent it is that a job stands still, and why; None if nothing is said of it."""
        told, build = self.explained[job["name"]], self.newest.get(job["name"])
        inputs, by_itself = told["inputs"], told["next"] == "nothing new"
        if build and build["status"] == "running":
            return "r", f"is running build {build['name']}"
        if told["next"] == "due":
            return "r", f"is due: the next round builds {few(inputs[0]['version'])}" if len(inputs) == 1 else "is due in the next round"
        if told["next"] == "none satisfies":
            return "x", self.unmet(job, told["reason"]) if told["reason"] else "can't be built"
        if told["next"].startswith("over budget"):
            return "x", "isn't decided: the search goes over the budget; --budget N allows more"
        if build and build["status"] in BAD:
            return "x", self.bad(job, build, inputs, by_itself)
        worst, held = self.holds(inputs)
        if worst is None or not build and not by_itself:
            return None
        return worst, self.holds_words(job["name"], inputs, held, by_itself)

    def red(self):
        """The lines, as (job, port, source), of which the newest version stopped at a job that the input names, in a build that has ended: those are red."""
        found = set()
        for at, job in enumerate(self.jobs):
            for port, (get, taken) in enumerate(zip(job["inputs"], self.explained[job["name"]]["inputs"])):
                stop = self.stop(taken["newer"][0]["reason"]) if taken["newer"] else None
                if stop and stop[1] and stop[2] != "runs" and stop[0] in get["passed"]:
                    found.add((at, port, self.names.index(stop[0])))
        return found

    def about(self, name):
        """How the row of a job begins: its newest build, and the newest that succeeded with the versions that it took."""
        build, good = self.newest.get(name), self.good.get(name)
        if not build:
            return "no builds; "
        words = f"{build['name']} {build['status']}"
        if not good:
            return words + ", none succeeded; "
        words += "" if good is build else f", {good['name']} succeeded"
        took = asked(self.db, "build", name, good["name"])["inputs"]
        versions = ", ".join((f"{cut(it['name'], 40)} " if len(took) > 1 else "") + few(it["version"]) for it in took)
        return shown(words + (f" with {versions}" if took else "") + "; ")

    def all(self):
        """The same of each job by its position, where something is said, as a reader gets it."""
        found = ((at, self.why(job)) for at, job in enumerate(self.jobs))
        return {at: (why[0], shown(why[1])) for at, why in found if why}
