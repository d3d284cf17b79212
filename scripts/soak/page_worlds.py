"""Databases for the tests of pages.

A world is a pipeline with a history that bin/ccr_run has made, with programs that answer at once: fifteen are of pipelines as teams have them, two of
texts and sizes that nobody has. A database that `written` makes is written at once, as docs/FORMATS.md says: without a program.
"""
import hashlib
import json
import os
import pathlib
import random
import shutil
import sqlite3
import subprocess

TOP = pathlib.Path(__file__).resolve().parents[2]
RUN = os.environ.get("CCR_RUN", str(TOP / "bin" / "ccr_run"))
STATUSES = ["running", "succeeded", "failed", "errored", "aborted"]
TABLES = """
CREATE TABLE meta(k INTEGER PRIMARY KEY, v BLOB NOT NULL);
CREATE TABLE scopes(id INTEGER PRIMARY KEY, resource TEXT NOT NULL,
  kind TEXT NOT NULL, source TEXT NOT NULL, UNIQUE(resource, kind, source));
CREATE TABLE versions(scope INTEGER NOT NULL, place INTEGER NOT NULL,
  body TEXT NOT NULL, PRIMARY KEY(scope, place), UNIQUE(scope, body));
CREATE TABLE builds(id INTEGER PRIMARY KEY, job TEXT NOT NULL,
  number INTEGER NOT NULL, status INTEGER NOT NULL, UNIQUE(job, number));
CREATE TABLE pairs(build INTEGER NOT NULL, input TEXT NOT NULL,
  scope INTEGER NOT NULL, place INTEGER NOT NULL,
  PRIMARY KEY(build, input, scope, place));
CREATE TABLE pins(resource TEXT PRIMARY KEY, body TEXT NOT NULL);
"""


def compact(value):
    return json.dumps(value, separators=(",", ":"), ensure_ascii=False)


def sha(text):
    return hashlib.sha1(text.encode()).hexdigest()


def ran(db, *words, **more):
    """A run of the program on a database."""
    return subprocess.run([RUN, "--db", str(db), *map(str, words)], capture_output=True, text=True, **more)


def page(db, *options):
    """The page of a database, or the end of this."""
    made = subprocess.run([RUN, "--db", str(db), "page", *options], capture_output=True)
    if made.returncode or made.stderr:
        raise SystemExit(f"wrong: `page` of {db} ends with status {made.returncode}: {made.stderr.decode(errors='replace')[:400]}")
    return made.stdout.decode()


def asked(db, *words):
    """What a look with --json says."""
    told = ran(db, words[0], "--json", "--look", "--", *words[1:])
    if told.returncode:
        raise SystemExit(f"wrong: {words} of {db} ends with status {told.returncode}: {told.stderr[:400]}")
    return json.loads(told.stdout)


# ---- steps
def got(resource, *passed, trigger=True, **more):
    """A get of a resource."""
    return {"get": resource, **({"passed": list(passed)} if passed else {}), **({"trigger": True} if trigger else {}), **more}


def task(fails=0, salt=""):
    """A task that fails in so many of a hundred builds, by its directory, which has the job and the number."""
    script = f'h=$(printf %s "${{PWD##*/work/}} {salt}" | cksum | cut -d" " -f1); [ $((h % 100)) -ge {fails} ]'
    return {"task": "t", "config": {"run": {"path": "sh", "args": ["-c", script]}}}


def job(name, *plan):
    return {"name": name, "plan": list(plan)}


def resource(name, id=None, **more):
    return {"name": name, "type": "t", "source": {"id": id or name}, **more}


# ---- a database without a program
def written(db, made, versions, builds=(), pins=(), disabled=()):
    """Writes a database: a pipeline; for each resource its versions; builds as (job, status, what it took for each input, what it moved), each by
    resource and place; pins by command; and disabled places by resource."""
    base = sqlite3.connect(db)
    base.execute("PRAGMA synchronous = OFF")
    base.executescript(TABLES)
    base.execute("INSERT INTO meta VALUES(1, ?)", (b"2",))
    base.execute("INSERT INTO meta VALUES(2, ?)", (json.dumps(made).encode(),))
    scopes, numbers = {}, {}
    for it in made["resources"]:
        if versions.get(it["name"]):
            scopes[it["name"]] = len(scopes) + 1
            base.execute("INSERT INTO scopes VALUES(?, ?, ?, ?)", (scopes[it["name"]], it["name"], it["type"], compact(it.get("source", {}))))
            rows = [(scopes[it["name"]], k + 1, compact(dict(sorted(v.items(), key=lambda f: f[0].encode())))) for k, v in enumerate(versions[it["name"]])]
            base.executemany("INSERT INTO versions VALUES(?, ?, ?)", rows)
    for id, (name, status, took, moved) in enumerate(builds, 1):
        numbers[name] = numbers.get(name, 0) + 1
        base.execute("INSERT INTO builds VALUES(?, ?, ?, ?)", (id, name, numbers[name], STATUSES.index(status)))
        base.executemany("INSERT INTO pairs VALUES(?, ?, ?, ?)", [(id, it, scopes[of], place) for it, (of, place) in took.items()])
        base.executemany("INSERT OR IGNORE INTO pairs VALUES(?, '', ?, ?)", [(id, scopes[of], place) for of, place in moved])
    base.executemany("INSERT INTO pairs VALUES(0, '', ?, ?)", [(scopes[of], place) for of, place in disabled])
    base.executemany("INSERT INTO pins VALUES(?, ?)", [(of, compact(pin)) for of, pin in pins])
    base.commit()
    base.close()


# ---- a database by the program
CHECK = """#!/bin/sh
id=$(sed 's/.*"id":"\\([^"]*\\)".*/\\1/')
exec cat "{room}/state/$id.json"
"""
GET = """#!/bin/sh
printf '{"version":%s}' "$(sed 's/.*"version":\\({[^}]*}\\).*/\\1/')"
"""
PUT = """#!/bin/sh
id=$(sed 's/.*"id":"\\([^"]*\\)".*/\\1/')
n=$(cat "{room}/state/$id.n" 2> /dev/null || echo 0)
echo $((n + 1)) > "{room}/state/$id.n"
printf '{{"version":{{"number":"1.%s.0"}}}}' $((n + 1))
"""
KINDS = {
    "ref": lambda id, i: {"ref": sha(f"{id} {i}")},
    "number": lambda id, i: {"number": f"1.{i}.0"},
    "time": lambda id, i: {"time": f"2026-11-{i:02}T03:00:00Z"},
    "digest": lambda id, i: {"digest": "sha256:" + hashlib.sha256(b"%d" % i).hexdigest()},
}


class World:
    """A directory with a database, and a resource type whose checks find what was said before."""

    def __init__(self, top, name):
        self.room = pathlib.Path(top) / name
        self.db = self.room / "ci.db"
        (self.room / "state").mkdir(parents=True)
        (self.room / "types" / "t").mkdir(parents=True)
        for program, text in (("check", CHECK.format(room=self.room)), ("in", GET), ("out", PUT.format(room=self.room))):
            path = self.room / "types" / "t" / program
            path.write_text(text)
            path.chmod(0o755)

    def ccr(self, *words, fine=True):
        done = subprocess.run([RUN, "--db", str(self.db), "--types", f"{self.room}/types", "--work", f"{self.room}/work", *map(str, words)],
                              capture_output=True, text=True)
        if fine and done.returncode:
            raise SystemExit(f"wrong: {words[:2]} of the world {self.room.name} ends with status {done.returncode}: {done.stderr[:400]}")
        return done

    def versions(self, id, count, kind="ref"):
        make = KINDS[kind] if isinstance(kind, str) else lambda id, i: kind(i)
        (self.room / "state" / f"{id}.json").write_text(json.dumps([make(id, i) for i in range(1, count + 1)]))

    def set(self, resources, jobs):
        (self.room / "p.json").write_text(json.dumps({"resources": resources, "jobs": jobs}))
        self.ccr("set-pipeline", self.room / "p.json")

    def run(self, rounds=1):
        self.ccr("run", "--rounds", rounds)


def empty(top):
    w = World(top, "empty")
    w.set([], [])
    return w.db


def no_pipeline(top):
    w = World(top, "no-pipeline")
    w.ccr("builds")
    return w.db


def fresh(top):
    """A pipeline that was set, and nothing has run."""
    w = World(top, "fresh")
    made = json.loads((TOP / "examples" / "pipeline.json").read_text())
    w.set([{**it, "type": "t"} for it in made["resources"]], made["jobs"])
    return w.db


def deploy(top):
    """The example that README plays."""
    room = pathlib.Path(top) / "deploy"
    subprocess.run([TOP / "examples" / "deploy" / "start", room], check=True, stdout=subprocess.DEVNULL)
    words = ["--db", room / "ci.db", "--types", TOP / "examples" / "types", "--work", room / "work"]
    quiet = {"check": True, "stdout": subprocess.DEVNULL, "stderr": subprocess.DEVNULL, "env": {**os.environ, "CCR_HOME": str(room)}}
    subprocess.run([RUN, *words, "set-pipeline", room / "pipeline.json"], **quiet)
    subprocess.run([RUN, *words, "run", "--rounds", "2"], **quiet)
    (room / "repo" / "page.html").write_text("Hello?\n")
    subprocess.run(["git", "-C", room / "repo", "commit", "-qam", "Asks"], check=True)
    subprocess.run([RUN, *words, "run", "--rounds", "2"], **quiet)
    return room / "ci.db"


def plain(value, fails):
    """A plan with tasks that need no files."""
    if isinstance(value, list):
        return [plain(it, fails) for it in value]
    if not isinstance(value, dict):
        return value
    if "task" in value:
        kept = {k: plain(it, fails) for k, it in value.items() if k not in ("file", "config", "params", "attempts")}
        return {**task(fails.get(value["task"], 0), value["task"]), **kept}
    return {k: plain(it, fails) for k, it in value.items()}


def four(top):
    """The pipeline of examples/pipeline.json, with pins, after a month."""
    w = World(top, "four")
    made = json.loads((TOP / "examples" / "pipeline.json").read_text())
    for it in made["resources"]:
        it.update(type="t", source={"id": it["name"]})
    made["resources"][1]["version"] = {"ref": sha("tools 2")}
    made["jobs"][3]["plan"][2]["version"] = KINDS["digest"]("image", 2)
    for name, count, kind in (("source", 1, "ref"), ("tools", 3, "ref"), ("image", 2, "digest"), ("daily", 1, "time"), ("chat", 0, "ref")):
        w.versions(name, count, kind)
    w.set(made["resources"], plain(made["jobs"], {"test": 30, "integration": 25, "soak": 20}))
    for i in range(1, 27):
        w.versions("source", i)
        w.versions("daily", 1 + i // 4, "time")
        w.run(2)
    return w.db


def fan(top):
    """Three services that are tested, built and deployed together."""
    w = World(top, "fan")
    names = ["shop", "payments", "web", "ci-tasks", "base-image", "version", "staging-lock", "nightly"]
    for name in names[:5]:
        w.versions(name, 1)
    w.versions("nightly", 1, "time")
    w.versions("version", 1, "number")
    w.versions("staging-lock", 1, "number")
    w.versions("app-image", 0)
    built = [got("shop", "build-images"), got("payments", "build-images"), got("web", "build-images"), got("app-image", "build-images", trigger=False)]
    w.set([resource(name) for name in [*names, "app-image"]], [
        job("unit-shop", got("shop"), got("ci-tasks", trigger=False), task(12)),
        job("unit-payments", got("payments"), got("ci-tasks", trigger=False), task(10)),
        job("unit-web", got("web"), got("ci-tasks", trigger=False), task(8)),
        job("lint", got("shop"), got("payments"), got("web"), task(5)),
        job("build-images", got("shop", "unit-shop", "lint"), got("payments", "unit-payments", "lint"), got("web", "unit-web", "lint"), got("base-image"),
            task(3), {"put": "app-image"}),
        job("integration", *built, task(20)),
        job("browser-tests", *built[2:], task(35)),
        job("load-test", built[0], got("nightly"), task(15), {"put": "staging-lock"}),
        job("staging", got("shop", "integration"), got("web", "integration", "browser-tests"), got("payments", "integration"),
            got("staging-lock", trigger=False), task(4), {"put": "staging-lock"}),
        job("smoke", got("shop", "staging"), got("web", "staging"), task(25)),
        job("bump", got("shop", "smoke"), got("version", trigger=False), {"put": "version"}),
        job("production", got("shop", "smoke", "load-test", trigger=False), got("web", "smoke", trigger=False), got("payments", "staging", trigger=False),
            got("version", "bump", trigger=False), task(0))])
    for i in range(1, 24):
        for name, count in (("shop", i), ("payments", 1 + i // 2), ("web", 1 + i * 2 // 3)):
            w.versions(name, count)
        w.versions("nightly", 1 + i // 3, "time")
        if i % 8 == 0:
            w.versions("base-image", 1 + i // 8)
        w.run(3)
        if i % 5 == 0:
            w.ccr("trigger-job", "production", fine=False)
    return w.db


def running(top):
    """The same, with three builds that run, and one that was aborted and one errored."""
    source = pathlib.Path(top) / "fan"
    if not (source / "ci.db").exists():
        fan(top)
    room = pathlib.Path(top) / "running"
    room.mkdir()
    for path in source.glob("ci.db*"):
        shutil.copy(path, room)
    base = sqlite3.connect(room / "ci.db")
    for name, status in (("integration", 0), ("unit-web", 0), ("load-test", 0), ("lint", 4), ("smoke", 3)):
        id, number = base.execute("SELECT id, number FROM builds WHERE job = ? ORDER BY id DESC LIMIT 1", (name,)).fetchone()
        if status:
            base.execute("UPDATE builds SET status = ? WHERE id = ?", (status, id))
            continue
        new, = base.execute("SELECT max(id) + 1 FROM builds").fetchone()
        base.execute("INSERT INTO builds VALUES(?, ?, ?, 0)", (new, name, number + 1))
        base.execute("INSERT INTO pairs SELECT ?, input, scope, place FROM pairs WHERE build = ? AND input <> ''", (new, id))
    base.commit()
    base.close()
    return room / "ci.db"


SERVICES = ["accounts", "billing", "catalog", "delivery", "events", "forum", "gateway", "history", "invoices", "journal"]


def sixty_jobs():
    """Ten services of five jobs each, and ten jobs that join them."""
    jobs, half = [], SERVICES[:5]
    for s in SERVICES:
        jobs += [job(f"{s}-unit", got(s), got("ci", trigger=False), task(9)), job(f"{s}-lint", got(s), task(4)),
                 job(f"{s}-build", got(s, f"{s}-unit", f"{s}-lint"), task(2), {"put": s + "-image"}),
                 job(f"{s}-contract", got(s, f"{s}-build"), got(f"{s}-image", f"{s}-build", trigger=False), task(11)),
                 job(f"{s}-staging", got(s, f"{s}-contract"), got("chart", trigger=False), task(5))]
    system = [(s, "system-1" if s in half else "system-2") for s in SERVICES]
    return jobs + [
        job("system-1", *[got(s, f"{s}-staging") for s in half], task(20)),
        job("system-2", *[got(s, f"{s}-staging") for s in SERVICES[5:]], task(20)),
        job("e2e", *[got(*it) for it in system], task(10)), job("security-scan", *[got(*it, trigger=False) for it in system], task(0)),
        job("performance", *[got(s, "e2e") for s in SERVICES[:3]], task(10)), job("canary", *[got(s, "e2e") for s in SERVICES], task(10)),
        job("production-eu", *[got(s, "canary") for s in SERVICES], task(0)),
        job("production-us", *[got(s, "production-eu", trigger=False) for s in SERVICES], task(0)),
        job("docs", got("chart"), task(0)), job("cleanup", got("ci"), task(50))]


def sixty(top):
    w = World(top, "sixty")
    rng = random.Random(4)
    names = ["ci", "chart", *[s + end for s in SERVICES for end in ("", "-image")]]
    for name in names:
        w.versions(name, 0 if name.endswith("-image") else 1)
    w.set([resource(name) for name in names], sixty_jobs())
    counts = dict.fromkeys(SERVICES, 1)
    for i in range(20):
        for s in SERVICES:
            if rng.random() < 0.75:
                counts[s] += 1
                w.versions(s, counts[s])
        if i % 3 == 0:
            w.versions("ci", 1 + i // 3)
        if i % 7 == 0:
            w.versions("chart", 1 + i // 7)
        w.run()
    return w.db


def limit_pipeline():
    """200 jobs and 200 resources, with long lines."""
    jobs = []
    for i in range(200):
        plan = [got(f"resource-{i:03}")]
        if i >= 25:
            plan.append(got(f"resource-{(i - 25) % 200:03}", f"job-{i - 25:03}", trigger=i % 3 > 0))
        if i >= 50 and i % 4 == 0:
            plan.append(got(f"resource-{(i - 49) % 200:03}", f"job-{i - 49:03}", trigger=False))
        jobs.append(job(f"job-{i:03}", *plan, task(15)))
    return [resource(f"resource-{i:03}") for i in range(200)], jobs


def limit(top):
    w = World(top, "limit")
    for i in range(200):
        w.versions(f"resource-{i:03}", 2)
    w.set(*limit_pipeline())
    for i in range(3):
        for k in range(0, 200, 3):
            w.versions(f"resource-{k:03}", 2 + i)
        w.run()
    return w.db


NAMES = ["<script>alert(1)<script>", '"><img src=x onerror=alert(1)>', 'it\'s "quoted" & <b>bold<b>', "試験と配備の長い名前", "Ünïcödé-ßtest", "🚀 ship it",
         "\u202eevil\u202c rtl", "שלום עולם", "x" * 128,
         "integration-tests-against-postgres-15-with-very-long-descriptive-name-that-goes-on-until-it-has-one-hundred-and-twenty-eight-byte"[:128],
         "<svg onload=alert(2)><style>*{display:none}", "&lt;not&#32;entities&amp;", "Z̸͖̈a̵͎͝l̶̰̀g̷͖̎o̶̝", "﷽﷽﷽", "javascript:alert(3)", "--option", "%2e%2e", "a b  c",
         "{{template}} ${x} `y`", "] ]> <!-- c -->"]


def names(top):
    """Jobs and resources with names, and versions with texts, that try to be markup."""
    w = World(top, "names")
    kind = lambda name: lambda i: {name: f"<v>{name}&\"'{i}", "\u0007\n": "\u0000\ttab \u2028 \x7f \x85 \ufffe"}  # noqa: E731
    jobs = []
    for i, name in enumerate(NAMES):
        w.versions(f"r{i}", 3, kind(name))
        passed = [got(NAMES[i - 1], NAMES[i - 1], trigger=bool(i % 2))] if i % 5 else []
        jobs.append(job(name, got(name), *passed, task(30, str(i))))
    w.set([resource(name, f"r{i}") for i, name in enumerate(NAMES)], jobs)
    w.run(2)
    w.run(2)
    for i in range(0, 20, 3):
        w.versions(f"r{i}", 4, kind(NAMES[i]))
    w.run(2)
    w.ccr("disable-resource-version", "--", NAMES[0], 2)
    w.ccr("pin-resource", "--", NAMES[1], json.dumps({NAMES[1]: f"<v>{NAMES[1]}&\"'1"}))
    return w.db


def many(top):
    """More builds than a page shows, of which the last ones failed."""
    w = World(top, "many")
    w.versions("repo", 1)
    w.set([resource("repo")], [job("test", got("repo"), task(35)), job("ship", got("repo", "test"), task(100))])
    w.ccr("check-resource", "repo")
    for _ in range(120):
        w.ccr("trigger-job", "test", fine=False)
    for count in (3, 9):
        w.versions("repo", count)
        w.run(3)
    return w.db


def pins(top):
    """Pins in the pipeline and by command, disabled versions, `every`, and a job that only a command builds."""
    w = World(top, "pins")
    for name, count, kind in (("app", 6, "ref"), ("config", 4, "ref"), ("schema", 3, "number"), ("tools", 5, "ref"), ("unused-thing", 0, "ref")):
        w.versions(name, count, kind)
    w.set([resource("app"), resource("config"), resource("schema"), resource("tools", version={"ref": sha("tools 2")}), resource("unused-thing")], [
        job("test", got("app", version="every"), got("config"), got("tools"), task(0)), job("migrate", got("schema"), got("app", "test"), task(0)),
        job("deploy", got("app", "test", "migrate"), got("config", "test"), task(0)), job("rollback", got("app", "deploy", trigger=False), task(0))])
    w.run(8)
    w.ccr("pin-resource", "config", json.dumps({"ref": sha("config 2")}))
    for name, place in (("app", 5), ("app", 6), ("schema", 3)):
        w.ccr("disable-resource-version", name, place)
    w.versions("app", 7)
    w.run(2)
    w.ccr("pin-resource", "schema", json.dumps({"number": "9.9.9"}))
    return w.db


def held(top):
    """A pin and a disabled version behind what is live, and beside builds that failed; in jobs of one input and of two."""
    w = World(top, "held")
    for name in ("app", "base", "tools"):
        w.versions(name, 1)
    w.set([resource("app"), resource("base"), resource("tools")], [
        job("deploy", got("app"), task(0)), job("image", got("base"), task(100)), job("both", got("app"), got("tools"), task(0)),
        job("by-hand", got("base", trigger=False), task(100))])
    w.run()
    w.ccr("trigger-job", "by-hand", fine=False)
    w.versions("app", 2)
    w.versions("tools", 2)
    w.run()
    w.ccr("pin-resource", "app", json.dumps({"ref": sha("app 1")}))
    w.versions("base", 2)
    w.versions("tools", 3)
    w.ccr("check-resource", "base")
    w.ccr("check-resource", "tools")
    w.ccr("disable-resource-version", "base", 2)
    w.ccr("disable-resource-version", "tools", 3)
    return w.db


def cycle(top):
    """Jobs that wait for one another, and for themselves."""
    w = World(top, "cycle")
    for name in ("a", "b", "lock"):
        w.versions(name, 2)
    w.versions("version", 0)
    w.set([resource(name) for name in ("a", "b", "lock", "version")], [
        job("start", got("a"), task()), job("left", got("a", "start", "right"), got("lock", trigger=False), {"put": "lock"}, task()),
        job("right", got("a", "left"), got("b"), task()), job("self", got("b", "self"), task()),
        job("after", got("a", "right"), got("b", "right", "self", trigger=False), {"put": "version"}, task()),
        job("bump", got("version", "after"), {"put": "b"}, task())])
    w.run(3)
    return w.db


def train(top):
    """One repository through fourteen jobs one after another, where each third job also wants what the first one saw."""
    w = World(top, "train")
    w.versions("trunk", 1)
    w.versions("calendar", 1, "time")
    jobs = [job("stage-01", got("trunk", version="every"), task(4))]
    for i in range(2, 15):
        more = [got("calendar", trigger=False)] if i == 9 else []
        jobs.append(job(f"stage-{i:02}", got("trunk", f"stage-{i - 1:02}", *(["stage-01"] if i % 3 == 0 else []), trigger=i != 14), *more, task(6, str(i))))
    w.set([resource("trunk"), resource("calendar")], jobs)
    for i in range(1, 18):
        w.versions("trunk", i)
        w.run(2)
    w.ccr("trigger-job", "stage-14", fine=False)
    return w.db


def wide(top):
    """A job with 32 inputs of 32 resources, whose names are as wide as a box and a tab take, or wider."""
    w = World(top, "wide")
    names = [("漢字" if i % 3 == 0 else "wide-name-") + "abcdefghijklmnopqrstuvwxyz"[: i % 14] + f"{i:02}" for i in range(32)]
    for i, name in enumerate(names):
        w.versions(f"w{i}", 2, lambda k, i=i: {"branch": f"release/{i}", "commit": sha(f"{i} {k}"), "n": str(k)})
    w.set([resource(name, f"w{i}") for i, name in enumerate(names)], [
        job("all-of-them-and-then-some-more", *[got(name) for name in names], task(0)),
        job("after", *[got(name, "all-of-them-and-then-some-more", trigger=i % 2 == 0) for i, name in enumerate(names)], task(100)),
        job("never", *[got(name, "after", trigger=False) for name in names])])
    for _ in range(3):
        w.run()
    return w.db


def loops(top):
    """Puts of resources that earlier jobs get: lines that go back, several to one box; and a job that nothing leads to."""
    w = World(top, "loops")
    for name in ("code", "lock", "report"):
        w.versions(name, 2)
    w.versions("env", 2, "number")
    w.set([resource(name) for name in ("code", "lock", "report", "env", "nobody")], [
        job("claim", got("lock", trigger=False), got("code"), {"put": "lock"}),
        job("plan", got("code", "claim"), got("env", trigger=False), task(10), {"put": "report"}),
        job("apply", got("code", "plan", trigger=False), got("report", "plan"), task(10), {"put": "env"}, {"put": "lock"}),
        job("drift", got("env", "apply"), task(50), {"put": "report"}), job("alone", task(0)),
        job("release", got("lock", "apply"), {"put": "lock"}, task(60))])
    for i in range(2, 9):
        w.versions("code", i)
        w.run(3)
    w.ccr("trigger-job", "alone")
    w.ccr("trigger-job", "apply", fine=False)
    return w.db


WORLDS = {"deploy": deploy, "four": four, "fan": fan, "running": running, "sixty": sixty, "limit": limit, "names": names, "empty": empty,
          "no-pipeline": no_pipeline, "fresh": fresh, "many": many, "pins": pins, "held": held, "cycle": cycle, "train": train, "wide": wide, "loops": loops}
SMALL = ["deploy", "empty", "no-pipeline", "fresh", "pins", "held", "cycle"]
