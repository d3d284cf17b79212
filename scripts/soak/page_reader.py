"""Reads a page: its elements, what its picture has, and what it says of each job. And what the picture of a pipeline has to have, worked out here once more."""
import collections
import html.parser
import re

ENDS = {"li": {"li"}, "td": {"td", "th"}, "th": {"td", "th"}, "tr": {"td", "th", "tr"}, "ol": {"p"}, "ul": {"p"}, "table": {"p"}, "section": {"p"}}
CLOSES = {"ol": {"li"}, "ul": {"li"}, "table": {"td", "th", "tr"}, "tbody": {"td", "th", "tr"}, "thead": {"td", "th", "tr"}, "article": {"p"}, "tr": {"td", "th"}}
EMPTY = {"meta", "link", "br"}
WIDE = 20, 13  # units of a name in a box, and in a tab


class Element:
    def __init__(self, tag, attributes):
        self.tag, self.attributes, self.children = tag, attributes, []

    def __getitem__(self, name):
        return self.attributes.get(name)

    def text(self):
        return "".join(it if isinstance(it, str) else it.text() for it in self.children)

    def all(self, tag=None, **wanted):
        """The elements below this one with this tag and these attributes, in order."""
        for it in self.children:
            if isinstance(it, Element):
                if (tag is None or it.tag == tag) and all(it[name.rstrip("_")] == value for name, value in wanted.items()):
                    yield it
                yield from it.all(tag, **wanted)

    def first(self, tag, **wanted):
        return next(self.all(tag, **wanted), None)

    def own(self, tag):
        return [it for it in self.children if isinstance(it, Element) and it.tag == tag]


class Reader(html.parser.HTMLParser):
    """A tree of elements; ends that the page leaves out are added."""

    def __init__(self):
        super().__init__(convert_charrefs=True)
        self.open = [Element("page", {})]
        self.tags = []

    def handle_starttag(self, tag, attributes):
        self.tags.append((tag, tuple(attributes)))
        while self.open[-1].tag in ENDS.get(tag, ()):
            self.open.pop()
        made = Element(tag, dict(attributes))
        self.open[-1].children.append(made)
        if tag not in EMPTY:
            self.open.append(made)

    def handle_startendtag(self, tag, attributes):
        self.tags.append((tag, tuple(attributes)))
        self.open[-1].children.append(Element(tag, dict(attributes)))

    def handle_endtag(self, tag):
        self.tags.append("/" + tag)
        while self.open[-1].tag in CLOSES.get(tag, ()):
            self.open.pop()
        if self.open[-1].tag != tag:
            raise ValueError(f"</{tag}> where {self.open[-1].tag} is open")
        self.open.pop()

    def handle_data(self, text):
        self.open[-1].children.append(text)

    def handle_comment(self, text):
        self.tags.append("comment")

    def handle_pi(self, text):
        self.tags.append("instruction")

    def unknown_decl(self, text):
        self.tags.append("declaration")


def read(text):
    """The tree of a page, and its tags in order."""
    reader = Reader()
    reader.feed(text)
    reader.close()
    if len(reader.open) != 1:
        raise ValueError(f"no end: {[it.tag for it in reader.open]}")
    return reader.open[0], reader.tags


# ---- texts
def units(text):
    return sum(1 if c < "\u0300" else 2 for c in text)


def cut(text, most):
    """The text, or its beginning and its end with an ellipsis between them: so many units at the most."""
    if units(text) <= most:
        return text
    head = (most - 1) * 3 // 5
    tail, front, back = most - 1 - head, "", ""
    for c in text:
        if units(front + c) > head:
            break
        front += c
    for c in reversed(text):
        if units(c + back) > tail:
            break
        back = c + back
    return f"{front}…{back}"


def shown(text):
    """The text as a reader of the page gets it: what HTML can't have is another character."""
    return re.sub("[\0-\x1f\x7f]", "\ufffd", text)


def short(version):
    """A version in a few letters."""
    def value(text):
        digits = re.sub("^(sha256|sha512|sha1):", "", text)
        return digits[:7] if re.fullmatch("[0-9a-f]{16,}", digits) else text
    fields = sorted(version.items(), key=lambda it: it[0].encode())
    return value(fields[0][1]) if len(fields) == 1 else ", ".join(f"{k} {value(v)}" for k, v in fields)


# ---- the picture
Box = collections.namedtuple("Box", "to kind left top width height name below full")
Tab = collections.namedtuple("Tab", "left top width height text")
Line = collections.namedtuple("Line", "group points path")


def numbers_of(d):
    """The corners of a path: those of its lines, and the control points of its curves, as (what, x, y)."""
    found, x, y = [], None, None
    for what, rest in re.findall("([MHC])([^MHC]*)", d):
        numbers = [int(it) for it in rest.split()]
        if what == "H":
            x = numbers[0]
            found.append(("H", x, y))
        else:
            for k in range(0, len(numbers), 2):
                x, y = numbers[k], numbers[k + 1]
                found.append((what, x, y))
    written = "".join(what + rest for what, rest in re.findall("([MHC])([^MHC]*)", d))
    if written != d:
        raise ValueError(f"a path of other letters: {d}")
    return found


class Picture:
    """The boxes, tabs and lines of a page's picture."""

    def __init__(self, tree):
        svg = tree.first("div", class_="pic").own("svg")[0]
        self.size = [int(it) for it in svg["viewbox"].split()]
        self.boxes, self.tabs, self.lines = [], [], []
        for link in svg.own("a"):
            box, = link.own("svg")
            texts = [it.text() for it in box.own("text")]
            title = box.first("title")
            self.boxes.append(Box(link["href"], box["class"], *(int(box[k]) for k in ("x", "y", "width", "height")), *texts, title.text() if title else None))
        lines, = svg.own("g")
        for group in lines.own("g"):
            if group["class"] == "i":
                self.tabs += [Tab(*(int(it[k]) for k in ("x", "y", "width", "height")), it.text()) for it in group.own("svg")]
            else:
                self.lines += [Line(group["class"], numbers_of(it["d"]), it["d"]) for it in group.own("path")]


def steps_of(plan):
    """The gets and puts of a list of steps, in order."""
    for step in plan:
        if "get" in step or "put" in step:
            yield step
        for key in ("do", "in_parallel", "try", "on_success", "on_failure", "on_error", "on_abort", "ensure"):
            if key in step:
                below = step[key]
                below = below if isinstance(below, list) else below["steps"] if "steps" in below else [below]
                yield from steps_of(below)


def inputs_of(job):
    """A job's gets, as (name, resource, passed, trigger)."""
    return [(it["get"], it.get("resource", it["get"]), it.get("passed", []), it.get("trigger", False)) for it in steps_of(job["plan"]) if "get" in it]


def edges_of(made):
    """The edges of `graph`, in its order: (source, target, port, trigger), as the links of the boxes."""
    jobs, resources = [it["name"] for it in made["jobs"]], [it["name"] for it in made["resources"]]
    found = []
    for j, job in enumerate(made["jobs"]):
        for port, (_, of, passed, trigger) in enumerate(inputs_of(job)):
            found += [(f"#j{jobs.index(q)}", f"#j{j}", port, trigger) for q in passed] or [(f"#r{resources.index(of)}", f"#j{j}", port, trigger)]
    for j, job in enumerate(made["jobs"]):
        puts = {it.get("resource", it["put"]) for it in steps_of([job, *job["plan"]]) if "put" in it}
        found += [(f"#j{j}", f"#r{n}", 0, True) for n, name in enumerate(resources) if name in puts]
    return found


def picture_faults(made, picture):
    """What is wrong with the picture of a pipeline: each job and resource once, no overlap, and each edge one path from its box to its box, through the
    slots that belong to it, past all else."""
    bad, boxes = [], {it.to: it for it in picture.boxes}
    wanted = [f"#r{k}" for k in range(len(made["resources"]))] + [f"#j{k}" for k in range(len(made["jobs"]))]
    if [it.to for it in picture.boxes] != wanted:
        return ["the boxes are others"]
    for box, it in zip(picture.boxes, [*made["resources"], *made["jobs"]]):
        if (box.name, box.full) != (shown(cut(it["name"], WIDE[0])), None if units(it["name"]) <= WIDE[0] else shown(it["name"])):
            bad.append(f"a box has another name: {box.name}: {it['name']}")
    # Columns, by their right sides.
    rights = sorted({it.left + it.width for it in picture.boxes})
    column = {it.to: rights.index(it.left + it.width) for it in picture.boxes}
    lefts = [min(it.left for it in picture.boxes if column[it.to] == c) for c in range(len(rights))]
    widest = [max([it.width for it in picture.tabs if it.left + it.width == lefts[c]], default=0) for c in range(len(rights))]
    starts = [left - tab for left, tab in zip(lefts, widest)]
    for c in range(len(rights)):
        same = [it for it in picture.boxes if column[it.to] == c]
        if len({(it.left, it.width) for it in same}) != 1:
            bad.append(f"the boxes of column {c} aren't alike")
        if c and starts[c] - rights[c - 1] < 46:
            bad.append(f"no gap before column {c}")
    # Tabs: one for each port with jobs in `passed`, beside its box at the port's height.
    ports, expected = {}, []
    for j, job in enumerate(made["jobs"]):
        box, inputs = boxes[f"#j{j}"], inputs_of(job)
        for port, (_, of, passed, _) in enumerate(inputs):
            y = box.top + (box.height - 22 * len(inputs)) // 2 + 22 * port + 11
            ports[f"#j{j}", port] = (y, bool(passed))
            if not box.top < y < box.top + box.height:
                bad.append(f"port {port} of {job['name']} isn't at its box")
            if passed:
                expected.append(Tab(box.left - widest[column[box.to]], y - 9, widest[column[box.to]], 18, shown(cut(of, WIDE[1]))))
    if expected != picture.tabs:
        bad.append(f"the tabs are others: {[it for it in picture.tabs if it not in expected][:2]}, not {[it for it in expected if it not in picture.tabs][:2]}")
    for n in range(len(made["resources"])):
        ports[f"#r{n}", 0] = (boxes[f"#r{n}"].top + boxes[f"#r{n}"].height // 2, False)
    # Slots: lines forward that go on to the right side of a column where they don't end.
    rest, slots = [], collections.defaultdict(list)
    for line in picture.lines:
        first, last = line.points[0][1:], line.points[-1][1:]
        if line.group in "bc":
            rest.append(line)
        elif last[0] in rights and rights.index(last[0]) and first[0] == rights[rights.index(last[0]) - 1]:
            slots[first].append((last, line))
        else:
            rest.append(line)
    in_column = [[(it.top, it.top + it.height, True) for it in picture.boxes if column[it.to] == c] for c in range(len(rights))]
    for ends in slots.values():
        for (x, y), _ in ends:
            in_column[rights.index(x)].append((y, y, False))
    for c, items in enumerate(in_column):
        items.sort()
        for a, b in zip(items, items[1:]):
            if b[0] - a[1] < (18 if a[2] else 12):
                bad.append(f"too near in column {c}: {a} and {b}")
    bad += path_faults(made, picture, boxes, column, starts, rights, ports, rest, slots)
    return bad


def red_ports(made, picture):
    """The ports with a tab where a red line ends, as (job, port). Lines that go back are never red."""
    ends = {line.points[-1][1:] for line in picture.lines if line.group in "hk"}
    places = [(j, port) for j, job in enumerate(made["jobs"]) for port, (_, _, passed, _) in enumerate(inputs_of(job)) if passed]
    return {at for at, tab in zip(places, picture.tabs) if (tab.left, tab.top + 9) in ends}


def path_faults(made, picture, boxes, column, starts, rights, ports, rest, slots):
    """What is wrong with the paths: each edge has one."""
    bad, wanted, used = [], collections.Counter(), collections.Counter()
    edges = edges_of(made)
    farthest = collections.defaultdict(int)
    for s, t, _, _ in edges:
        if column[t] > column[s]:
            farthest[s] = max(farthest[s], column[t])
    chains = {}
    for s, box in boxes.items():
        chains[s] = [(rights[column[s]], box.top + box.height // 2)]
        for c in range(column[s] + 1, farthest[s]):
            ends = slots.get(chains[s][-1], [])
            if len(ends) != 1:
                bad.append(f"{len(ends)} slots of {s} in column {c}")
                break
            (end, line), = ends
            used[chains[s][-1]] += 1
            if line.points[-1][2] != end[1] or not level_in(line, starts[c], rights[c]):
                bad.append(f"a slot of {s} isn't level in column {c}")
            chains[s].append(end)
    if sum(used.values()) != sum(map(len, slots.values())):
        bad.append("there are slots of nobody")
    lowest = max([it.top + it.height for it in picture.boxes] + [y for ends in slots.values() for (_, y), _ in ends], default=0)
    back = sorted({t for s, t, _, _ in edges if column[t] <= column[s]}, key=lambda t: (t[1] != "r", int(t[2:])))
    lanes = {t: lowest + 16 + 14 * k for k, t in enumerate(back)}
    for s, t, port, trigger in edges:
        y, tab = ports[t, port]
        end = starts[column[t]] if tab else boxes[t].left
        if column[t] > column[s]:
            at = column[t] - 1 - column[s]
            first = chains[s][min(at, len(chains[s]) - 1)]
            wanted[first, None, (end, y), trigger] += 1
        else:
            wanted[chains[s][0], lanes[t], (end, y), trigger] += 1
    came = collections.Counter()
    for line in rest:
        whats = "".join(it[0] for it in line.points)
        lane = next((p[2] for p in line.points if p[0] == "H"), None) if line.group in "bc" else None
        came[line.points[0][1:], lane, line.points[-1][1:], line.group in "lhb"] += 1
        bad += [f"a path of another form: {line}"] * (not re.fullmatch("MCCCHCCCH?" if line.group in "bc" else "M(CCC|H)H?", whats))
        if lane is None:
            c = next((k for k, right in enumerate(rights) if right == line.points[0][1]), -1)
            if c < 0 or c + 1 == len(rights) or any(not rights[c] <= x <= starts[c + 1] for what, x, _ in line.points if what == "C"):
                bad.append(f"a line bends where boxes are: {line}")
        elif line.group in "bc" and not (lane > lowest and line.points[3][1] in rights and line.points[7][1] in starts):
            bad.append(f"a line goes back where boxes are: {line}")
    bad += [f"no path, or another one: {it}" for it in (wanted - came)] + [f"a path of no edge: {it}" for it in (came - wanted)]
    width, height = picture.size[2:]
    if any(not (0 <= x <= width and 0 <= y <= height - 12) for line in picture.lines for _, x, y in line.points) or any(it.left + it.width > width for it in picture.boxes):
        bad.append("the picture goes beyond its size")
    return bad


def level_in(line, start, right):
    """Whether a line is level from this side of a column to the other one: it bends before."""
    return line.points[-1][0] == "H" and line.points[-1][1] == right and (line.points[-2][1] == start or line.points[-2][0] == "M" or line.points[-2][1] == start)


# ---- what it says of the jobs
def sentences(tree):
    """Of each job by its position that a list has: how urgent it is, and why it stands still, as text."""
    found = {}
    for item in (it for ul in tree.all("ul", class_="why") for it in ul.own("li")):
        job = item.own("b")[0].first("a")
        text = "".join(it if isinstance(it, str) else it.text() for it in item.children[1:])
        at = int(job["href"][2:])
        if at in found:
            raise ValueError(f"job {at} is in two lists")
        found[at] = (item["class"], text.strip().removesuffix("."))
    return found
