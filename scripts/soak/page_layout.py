"""Works out once more where each box, tab and line of a pipeline's picture lies: in pixels, in whole numbers, rounded down.

Columns stand from left to right: a job is right of the jobs that its inputs name in `passed`. A line leads from one column to the next one. Where it goes
farther, it passes each column between them in a slot, which no box touches. A line that doesn't lead to the right goes back in a lane below all boxes.
"""
import collections
import page_reader

LETTER, BOX_MARGIN, LEAST_UNITS = 8, 20, 8  # a box is as wide as its text, a unit of which has so many pixels, and a margin
TAB_LETTER, TAB_MARGIN, TAB_HEIGHT = 7, 12, 18
RESOURCE_HEIGHT, LEAST_JOB_HEIGHT, PORT_HEIGHT = 40, 46, 22
BELOW_BOX, BELOW_SLOT, BELOW_ALL, MARGIN = 18, 12, 16, 40  # free space; MARGIN is that at the sides
LANE_HEIGHT, BEND = 14, 28  # a line that goes back reaches so far out
LAST = 1 << 30  # the key of a box that is near nothing
Band = collections.namedtuple("Band", "left inner right")  # a column: its tabs begin, its boxes begin, its boxes end
Piece = collections.namedtuple("Piece", "source target offset trigger")  # of a line; it ends so far below its target's top


class Item:
    """What stands in a column: the box of a resource or a job, or a slot of the lines that begin there, which has no height."""

    def __init__(self, number, column, height=0, width=0, tab_widths=()):
        self.number, self.column, self.height, self.width, self.tab_widths = number, column, height, width, tab_widths
        self.top, self.want, self.arriving, self.leaving = 0, None, [], []

    def middle(self):
        return self.top + self.height // 2

    def space(self):
        return self.height + (BELOW_BOX if self.height else BELOW_SLOT)

    def port(self, port):
        """How far below the top a line ends."""
        return (self.height - PORT_HEIGHT * max(1, len(self.tab_widths))) // 2 + PORT_HEIGHT * port + PORT_HEIGHT // 2


def mean(numbers):
    return sum(numbers) // len(numbers) if numbers else None


def cut_units(text, most):
    """How wide a text is once it is cut, with the ellipsis, which has two units."""
    return min(page_reader.units(text), most + 1)


def layers_of(named, steps):
    """How long the longest chain of jobs before each job is, by the jobs that each one names. Where all that are left wait for one another, the first of them
    leads to a job on a cycle, by so many steps back, and this one waits no longer."""
    layers, left = [0] * len(named), dict.fromkeys(range(len(named)))
    while left:
        job = next((job for job in left if not any(it in left for it in named[job])), None)
        if job is None:
            job = next(iter(left))
            for _ in range(steps):
                job = next(it for it in named[job] if it in left)
        layers[job] = max((layers[it] + 1 for it in named[job] if it not in left), default=0)
        del left[job]
    return layers


def columns_of(resources, jobs, edges):
    """The columns of the resources and of the jobs. A resource stands before the first job that takes it, otherwise behind the last one that puts it."""
    named = [[source - resources for source, target, _, _ in edges if source >= resources and target == resources + job] for job in range(jobs)]
    columns = [0] * resources + [layer + 1 for layer in layers_of(named, resources + jobs)]  # as many steps as boxes
    for resource in range(resources):
        takes = [columns[target] - 1 for source, target, _, _ in edges if source == resource]
        puts = [columns[source] + 1 for source, target, _, _ in edges if target == resource]
        columns[resource] = min(takes) if takes else max(puts, default=0)
    return columns


def boxes_of(made, below, edges):
    """The boxes of the resources and then of the jobs, each in its column, with these texts below their names."""
    boxes = []
    for column, it, text in zip(columns_of(len(made["resources"]), len(made["jobs"]), edges), [*made["resources"], *made["jobs"]], below):
        tabs = [TAB_LETTER * cut_units(of, page_reader.WIDE[1]) + TAB_MARGIN if passed else 0 for _, of, passed, _ in page_reader.inputs_of({"plan": [], **it})]
        small = page_reader.units(text)  # letters below a name are smaller
        width = LETTER * max(cut_units(it["name"], page_reader.WIDE[0]), small - small // 6, LEAST_UNITS) + BOX_MARGIN
        boxes.append(Item(len(boxes), column, max(LEAST_JOB_HEIGHT, PORT_HEIGHT * len(tabs) + 6) if "plan" in it else RESOURCE_HEIGHT, width, tabs))
    return boxes


def chains_of(boxes, edges):
    """Each box with its slots, one in each column before the last one that its lines lead to. Pieces of lines join them."""
    chains, pieces = [[box] for box in boxes], []
    for box, chain in zip(boxes, chains):
        for column in range(box.column + 1, max((boxes[target].column for source, target, _, _ in edges if source == box.number), default=0)):
            chain.append(Item(box.number, column))
            pieces.append(Piece(chain[-2], chain[-1], 0, True))
    for source, target, port, trigger in edges:
        if boxes[source].column < boxes[target].column:
            before = chains[source][boxes[target].column - 1 - boxes[source].column]
            pieces.append(Piece(before, boxes[target], boxes[target].port(port), trigger))
    for piece in pieces:
        piece.source.leaving.append(piece)
        piece.target.arriving.append(piece)
    return chains


def level_from_left(item):
    """The top at which the lines from the left are level: those that trigger, or all if none does."""
    return mean([it.source.middle() - it.offset for it in [it for it in item.arriving if it.trigger] or item.arriving])


def level_to_right(item):
    """The top at which the lines to the right are level, where none comes from the left."""
    return mean([it.target.top + it.offset for it in item.leaving]) - item.height // 2 if item.leaving and not item.arriving else None


def near(item, resources):
    """The height that a box without lines from the left is near to: by the numbers of its jobs in the first column, by what else leads to them later."""
    targets = [it.target for it in item.leaving if it.target.height]
    if item.column == 0:
        return mean([64 * (it.number - resources) for it in targets])
    return mean([it.source.middle() for target in targets for it in target.arriving if it.source.want is not None])


def place(items):
    """Puts these below each other, each where it wants to be or lower."""
    free = 0
    for item in items:
        item.top = max(free, item.want or 0)
        free = item.top + item.space()


def arrange(items, resources):
    """Orders a column and places it: first what has lines from the left, then the others among them."""
    for item in items:
        item.want = level_from_left(item)
    place(sorted((it for it in items if it.want is not None), key=lambda it: (it.want, it.number)))
    nearby = {it: near(it, resources) for it in items if it.want is None}
    keys = {it: nearby.get(it, it.top) for it in items}
    for item, height in nearby.items():
        item.want = None if height is None or item.column == 0 else height - item.height // 2
    items.sort(key=lambda it: (LAST if keys[it] is None else keys[it], it.number))
    place(items)


def pull(items, wish):
    """Moves what stands in a column down to where it wishes to be, and never past the next one."""
    lowest = LAST
    for item in reversed(items):
        top = wish(item)
        item.top = item.top if top is None else max(item.top, min(top, lowest - item.space()))
        lowest = item.top


def bands_of(columns):
    """The columns beside each other, farther from each other the more lines end there."""
    bands = []
    for items in columns:
        left = bands[-1].right + 46 + min(90, 3 * sum(len(it.arriving) for it in items)) if bands else MARGIN
        inner = left + max((width for it in items for width in it.tab_widths), default=0)
        bands.append(Band(left, inner, inner + max((it.width for it in items), default=0)))
    return bands


def curve(x, y, to_x, to_y):
    """A path from a point to another one, level at both ends."""
    middle = (x + to_x) // 2
    return f"M{x} {y}" + (f"H{to_x}" if y == to_y else f"C{middle} {y} {middle} {to_y} {to_x} {to_y}")


def lines_of(chains, edges, bands, lanes):
    """The paths of the slots and of the edges."""
    for before, slot in ((before, slot) for chain in chains for before, slot in zip(chain, chain[1:])):
        yield curve(bands[before.column].right, before.middle(), bands[slot.column].left, slot.top) + f"H{bands[slot.column].right}"
    for source, target, port, _ in edges:
        start, box = chains[source][0], chains[target][0]
        band, y = bands[box.column], box.top + box.port(port)
        end = "" if any(box.tab_widths[port:port + 1]) or band.left == band.inner else f"H{band.inner}"
        if start.column < box.column:
            before = chains[source][box.column - 1 - start.column]
            yield curve(bands[before.column].right, before.middle(), band.left, y) + end
        else:
            x, lane, out, back = bands[start.column].right, lanes[target], bands[start.column].right + BEND, band.left - BEND
            yield f"M{x} {start.middle()}C{out} {start.middle()} {out} {lane} {x} {lane}H{band.left}C{back} {lane} {back} {y} {band.left} {y}{end}"


def layout_of(made, below):
    """What the picture of a pipeline with these texts below the names has, by its kind."""
    links = [f"#r{k}" for k in range(len(made["resources"]))] + [f"#j{k}" for k in range(len(made["jobs"]))]
    edges = [(links.index(source), links.index(target), port, trigger) for source, target, port, trigger in page_reader.edges_of(made)]
    boxes = boxes_of(made, below, edges)
    chains = chains_of(boxes, edges)
    columns = [[it for chain in chains for it in chain if it.column == column] for column in range(1 + max(it.column for it in boxes))]
    for items in columns:
        arrange(items, len(made["resources"]))
    for items in reversed(columns):
        pull(items, level_to_right)
    for items in columns:
        pull(items, level_from_left)
    bands, bottom = bands_of(columns), max(it.top + it.height for items in columns for it in items)
    ends = {target for source, target, _, _ in edges if boxes[target].column <= boxes[source].column}
    lanes = {target: bottom + BELOW_ALL + LANE_HEIGHT * k for k, target in enumerate(sorted(ends))}
    boxed = [(link, bands[it.column].inner, it.top, bands[it.column].right - bands[it.column].inner, it.height) for link, it in zip(links, boxes)]
    tabs = [(bands[it.column].left, it.top + it.port(port) - TAB_HEIGHT // 2, bands[it.column].inner - bands[it.column].left, TAB_HEIGHT)
            for it in boxes for port, width in enumerate(it.tab_widths) if width]
    height = bottom + (BELOW_ALL + LANE_HEIGHT * len(ends) if ends else 0)
    return {"size": [(0, -12, bands[-1].right + MARGIN, 12 + height + 12)], "box": boxed, "tab": tabs, "line": [*lines_of(chains, edges, bands, lanes)]}
