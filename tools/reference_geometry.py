"""What items show of their places, sizes and flags, and which anchors count for nothing, for tools/reference.py.

An item is any object with `kind`, `children`, `values` (by slot and side) and `given`, the slots that an initialiser
or a write has set.
"""
from typing import NamedTuple


class Line(NamedTuple):
    """A line of an item."""

    of: object
    edge: str


class Axis(NamedTuple):
    """The slots of one axis."""

    place: str
    size: str
    near: str
    far: str
    center: str
    near_margin: str
    far_margin: str
    offset: str


ACROSS = Axis("x", "width", "left", "right", "horizontalCenter", "leftMargin", "rightMargin", "horizontalCenterOffset")
DOWN = Axis("y", "height", "top", "bottom", "verticalCenter", "topMargin", "bottomMargin", "verticalCenterOffset")
AXIS_OF = {slot: axis for axis in (ACROSS, DOWN) for slot in axis}
ANCHORS = ("left", "right", "top", "bottom", "horizontalCenter", "verticalCenter", "fill", "centerIn")
SIDED = ("x", "y", "width", "height", "implicitWidth", "implicitHeight", "visible", "enabled")
EXTENT = tuple(f"childrenRect.{slot}" for slot in ("x", "y", "width", "height"))


def is_item(thing):
    return getattr(thing, "kind", "QtObject") != "QtObject"


def has_equation(node, slot):
    """Whether what the slot shows follows from other places by itself."""
    return is_item(node) and (slot in SIDED or slot in EXTENT)


def parent_of(node):
    return node.values["parent", "shown"]


def children_of(node):
    return [child for child in node.children if is_item(child)]


def is_lawful(node, anchor, value):
    """Whether an anchor of an item, with this value, is tied to its parent or a sibling, and to a line of its axis."""
    target = value
    if anchor in AXIS_OF:
        if not isinstance(value, Line) or AXIS_OF[value.edge] is not AXIS_OF[anchor]:
            return False
        target = value.of
    above = parent_of(node)
    if above is None or target is node or not is_item(target):
        return False
    return target is above or parent_of(target) is above


def ignored(node):
    """The anchors of an item that count for nothing, each with what is told of it, in the order of slots."""
    if not is_item(node):
        return []
    value = {anchor: node.values[f"anchors.{anchor}", "shown"] for anchor in ANCHORS}
    lawful = {anchor for anchor in ANCHORS if is_lawful(node, anchor, value[anchor])}
    found = []
    for anchor in ANCHORS:
        is_given = isinstance(value[anchor], Line) or hasattr(value[anchor], "kind")
        if is_given and anchor not in lawful:
            found.append((f"anchors.{anchor}", "anchor target ignored"))
        elif anchor in (ACROSS.center, DOWN.center) and lawful >= set(AXIS_OF[anchor][2:5]):
            found.append((f"anchors.{anchor}", "center anchor ignored"))
    return found


def half(number):
    """Half a whole number, cut off towards 0."""
    return number // 2 if number >= 0 else -(-number // 2)


class Equations:
    """The equations of one item. `ask(node, slot, side)` gives the value of a place, in the order of the calls."""

    def __init__(self, node, ask):
        self.node, self.ask = node, ask

    def shown(self, slot):
        """What the slot shows: a truth value, or a whole number of any size."""
        if slot in EXTENT:
            return self.extent(slot.partition(".")[2])
        if slot in ("visible", "enabled"):
            return self.flag(slot)
        if slot not in AXIS_OF:
            return self.own(slot)
        axis = AXIS_OF[slot]
        row = self.row(axis)
        if slot == axis.place:
            found = self.place(axis, row)
            return self.own(slot) if found is None else found
        found = self.size(axis, row)
        if found is not None:
            return found
        own = self.own(slot)
        return own if slot in self.node.given else self.read(f"implicit{slot.title()}")

    def own(self, slot):
        """What the slot is set to."""
        return self.ask(self.node, slot, "set")

    def read(self, slot):
        return self.ask(self.node, slot, "shown")

    def flag(self, slot):
        own, above = self.own(slot), parent_of(self.node)
        from_above = True if above is None else self.ask(above, slot, "shown")
        return own and from_above

    def extent(self, slot):
        """The beginning or the length of all children on one axis."""
        axis, children = AXIS_OF[slot], children_of(self.node)
        if slot == axis.place:
            return min([self.ask(child, axis.place, "shown") for child in children], default=0)
        spans = [(self.ask(child, axis.place, "shown"), self.ask(child, axis.size, "shown")) for child in children]
        return max(sum(span) for span in spans) - min(spans)[0] if spans else 0

    # ---- anchors: which ones decide, and what follows
    def row(self, axis):
        """What decides on the axis: names of anchors, each with its target, and with no one where nothing does."""
        for anchor in ("fill", "centerIn"):
            if target := self.target(anchor):
                return {anchor: target}
        row = {"near": self.target(axis.near), "far": self.target(axis.far)}
        if not (row["near"] and row["far"]):
            row["center"] = self.target(axis.center)
        return {anchor: target for anchor, target in row.items() if target}

    def target(self, anchor):
        """The line or the item to which the anchor is tied, if that is lawful."""
        value = self.read(f"anchors.{anchor}")
        return value if is_lawful(self.node, anchor, value) else None

    def place(self, axis, row):
        """The place that the anchors give, or None."""
        match row:
            case {"fill": target}:
                return self.begin(axis, target) + self.margin(axis.near_margin)
            case {"near": near}:
                return self.line(axis, near) + self.margin(axis.near_margin)
            case {"far": far, "center": center}:
                return self.far_line(axis, far) - self.size_to_far(axis, far, center)
            case {"far": far}:
                return self.far_line(axis, far) - self.read(axis.size)
            case {"centerIn": target} | {"center": target}:
                room = 2 * self.begin(axis, target) + self.length(axis, target) - self.read(axis.size)
                return half(room) + self.read(f"anchors.{axis.offset}")
        return None

    def size(self, axis, row):
        """The size that the anchors give, or None."""
        match row:
            case {"fill": target}:
                return self.length(axis, target) - self.margin(axis.near_margin) - self.margin(axis.far_margin)
            case {"near": near, "far": far}:
                return self.far_line(axis, far) - (self.line(axis, near) + self.margin(axis.near_margin))
            case {"near": near, "center": center}:
                twice_center = 2 * self.begin(axis, center) + self.length(axis, center)
                twice_center += 2 * self.read(f"anchors.{axis.offset}")
                return twice_center - 2 * (self.line(axis, near) + self.margin(axis.near_margin))
            case {"far": far, "center": center}:
                return self.size_to_far(axis, far, center)
        return None

    def size_to_far(self, axis, far, center):
        """The size of an item whose far line and centre are tied."""
        twice_far = 2 * self.far_line(axis, far)
        twice_center = 2 * self.begin(axis, center) + self.length(axis, center)
        return twice_far - twice_center - 2 * self.read(f"anchors.{axis.offset}")

    def far_line(self, axis, far):
        return self.line(axis, far) - self.margin(axis.far_margin)

    def margin(self, name):
        own = self.read(f"anchors.{name}")
        return own if f"anchors.{name}" in self.node.given else self.read("anchors.margins")

    def line(self, axis, target):
        """Where a line stands; a centre line between two pixels stands at the one nearer to 0."""
        if target.edge != axis.center:
            return self.begin(axis, target)
        return half(2 * self.begin(axis, target) + self.length(axis, target))

    def begin(self, axis, target):
        """Where a target begins: a near or far line is where it stands, a centre line begins where its item does."""
        if not isinstance(target, Line):
            return self.begin_of(axis, target)
        begin = self.begin_of(axis, target.of)
        return begin + self.ask(target.of, axis.size, "shown") if target.edge == axis.far else begin

    def begin_of(self, axis, item):
        return 0 if item is parent_of(self.node) else self.ask(item, axis.place, "shown")

    def length(self, axis, target):
        if not isinstance(target, Line):
            return self.ask(target, axis.size, "shown")
        return self.ask(target.of, axis.size, "shown") if target.edge == axis.center else 0
