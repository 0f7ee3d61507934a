"""The program's picture of steps, without the rows of some of them.

The program draws a row of one height for each step, and the heads of the columns again after each
40 rows. The rows before the first one that is shown it leaves out itself. What is in a hidden row
after that is taken out, and what goes through it is shortened, so that the rows that are left
follow one another.
"""

from __future__ import annotations

import copy
import re
import subprocess
import textwrap
from collections import defaultdict
from typing import Collection, Dict, List, Sequence
from xml.etree import ElementTree

from ..faults import Fault
from ..kernel import find_program
from ..recording import Recording

MOST_STEPS = 4096  # that the program draws
_SVG = "http://www.w3.org/2000/svg"
_TITLE = f"{{{_SVG}}}title"
_ROW, _START = 24, 52  # how high a row is; where lanes start, a row above the first one's middle
_PAGE, _HEADS = 40, 48  # rows between heads, and how high these are
_FIRST_HEADS, _FIRST_NAMES = 28, 38  # where the numbers of the first heads are, and the names
_CHILD = 14  # from a fork's row to the name of a child that is forked anew
_LEGEND_GAP, _FOOT_ROOM = 32, 88  # from the last row to the legend, and to the end
_LETTER, _MARGIN, _LEAST_WIDTH = 8, 16, 480  # how the program reckons the width
_FOOT_GAP, _FOOT_LINE, _FOOT_LETTER = 8, 18, 6.7
_STYLE = ".foot{font-size:11px;fill:#555}\n"
_BOXES = ("committed", "aborted", "open")
_STARTER = 9  # from a box's top to its number
_OF_TRANSACTIONS = (*_BOXES, "refusal")
_LEGEND_BOXES = 292  # the room that they have in the legend
_NOT_IN_XML = re.compile("[^\t\n\r\x20-\ud7ff\ue000-\ufffd\U00010000-\U0010ffff]")


def draw(
    part: Recording, numbers: Sequence[int], shown: Collection[int], foot: Sequence[str]
) -> str:
    """The picture of steps that have numbers, of which some are shown, as SVG.

    Raises `Fault` where the program draws none.
    """
    ElementTree.register_namespace("", _SVG)
    are_hidden = [it not in shown for it in numbers]
    first = are_hidden.index(False) if False in are_hidden else max(len(numbers) - 1, 0)
    drawn = ElementTree.fromstring(_drawn(part, first + 1))
    picture = _Picture(drawn, numbers[first:], are_hidden[first:])
    picture.crop()
    picture.add_commands(part)
    picture.repeat_heads()
    picture.fit_width()
    picture.add_words(part.command, foot)
    return picture.text()


def _height(row: int) -> int:
    """The middle of a row, from 1; 0 is the top edge."""
    return _START + _ROW * row + _HEADS * (max(row - 1, 0) // _PAGE)


def _drawn(part: Recording, first: int) -> str:
    """The program's picture of steps from one on."""
    # A comment may have more bytes than the program takes.
    lines = [it for it in part.text().split("\n") if not it.startswith("#")]
    ran = subprocess.run(
        [find_program(), "picture", "--from", str(first)],
        input="\n".join(lines).encode("utf-8", "surrogateescape"),
        capture_output=True,
        check=False,
    )
    if ran.returncode:
        fault = ran.stderr.decode("utf-8", "replace").strip()
        raise Fault(f"there is no picture: {fault or f'txos ended with status {ran.returncode}'}")
    return ran.stdout.decode("utf-8")


class _Picture:
    """A picture that is being changed."""

    def __init__(
        self, root: ElementTree.Element, numbers: Sequence[int], are_hidden: Sequence[bool]
    ) -> None:
        self._root = root
        self._body, self._legend = root.findall(f"{{{_SVG}}}g")
        self._numbers = numbers
        self._are_hidden = are_hidden
        self._heights = [_height(it) for it in range(len(numbers) + 1)]
        self._shown = [0]  # how many of so many rows are shown
        for is_hidden in are_hidden:
            self._shown.append(self._shown[-1] + (not is_hidden))

    def text(self) -> str:
        """The picture as SVG, in ASCII, so that it is the same in each encoding."""
        spelled: bytes = ElementTree.tostring(self._root, "us-ascii")
        return spelled.decode("ascii") + "\n"

    # Rows.

    def crop(self) -> None:
        """Takes the hidden rows out, and of the heads, which are last, all but the first."""
        heads = next(it for it, element in enumerate(self._body) if element.text == "process")
        elements = iter(self._body[:heads])
        self._body[heads:] = [it for it in self._body[heads:] if _number(it, "y") < _START]
        starters = iter([it for it in self._body if it.get("class") == "starter"])
        for it in elements:
            kind = it.get("class")
            if kind in _BOXES:
                self._shorten_box(it, next(starters))
            elif kind in ("lane", "held") and it.get("y1") != it.get("y2"):
                self._shorten(it)
            elif kind == "bend":
                self._crop_arrow([it, next(elements)])
            elif kind == "pipe":
                self._crop_arrow([it])
            elif kind and kind != "starter":
                self._crop_row(it)
        if not any(it.get("class") in _OF_TRANSACTIONS for it in self._body):
            _clear_legend(self._legend)
        last = _height(self._shown[-1])
        x = re.findall(r"\d+", self._legend.get("transform", ""))[0]
        self._legend.set("transform", f"translate({x},{last + _LEGEND_GAP})")
        self._set_size(_number(self._root, "width"), last + _FOOT_ROOM)

    def _row_of(self, y: float) -> int:
        """The row that a height lies in, from 1; 0 is the top edge."""
        return min(range(len(self._heights)), key=lambda row: abs(self._heights[row] - y))

    def _is_hidden(self, row: int) -> bool:
        return row > 0 and self._are_hidden[row - 1]

    def _moved(self, y: float) -> float:
        """Where a height comes to lie; what is hidden above all that is shown is at the start."""
        row = self._row_of(y)
        above = self._shown[row]
        if self._is_hidden(row):
            return _height(above) + _ROW // 2 if above else _START
        return _height(above) + y - self._heights[row]

    def _crop_row(self, element: ElementTree.Element) -> None:
        """Moves what lies in one row, or takes it out."""
        ys = [it for it in ("y", "cy", "y1", "y2") if it in element.attrib]
        below = _CHILD if element.get("class") == "name" else 0
        row = self._row_of(_number(element, ys[0]) - below)
        if self._is_hidden(row):
            self._body.remove(element)
            return
        for it in ys:
            _set(element, it, self._moved(_number(element, it) - below) + below)
        title = element.find(_TITLE)  # of a text that the program cuts
        if row > 0 and element.get("class") == "number":
            element.text = str(self._numbers[row - 1])
        elif title is not None and element.get("class") in ("step", "left"):
            element.text = title.text
            element.remove(title)

    def _shorten(self, line: ElementTree.Element) -> None:
        """Shortens what goes down through rows; what would have no length goes."""
        for it in ("y1", "y2"):
            _set(line, it, self._moved(_number(line, it)))
        if line.get("y1") == line.get("y2"):
            self._body.remove(line)

    def _shorten_box(self, box: ElementTree.Element, starter: ElementTree.Element) -> None:
        """Shortens a box, with the number of its starter at its top."""
        top, end = _number(box, "y"), _number(box, "y") + _number(box, "height")
        _set(box, "y", self._moved(top))
        _set(box, "height", self._moved(end) - self._moved(top))
        _set(starter, "y", self._moved(top) + _STARTER)
        if box.get("height") == "0":
            self._body.remove(box)
            self._body.remove(starter)

    def _crop_arrow(self, parts: List[ElementTree.Element]) -> None:
        """Moves an arrow from one row to another, which may have a bend; without a head it goes."""
        first, last = parts[0], parts[-1]
        if self._is_hidden(self._row_of(_number(last, "y2"))):
            for it in parts:
                self._body.remove(it)
            return
        top, end = (self._moved(_number(first, "y1")), self._moved(_number(last, "y2")))
        _set(first, "y1", top)
        _set(last, "y2", end)
        if first is not last:
            _set(first, "y2", (top + end) / 2)
            _set(last, "y1", (top + end) / 2)

    # Words, and the size.

    def add_commands(self, part: Recording) -> None:
        """Gives each name a title, which has all commands that the number's processes are."""
        commands: Dict[str, List[str]] = defaultdict(list)
        for it in part.names:
            commands[str(it.process)].append(_clean(it.command))
        columns = {it.get("x"): it.text or "" for it in self._texts("head")}
        for name in self._texts("name"):
            title = name.find(_TITLE)
            if title is None:
                title = ElementTree.SubElement(name, _TITLE)
                title.tail, name.text = name.text, None
            title.text = "\n".join(dict.fromkeys(commands[columns[name.get("x")]]))

    def repeat_heads(self) -> None:
        """Puts the numbers and names of the processes again after each 40 rows that are shown."""
        numbers = [it for it in self._body if it.text == "process"] + self._texts("head")
        names = sorted(self._texts("name"), key=lambda it: _number(it, "y"))
        for row in range(_PAGE + 1, self._shown[-1] + 1, _PAGE):
            below = _height(row) - _height(1)
            last = {it.get("x"): it for it in names if _number(it, "y") < below}
            for y, heads in ((_FIRST_HEADS, numbers), (_FIRST_NAMES, last.values())):
                for it in heads:
                    again = copy.deepcopy(it)
                    _set(again, "y", y + below)
                    self._body.append(again)

    def _texts(self, kind: str) -> List[ElementTree.Element]:
        return [it for it in self._body if it.get("class") == kind]

    def fit_width(self) -> None:
        """Gives the picture room for the steps that are shown, as they are spelled."""
        texts = self._texts("step")
        is_wide = bool(self._texts("left"))
        left = _LETTER * max([len(it.text or "") for it in texts if is_wide], default=0)
        self._body.set("transform", f"translate({left},0)")
        ends = (left + _number(it, "x") + _LETTER * len(it.text or "") for it in texts)
        width = max([_LEAST_WIDTH, *(it + _MARGIN for it in ends)])
        self._set_size(width, _number(self._root, "height"))

    def add_words(self, title: str, foot: Sequence[str]) -> None:
        """Gives the picture a title, and lines at its foot."""
        width, height = _number(self._root, "width"), _number(self._root, "height")
        letters = int((width - 2 * _MARGIN) / _FOOT_LETTER)
        lines = [line for it in foot for line in textwrap.wrap(_clean(it), letters)]
        for count, line in enumerate(lines):
            y = _spelled(height + _FOOT_GAP + _FOOT_LINE * count)
            place = {"class": "foot", "x": str(_MARGIN), "y": y}
            element = ElementTree.SubElement(self._root, f"{{{_SVG}}}text", place)
            element.text, element.tail = line, "\n"
        self._set_size(width, height + _FOOT_GAP + _FOOT_LINE * len(lines))
        style = self._root.find(f"{{{_SVG}}}style")
        assert style is not None
        style.text = (style.text or "") + _STYLE
        element = ElementTree.Element(_TITLE)
        element.text, element.tail = _clean(title), "\n"
        self._root.insert(0, element)

    def _set_size(self, width: float, height: float) -> None:
        _set(self._root, "width", width)
        _set(self._root, "height", height)
        self._root.set("viewBox", f"0 0 {_spelled(width)} {_spelled(height)}")


def _clear_legend(legend: ElementTree.Element) -> None:
    """Takes out of the legend what only transactions have; what is right of that moves there."""
    kind = None
    for it in list(legend):
        kind = it.get("class", kind)  # a text has the kind of the mark before it
        if kind in _OF_TRANSACTIONS:
            legend.remove(it)
        elif kind == "refused":
            place = "cx" if "cx" in it.attrib else "x"
            _set(it, place, _number(it, place) - _LEGEND_BOXES)


def _number(element: ElementTree.Element, attribute: str) -> float:
    return float(element.attrib[attribute])


def _set(element: ElementTree.Element, attribute: str, number: float) -> None:
    element.set(attribute, _spelled(number))


def _spelled(number: float) -> str:
    return f"{number:g}"


def _clean(text: str) -> str:
    """A text without what XML may not have."""
    return _NOT_IN_XML.sub("\ufffd", text)
