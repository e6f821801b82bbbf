"""Checks the pages that puffin-look writes: their data against another reading of the same file, and in headless Chromium what
they draw of it.

The rectangles of each frame's scopes are read from the page. There has to be one for each scope of the reading, where its times
say, but for those that are narrower than half a pixel beside another. The bars, the table and the keys are tried too. A page asks
the network for nothing, and names that end elements do nothing. Without Chromium these checks are left out.
"""

import html.parser
import json
import pathlib
import random
import struct
import subprocess
import tempfile
import zlib

from . import browser, forms, tops, traces

ROW, SLACK = 20, 0.01
EVIL = [
    "</script><script>window.hit = 1</script>", "<!--<script>", "</SCRIPT >", "<img src=x onerror=window.hit=1>", "\u2028\u2029",
    '"\\\0\x1b', "]]>&lt;&", "\u202eabc",
]


class Elements(html.parser.HTMLParser):
    """The data in a page's elements, by their class."""

    def __init__(self):
        super().__init__()
        self.found, self.inside = {"details": [], "frame": []}, None

    def handle_starttag(self, tag, attributes):
        words = dict(attributes)
        self.inside = words.get("class") if tag == "script" and words.get("type") == "application/json" else None

    def handle_data(self, data):
        if self.inside:
            self.found[self.inside].append(data)
        self.inside = None


def data_of(page):
    """The details in a page under their ids, and its frames. No element of data has a `<`."""
    reader = Elements()
    reader.feed(page.read_bytes().decode())
    if any("<" in it for them in reader.found.values() for it in them):
        raise ValueError("a `<` in the data")
    details = [json.loads(it) for it in reader.found["details"]]
    return {it[0]: tuple(it[1:]) for it in details}, [json.loads(it) for it in reader.found["frame"]]


def write(program, data, place, *more):
    """Has the program write the page of a file with these bytes."""
    file, page = pathlib.Path(place, "file"), pathlib.Path(place, "page.html")
    file.write_bytes(data)
    done = subprocess.run([program, "view", file, page, *more], capture_output=True, timeout=120)
    if done.returncode or done.stderr or done.stdout:
        raise OSError(f"status {done.returncode}, {done.stdout!r}, {done.stderr!r}")
    return page


def rows(scopes, begin, depth=0):
    """A frame's scopes in the order of a page: depth, name, file and line, start in the frame, duration, text."""
    for name, start, stop, text, within in scopes:
        yield depth, tuple(name), start - begin, stop - start, text
        yield from rows(within, begin, depth + 1)


def wanted(frame):
    return [frame.index, str(frame.start), str(frame.stop), [(it.name, list(rows(it.scopes, frame.start))) for it in frame.threads]]


def found_in(details, frame):
    """A frame of a page in the form of a reading."""
    index, start, stop, *threads = frame
    named = lambda it: details.get(it, (f"#{it}", None, None))
    return [index, start, stop, [(f"{begin}:{name}", [(it[0], named(it[1]), *it[2:]) for it in them]) for begin, name, *them in threads]]


def faults_in_data(program, source):
    """What differs between a page's data and the reading: of all frames, and of those with some indices."""
    with tempfile.TemporaryDirectory() as place:
        details, frames = data_of(write(program, source.data, place))
        found = [found_in(details, it) for it in frames]
        last = source.frames[-1].index
        some = [it[0] for it in data_of(write(program, source.data, place, "--frames", f"{last}..{last + 1}"))[1]]
    faults = [f"{a} instead of {b}" for a, b in zip(found, map(wanted, source.frames)) if a != b]
    same = len(found) == len(source.frames) and some == [it.index for it in source.frames if it.index == last]
    return faults[:3] or ([] if same else ["other frames"])


def faults_in_cut(program, source):
    """What is wrong with the page of a file whose last frame is cut off: it has the frames before, and its end."""
    with tempfile.TemporaryDirectory() as place:
        file, page = pathlib.Path(place, "file"), pathlib.Path(place, "page.html")
        file.write_bytes(source.data[:-1])
        done = subprocess.run([program, "view", file, page], capture_output=True, text=True, timeout=120)
        found, ends = [it[0] for it in data_of(page)[1]], page.read_text().endswith("</script>\n")
    wanted = [it.index for it in source.frames[:-1]]
    said = done.returncode == 1 and done.stderr.startswith(f"puffin-look: {file}: ")
    return [] if found == wanted and ends and said else [f"{done}, with the frames {found}, instead of {wanted}"]


def faults_in_pipe(program, _source):
    """What is wrong with a page that goes to a pipe, of which nothing may be read to see what it is."""
    with tempfile.TemporaryDirectory() as place:
        page = write(program, traces.file_of(["a"], [b""]), place)
        words = [program, "view", page.with_name("file"), "/dev/stdout"]
        done = subprocess.run(words, capture_output=True, timeout=20)
        return [] if (done.returncode, done.stdout) == (0, page.read_bytes()) else [str(done)[:300]]


# ---- which frames

def file_with(durations, size):
    """A file of frames with these durations, whose streams have about so many bytes."""
    packets = b""
    for index, duration in enumerate(durations):
        scope = lambda text: b"(" + struct.pack("<Iq", 1, 0) + bytes([len(text)]) + text + bytes(8) + b")" + struct.pack("<q", duration)
        stream = scope(b"x" * 200) * (size // 231) + scope(b"")
        count, stop = traces.number(size // 231 + 1), traces.number(2 * duration)
        meta = traces.part(traces.number(index) + b"\0" + stop + traces.number(len(stream)) + count)
        streams = traces.part(b"\1" + b"\0" + traces.block(b"main") + traces.block(stream) + count + b"\1" + b"\0" + stop, b"\0")
        packets += b"PFD4" + meta + streams + traces.part(b"\0")
    return b"PUF0" + packets


def faults_in_choice(program, _source):
    """Which frames a page should have and doesn't: the 256 slowest and the last 1000, as far as 16 MiB go. In the first file a
    length lies on both sides of what is read ahead, with one byte behind."""
    durations = [1 + 7919 * it % 2003 for it in range(1500)]
    slow = sorted(range(1500), key=lambda it: -durations[it])[:256]
    faults = []
    for size, most in ((0, 1500), (23_000, 700)):
        data = file_with(durations, size)
        each = size // 231 * 231 + 31
        kept = list(dict.fromkeys([*slow, *range(1499, 499, -1)]))[: 16_777_216 // each]
        with tempfile.TemporaryDirectory() as place:
            found = [it[0] for it in data_of(write(program, data, place))[1]]
        faults += [] if found == sorted(kept) and len(found) <= most + 256 else [f"{len(found)} frames instead of {len(kept)}"]
    return faults


# ---- in a browser

RECTANGLES = """[...document.querySelectorAll("#threads svg")].map((it) => [it.previousSibling.textContent,
    [...it.querySelectorAll("rect")].map((r) => [Number(r.dataset.scope), r.x, r.y, r.width].map((n) => n.baseVal?.value ?? n))])"""
WIDTH = """document.getElementById("ruler").getBoundingClientRect().width"""
BARS = """[...document.querySelectorAll("#bars rect")].map((r) => [r.height.baseVal.value, r.getAttribute("class") === "chosen"])"""
TABLE = """[...document.querySelectorAll("tbody tr")].map((r) => [...r.children].map((it) => it.textContent))"""
FOCUS = """document.getElementById("{}").focus()"""


def close(a, b):
    return abs(a - b) <= SLACK + abs(b) * 1e-4


def faults_in_rectangles(frame, width, threads):
    """Which scopes of a frame aren't drawn where their times say."""
    scopes = [list(rows(it.scopes, frame.start)) for it in frame.threads]
    begin = min(0, *(it[2] for them in scopes for it in them), 0)
    end = max(frame.stop - frame.start, begin + 1, *(it[2] + it[3] for them in scopes for it in them), 0)
    scale, faults = width / (end - begin), []
    for it, them, (name, drawn) in zip(frame.threads, scopes, threads):
        places, ends = {int(r[0]): r[1:] for r in drawn}, {}
        for place, (depth, _, start, duration, _) in enumerate(them):
            left, right = (start - begin) * scale, (start + duration - begin) * scale
            if place in places:
                x, y, wide = places.pop(place)
                if not (close(x, left) and y == depth * ROW and close(wide, max(0.5, right - left))):
                    faults.append(f"scope {place} of {name} at {x}, {y}, {wide} instead of {left}, {depth * ROW}, {right - left}")
                ends[depth] = right
            elif right >= ends.get(depth, -1) + 0.5 + SLACK:
                faults.append(f"scope {place} of {name} isn't drawn")
        faults += [f"{len(places)} rectangles too many of {name}"] if places or name != it.name else []
    return faults + ([] if len(threads) == len(frame.threads) else [f"{len(threads)} threads"])


def faults_in_bars(frames, at, bars):
    most = max(it.stop - it.start for it in frames)
    heights = [max(1, (it.stop - it.start) / most * 102) for it in frames]
    same = len(bars) == len(frames) and all(map(close, (it[0] for it in bars), heights))
    return [] if same and [it[1] for it in bars] == [it == at for it in range(len(frames))] else [f"bars {bars} at {at}"]


def shown(time):
    """A duration as a page has it, which says `µs` and no zeros at the end."""
    number, unit = forms.readable(time).split()
    number = number.rstrip("0").rstrip(".") if "." in number else number
    return f"{number} {unit.replace('us', 'µs')}"


def line_of(name, times, nested, whole):
    """A line of the table."""
    own = max(0, sum(times) - sum(nested))
    times = [sum(times), own, min(times), *(tops.ranked(times, it) for it in (50, 95, 99)), max(times)], len(times)
    return [name, f"{times[1]:,}", *map(shown, times[0]), f"{own / whole * 100:.1f} %" if whole else "–"]


def faults_in_table(frames, lines):
    whole = sum(it.stop - it.start for it in frames)
    rows_of = tops.rows_of(frames, None, False)
    want = sorted(line_of(name, *times, whole) for name, times in rows_of.items())
    return [] if sorted(lines) == want else [f"the table {sorted(lines)} instead of {want}"]


def faults_in_picture(picture):
    """A picture has to show something: its lines of pixels differ."""
    size, at, packed = struct.unpack(">II", picture[16:24]), 8, b""
    while at < len(picture):
        (length,) = struct.unpack(">I", picture[at : at + 4])
        packed += picture[at + 8 : at + 8 + length] if picture[at + 4 : at + 8] == b"IDAT" else b""
        at += length + 12
    lines = zlib.decompress(packed)
    step = len(lines) // size[1]
    return [] if len({lines[it * step : (it + 1) * step] for it in range(size[1])}) > 20 else ["an empty picture"]


def faults_by_keys(page, frames):
    """What the keys do otherwise than they should: bars, zoom, and the way through the scopes."""
    faults = []
    page.ask(FOCUS.format("bars"))
    for key, at in (("Home", 0), ("ArrowRight", min(1, len(frames) - 1)), ("End", len(frames) - 1), ("ArrowLeft", max(0, len(frames) - 2))):
        page.press(key)
        faults += faults_in_bars(frames, at, page.ask(BARS))
        faults += faults_in_rectangles(frames[at], page.ask(WIDTH), page.ask(RECTANGLES))
    page.press("Home")
    before = page.ask(RECTANGLES)
    page.ask(FOCUS.format("flame"))
    page.press("ArrowDown")
    first = next(rows(frames[0].threads[0].scopes, 0))
    said = page.ask("document.getElementById('info').textContent")
    faults += [] if first[1][0] in said and shown(first[3]) in said and first[4] in said else [f"it says {said!r} of {first}"]
    page.press("+")
    closer = page.ask(RECTANGLES)
    page.press("Escape")
    return faults + ([] if closer != before and page.ask(RECTANGLES) == before else ["a zoom that does nothing"])


def faults_in_page(program, source):
    """What a page draws otherwise than the reading has it, in a wide window and in a narrow one."""
    frames, faults = source.frames, []
    with tempfile.TemporaryDirectory() as place, browser.Browser() as page:
        path = write(program, source.data, place)
        for width, scheme in ((1200, "light"), (390, "dark")):
            page.open(path, width, scheme=scheme)
            slowest = max(range(len(frames)), key=lambda it: (frames[it].stop - frames[it].start, -it))
            faults += faults_in_bars(frames, slowest, page.ask(BARS))
            faults += faults_in_rectangles(frames[slowest], page.ask(WIDTH), page.ask(RECTANGLES))
            faults += faults_in_table(frames, page.ask(TABLE)) + faults_by_keys(page, frames)
            faults += faults_in_picture(page.picture())
            faults += [] if page.ask("document.documentElement.scrollWidth") <= width else [f"wider than {width}"]
        page.ask("(() => { const it = document.getElementById('extent'); it.value = 'one'; it.onchange(); })()")
        at = [is_chosen for _, is_chosen in page.ask(BARS)].index(True)
        faults += faults_in_table([frames[at]], page.ask(TABLE))
        faults += page.faults + [f"it asks for {it}" for it in page.asked if it != path.as_uri()]
    return faults


def faults_in_evil(program, _source):
    """What names do that would end an element, and how they are shown."""
    data, faults = traces.file_of(EVIL, [it.encode() for it in EVIL]), []
    with tempfile.TemporaryDirectory() as place, browser.Browser() as page:
        path = write(program, data, place)
        page.open(path)
        lines = sorted(it[0] for it in page.ask(TABLE))
        faults += [] if lines == sorted(EVIL) else [f"names {lines}"]
        faults += [] if page.ask("window.hit === undefined && !document.querySelector('img, b script')") else ["a name was run"]
        faults += page.faults + [f"it asks for {it}" for it in page.asked if it != path.as_uri()]
    return faults


def faults_in_names(program, _source):
    """What differs between random names and texts and what a page's data have."""
    names, chance = traces.random_names(), random.Random(63)
    texts = [bytes(chance.randrange(256) for _ in range(chance.randrange(20))) for _ in names]
    with tempfile.TemporaryDirectory() as place:
        details, frames = data_of(write(program, traces.file_of(names, texts), place))
    found = [(details[it[1]][0], it[4]) for it in frames[0][3][2:]]
    pairs = [(name, traces.prefix(text)) for name, text in zip(names, texts)]
    return [f"{a} instead of {b}" for a, b in zip(found, pairs) if a != b][:3] or ([] if len(found) == len(pairs) else ["too few"])


def in_browser(check):
    """A check that is left out without a browser."""
    def left_out(_program, _source):
        print("page checks: left out, since there is no chromium")
        return []

    return check if browser.PROGRAM else left_out


CHECKS = {"page_data": faults_in_data, "page_cut": faults_in_cut, "page": in_browser(faults_in_page)}
CHECKS_OF_NAMES = {
    "page_names": faults_in_names,
    "page_frames": faults_in_choice,
    "page_pipe": faults_in_pipe,
    "page_elements": in_browser(faults_in_evil),
}
