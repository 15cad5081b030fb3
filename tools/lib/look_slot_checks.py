"""Checks of tools/test-look on pages with a log of slots: on one that is made by hand, and on logs of examples."""
from __future__ import annotations

import os
import subprocess
from typing import Any

from example import MADE, words_of
from faults import plural
from frames import PAL, PIXELS_A_CLOCK, ROW_BYTES
from program import TOP, program
from slots import OWNER_OF, OWNERS, SlotLog

RED = b"\xff\0\0"
TABS = ("trace", "why", "slots", "blits", "copper", "functions")
COLOURS = {"free": "#1d2027", "refresh": "#7c8696", "bitplanes": "#3f82f0", "Copper": "#ff9d4d", "blitter": "#ee5555", "processor": "#3ddbd9"}
# what is said of the clocks of the run that is made by hand, by line and clock
SAID = {
    (100, 60): "Copper reads 0180 at 00100", (100, 62): "Copper reads 0f00 at 00102", (100, 1): "refresh", (100, 0): "free",
    (101, 10): "blitter reads 0180 at 00100", (101, 12): "blitter writes 1234 at 00200", (101, 14): "processor writes DMACON 8200",
    (101, 16): "bitplane 1 reads 1234 at 00200", (101, 20): "processor reads 0000 at 00300 in main",
}
# frame, line and position of the pixel of the example sprites that README shows
PICTURED = 9, 176, 524
WIDE, NARROW = (1280, 800), (390, 844)
# the pixels of some frames of a page that its scripts make of slots and trace: how many, how many differ from the frame, and the first that does
PIXELS = """(async () => {
    const { system, slotView: view } = look, later = () => new Promise((done) => setTimeout(done, 5));
    let all = 0, wrong = 0, first = '';
    for (const index of %s) {
        const number = look.data.frames[index].number;
        while (!look.frames.pixels(index) || !view.slots.frame(number)) await later();
        const image = look.frames.pixels(index), slots = view.slots.frame(number);
        for (let row = 0; row < system.height; row++) {
            if (!slots.has(row + system.firstLine, 0)) continue;
            const line = new DeniseLine(look.trace, slots, number, row + system.firstLine);
            for (let column = 0; column < WIDTH; column++, all++) {
                if (line.pixel(column + FIRST_CLOCK * PIXELS_A_CLOCK).colour === colourAt(image, column, row)) continue;
                wrong++;
                first ||= `frame ${number}, line ${row + system.firstLine}, column ${column}`;
            }
        }
    }
    return [all, wrong, first];
})()"""
# how many slots each owner has in the frame that is shown, and the Copper's instructions that wrote a register
COUNTS = "OWNERS.map((_, owner) => look.slotView.current.codes.filter((code) => OWNER_OF[code] === owner).length)"
MOVES = """look.slotView.copper.instructions.filter(({ first, second }) => first % 2 === 0 && second >= 0).map(({ first, second, end }) => {
    const { line, clock } = look.slotView.field.beam(end);
    return [line, clock, first & 0x1fe, second];
})"""
# what a test of blits and functions asks of a page: of each blit its places, counts, registers and addresses; and the rows of the functions
BLITS = """look.slotView.blits.blits.map((blit) => {
    const place = (one) => one && [one.frame, look.slotView.field.beam(one.index).line, look.slotView.field.beam(one.index).clock];
    const counts = [blit.clocks, blit.asks, blit.slots, blit.rests, blit.channels, blit.height, blit.width];
    return [place(blit.start), place(blit.end), ...counts, blit.word(0x40), blit.addresses];
})"""
FUNCTIONS = "look.slotView.profile.rows([0]).map(({ number, clocks, reads }) => [number, clocks, reads])"
ASKS = "[...Array(16).keys()].map((used) => new Blit(null, 0, new Map([[0x40, used << 8]]))).map((blit) => [blit.pattern, blit.asks])"
# how many pixels of a line are made of the held colour, and how many say of a component that another pixel set it than the last that did
HELD = """(() => {
    const shift = { red: 8, green: 4, blue: 0 }, line = new DeniseLine(look.trace, look.slotView.current, look.frame, %d), last = {};
    let made = 0, wrong = 0;
    for (let position = 0; position < PIXELS_A_CLOCK * look.system.clocks; position++) {
        const { field, inside } = line.pixel(position), names = Object.keys(shift);
        if (inside && field.modified) {
            made++;
            for (const name of names.filter((one) => one !== field.modified)) {
                const { from, value } = last[name];
                if (field.beforeFrom[name] !== from || ((field.before >> shift[name]) & 15) !== value) wrong++;
            }
        }
        const colour = inside ? field.colour : line.denise.colour(0);
        for (const name of inside && field.modified ? [field.modified] : names) last[name] = { from: position, value: (colour >> shift[name]) & 15 };
    }
    return [made, wrong];
})()"""
SHOWN = """(({ picture, slotView, frame }) => [frame, picture.cursor?.x, picture.cursor?.line, slotView.tabs.shown, slotView.mode, picture.zoom])(look)"""
# the meanings of the trace's lines that take more than two lines of the list, or have a word that is too wide
CUT = """(() => {
    const cell = document.querySelector('#list .row:not([hidden]) .says'), before = cell.textContent;
    const said = new Set([...trace.word.keys()].map((at) => (trace.kind[at] === READ ? 'read: ' : '') + trace.meaning(at, true)));
    cell.style.maxHeight = 'none';
    const cut = [...said].filter((text) => {
        cell.textContent = text;
        return cell.scrollWidth > cell.clientWidth || cell.clientHeight > 24;
    });
    cell.textContent = before;
    cell.style.maxHeight = '';
    return cut;
})()"""


Lines = dict[int, dict[int, tuple[int, int, int]]]


def write_files(run: str, files: dict[str, bytes]) -> list[str]:
    """Makes the folder of a run with files of these names; gives the words of the tool for its log and its names."""
    os.mkdir(run)
    for name, data in files.items():
        with open(os.path.join(run, name), "wb") as file:
            file.write(data)
    return [word for name in ("slots", "symbols") if name in files for word in ("--" + name, os.path.join(run, name))]


def write_run(run: str, pixels: bytes, trace: str, lines: Lines, names: str) -> list[str]:
    """A run of one frame, its log with these lines and the names of its functions; gives the words of the tool that name the last two."""
    from slot_bytes import field, heading

    files = {MADE[0]: PAL.heading + pixels, MADE[1]: trace.encode("ascii")}
    return write_files(run, files | {"slots": heading() + field(lines), "symbols": names.encode("ascii")})


def write_later_run(run: str) -> list[str]:
    """A run of three frames whose log begins with the second: before that the DMA of planes and sprites was on."""
    from slot_bytes import field, heading

    trace = b"0 0 0 W 096 8120 S\n0 0 0 W 140 1234 S\n0 9 0 W 096 8200 S\n0 10 0 W 096 0020 S\n1 40 7 W 112 0001 C\n"
    fetches = {7: (33, 0x200, 0x8001), 40: (47, 0x600, 1), 42: (55, 0x602, 2), 44: (63, 0x604, 3), 46: (71, 0x606, 4)}
    files = {MADE[0]: 3 * (PAL.heading + bytes(PAL.pixel_bytes)), MADE[1]: trace}
    return write_files(run, files | {"slots": heading(1, 3) + field({30: fetches}) + field({})})


def write_small_run(run: str) -> list[str]:
    """A run that is black up to a clock of line 100 and red from there on."""
    row, column = 100 - PAL.first_line, 4 * 63 - 188
    black = row * ROW_BYTES + 3 * column
    pixels = bytes(black) + RED * ((PAL.pixel_bytes - black) // 3)
    trace = "0 100 62 W 180 0f00 C\n0 101 5 W 040 09f0 S\n0 101 9 W 058 0041 S\n0 101 14 W 096 8200 M\n"
    first = {60: (3, 0x100, 0x0180), 62: (3, 0x102, 0x0F00)}
    second = {10: (4, 0x100, 0x0180), 12: (5, 0x200, 0x1234), 14: (11, 0x96, 0x8200), 16: (33, 0x200, 0x1234), 20: (6, 0x300, 0)}
    return write_run(run, pixels, trace, {100: first, 101: second}, "00000300 T main\n")


def write_blits_run(run: str) -> list[str]:
    """A run with a blit that began before it; with one of two words from A to D, during which writes change nothing, and one that is not over
    when the next line comes; with a line of two points; and with three functions.
    """
    area = {10: (4, 0x100, 0), 12: (5, 0x200, 1), 13: (4, 0x102, 0), 14: (5, 0x202, 2), 20: (2, 0, 0), 21: (2, 0, 0)}
    points = {20: (2, 0, 0), 21: (4, 0x100, 0), 22: (2, 0, 0), 23: (5, 0x100, 7), 30: (2, 0, 0), 31: (4, 0x102, 0), 32: (2, 0, 0), 33: (5, 0x102, 8)}
    reads = {10: (6, 0x100, 0), 20: (6, 0x200, 0), 30: (6, 0x180, 0), 100: (6, 0x300, 0)}
    texts = ["0 1 9 W 040 09f0 S", "0 1 10 W 058 0042 S", "0 1 11 W 040 0fff C", "0 1 14 W 058 0041 S", "0 1 16 W 040 0100 C", "0 1 18 W 058 0041 C"]
    texts += ["0 2 1 W 040 0b4a C", "0 2 3 W 042 0001 C", "0 2 15 W 058 0082 C"]
    names = "100 T first\n140 a number\n180 t second\n200 D table\n300 T third\n"
    lines = {0: {4: (4, 6, 0), 9: (2, 0, 0)}, 1: area, 2: points, 3: reads}
    return write_run(run, bytes(PAL.pixel_bytes), "".join(text + "\n" for text in texts), lines, names)


def check_blits(page: Any) -> None:
    """What the page makes of slots and trace of blits and functions."""
    browser, checks = page.browser, page.checks
    checks.equal("nothing is made before it is asked for", browser.value("look.slotView.blits.blits"), None)
    page.key("4")
    browser.wait_for("look.slotView.profile")
    before = [[0, 0, 4], [0, 0, 9], 6, 0, 2, 1, "", 1024, 64, 0, {}]
    first = [[0, 1, 10], [0, 1, 14], 5, 4, 4, 0, "AD", 1, 2, 0x09F0, {"A": [0x100, 0x102], "D": [0x200, 0x202]}]
    second = [[0, 1, 18], [0, 1, 21], 4, 2, 2, 2, "D", 1, 1, 0x0100, {}]
    points = [[0, 2, 15], [0, 2, 33], 19, 8, 8, 4, "ACD", 2, 2, 0x0B4A, {"C": [0x100, 0x102], "D": [0x100, 0x102]}]
    checks.equal("blits", browser.value(BLITS), [before, first, second, points])
    checks.equal("functions", browser.value(FUNCTIONS), [[2, 71051 - 3 * 227 - 100, 1], [-1, 3 * 227 + 10, 0], [1, 70, 1], [0, 20, 1]])
    wanted = ["--", "-D", "-C", "-CD", "-B-", "-BD", "-BC", "-BCD", "A-", "AD", "AC", "ACD", "AB-", "ABD", "ABC", "ABCD"]
    checks.equal("asks", browser.value(ASKS), [[pattern, 1024 * 64 * len(pattern)] for pattern in wanted])


def check_later(page: Any) -> None:
    """Of a log that begins later it is not known what planes and sprites had fetched before, until they are written anew."""
    script = """(async (found) => {
        for (const frame of [1, 2]) {
            const denise = new Denise(look.trace, await look.slotView.slots.read(frame), frame), word = (at) => denise.word(at);
            found.push([denise.unknown.size, denise.armedUnknown, denise.armed, word(0x110), word(0x112), word(0x140), word(0x17c)]);
        }
        return found;
    })([])"""
    wanted = [[38, 255, 0, 0, 0, 0x1234, 0], [38 - 6, 0x7F, 0x80, 0x8001, 1, 0x1234, 3]]
    page.checks.equal("what is not known of a later log", page.browser.value(script), wanted)


def check_clicks(page: Any) -> None:
    """A click on a pixel shows why it is so, but where the list of the Copper or of blits is shown."""
    place = page.place(600, 200)
    for tab, shown in (("trace", "why"), ("slots", "why"), ("copper", "copper"), ("blits", "blits")):
        page.browser.value(f"look.slotView.tabs.show('{tab}')")
        page.browser.click(*place)
        page.checks.equal(f"the panel after a click where {tab} was", page.browser.value("look.slotView.tabs.shown"), shown)
    page.key("Escape")
    page.key("1")


def check_reload(page: Any, frame: int) -> None:
    """Frame, place, tab, map and zoom are there again after a page is loaded anew."""
    browser = page.browser
    browser.value(f"look.goToPlace({frame}, 150, 413); look.slotView.tabs.show('slots'); look.slotView.setMode('over'); look.picture.zoomTo(2)")
    browser.value("new Promise((done) => setTimeout(done, 3 * ADDRESS_DELAY))")
    browser.value("window.before = true; location.reload()")
    browser.wait_for("window.before !== true && document.readyState === 'complete' && look.picture.image !== null && look.picture.cursor !== null")
    browser.settle()
    page.checks.equal(f"{page.frames}: shown after a reload", browser.value(SHOWN), [frame, 413, 150, "slots", "over", 2])
    browser.value("look.slotView.setMode('off'); look.picture.fit()")
    page.key("1")


def check_held(page: Any, line: int) -> None:
    """Of a pixel of hold and modify the pixels that set what stays, and the way to them."""
    browser, checks = page.browser, page.checks
    made, wrong = browser.value(HELD % line)
    checks.holds(f"{wrong} of {made} pixels of line {line} name another pixel", made > 100 and wrong == 0)
    page.key("2")
    for x in range(400, 440, 4):
        browser.value(f"look.goToPlace(0, {line}, {x})")
        browser.settle()
        links = browser.value("[...document.querySelectorAll('#why .answer .link')].map((link) => link.textContent)")
        if not links or not links[0].startswith("x "):
            continue
        browser.value("document.querySelector('#why .answer .link').click()")
        found = browser.value("[look.frame, look.picture.cursor.line, look.picture.cursor.x >> 1]")
        checks.equal(f"where the link of x {x} leads", found, [0, line, int(links[0][2:])])
        page.key("1")
        return
    checks.holds(f"a pixel of line {line} that leads to another", False)


def check_meanings(page: Any, name: str) -> None:
    """Each meaning of a trace line is whole in the list, at the narrower of two sizes of the window."""
    page.browser.resize(*WIDE)
    page.browser.settle()
    page.checks.equal(f"meanings of {name} that are cut", page.browser.value(CUT), [])


def rgb(colour: str) -> list[int]:
    return [int(colour[at : at + 2], 16) for at in (1, 3, 5)]


def go_to(page: Any, line: int, clock: int) -> None:
    page.browser.value(f"look.goToPlace(look.frame, {line}, {PIXELS_A_CLOCK * clock})")
    page.browser.settle()


def check_slot_texts(page: Any) -> None:
    """What is said of clocks, and why pixels are as they are."""
    for (line, clock), said in SAID.items():
        go_to(page, line, clock)
        page.checks.equal(f"slot of line {line}, clock {clock}", page.text("slot").strip(), said)
    page.key("2")
    for clock, said in ((62, "000: COLOR00, which was never written."), (63, "f00: COLOR00, written by the Copper at line 100, clock 62.")):
        go_to(page, 100, clock)
        page.checks.holds(f"why at clock {clock}", said in page.text("why"))


def check_map(page: Any) -> None:
    """The colours of the map beside the picture, and the way from one to the other."""
    browser, checks = page.browser, page.checks
    for mode in ("over", "beside"):
        page.key("s")
        checks.equal("mode of the map", browser.value("look.slotView.mode"), mode)
    browser.value("look.slotView.beside.cursor = look.picture.cursor = null; look.picture.zoomTo(3)")
    browser.settle()
    checks.equal("zooms", browser.value("[look.picture.zoom, look.slotView.beside.zoom]"), [3, 3])
    for (line, clock), said in SAID.items():
        owner = said.split()[0].replace("bitplane", "bitplanes")
        browser.value(f"look.slotView.beside.reveal({PIXELS_A_CLOCK * clock}, {line})")
        browser.settle()
        place = f"look.slotView.beside.toCanvas({PIXELS_A_CLOCK * clock + 2}, {line})"
        found = browser.value(f"(([x, y]) => [...byId('map').getContext('2d').getImageData(x, y + 3, 1, 1).data])({place})")
        checks.equal(f"colour of the map at {line}, {clock}", found[:3], rgb(COLOURS[owner]))
    page.key("0")
    page.key("s")
    checks.equal("mode of the map", browser.value("look.slotView.mode"), "off")


def check_panels(page: Any) -> None:
    """The panels by their keys, and what they have of the run that is made by hand."""
    browser, checks = page.browser, page.checks
    cells = "[...document.querySelectorAll('{}')].map((cell) => cell.textContent)"
    page.key("3")
    shares = browser.value(cells.format("#shares td:nth-child(2)"))
    checks.equal("shares", shares, ["69,792", "1,252", "0", "0", "1", "0", "2", "2", "2", "71,051"])
    page.key("4")
    browser.wait_for("look.slotView.profile")
    browser.settle()
    checks.equal("blits", browser.value(cells.format("#blit-list .row:not([hidden]) span"))[:4], ["101, 9", "AD", "1 x 1", "4"])
    browser.value("byId('blit-list').focus()")
    page.key("ArrowDown")
    checks.holds("a blit that is chosen", "1 word by 1 row, channels AD: LF f0, ASH 0" in page.text("blit-detail"))
    checks.holds("who started it", "Started by the script at line 101, clock 9." in page.text("blit-detail"))
    checks.equal("bars of the frame", browser.value("byId('blit-strip').children.length"), 1)
    checks.equal("its clocks", browser.value("look.slotView.map.marked"), [101 * 227 + 9, 101 * 227 + 13])
    page.key("Escape")
    checks.equal("no blit after Escape", browser.value("look.slotView.map.marked"), [0, 0])
    page.key("5")
    checks.equal("Copper", browser.value(cells.format("#copper-list .row:not([hidden]) > span")), ["100", "62", "00100", "MOVE", "COLOR00 0f00"])
    page.key("6")
    functions = browser.value(cells.format("#functions tr > *"))
    counts = ["48,104", "1", "67.7 %", ""], ["22,947", "0", "32.3 %", ""]
    checks.equal("functions", functions, [" main", *counts[0], " (before its first read)", *counts[1]])
    page.key("1")
    seen = [name for name in TABS if page.is_seen(name + "-panel")]
    checks.equal("the panel that is seen", seen, ["trace"])


def check_narrow_slots(page: Any, place: str, too_wide: str) -> None:
    """Nothing has to be slid sideways in any panel or mode, at two sizes of the window."""
    for size in (WIDE, NARROW):
        page.browser.resize(*size)
        page.browser.open("file://" + place)
        page.browser.wait_for("look.picture.image !== null")
        for mode in ("off", "over", "beside"):
            for tab in TABS:
                page.browser.value(f"look.slotView.setMode('{mode}'); look.slotView.tabs.show('{tab}')")
                go_to(page, 100, 100)
                page.checks.equal(f"too wide at {size}, {mode}, {tab}", page.browser.value(too_wide), [])


def check_example(page: Any, log: str) -> None:
    """A page of an example: all pixels of two frames, the shares of each owner, and the Copper's writes, against frames, log and trace."""
    browser, checks = page.browser, page.checks
    last = browser.value("look.data.frames.length") - 1
    all_pixels, wrong, first = browser.value(PIXELS % [0, last])
    checks.holds(f"{page.frames}: {wrong} of {all_pixels} pixels differ, the first at {first}", all_pixels > 0 and wrong == 0)
    counts = [0] * len(OWNERS)
    for slot in next(SlotLog(log).frames()):
        counts[OWNER_OF[slot.code]] += 1
    browser.value("look.goToFrame(0)")
    browser.wait_for("look.slotView.current !== null")
    checks.equal(f"{page.frames}: clocks by owner", browser.value(COUNTS), counts)
    checks.equal(f"{page.frames}: shares", browser.value("look.slotView.slots.shares(0)"), counts)
    page.key("5")
    traced = [line.text.split() for line in page.lines if line.beam[0] == 0 and line.written is not None and line.text.endswith("C")]
    wanted = [[int(words[1]), int(words[2]), int(words[4], 16), int(words[5], 16)] for words in traced]
    checks.equal(f"{page.frames}: MOVEs of the Copper", browser.value(MOVES), wanted)
    page.key("1")
    check_meanings(page, page.frames)


def take_picture(page: Any, place: str) -> None:
    """The screenshot that README shows: why a pixel of a sprite is as it is, with the map over the picture."""
    browser, (frame, line, x) = page.browser, PICTURED
    browser.value(f"look.goToFrame({frame}); look.slotView.setMode('over')")
    browser.wait_for("look.picture.image !== null && look.slotView.current !== null")
    browser.value(f"look.clickAt({{ x: {x}, line: {line} }}, -1); look.slotView.tabs.show('why'); document.activeElement.blur()")
    browser.settle()
    browser.screenshot(place)


def run_with_log(name: str, folder: str, slots_writer: str, frames: int, script: str | None = None) -> tuple[str, str]:
    """Runs an example, without sound and disk, by its own script or another one; gives the folder of its files and the place of its log."""
    example, run = os.path.join(TOP, "examples", name), os.path.join(folder, "logs", name)
    os.makedirs(run)
    words = words_of(example, run, script)
    subprocess.run([program(), "run", *words[1:6], *words[-2:]], check=True, stdout=subprocess.DEVNULL)
    log = os.path.join(run, "slots")
    subprocess.run([slots_writer, *words[1:3], "0", str(frames), log], check=True, stdout=subprocess.DEVNULL)
    return run, log


def longer_script(name: str, frames: int, folder: str) -> str:
    """The script of an example with another number of frames."""
    with open(os.path.join(TOP, "examples", name, "script"), encoding="ascii") as file:
        lines = file.read().splitlines()
    lines[2] = f"frames {frames}"
    place = os.path.join(folder, f"{name}-{frames}")
    with open(place, "w", encoding="ascii") as file:
        file.write("\n".join(lines) + "\n")
    return place


def say_opened(page: Any, place: str, frames: int) -> None:
    """Says how long a page of many frames took to open."""
    size = os.path.getsize(place)
    print(f"{plural(frames, 'frame')} with slots: page of {size:,} bytes, opened in {page.seconds:.2f} s")

