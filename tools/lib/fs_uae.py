"""fs-uae without a screen: a machine that runs an image of ours, or boots a disk, and keys that save its state and its
picture."""
from __future__ import annotations

import os
import shutil
import subprocess
import tempfile
import time
from typing import Callable, Sequence

from frames import NTSC, PAL, System
from script_reader import USUAL_CHIP
from uae_boot import Poke, boot_rom

PROGRAMS = {"fs-uae": "fs-uae", "Xvfb": "xvfb", "xdotool": "xdotool"}
SETTINGS = """[fs-uae]
amiga_model = A500
chip_memory = {chip}
slow_memory = 0
accuracy = 1
ntsc_mode = {ntsc}
kickstart_file = {kickstart}
{disk}
base_dir = {folder}/base
save_states_dir = {folder}/states
state_dir = {folder}/states
screenshots_output_dir = {folder}/pictures
screenshots_output_mask = 7
fullscreen = 0
window_width = 720
window_height = 568
keyboard_key_f11 = action_screenshot
{keys}
{more}
"""
# the ROM that fs-uae brings along, in place of a Kickstart
INTERNAL = "internal"
SLOTS = 9
STATE_END, PNG_END = b"END \0\0\0\x08", b"IEND\xaeB`\x82"
START_SECONDS, SAVE_SECONDS = 60, 30
# after the window is there: the ROM's copying, and the program's own beginning
SETTLE_SECONDS = 2.5


class EmulatorFault(Exception):
    """fs-uae or what it needs is not there, or did not do what was asked."""


def missing_programs() -> list[str]:
    """The Debian packages of programs that are not there."""
    return [package for name, package in PROGRAMS.items() if not shutil.which(name)]


def absent_programs() -> str:
    """What is not installed, in words; empty where all is there."""
    lacking = missing_programs()
    said = f"{', '.join(lacking)} not installed: on Debian, apt-get install --no-install-recommends"
    return f"{said} {' '.join(PROGRAMS.values())}" if lacking else ""


class FsUae:
    """A machine in fs-uae on a display of its own, with an image that a ROM of ours starts, after pokes where there are any,
    or with a disk that a Kickstart boots; used in a `with`. `more` are further lines of its settings.
    """

    def __init__(
        self, image: bytes | None = None, disk: str | None = None, kickstart: str = INTERNAL, system: System = PAL,
        chip: int = USUAL_CHIP, pokes: Sequence[Poke] = (), more: str = "",
    ) -> None:
        if absent_programs():
            raise EmulatorFault(absent_programs())
        self.folder = tempfile.mkdtemp(prefix="from-uae-")
        self.started: list[subprocess.Popen[bytes]] = []
        if image is not None:
            kickstart = os.path.join(self.folder, "boot.rom")
            with open(kickstart, "wb") as file:
                file.write(boot_rom(image, chip, pokes))
        for name in ("states", "pictures"):
            os.mkdir(os.path.join(self.folder, name))
        keys = "\n".join(f"keyboard_key_f{slot} = action_save_state_{slot}" for slot in range(1, SLOTS + 1))
        drive = f"floppy_drive_0 = {disk}" if disk else ""
        self.settings = os.path.join(self.folder, "machine.fs-uae")
        with open(self.settings, "w", encoding="utf-8", errors="surrogateescape") as file:
            told = {"kickstart": kickstart, "disk": drive, "ntsc": int(system == NTSC), "chip": chip // 1024, "more": more}
            file.write(SETTINGS.format(folder=self.folder, keys=keys, **told))

    def __enter__(self) -> FsUae:
        try:
            self.start()
        except BaseException:
            self.stop()
            raise
        return self

    def __exit__(self, *unused: object) -> None:
        self.stop()

    def start(self) -> None:
        """Starts a display and the emulator, and waits until its program runs."""
        to_read, to_write = os.pipe()
        words = ["Xvfb", "-displayfd", str(to_write), "-screen", "0", "1024x768x24", "-nolisten", "tcp"]
        quiet = subprocess.DEVNULL
        self.started.append(subprocess.Popen(words, pass_fds=(to_write,), stdout=quiet, stderr=quiet))
        os.close(to_write)
        with os.fdopen(to_read) as pipe:
            display = pipe.readline().strip()
        if not display:
            raise EmulatorFault("Xvfb did not start")
        # whatever it writes goes into the folder, its libraries' own files too
        own = {name: self.folder for name in ("HOME", "TMPDIR", "XDG_RUNTIME_DIR")}
        self.environment = dict(os.environ, DISPLAY=f":{display}", SDL_AUDIODRIVER="dummy", **own)
        words = ["fs-uae", self.settings]
        self.started.append(subprocess.Popen(words, cwd=self.folder, env=self.environment, stdout=quiet, stderr=quiet))
        self.wait_for("its window", START_SECONDS, self.has_window)
        time.sleep(SETTLE_SECONDS)

    def stop(self) -> None:
        """Ends what was started, and removes the folder."""
        for process in reversed(self.started):
            process.terminate()
            try:
                process.wait(5)
            except subprocess.TimeoutExpired:
                process.kill()
                process.wait()
        shutil.rmtree(self.folder, ignore_errors=True)

    def wait_for(self, what: str, seconds: float, holds: Callable[[], bool], step: float = 0.1) -> None:
        """Waits until something holds, and looks each so many seconds."""
        end = time.monotonic() + seconds
        while not holds():
            if self.started[-1].poll() is not None:
                raise EmulatorFault("fs-uae ended")
            if time.monotonic() > end:
                raise EmulatorFault(f"fs-uae: {what} did not come in {seconds} seconds")
            time.sleep(step)

    def has_window(self) -> bool:
        words = ["xdotool", "search", "--name", "FS-UAE"]
        return subprocess.run(words, env=self.environment, capture_output=True).returncode == 0

    def press(self, key: str) -> None:
        subprocess.run(["xdotool", "key", key], env=self.environment, check=True)

    def picture(self) -> str:
        """Saves the picture that is shown, which was drawn last; gives the place of the PNG file, whose pixels are the
        machine's, two rows a line.
        """
        folder = os.path.join(self.folder, "pictures")
        before = set(os.listdir(folder))

        def made() -> list[str]:
            names = [name for name in os.listdir(folder) if name not in before and "-full-" in name]
            return [name for name in names if ends_with(os.path.join(folder, name), PNG_END)]

        self.press("F11")
        self.wait_for("a picture", SAVE_SECONDS, made)
        return os.path.join(folder, made()[0])

    def save(self, slot: int) -> bytes:
        """Saves the state at the begin of the next field; gives the save state's bytes."""
        place = self.state_place(slot)
        self.press(f"F{slot}")
        self.wait_for(f"save state {slot}", SAVE_SECONDS, lambda: is_whole(place), 0.01)
        with open(place, "rb") as file:
            return file.read()

    def state_place(self, slot: int) -> str:
        """Where the state of a slot is saved."""
        return os.path.join(self.folder, "states", f"Saved State {slot}.uss")

    @property
    def process(self) -> int:
        """The number of the emulator's process."""
        return self.started[-1].pid


def is_whole(place: str) -> bool:
    """Whether a save state stands there to its end."""
    return os.path.exists(place) and ends_with(place, STATE_END)


def ends_with(place: str, end: bytes) -> bool:
    with open(place, "rb") as file:
        return file.read().endswith(end)
