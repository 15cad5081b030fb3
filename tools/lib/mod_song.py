"""What a module sounds, tick by tick: the rules of its effects, as tools/lib/mod_player.s has them for the 68000."""
from __future__ import annotations

from collections.abc import Iterator
from dataclasses import dataclass, field
from typing import NamedTuple

from mod_file import FULL_VOLUME, NOTES, PERIODS, ROWS, VOICES, Cell, Module

LEAST_PERIOD, GREATEST_PERIOD = 113, 856
FIRST_SPEED, FIRST_TEMPO, LEAST_TEMPO = 6, 125, 32
# half a wave of 64 places
SINE = (0, 24, 49, 74, 97, 120, 141, 161, 180, 197, 212, 224, 235, 244, 250, 253, 255, 253, 250, 244, 235, 224, 212, 197, 180, 161, 141, 120, 97, 74, 49, 24)
HALF = len(SINE)


class Begin(NamedTuple):
    """A sample that begins: its number, the first of its words that sounds, and how many do before its loop."""

    sample: int
    first: int
    words: int


class Sounding(NamedTuple):
    """What a voice has in a tick: period, volume, the sample that begins if one does, and the one whose loop comes after."""

    period: int
    volume: int
    begin: Begin | None
    sample: int


class Tick(NamedTuple):
    """A tick of the song: the position, the row, the tick of the row, the tempo of the timer, and the voices."""

    position: int
    row: int
    number: int
    new_row: bool
    tempo: int
    voices: tuple[Sounding, ...]


@dataclass
class Wave:
    """That of a vibrato or a tremolo: its form's bit 2 lets it go on over notes."""

    speed: int = 0
    depth: int = 0
    place: int = 0
    form: int = 0

    def set(self, parameter: int) -> None:
        self.speed = parameter >> 4 or self.speed
        self.depth = parameter & 15 or self.depth

    def next(self, shift: int) -> int:
        """How high it is, and it goes on."""
        at, below = self.place % HALF, self.place >= HALF
        height = {0: SINE[at], 1: 255 - 8 * at if below else 8 * at}.get(self.form & 3, 255)
        self.place = (self.place + self.speed) % (2 * HALF)
        value = height * self.depth >> shift
        return -value if below else value

    def note(self) -> None:
        """A note begins."""
        if not self.form & 4:
            self.place = 0


@dataclass
class Voice:
    """A voice, and what its effects keep."""

    cell: Cell = Cell(0, 0, 0, 0)
    sample: int = 0
    words: int = 1
    volume: int = 0
    finetune: int = 0
    period: int = 0
    target: int = 0
    slide: int = 0
    offset: int = 0
    vibrato: Wave = field(default_factory=Wave)
    tremolo: Wave = field(default_factory=Wave)
    glissando: bool = False
    first_row: int = 0
    times: int = 0
    sound_period: int = 0
    sound_volume: int = 0
    begin: Begin | None = None

    def plainly(self) -> None:
        self.sound_period, self.sound_volume = self.period, self.volume

    def set_period(self, period: int) -> None:
        self.period = self.sound_period = period

    def set_volume(self, volume: int) -> None:
        self.volume = self.sound_volume = max(0, min(FULL_VOLUME, volume))

    def begin_sample(self) -> None:
        self.begin = Begin(self.sample, 0, self.words)

    def begin_note(self) -> None:
        self.period = PERIODS[self.finetune][self.cell.note - 1]
        self.vibrato.note()
        self.tremolo.note()
        self.begin_sample()

    def nearest(self) -> int:
        """The number of the first note whose period is not above the voice's."""
        return next((number for number, one in enumerate(PERIODS[self.finetune]) if one <= self.period), NOTES - 1)

    def sounding(self) -> Sounding:
        made = Sounding(self.sound_period, self.sound_volume, self.begin, self.sample)
        self.begin = None
        return made


class Song:
    """A module that is played from a position on. `unheard` has what its effects ask for and no channel can sound."""

    def __init__(self, module: Module, position: int = 0) -> None:
        self.module, self.position = module, position
        self.voices = [Voice() for _ in range(VOICES)]
        # the row that sounds; `position` and `row` are those of the one that comes next
        self.place = (position, 0)
        self.counter, self.speed, self.tempo = FIRST_SPEED - 1, FIRST_SPEED, FIRST_TEMPO
        self.row, self.delay, self.repeats = 0, 0, 0
        self.jumps, self.break_row, self.loop_row = False, 0, -1
        self.new_row, self.stopped, self.ended = False, False, False
        # where positions were entered or lie before the first, and whether the next row is such a place again
        self.entered, self.again_there = {(before, 0) for before in range(position + 1)}, False
        self.unheard: dict[str, str] = {}

    def ticks(self) -> Iterator[Tick]:
        """Its ticks, without end; `ended` is set before the first that was there before."""
        while True:
            tempo = self.tempo
            self.tick()
            yield Tick(*self.place, self.counter, self.new_row, tempo, tuple(voice.sounding() for voice in self.voices))

    def tick(self) -> None:
        self.new_row = False
        if self.stopped:
            for voice in self.voices:
                voice.sound_volume = 0
            return
        self.counter += 1
        if self.counter < self.speed:
            self.go_on()
            return
        self.counter = 0
        if self.repeats:
            self.go_on()
        else:
            self.row_begins()
        self.next_row()

    def row_begins(self) -> None:
        self.new_row, self.place = True, (self.position, self.row)
        self.ended = self.ended or self.again_there
        for voice, cell in zip(self.voices, self.module.patterns[self.module.orders[self.position]][self.row]):
            voice.cell = cell
            self.begin_cell(voice, cell)

    def begin_cell(self, voice: Voice, cell: Cell) -> None:
        if cell.sample:
            sample = self.module.samples[cell.sample - 1]
            voice.sample, voice.words = cell.sample, sample.words or 1
            voice.volume, voice.finetune = sample.volume, sample.finetune
        if cell.note:
            self.note(voice, cell)
        voice.plainly()
        effect = self.ROW_EFFECTS.get(cell.effect)
        if effect:
            effect(self, voice, cell.parameter)

    def note(self, voice: Voice, cell: Cell) -> None:
        """A note is slid to, is delayed, or begins."""
        if cell.effect in (3, 5):
            wanted = PERIODS[voice.finetune][cell.note - 1]
            voice.target = 0 if wanted == voice.period else wanted
            return
        if cell.effect == 0xE and cell.parameter >> 4 == 5:
            voice.finetune = cell.parameter & 15
        if cell.effect == 0xE and cell.parameter >> 4 == 0xD and cell.parameter & 15:
            return
        voice.begin_note()

    # what an effect does where a row begins

    def set_offset(self, voice: Voice, parameter: int) -> None:
        voice.offset = parameter or voice.offset
        if voice.begin:
            words = 128 * voice.offset
            sample, _, all_words = voice.begin
            voice.begin = Begin(sample, words, all_words - words) if words < all_words else Begin(sample, 0, 1)

    def jump(self, _: Voice, parameter: int) -> None:
        self.position, self.break_row, self.jumps = parameter - 1, 0, True

    def break_off(self, _: Voice, parameter: int) -> None:
        row = 10 * (parameter >> 4) + (parameter & 15)
        self.break_row, self.jumps = row if row < ROWS else 0, True

    def set_volume(self, voice: Voice, parameter: int) -> None:
        voice.set_volume(parameter)

    def set_speed(self, _: Voice, parameter: int) -> None:
        if parameter == 0:
            self.stopped = self.ended = True
        elif parameter < LEAST_TEMPO:
            self.speed = parameter
        else:
            self.tempo = parameter

    def extended(self, voice: Voice, parameter: int) -> None:
        effect = self.EXTENDED.get(parameter >> 4)
        if effect:
            effect(self, voice, parameter & 15)

    def fine_up(self, voice: Voice, by: int) -> None:
        if self.counter == 0:
            self.period_up(voice, by)

    def fine_down(self, voice: Voice, by: int) -> None:
        if self.counter == 0:
            self.period_down(voice, by)

    def set_glissando(self, voice: Voice, on: int) -> None:
        voice.glissando = on != 0

    def vibrato_form(self, voice: Voice, form: int) -> None:
        voice.vibrato.form = form

    def tremolo_form(self, voice: Voice, form: int) -> None:
        voice.tremolo.form = form

    def set_finetune(self, voice: Voice, finetune: int) -> None:
        voice.finetune = finetune

    def pattern_loop(self, voice: Voice, times: int) -> None:
        if not self.new_row:
            return
        if times == 0:
            voice.first_row = self.row
            return
        voice.times = voice.times - 1 if voice.times else times
        if voice.times:
            self.loop_row = voice.first_row

    def again(self, voice: Voice, every: int) -> None:
        if every and self.counter % every == 0 and (self.counter or not voice.cell.note):
            voice.begin_sample()

    def fine_louder(self, voice: Voice, by: int) -> None:
        if self.counter == 0:
            voice.set_volume(voice.volume + by)

    def fine_softer(self, voice: Voice, by: int) -> None:
        if self.counter == 0:
            voice.set_volume(voice.volume - by)

    def cut(self, voice: Voice, at: int) -> None:
        if self.counter == at:
            voice.set_volume(0)

    def delayed(self, voice: Voice, at: int) -> None:
        if at and self.counter == at and voice.cell.note:
            voice.begin_note()
            voice.plainly()

    def pattern_delay(self, _: Voice, times: int) -> None:
        if self.new_row:
            self.delay = times + 1

    # what an effect does in the ticks after that

    def go_on(self) -> None:
        for voice in self.voices:
            voice.plainly()
            effect = self.TICK_EFFECTS.get(voice.cell.effect)
            if effect:
                effect(self, voice, voice.cell.parameter)

    def arpeggio(self, voice: Voice, parameter: int) -> None:
        third = self.counter % 3
        if parameter == 0 or third == 0:
            return
        note = voice.nearest() + (parameter >> 4 if third == 1 else parameter & 15)
        if note >= NOTES:
            self.unheard.setdefault("a note of an arpeggio above B-3, for which B-3 stands,", "position {}, row {}".format(*self.place))
        voice.sound_period = PERIODS[voice.finetune][min(note, NOTES - 1)]

    def period_up(self, voice: Voice, by: int) -> None:
        voice.set_period(max(LEAST_PERIOD, voice.period - by))

    def period_down(self, voice: Voice, by: int) -> None:
        voice.set_period(min(GREATEST_PERIOD, voice.period + by))

    def slide(self, voice: Voice, parameter: int) -> None:
        voice.slide = parameter or voice.slide
        self.slide_on(voice)

    def slide_on(self, voice: Voice) -> None:
        if voice.target == 0:
            return
        up = voice.period > voice.target
        period = voice.period - voice.slide if up else voice.period + voice.slide
        if (period <= voice.target) if up else (period >= voice.target):
            period, voice.target = voice.target, 0
        voice.set_period(period)
        if voice.glissando:
            voice.sound_period = PERIODS[voice.finetune][voice.nearest()]

    def slide_and_volume(self, voice: Voice, parameter: int) -> None:
        self.slide_on(voice)
        self.volume_slide(voice, parameter)

    def vibrato(self, voice: Voice, parameter: int) -> None:
        voice.vibrato.set(parameter)
        voice.sound_period += voice.vibrato.next(7)

    def vibrato_and_volume(self, voice: Voice, parameter: int) -> None:
        voice.sound_period += voice.vibrato.next(7)
        self.volume_slide(voice, parameter)

    def tremolo(self, voice: Voice, parameter: int) -> None:
        voice.tremolo.set(parameter)
        voice.sound_volume = max(0, min(FULL_VOLUME, voice.volume + voice.tremolo.next(6)))

    def volume_slide(self, voice: Voice, parameter: int) -> None:
        voice.set_volume(voice.volume + (parameter >> 4) if parameter >> 4 else voice.volume - (parameter & 15))

    def next_row(self) -> None:
        """The next row, unless this one is to be repeated."""
        if self.delay:
            self.repeats, self.delay = self.delay, 0
        if self.repeats:
            self.repeats -= 1
            if self.repeats:
                return
        self.row += 1
        if self.loop_row >= 0:
            self.row, self.loop_row = self.loop_row, -1
        if self.jumps or self.row >= ROWS:
            self.next_position()

    def next_position(self) -> None:
        self.row, self.break_row, self.jumps = self.break_row, 0, False
        self.position += 1
        if self.position >= len(self.module.orders):
            self.position = self.module.restart
        place = (self.position, self.row)
        self.again_there = place in self.entered
        self.entered.add(place)

    ROW_EFFECTS = {9: set_offset, 0xB: jump, 0xC: set_volume, 0xD: break_off, 0xE: extended, 0xF: set_speed}
    EXTENDED = {1: fine_up, 2: fine_down, 3: set_glissando, 4: vibrato_form, 5: set_finetune, 6: pattern_loop, 7: tremolo_form, 9: again,
                0xA: fine_louder, 0xB: fine_softer, 0xC: cut, 0xD: delayed, 0xE: pattern_delay}
    TICK_EFFECTS = {0: arpeggio, 1: period_up, 2: period_down, 3: slide, 4: vibrato, 5: slide_and_volume, 6: vibrato_and_volume, 7: tremolo,
                    0xA: volume_slide, 0xE: extended}
