"""The part of checks/page about the board's buzzer: its samples and their timing. The buzzer is silent until the user switches sound on, at speeds
other than real time, and without Web Audio."""

import re
import time

from page_basics import SET_SPEED, choose_example, status_of, wait_until_ready
from verdicts import eventually, verdict

BOARD = '# buzzer rom0.0: the buzzer\n[[rom]]\nchip = 0\nport = "0000"\n'
# The frequency in hertz of a wave of 198 cycles.
EXPECTED_PITCH = 92593 / 198
TONE_PROGRAM = """
        FIM P0, 0
        SRC P0
loop:   LD R4
        CMA
        XCH R4
        LD R4
        WRR
        FIM P1, 0xD6
wait:   ISZ R3, wait
        ISZ R2, wait
        JUN loop
"""
# A sound block arrives about every 45 ms, 90 ms before it is heard. If it arrives more than MAX_BLOCK_INTERVAL seconds after the previous block, the
# host was too busy.
MAX_BLOCK_INTERVAL = 0.1
# Records each block of samples that is played: its start on the audio clock, its arrival on the audio clock and on the page's clock, and its edges.
RECORD_SOUND = """
window.played = [];
const start = AudioBufferSourceNode.prototype.start;
AudioBufferSourceNode.prototype.start = function (when) {
  const samples = this.buffer.getChannelData(0);
  const edges = [];
  for (let at = 1; at < samples.length; at++) if (samples[at] !== samples[at - 1]) edges.push(at);
  window.played.push({ when, now: this.context.currentTime, at: performance.now() / 1000, rate: this.buffer.sampleRate,
    count: samples.length, edges, first: samples[0] });
  return start.call(this, when);
};
"""
# Replaces the audio clock with the page's clock. Without an audio device, the audio clock stays at 0 in some browsers.
REPLACE_CLOCK = """
const begun = performance.now();
Object.defineProperty(BaseAudioContext.prototype, "currentTime", { get: () => (performance.now() - begun) / 1000 });
"""
IS_AUDIO_CLOCK_STOPPED = "return window.played.every(({ now }) => now === 0)"
IS_SOUND_PRESSED = "return document.getElementById('sound-button').getAttribute('aria-pressed')"
GET_SOUND_STATUS = "return document.getElementById('sound-status').textContent"
COUNT_PLAYED = "return window.played.length"
# The first block must arrive more than MIN_LEAD_SECONDS before it is heard, in at least one of MAX_RETRIES + 1 attempts.
MIN_LEAD_SECONDS, MAX_RETRIES = 0.08, 5


def is_first_block_early(browser, first_block):
    """Returns true if the first block arrives early enough. Makes several attempts, because other work on the machine can delay the page."""
    for _ in range(MAX_RETRIES):
        if first_block["when"] - first_block["now"] > MIN_LEAD_SECONDS:
            return True
        browser.click("#sound-button")
        browser.script("window.played = []")
        browser.click("#sound-button")
        browser.wait_until(COUNT_PLAYED, re.compile("^[1-9]"))
        first_block = browser.script("return window.played[0]")
    return first_block["when"] - first_block["now"] > MIN_LEAD_SECONDS


def check_tone(browser):
    """Checks that after a press of the button, the page plays a program's tone with the expected pitch, and without gaps unless the host was too
    busy."""
    status_of(browser, "#board-editor", BOARD)
    status_of(browser, "#program-editor", TONE_PROGRAM)
    eventually(browser, "a board with a buzzer has a sound button", "return document.getElementById('sound').hidden", False)
    verdict("the sound button has a name, and is not pressed", [browser.text_of("#sound-button"), browser.script(IS_SOUND_PRESSED)], ["Sound of the buzzer", "false"])
    browser.script(RECORD_SOUND)
    browser.click("#sound-button")
    eventually(browser, "several blocks are played after a press of the button", COUNT_PLAYED, re.compile("^[5-9]$|^..$"))
    if browser.script(IS_AUDIO_CLOCK_STOPPED):
        browser.click("#sound-button")
        browser.script(REPLACE_CLOCK + "window.played = [];")
        browser.click("#sound-button")
        eventually(browser, "several blocks are played with the page's clock", COUNT_PLAYED, re.compile("^[5-9]$|^..$"))
    time.sleep(1)
    played = browser.script("return window.played")
    block_seconds = [block["count"] / block["rate"] for block in played]
    edge_count = sum(len(block["edges"]) for block in played)
    pitch = edge_count / 2 / sum(block_seconds)
    verdict(f"the pitch is within 1 % of the expected one: {pitch:.1f} Hz", abs(pitch - EXPECTED_PITCH) < EXPECTED_PITCH / 100, True)
    verdict("the sample rate is that of the cycles", sorted({block["rate"] for block in played}), [92593])
    verdict("the first block arrives early enough", is_first_block_early(browser, played[0]), True)
    gaps = [(previous, following) for previous, following, length in zip(played, played[1:], block_seconds) if abs(previous["when"] + length - following["when"]) > 1e-6]
    intervals = [f"{following['at'] - previous['at']:.3f} s" for previous, following in gaps]
    verdict(f"gaps between {len(played)} blocks are only where the host was too slow: {intervals}",
            all(following["at"] - previous["at"] > MAX_BLOCK_INTERVAL for previous, following in gaps), True)
    verdict("most blocks follow the previous one without a gap", 2 * len(gaps) < len(played), True)


def check_sound_at_speeds(browser):
    """Checks that there is sound only in real time, and that a second press of the button mutes it."""
    browser.script(SET_SPEED, "tenth")
    eventually(browser, "at other speeds the status reports that there is no sound", GET_SOUND_STATUS, "silent: there is sound only in real time")
    browser.script("window.played = []")
    eventually(browser, "the button stays pressed", IS_SOUND_PRESSED, "true")
    browser.script(SET_SPEED, "real")
    eventually(browser, "blocks are played again in real time", COUNT_PLAYED, re.compile("^[1-9]"))
    verdict("the status reports nothing in real time", browser.script(GET_SOUND_STATUS), "")
    browser.click("#sound-button")
    verdict("a second press mutes the sound", browser.script(IS_SOUND_PRESSED), "false")


def check(browser, page, _folder, _mcs4):
    browser.open(page.as_uri() + "#example=empty%20bench")
    wait_until_ready(browser)
    verdict("a board without a buzzer has no sound button", browser.script("return document.getElementById('sound').hidden"), True)
    check_tone(browser)
    check_sound_at_speeds(browser)
    choose_example(browser, "music box")
    eventually(browser, "the music box has a sound button", "return document.getElementById('sound').hidden", False)
    browser.script("window.AudioContext = undefined")
    browser.click("#sound-button")
    verdict("without Web Audio the status names another way to hear the sound", browser.script(GET_SOUND_STATUS), re.compile("no sound .Web Audio.*mcs4 wave --wav"))
    verdict("without Web Audio the button is not pressed", browser.script(IS_SOUND_PRESSED), "false")
