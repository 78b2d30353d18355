"""The part of checks/page about accessibility: the order in which the Tab key reaches the panels, and announcements of answers. In Chromium, it also
checks the names, roles and states that the browser reports to a screen reader (the accessibility tree). There, it also checks the contrast of all
text, borders, marks and lamps in both colour schemes."""

import re

from page_basics import (ESCAPE, GET_TEXT_OF_EDITOR, IS_COUNTER_ROW_SHOWN, PUT_INTO_EDITOR, TAB, choose_example, send_lines, reopen_page, show_text,
                         step_with_marks, pause_running_time)
from verdicts import eventually, verdict
from web_driver import Chromium

# The roles of controls in the accessibility tree.
CONTROL_ROLES = {"button", "textbox", "searchbox", "combobox", "checkbox", "slider", "tab", "option", "link", "spinbutton", "DisclosureTriangle",
            "radio", "switch"}
# The roles of regions, groups, dialogs, tables and images. Each of them except a group needs a name, so that a user of a screen reader can
# distinguish them.
NAMED_ROLES = {"region", "group", "tablist", "tabpanel", "dialog", "table", "log", "complementary", "image", "alertdialog"}
# Symbols for which a screen reader says nothing, or nothing useful.
UNSPOKEN_SYMBOLS = re.compile("[\u25b2-\u25cf\u2713]")


def check(browser, page, _folder, _mcs4):
    reopen_page(browser, page)
    check_answers_announced(browser)
    check_tab_key(browser)
    if isinstance(browser, Chromium):
        check_views(browser)


def check_answers_announced(browser):
    """Checks that a screen reader announces the answer to a sent line, and an error with its message."""
    choose_example(browser, "three lamps")
    pause_running_time(browser)
    status_script = "return document.getElementById('answer-status').textContent"
    send_lines(browser, "poke acc 5")
    eventually(browser, "the answer to a line is announced", status_script, re.compile(r"^ok \d+$"))
    send_lines(browser, "poke acc 77")
    eventually(browser, "the message about a rejected line is announced", status_script, re.compile(r"^no \d+.*: [a-z]"))


# Returns the id of the panel that has the focus. Outside the panels, returns the id of the focused element.
GET_FOCUSED_PANEL = """
const focused = document.activeElement;
const region = focused.closest("#session-bar, #clock, #tools, #front, #texts, #dock, #side > section, #statusbar, #notice, .splitter");
return region ? region.id : focused.id"""
IS_FOCUS_IN_EDITOR = "return document.activeElement.closest('.cm-editor') !== null"
# The column that is a tab stop in Firefox because the arrow keys scroll it.
SCROLLABLE_COLUMN = "side"
# TAB_ORDER has the panels in the order in which the Tab key reaches them, starting at the session's name. SIDE_PANELS has the panels in the side
# column.
SIDE_PANELS = ["processor", "calls", "watched", "breakpoints", "memory", "ports"]
TAB_ORDER = ["session-bar", "clock", "tools", "front", "front-splitter", "texts", "dock-splitter", "dock", "side-splitter",
         *[region for name in SIDE_PANELS for region in (name, f"{name}-splitter")], "history", "statusbar"]


def check_tab_key(browser):
    """Checks that the Tab key reaches the panels in order with fewer than 80 stops. Escape and then Tab must leave an editor without changing its
    text."""
    show_text(browser, "program")
    browser.script("document.getElementById('name').focus()")
    visited = []
    tab_count = 0
    while tab_count < 110 and (panel := browser.script(GET_FOCUSED_PANEL)) in (*TAB_ORDER, SCROLLABLE_COLUMN):
        if panel != SCROLLABLE_COLUMN and panel not in visited[-1:]:
            visited.append(panel)
        if panel == "statusbar":
            break
        browser.type_keys([ESCAPE, TAB] if browser.script(IS_FOCUS_IN_EDITOR) else [TAB], 1, 1)
        tab_count += 1
    verdict("the Tab key reaches the panels in their order", visited, TAB_ORDER)
    verdict("the Tab key has fewer than 80 stops", tab_count < 80, True)
    browser.script("document.querySelector('#program-editor .cm-editor').lineEditor.focus()")
    text_before = browser.script(GET_TEXT_OF_EDITOR, "#program-editor")
    browser.type_keys([ESCAPE, TAB])
    verdict("Escape and then Tab leave the editor", browser.script(IS_FOCUS_IN_EDITOR), False)
    verdict("the text after Escape and Tab is unchanged", browser.script(GET_TEXT_OF_EDITOR, "#program-editor"), text_before)


# --- the accessibility tree and colours, through Chromium's driver ---

def value_of(node, key):
    """Returns the value of an attribute of a node in the accessibility tree, or "" if the node lacks the attribute."""
    return (node.get(key) or {}).get("value", "")


def nodes_of(browser):
    """Yields the role, the name and the properties of each node that a screen reader receives."""
    nodes = browser.send_command("Accessibility.getFullAXTree")["nodes"]
    for node in nodes:
        if not node.get("ignored"):
            properties = {entry["name"]: entry["value"].get("value") for entry in node.get("properties", [])}
            yield value_of(node, "role"), str(value_of(node, "name")).strip(), properties


def check_names(browser, view):
    """Checks that each control and region has a name, and that no name has symbols that a screen reader cannot speak. Returns the list of the nodes
    from `nodes_of`."""
    nodes = list(nodes_of(browser))
    unnamed = [role for role, name, _ in nodes if role in CONTROL_ROLES and not name]
    verdict(f"{view}: controls without a name", unnamed, [])
    unnamed = [role for role, name, properties in nodes if role in NAMED_ROLES and not name and role != "group"]
    verdict(f"{view}: regions without a name", unnamed, [])
    unspoken_names = [name for role, name, _ in nodes if role in CONTROL_ROLES | NAMED_ROLES | {"heading"} and UNSPOKEN_SYMBOLS.search(name)]
    verdict(f"{view}: names with symbols that cannot be spoken", unspoken_names, [])
    return nodes


def check_contrast(browser, view):
    """Checks that all elements have enough contrast in the light and the dark scheme."""
    for scheme in ("light", "dark"):
        browser.send_command("Emulation.setEmulatedMedia", features=[{"name": "prefers-color-scheme", "value": scheme}])
        browser.wait_until(f"return matchMedia('(prefers-color-scheme: {scheme})').matches", True)
        verdict(f"{view}: elements with too little contrast, {scheme} scheme", browser.script(FIND_LOW_CONTRAST), [])
    browser.send_command("Emulation.setEmulatedMedia", features=[])


def check_view(browser, view):
    """Checks that the visible elements have names that a screen reader can speak, and enough contrast. `view` describes the view in the verdicts.
    Returns the list of the nodes from `nodes_of`."""
    nodes = check_names(browser, view)
    check_contrast(browser, view)
    return nodes


EXPAND_ALL = "for (const each of document.querySelectorAll(`${arguments[0]} details`)) each.open = true"


def check_views(browser):
    """Checks that all views and dialogs of the page have names that a screen reader can speak, and enough contrast."""
    browser.send_command("Accessibility.enable")
    # Switch off transitions, so that the final colours are measured.
    browser.script("const still = new CSSStyleSheet(); still.replaceSync('* { transition: none !important }'); "
                   "document.adoptedStyleSheets = [still]")
    check_board(browser)
    check_other_views(browser)
    check_dialogs(browser)
    browser.send_command("Accessibility.disable")


def check_board(browser):
    """Checks that the board and the source have names and enough contrast, and that a screen reader announces states, such as those of lamps and
    panels."""
    step_with_marks(browser)
    eventually(browser, "the disassembly is at the program counter", IS_COUNTER_ROW_SHOWN, True)
    browser.click_at_rest("#lines-of-program button.next")
    eventually(browser, "a row with a breakpoint is announced as pressed", "return document.querySelector('#lines-of-program .next').getAttribute('aria-pressed')", "true")
    verdict("the row of the next instruction is announced as the current one",
            browser.script("return document.querySelector('#lines-of-program [aria-current]').classList.contains('next')"), True)
    nodes = check_view(browser, "the board and the source")
    roles = [role for role, *_ in nodes]
    verdict("the numbers of main, banner and contentinfo regions", [roles.count(role_name) for role_name in ("main", "banner", "contentinfo")], [1, 1, 1])
    heading_levels = [properties.get("level") for role, _, properties in nodes if role == "heading"]
    verdict("the level of the page's heading, and of all other headings", (heading_levels[0], set(heading_levels[1:])), (1, {2}))
    folds = [properties for role, name, properties in nodes if role == "button" and name in ("Registers", "RAM")]
    verdict("each foldable panel announces whether it is expanded", [properties.get("expanded") for properties in folds], [True, True])
    verdict("the tab lists of texts and dock each announce a selected tab", [properties.get("selected") for role, _, properties in nodes if role == "tab"].count(True), 2)
    lamps = [name for role, name, _ in nodes if role == "image" and re.search(", (lit|dark)$", name)]
    verdict("the number of lamps that announce whether they are on", len(lamps), browser.script("return document.querySelectorAll('.bulb').length"))


def check_other_views(browser):
    """Checks that the other tabs have names and enough contrast, and that an invalid field is announced as invalid."""
    choose_example(browser, "calculator")
    pause_running_time(browser)
    for name in ("board", "wiring"):
        show_text(browser, name)
        browser.script(EXPAND_ALL, "#wiring")
        check_view(browser, f"the view {name}")
    check_tests(browser)
    show_text(browser, "program")
    browser.type_into("#step-count", "x\ue007")
    invalid_fields = [name for role, name, properties in nodes_of(browser) if properties.get("invalid") == "true"]
    verdict("the fields that are announced as invalid", invalid_fields, ["How many instructions to step"])
    show_text(browser, "waves")
    browser.click("#record")
    eventually(browser, "the waves are shown", "return document.getElementById('waves').hidden", False)
    browser.script(EXPAND_ALL, "#scope")
    check_view(browser, "the waves")
    show_text(browser, "program")


def check_tests(browser):
    """Checks that the results of tests and of a search, and the counts beside the source, have names and enough contrast. One of the tests is made to
    fail."""
    show_text(browser, "tests")
    browser.script(PUT_INTO_EDITOR, "#tests-editor", "test it is dark\n  expect display 0\n  keys 5\n  expect display 6\n")
    browser.click("#tests-editor .send")
    eventually(browser, "the number of failed tests", "return document.querySelectorAll('#test-list .not-ok').length", 1)
    browser.script(EXPAND_ALL, "#test-results")
    check_view(browser, "the tests")
    check_properties(browser)
    show_text(browser, "program")
    browser.script("document.querySelector('#program-editor .cm-editor').lineEditor.scrollIntoView({ line: 480, ch: 0 }, 0)")
    eventually(browser, "the counts are beside the source", "return document.querySelectorAll('.at-lacking .mark-counts').length > 0", True)
    check_view(browser, "the source with its counts")


def check_properties(browser):
    """Checks that the results of a search that breaks one property have names and enough contrast, both during the search and after it."""
    show_text(browser, "properties")
    browser.script(PUT_INTO_EDITOR, "#properties-editor", "press 1\nwait 10 ms to 40 ms\nnever display 1\nreach display 8\n")
    browser.script("document.getElementById('explore-seconds').value = '60'")
    browser.click("#explore")
    eventually(browser, "a property is broken", "return document.querySelectorAll('#property-list details').length > 0", True)
    check_view(browser, "the properties during the search")
    browser.click("#explore")
    eventually(browser, "the search ends", "return document.getElementById('explore').textContent", "Search")
    browser.script(EXPAND_ALL, "#explore-results")
    check_view(browser, "the properties")


def check_dialogs(browser):
    """Checks that the help, the sessions dialog, and a confirmation dialog have accessible names and enough contrast."""
    browser.click("#help-button")
    browser.script(EXPAND_ALL, "#help")
    check_view(browser, "the help")
    browser.click("#help-close")
    browser.click("#sessions-button")
    eventually(browser, "the sessions dialog is open", "return document.getElementById('sessions').open", True)
    nodes = check_view(browser, "the sessions dialog")
    verdict("the sessions dialog is modal", [properties.get("modal") for role, _, properties in nodes if role == "dialog"], [True])
    browser.click("#close-sessions")
    browser.click("#from-rom")
    eventually(browser, "a question is open", "return document.querySelectorAll('#ask[open]').length", 1)
    check_view(browser, "a question")
    browser.type_keys([ESCAPE])
    eventually(browser, "Escape closes the question", "return document.querySelectorAll('#ask[open]').length", 0)


# Returns descriptions of at most 12 pieces of text, borders, marks, lamps and lines with too little contrast. Computes the contrast as WCAG defines
# it, and blends a transparent colour with its background.
FIND_LOW_CONTRAST = """
const parts = (text) => (text.match(/[\\d.]+/g) || []).map(Number);
const blend = (text, ground) => {
  const [red, green, blue, alpha = 1] = parts(text);
  return [red, green, blue].map((channel, index) => channel * alpha + ground[index] * (1 - alpha));
};
const luminance = (colour) => colour.map((channel) => channel / 255)
  .map((channel) => (channel <= 0.04045 ? channel / 12.92 : ((channel + 0.055) / 1.055) ** 2.4))
  .reduce((sum, channel, index) => sum + channel * [0.2126, 0.7152, 0.0722][index], 0);
const contrast = (first, second) => {
  const [low, high] = [luminance(first), luminance(second)].sort((a, b) => a - b);
  return (high + 0.05) / (low + 0.05);
};
const PAGE_COLOUR = parts(getComputedStyle(document.body).backgroundColor);
const groundOf = (node) => (node ? blend(getComputedStyle(node).backgroundColor, groundOf(node.parentElement)) : PAGE_COLOUR);
const isVisible = (node) => isShown(node) && !node.closest(":disabled, .unseen, [aria-hidden=true]:not(#wiring-picture *), option");
const root = document.querySelector("dialog[open]") || document.body;
const shown = (selector) => [...root.querySelectorAll(selector)].filter(isVisible);
const errors = [];
const check = (kind, node, colour, ground, minimum) => {
  const actual = contrast(blend(colour, ground), ground);
  const name = node.id || node.className.baseVal || node.className || node.textContent.slice(0, 20);
  if (actual < minimum) errors.push(`${kind} ${name} ${actual.toFixed(2)}`);
};
for (const node of shown("button, input:not([type=checkbox]), select, textarea, [role=tab]")) {
  const style = getComputedStyle(node);
  if (style.borderTopStyle === "none" || parts(style.borderTopColor)[3] === 0 || !parseFloat(style.borderTopWidth)) continue;
  check("border", node, style.borderTopColor, groundOf(node.parentElement), 3);
}
for (const node of shown(".changed")) {
  check("mark", node, getComputedStyle(node).boxShadow.match(/rgba?\\([^)]*\\)/)[0], groundOf(node.parentElement), 3);
}
for (const node of shown(".bulb")) {
  if (getComputedStyle(node).opacity !== "1") errors.push("a transparent lamp");
  check("lamp", node, getComputedStyle(node).borderTopColor, groundOf(node.parentElement), 3);
}
const [lit, dark] = [".bulb.lit", ".bulb:not(.lit)"].map((node) => shown(node)[0]);
if (lit && dark) {
  const [litBorder, darkBorder] = [lit, dark].map((node) => blend(getComputedStyle(node).borderTopColor, groundOf(node.parentElement)));
  const fill = contrast(groundOf(lit), groundOf(dark));
  const border = contrast(litBorder, darkBorder);
  if (border < 3 && fill < 3) errors.push(`lit and dark lamps ${border.toFixed(2)}, ${fill.toFixed(2)}`);
}
for (const node of shown("svg :is(rect, circle, path):not(.picture *, .number *, .cap, .glass)")) {
  const { stroke } = getComputedStyle(node);
  if (stroke !== "none") check("line", node, stroke, groundOf(node.closest("svg").parentElement), 3);
}
const walker = document.createTreeWalker(root, NodeFilter.SHOW_TEXT);
for (let textNode = walker.nextNode(); textNode; textNode = walker.nextNode()) {
  const node = textNode.parentElement;
  if (!textNode.textContent.trim() || !isVisible(node) || node.closest("script, style, noscript")) continue;
  const style = getComputedStyle(node);
  check("text", node, node.closest("svg") ? style.fill : style.color, groundOf(node.closest("svg") ? node.closest("svg").parentElement : node), 4.5);
}
return [...new Set(errors)].slice(0, 12)"""
