"""The uses of `re` and of texts with an escape in live/, with their purposes.

A use that is missing from the table below is an error, and so is an obsolete entry. Nothing in live/ matches or searches a client process's
paintings, since these contain arbitrary output of a pane's program.
"""
import ast
import pathlib
import re

from roam_live.common.process import TOOLS

LIVE = pathlib.Path(TOOLS)

# The purposes in words.
TYPED = "reads what a person types"
WRITES = "writes to the person's terminal, and reads nothing"
PROGRAM = "reads what a pane's program writes, at the pty host"
LINES = "reads lines of a socket of the session's folder"
COMMANDS = "reads the words of a command that a person or a script wrote"
NAMES = "reads names of sessions and hosts"
SETTINGS = "reads what a person's settings file has stand in the last row"
KEY_NAMES = "is what a key is typed as that is named, and reads nothing"
WORDS = "reads what a program of this machine says"
RELAY = "reads what the other end of a relay says"
LENT = "reads the SGR before characters of a row that the host lends; what is written is made anew"
ROWS = "reads rows that the scrollback process printed, which have characters and SGR alone, and writes none of either"
CELLS = "reads the SGR before a cell, in the record that answers `look sgr`"
BRACKETS = "is typed round a paste, and taken out of one"
MARKS = "reads what was typed into a pane, for marks of texts that were given"
ANSWERS = "is typed into a pane as an answer, and reads nothing"
COLOURS = "reads what a person's terminal answers, among what is typed"
FEWER = "replaces the colours that a person's terminal hasn't in SGR; no decision is made by it"
BEGIN = "the reset with which the start itself begins a record `anew`; another clearing is written for it"

# Each use: the file, the assigned name or the enclosing function, and its kind, `re` or an escape.
KNOWN = {
    ("roam_live/common/patterns.py", "LazyPattern.__getattr__", "re"): "compiles the pattern of another module, which is listed there",
    ("roam_live/session/pane_ids.py", "ID", "re"): "reads the ids of panes in the state that a pty host wrote as JSON",
    ("roam_live/frontend/outer_terminal.py", "", "ESC"): WRITES,
    ("roam_live/frontend/few_colours.py", "SGR", "re"): FEWER,
    ("roam_live/frontend/few_colours.py", "SGR", "ESC"): FEWER,
    ("roam_live/frontend/few_colours.py", "colour_filter.replaced", "ESC"): FEWER,
    ("roam_live/frontend/outer_terminal.py", "shaped", "ESC"): WRITES,
    ("roam_live/frontend/outer_terminal.py", "titled", "ESC"): WRITES,
    ("roam_live/frontend/line_editor.py", "LEAVES", "ESC"): TYPED,
    ("roam_live/input/keys.py", "ESCAPE", "ESC"): TYPED,
    ("roam_live/frontend/modes.py", "SCROLL_ENDS", "ESC"): TYPED,
    ("roam_live/protocol/screen_cells.py", "parted", "ESC"): CELLS,
    ("roam_live/protocol/screen_cells.py", "sgr_of", "ESC"): CELLS,
    ("roam_live/frontend/lists.py", "painted", "ESC"): WRITES,
    ("roam_live/frontend/copymode/keys.py", "ESCAPE", "ESC"): TYPED,
    ("roam_live/frontend/modes.py", "WITH_META", "ESC"): TYPED,
    ("roam_live/frontend/copymode/render.py", "LinePainter.text", "ESC"): WRITES,
    ("roam_live/frontend/copymode/render.py", "sgr_of", "ESC"): WRITES,
    ("roam_live/frontend/copymode/rows.py", "RowReader.read", "ESC"): LENT,
    ("roam_live/frontend/copymode/render.py", "CopyScreen.lines", "ESC"): WRITES,
    ("roam_live/protocol/colours.py", "ANSWER", "re"): COLOURS,
    ("roam_live/protocol/colours.py", "FORM", "ESC"): COLOURS,
    ("roam_live/protocol/colours.py", "ASKED", "ESC"): WRITES,
    ("roam_live/protocol/colours.py", "BEGINS", "ESC"): COLOURS,
    ("roam_live/protocol/colours.py", "BEGUN", "re"): COLOURS,
    ("roam_live/protocol/colours.py", "BEGUN", "ESC"): COLOURS,
    ("roam_live/frontend/last_row.py", "LastRow.line_text", "ESC"): WRITES,
    ("roam_live/frontend/last_row.py", "LastRow.put", "ESC"): WRITES,
    ("roam_live/frontend/display.py", "Display.take_painting", "RESET"): BEGIN,
    **{("roam_live/input/extended_keys.py", name, "ESC"): TYPED for name in ("ANSWER", "BEGIN", "FORM")},
    **{("roam_live/input/extended_keys.py", name, "re"): TYPED for name in ("ANSWER", "FORM")},
    **{("roam_live/input/extended_keys.py", name, "ESC"): KEY_NAMES for name in ("BACK_TAB", "CONTROLLED", "ExtendedKey.form")},
    ("roam_live/input/extended_keys.py", "", "ESC"): WRITES,
    ("roam_live/input/extended_keys.py", "given_back", "ESC"): WRITES,
    ("roam_live/relay/far_windows.py", "LED", "re"): LINES,
    ("roam_live/relay/far_windows.py", "TOLD", "re"): LINES,
    ("roam_live/input/key_names.py", "", "ESC"): TYPED,
    ("roam_live/input/key_names.py", "BACK_TAB", "ESC"): KEY_NAMES,
    ("roam_live/input/key_names.py", "CONTROLS", "ESC"): TYPED,
    ("roam_live/input/key_names.py", "CHARACTERS", "ESC"): KEY_NAMES,
    ("roam_live/input/key_names.py", "DIGITS", "ESC"): KEY_NAMES,
    ("roam_live/input/key_names.py", "text_of", "ESC"): KEY_NAMES,
    ("roam_live/input/keys.py", "", "ESC"): "reads what a person types, and is typed round a paste",
    ("roam_live/input/keys.py", "BEGUN", "re"): TYPED,
    ("roam_live/input/keys.py", "BEGUN", "ESC"): TYPED,
    ("roam_live/input/keys.py", "Keys.typed", "ESC"): TYPED,
    ("roam_live/input/keys.py", "SPELLINGS", "ESC"): TYPED,
    ("roam_live/input/keys.py", "key_of", "ESC"): KEY_NAMES,
    ("roam_live/input/keys.py", "WHOLE", "re"): TYPED,
    ("roam_live/input/keys.py", "WHOLE", "ESC"): TYPED,
    ("roam_live/input/mouse_reports.py", "ASKED", "ESC"): WRITES,
    ("roam_live/input/mouse_reports.py", "BEGIN", "ESC"): TYPED,
    ("roam_live/input/mouse_reports.py", "FOCUS_REPORTS", "ESC"): "reads whether a person's terminal has the focus, among what is typed",
    ("roam_live/input/mouse_reports.py", "OFF", "ESC"): WRITES,
    ("roam_live/input/mouse_reports.py", "OLD_BEGIN", "ESC"): "begins what a pane's program is sent, and reads nothing",
    ("roam_live/input/mouse_reports.py", "REPORT", "re"): TYPED,
    ("roam_live/input/mouse_reports.py", "REPORT", "ESC"): TYPED,
    ("roam_live/frontend/popup.py", "", "ESC"): WRITES,
    ("roam_live/frontend/popup.py", "Popup.laid", "ESC"): WRITES,
    ("roam_live/frontend/popup.py", "put_at", "ESC"): WRITES,
    ("roam_live/protocol/panes.py", "CLIP_TEXT", "re"): LINES,
    ("roam_live/protocol/queries.py", "", "ESC"): ANSWERS,
    ("roam_live/protocol/queries.py", "NAMED", "ESC"): ANSWERS,
    ("roam_live/protocol/queries.py", "PaneQuery.answer", "ESC"): ANSWERS,
    ("roam_live/protocol/queries.py", "SIZED", "ESC"): ANSWERS,
    ("roam_live/protocol/queries.py", "mode_told", "ESC"): ANSWERS,
    ("roam_live/relay/frames.py", "GREETING", "re"): RELAY,
    ("roam_live/cli/ssh.py", "host_of", "re"): WORDS,
    ("roam_live/cli/ssh.py", "near_session", "re"): NAMES,
    ("roam_live/cli/send.py", "demand_acts", "re"): WORDS,
    ("roam_live/session/names.py", "NEAR_NAME", "re"): NAMES,
    **{("roam_live/config/formats.py", name, "re"): SETTINGS for name in ("HEXADECIMAL", "NUMBERED", "STYLE", "restyled")},
    ("roam_live/config/parser.py", "ESCAPES", "ESC"): "is what an escape of a person's settings file stands for, and reads nothing",
    ("roam_live/common/tty.py", "CLEARED", "ESC"): WRITES,
    ("roam_live/common/tty.py", "ENTERED", "ESC"): WRITES,
    ("roam_live/common/tty.py", "KEYPAD", "ESC"): WRITES,
    ("roam_live/common/tty.py", "LEFT", "ESC"): WRITES,
    ("roam_live/common/tty.py", "RESET", "ESC"): BEGIN,
    ("roam_live/common/tty.py", "unwrapped", "ESC"): WRITES,
    ("roam_live/protocol/spawn_request.py", "RUN", "re"): LINES,
    **{("roam_live/protocol/spawn_request.py", name, "re"): LINES for name in ("PIPE", "RESPAWN")},
    ("roam_live/host/socket_server.py", "SHOWS", "re"): LINES,
    ("roam_live/host/upgrade.py", "SUM", "re"): "reads what the check of another build prints",
    ("roam_live/host/pane.py", "CLEARED", "ESC"): "clears a pane whose command starts anew, and reads nothing",
    ("roam_live/host/uploads.py", "STATUS", "re"): LINES,
    ("roam_live/host/log_skip.py", "without", "ESC"): ROWS,
    ("roam_live/host/rewrap.py", "", "ESC"): "goes to a pane round the text of a rewrap, and reads nothing",
    ("roam_live/host/scrollback.py", "SHOWS_OTHER", "ESC"): "is handed to the scrollback process, and reads nothing",
    ("roam_live/host/scrollback_store.py", "characters", "ESC"): ROWS,
    ("roam_live/cli/scrollback.py", "BEGIN", "ESC"):
        "reads rows that the host handed out, and writes the SGR in them where that is asked for",
    ("roam_live/host/uploads.py", "BUFFER", "re"): LINES,
    ("roam_live/host/uploads.py", "PASTE", "re"): LINES,
    ("roam_live/host/uploads.py", "PASTE_BUFFER", "re"): LINES,
    ("roam_live/host/socket_server.py", "LEAVES", "re"): LINES,
    ("roam_live/host/socket_server.py", "SHOWS", "re"): LINES,
    ("roam_live/relay/forwarding.py", "LED", "re"): LINES,
    ("roam_live/cli/targets.py", "WORD", "re"): NAMES,
    **{("roam_live/cli/tmux/" + name, place, "re"): COMMANDS for name, place in (
        ("numbers.py", "NUMBER"), ("options.py", "put_array"), ("panes.py", "acts_of_words"), ("panes.py", "row_word"))},
    ("roam_live/cli/tmux/options.py", "show_environment", "re"): "quotes a value for a shell that the user asks for",
    **{("roam_live/commands/format_modifiers.py", place, "re"): COMMANDS for place in (
        "INVALID", "matched", "number_of", "substituted", "substituted.put")},
    **{("roam_live/commands/formats.py", place, "re"): SETTINGS for place in ("COMMAND", "TIME")},
    ("roam_live/commands/formats.py", "HARMLESS", "re"): "takes from a value all that a shell may interpret",
    **{("roam_live/commands/options.py", place, "re"): COMMANDS for place in (
        "INDEXED", "NAMED_COLOURS", "number", "quoted", "size", "style")},
    ("roam_live/protocol/paste_text.py", "BRACKET_ENDS", "ESC"): BRACKETS,
    ("roam_live/protocol/paste_text.py", "", "ESC"): BRACKETS,
    ("roam_live/protocol/paste_text.py", "DROPPED", "re"): "reads a text that is pasted",
    ("roam_live/protocol/paste_text.py", "DROPPED_BUT_ESCAPE", "re"): "reads a text that is pasted",
    ("roam_live/host/state.py", "PASTE_NAME", "re"): "reads a state that a pty host wrote",
    ("roam_live/host/input_queue.py", "BEGUN", "re"): MARKS,
    ("roam_live/host/input_queue.py", "PLACEHOLDER", "re"): MARKS,
    ("roam_live/protocol/window_lines.py", "NAME", "re"): LINES,
    ("roam_live/protocol/window_lines.py", "OPEN", "re"): LINES,
    ("roam_live/protocol/window_lines.py", "SHUT", "re"): LINES,
    ("roam_live/host/window.py", "", "ESC"): "is typed where the focus comes and goes, and reads nothing",
    ("show_client", "", "ESC"): WRITES,
}

# The spellings of an escape in a shell script; and a quick test for modules that may have a use at all.
SPELLED = re.compile(r"\\033|\\x1b|\\e\[|\$'\\E", re.IGNORECASE)
MAY_USE = re.compile(r"\b(import|from) re\b|LazyPattern|, re\b|RESET|\\(0?33|x1b|u001b|U0000001b|N\{)|\x1b", re.IGNORECASE)


class Uses(ast.NodeVisitor):
    """The uses in a module, each with its assigned name or enclosing function."""

    def __init__(self, file):
        self.file, self.where, self.found = file, [], set()

    def use(self, kind):
        """Record a use."""
        self.found.add((self.file, ".".join(self.where), kind))

    def within(self, name, node):
        """Walk a node with a name."""
        self.where.append(name)
        self.generic_visit(node)
        self.where.pop()

    def visit_FunctionDef(self, node):
        self.within(node.name, node)

    def visit_ClassDef(self, node):
        self.within(node.name, node)

    def visit_Assign(self, node):
        target = node.targets[0]
        if self.where or not isinstance(target, ast.Name):
            self.generic_visit(node)
        else:
            self.within(target.id, node)

    def visit_AnnAssign(self, node):
        # Strings in type annotations read nothing.
        if node.value:
            self.visit(node.value)

    def visit_arg(self, node):
        """Skip a parameter's type."""

    def visit_Attribute(self, node):
        if isinstance(node.value, ast.Name) and node.value.id == "re" and node.attr[0].islower():
            self.use("re")
        if node.attr == "RESET":
            self.use("RESET")
        self.generic_visit(node)

    def visit_Call(self, node):
        if isinstance(node.func, ast.Name) and node.func.id == "LazyPattern":
            self.use("re")
        self.generic_visit(node)

    def visit_ImportFrom(self, node):
        # A use under another name would go unnoticed.
        if node.module == "re" or any(alias.name == "RESET" for alias in node.names):
            self.use("re" if node.module == "re" else "RESET")

    def visit_Import(self, node):
        if any(alias.name == "re" and alias.asname for alias in node.names):
            self.use("re")

    def visit_Constant(self, node):
        text = node.value
        if isinstance(text, (str, bytes)) and (b"\x1b" if isinstance(text, bytes) else "\x1b") in text:
            self.use("ESC")
        elif isinstance(text, (str, bytes)) and (rb"\x1b" if isinstance(text, bytes) else r"\x1b") in text:
            self.use("ESC")


def uses_in(path):
    """Return the uses in a file of live/."""
    file, text = str(path.relative_to(LIVE)), path.read_text(encoding="utf-8")
    if path.suffix == ".py" or text.startswith("#!/usr/bin/env python3"):
        uses = Uses(file)
        if MAY_USE.search(text):
            uses.visit(ast.parse(text))
        return uses.found
    return {(file, "", "ESC")} if SPELLED.search(text) else set()


def found_uses():
    """Return all uses in live/."""
    files = sorted(path for path in LIVE.rglob("*") if path.is_file() and "__pycache__" not in path.parts)
    return set().union(*map(uses_in, files))


def main():
    """Print all uses, and return the status: 1 if there is an error."""
    found = found_uses()
    for file, where, kind in sorted(found):
        print(f"{file:24} {where:24} {kind:6} {KNOWN.get((file, where, kind), 'NOT LISTED')}")
    gone = sorted(set(KNOWN) - found)
    for use in gone:
        print(f"listed, and not there any more: {' '.join(use)}")
    return 1 if gone or found - set(KNOWN) else 0
