"""Calls that clients of tmux made, recorded over tmux 3.3a, over roam and over tmux side by side.

tests/e2e/tmux_calls.tsv has the calls of tmuxp 1.9, its freeze, libtmux 0.8 and tmuxinator 3.0, each once, in the order of its first use.
"""
import pathlib
import re
import shlex
import subprocess
import time

from tried import check, comes, is_missing, outside_gate, scene
from roam_live.common.process import TOOLS

CALLS = pathlib.Path(__file__).resolve().parents[1] / "tmux_calls.tsv"
REAL, OWN = ("/usr/bin/tmux", "-L", "calls", "-f", "/dev/null"), (str(TOOLS / "tmux"), "-L", "calls")

# The formats of libtmux's lists, and its separator.
FORMATS = """
server active_window_index alternate_saved_x alternate_saved_y buffer_name buffer_sample buffer_size client_cell_height
client_cell_width client_discarded client_flags client_height client_key_table client_name client_pid client_termname client_tty
client_uid client_user client_width client_written command_list_alias command_list_name command_list_usage config_files copy_cursor_line
copy_cursor_word copy_cursor_x copy_cursor_y current_file cursor_character cursor_flag cursor_x cursor_y history_bytes history_limit
history_size insert_flag keypad_cursor_flag keypad_flag last_window_index line mouse_all_flag mouse_any_flag mouse_button_flag
mouse_sgr_flag mouse_standard_flag next_session_id origin_flag pane_active pane_bg pane_bottom pane_current_command pane_current_path
pane_dead_signal pane_dead_status pane_dead_time pane_fg pane_height pane_id pane_index pane_left pane_pid pane_right pane_search_string
pane_start_command pane_start_path pane_tabs pane_top pane_tty pane_width pid scroll_position scroll_region_lower scroll_region_upper
search_match selection_end_x selection_end_y selection_start_x selection_start_y session_activity session_alerts session_attached
session_attached_list session_created session_group session_group_attached session_group_list session_group_size session_id
session_last_attached session_name session_path session_stack session_windows socket_path start_time uid user version window_active
window_active_clients window_active_sessions window_activity window_cell_height window_cell_width window_height window_id window_index
window_layout window_linked window_linked_sessions window_linked_sessions_list window_marked_flag window_name window_offset_x
window_offset_y window_panes window_raw_flags window_stack_index window_width wrap_flag
""".split()
SEPARATOR = "\u241e"

# The calls that end otherwise: panes would have to move.
REFUSED = (r"select-layout -t\$0:0 even-vertical", "select-layout -t sample:0 main-vertical")

# The variables that differ: ids of processes and moments, what roam does not know, and sizes beyond its limits or after a refused layout.
OTHER = set("""
alternate_saved_x alternate_saved_y config_files cursor_character cursor_flag cursor_x cursor_y history_bytes history_size insert_flag
keypad_cursor_flag line next_session_id origin_flag pane_bottom pane_current_command pane_height pane_left pane_pid pane_right pane_tabs
pane_top pane_tty pane_width pid scroll_region_lower scroll_region_upper session_activity session_created start_time window_activity
window_cell_height window_cell_width window_height window_layout window_name window_width wrap_flag
""".split())
STATE = ("#{session_name}:#{window_index}.#{pane_index} #{window_name} #{pane_width}x#{pane_height}+#{pane_left}+#{pane_top} "
         "#{?pane_active,A,-}#{?window_active,C,-} #{pane_current_path}")


def ran(tool, *words):
    """Return the status, output and errors of a call."""
    done = subprocess.run([*tool, *words], capture_output=True, text=True, check=False, stdin=subprocess.DEVNULL, cwd="/tmp")
    return done.returncode, done.stdout, done.stderr


class Ids:
    """The ids of tmux, and the ids of roam for the same sessions, windows and panes: both were made in the same order."""

    def __init__(self):
        self.own = {}

    def learn(self):
        """Take the ids that are new in both."""
        for name in ("session_id", "window_id", "pane_id"):
            real, own = (dict.fromkeys(ran(tool, "list-panes", "-a", "-F", f"#{{{name}}}")[1].split()) for tool in (REAL, OWN))
            new = [sorted((one for one in ids if one not in known), key=lambda one: int(one[1:]))
                   for ids, known in ((real, self.own), (own, self.own.values()))]
            self.own.update(zip(*new))

    def to_own(self, text):
        """Return a text with the ids of roam."""
        return re.sub(r"[$@%]\d+", lambda found: self.own.get(found[0], found[0]), text)

    def to_real(self, text):
        """Return a text with the ids of tmux."""
        real = {own: one for one, own in self.own.items()}
        return re.sub(r"[$@%]\d+", lambda found: real.get(found[0], found[0]), text)


def played(call, ids, other):
    """Play a call over both, and return what differs. `other` collects the variables of lists that differ."""
    words = [word.replace("<F1>", SEPARATOR.join(f"#{{{name}}}" for name in FORMATS)) for word in shlex.split(call)]
    real, own = ran(REAL, *words), ran(OWN, *map(ids.to_own, words))
    # A program that was just typed begins soon.
    time.sleep(0.2)
    ids.learn()
    own = own[0], ids.to_real(own[1]), ids.to_real(own[2])
    if call.startswith("capture-pane"):
        # The shell of tmux is a login shell, and may have another prompt.
        real, own = ((status, re.sub(r"(?m)^[#$]", "", output), told) for status, output, told in (real, own))
    if "<F1>" not in call:
        return [] if real == own else [(call, real, own)]
    lines = [[line.split(SEPARATOR) for line in told[1].splitlines()] for told in (real, own)]
    for row, own_row in zip(*lines):
        other.update(name for name, value, own_value in zip(FORMATS, row, own_row) if value != own_value)
    return [] if len(lines[0]) == len(lines[1]) and real[0] == own[0] else [(call, real, own)]


@scene
@outside_gate("the calls of three clients take two minutes")
def tmux_clients(folder):
    """Each call ends with tmux's status and text; the panes are then where tmux has them."""
    if is_missing("tmux_clients", "tmux"):
        return
    rows = [line.split("\t") for line in CALLS.read_text(encoding="utf-8").split("\n")[1:] if line]
    other = set()
    for client in ("tmuxp", "libtmux", "tmuxinator"):
        for tool in (REAL, OWN):
            ran(tool, "start-server")
        ids, calls = Ids(), [call for name, _, call in rows if name == client]
        wrong = [fault for call in calls for fault in played(call, ids, other) if call not in REFUSED]
        check(f"the {len(calls)} calls of {client} end as over tmux", not wrong, wrong)
        if client != "tmuxinator":
            panes = ("list-panes", "-a", "-F", STATE)
            same = comes(lambda: ran(REAL, *panes)[1] == ran(OWN, *panes)[1])
            check("and its panes are where tmux has them", same, lambda: [ran(tool, *panes) for tool in (REAL, OWN)])
        for tool in (REAL, OWN):
            ran(tool, "kill-server")
        comes(lambda: ran(REAL, "ls")[0] == 1)
    check(f"{len(FORMATS) - len(other & OTHER)} of {len(FORMATS)} variables are the same", other <= OTHER, sorted(other - OTHER))
