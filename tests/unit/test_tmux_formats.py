"""Formats as tmux 3.3a expands them, and hostile values in them."""
import unittest
from unittest import mock

from aids import Case
from roam_live.cli.tmux import shows
from roam_live.commands.formats import LITERAL, FormatScope, expanded, with_marks
from tmux_played import PlayedContext

# Formats, and what `tmux display-message -p` of tmux 3.3a printed for a session `a` with the windows `one` and `two`.
SAYS = {
    "#{?session_attached,yes,no}": "no", "#{==:a,b}": "0", "#{==:#{session_name},a}": "1", "#{!=:a,b}": "1", "#{&&:1,0}": "0",
    "#{||:1,0}": "1", "#{m:a*,abc}": "1", "#{m/r:^a,abc}": "1", "#{m/ri:^A,abc}": "1", "#{=3:window_name}": "one",
    "#{=-2:window_name}": "ne", "#{=/2/..:window_name}": "on..", "#{p8:window_name}|": "one     |", "#{p-8:window_name}|": "     one|",
    "#{s/n/X/:window_name}": "oXe", "#{s/N/X/i:window_name}": "oXe", "#{b:session_path}": "main", "#{d:session_path}": "/work",
    "#{q:window_name}": "one", "#{l:#{x}}": "#{x}", "#{n:window_name}": "3", "#{w:window_name}": "3",
    "#{t/f/%Y:session_created}": "2026", "#{E:status-left}": "[a] ", "#{W:#{window_name} }": "one two ",
    "#{W:#{window_name} ,<#{window_name}> }": "<one> two ", "#{S:#S }": "a ", "#{P:#{pane_id} }": "%0 ", "#{e|+|:1,2}": "3",
    "#{e|*|f|2:3,1.5}": "4.50", "#{e|/|:7,2}": "3", "#{e|%|:7,3}": "1", "#{e|<|:1,2}": "1", "#{e|>=|:2,2}": "1",
    "#S #W #I #P #D #F": "a one 0 0 %0 *", "##": "#", "#,": ",", "#}": "}", "#{nosuch}x": "x", "#{": "", "#{a": "",
    "#[fg=red]x": "#[fg=red]x", "#{?,a,b}": "b", "#{?0,a,b}": "b", "#{?x,a,b}": "b", "#{?#{==:1,1},t#{?1,u,v},f}": "tv", "#{a:65}": "A",
    "#{q/h:window_name}": "one", "#{@foo}": "", "#{status}": "on", "#{base-index}": "0", "#{window_flags}": "*",
    "#{window_layout}": "a87d,100x30,0,0,0", "#{=|3|…:window_name}": "one", "#{?pane_active,#,x,y}": ",x", "#{==:#{?1,a,b},a}": "0",
    "#{;b:session_path}": "main", "#{=5;s/one/two/:window_name}": "two", "#{E:#{window_name}}": "one", "#{c:colour}": "", "#{r:x}": "",
    "#{N/w:two}": "1", "#{N/s:a} #{N:two}": "1 1", "#{>:b,a}": "1", "#{<=:a,a}": "1", "a#": "a#", "#a": "#a", "#Z": "#Z", "#{?a}": "",
    "#{?1,a}": "", "#{m|r:x,y}": "0", "#{l:a}#{l:#,}": "a#,", "#{!:1}": "", "#{mouse}": "0", "#{pane_width}x#{pane_height}": "100x30",
}

# Names that a program, another machine or a person chose, and the value of each here.
HOSTILE = "$(touch /tmp/x)`id`;|&<>'\"\\#(id)#{pane_id}#[fg=red]*?!~^{}é\n"


class Chosen(FormatScope):
    """A scope in which one variable is hostile, and which records the commands that run."""

    def __init__(self, name):
        self.name, self.commands = name, []

    def variable(self, name):
        """Return the hostile value, or a plain one."""
        return HOSTILE if name == self.name else "%7" if name == "pane_id" else None

    def option(self, name):
        """Return an option that a person wrote, with that variable in it."""
        return f"<#{{{self.name}}}>" if name == "@own" else None

    def is_chosen(self, name):
        """Return True for the hostile variable."""
        return name == self.name

    def ran(self, command):
        """Record a command, and answer with a hostile text."""
        self.commands.append(command)
        return HOSTILE


class Formats(Case):
    """Formats of a played session."""

    def test_says(self):
        context = PlayedContext(self, {"a": [("one", [(1, 1, 30, 100)]), ("two", [(1, 1, 30, 100)])]})
        context.known.sessions[0].note["path"] = "/work/main"
        found = context.find(None, "pane")
        for text, said in SAYS.items():
            if "session_attached" not in text:
                self.assertEqual(context.expand(text, found), said, text)

    def test_time(self):
        """Conversions of strftime work where tmux has them, and nowhere else."""
        context = PlayedContext(self, {"a": [("one", [(1, 1, 30, 100)])]})
        self.assertEqual(context.expand("%%Y", context.find(None, "pane")), "%%Y")
        self.assertEqual(context.expand("%%Y", context.find(None, "pane"), has_time=True), "%Y")


class Hostile(Case):
    """Values of programs and other machines in formats."""

    def test_odd(self):
        """A value that is no valid number or expression where a format wants one ends no command: it matches nothing."""
        for value, text, said in (("²", "#{a:#{title}}", ""), ("a{4294967295}", "#{m/r:#{title},a}", "0"),
                                  ("(" * 2000, "#{m/r:#{title},a}", "0"), ("a{4294967295}", "#{s/#{title}/b/:pane_id}", "%7"),
                                  ("\\²", "#{s/7/#{title}/:pane_id}", "%²"),
                                  ("1e308", "#{e|*|:#{title},1e308}", ""), ("1e308", "#{e|*|f:#{title},1e308}", "inf")):
            with mock.patch(f"{__name__}.HOSTILE", value):
                self.assertEqual(expanded(text, Chosen("title")), said, text)

    def test_all(self):
        """The list of all variables has no control of a folder or a title either."""
        context = PlayedContext(self, {"a": [("one", [(1, 1, 30, 100)])]})
        context.known.sessions[0].note["path"] = "/w\x1b]0;x\x07#(id)"
        with mock.patch.object(shows, "known", lambda values: ["pane_id", "session_path"]):
            context.run_words([["display-message", "-a", "-t", "a"]])
        self.assertEqual(context.printed(), "pane_id=%0\nsession_path=/w]0;x#(id)\n")

    def test_again(self):
        """A value that is expanded again runs nothing, has no value of its own, and gives no style."""
        for name in ("pane_title", "pane_current_command", "pane_current_path", "window_name", "session_name", "buffer_name",
                     "buffer_sample", "client_name", "host"):
            for text in (f"#{{E:{name}}}", f"#{{T:{name}}}", f"#{{E:#{{{name}}}}}", "#{E:@own}", f"#{{=99:{name}}}", f"#{{p99:{name}}}",
                         f"#{{s/x/#{{{name}}}/:{name}}}", f"#{{?1,,#{{{name}}}}}", f"#{{W:#{{{name}}}}}#{{{name}}}"):
                scope = Chosen(name)
                marked = with_marks(text, scope)
                self.assertEqual(scope.commands, [], (name, text))
                self.assertNotIn("#[", marked, (name, text))
                self.assertNotIn("%7", expanded(text, scope), (name, text))
                self.assertNotIn(LITERAL, expanded(text, scope))

    def test_shell(self):
        """Where a shell runs a text, only letters, digits, blanks and a few signs of such a value are left."""
        kept = "".join(letter if letter.isascii() and letter.isalnum() or letter in " _./:@%+=,-" else "_" for letter in HOSTILE[:-1])
        for name in ("pane_title", "pane_current_path", "window_name", "session_name", "buffer_sample", "environment X"):
            self.assertEqual(expanded(f"echo '#{{{name}}}' #{{pane_id}} $HOME", Chosen(name), is_shell=True), f"echo '{kept}' %7 $HOME")
            scope = Chosen(name)
            expanded(f"#(echo $HOME #{{{name}}} #{{E:{name}}})", scope)
            self.assertEqual(scope.commands, [f"echo $HOME {kept} {kept}"])

    def test_output(self):
        """The output of a command is text as well: it runs nothing, and gives no style."""
        scope = Chosen("x")
        self.assertNotIn("#[", with_marks("#(echo 1)", scope))
        self.assertEqual(scope.commands, ["echo 1"])
        scope = Chosen("x")
        with_marks("#{E:@own}#{E:#{?1,a,#(echo 2)}}", scope)
        self.assertEqual(scope.commands, ["echo 2"])


if __name__ == "__main__":
    unittest.main()
