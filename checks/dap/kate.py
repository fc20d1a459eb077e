"""Kate's debugger plugin, driven by keys on a display of its own: what its panel shows of a run."""
import json
import os
import re
import shutil
import subprocess
import time

TOOLS = ("kate", "Xvfb", "xdotool", "xclip")
VERSION = "22.12"
WIDTH, HEIGHT = 1400, 900
# in the window, with the panel 500 pixels high: its text, the line for commands below it, and the button that begins
TEXT_LEFT, TEXT_RIGHT, TEXT_TOP, TEXT_BOTTOM, LINE = 45, 1100, 412, 842, 862
# where Continue is in a tool bar without icons and in one with them; nothing else at these places does anything before the run begins
CONTINUE = (("913", "39"), ("1190", "40"))
PROMPT = "(dap) "
SESSION = """[Kate Plugins]
kategdbplugin=true

[MainWindow0]
{width}x{height} screen: Height={height}
{width}x{height} screen: Width={width}
{width}x{height} screen: XPosition=0
{width}x{height} screen: YPosition=0
Kate-MDI-H-Splitter=0,1120,200
Kate-MDI-Sidebar-3-LastSize=500
Kate-MDI-V-Splitter=0,300,500
Kate-MDI-ToolView-Debug View-Position=3
Kate-MDI-ToolView-Debug View-Visible=true
Kate-MDI-ToolView-Locals and Stack-Position=1
Kate-MDI-ToolView-Locals and Stack-Visible=true
ToolBarsMovable=Disabled

[Open MainWindows]
Count=1

[Plugin:kategdbplugin:MainWindow:0]
alwaysFocusOnInput=true
lastTarget=0
redirectTerminal=false
targetCount=1
target_0={target}
version=5
"""


def find_missing():
    """The first tool that is not there. Where things are in the window, and where Kate has its settings, is known of one version alone."""
    missing = next((tool for tool in TOOLS if shutil.which(tool) is None), None)
    if missing:
        return missing
    words = {"env": {**os.environ, "QT_QPA_PLATFORM": "offscreen"}, "stdin": subprocess.DEVNULL, "stdout": subprocess.PIPE, "timeout": 20}
    told = subprocess.run(["kate", "--version"], check=False, stderr=subprocess.DEVNULL, **words).stdout.decode()
    return None if told.startswith("kate %s" % VERSION) else "kate " + VERSION


def write_file(path, text):
    """Writes a file, with its folders."""
    os.makedirs(os.path.dirname(path), exist_ok=True)
    with open(path, "w", encoding="utf-8") as out:
        out.write(text)


class Kate:
    """A Kate that debugs a source with an adapter."""

    def __init__(self, program, settings, source, folder):
        home = os.path.join(folder, "home")
        with open(settings, encoding="utf-8") as file:
            made = json.load(file)
        made["dap"]["mmixal"]["run"]["command"] = [program, "dap"]
        write_file(home + "/.config/kate/gdbplugin/dap.json", json.dumps(made))
        write_file(home + "/.config/katerc", "[General]\nShow welcome view for new window=false\n")
        values = {"args": "", "file": source}
        target = {"args": "", "debuggerKey": "mmixal", "debuggerProfile": "debug", "file": "", "target": "Target", "variables": values, "workdir": ""}
        session = SESSION.format(width=WIDTH, height=HEIGHT, target=json.dumps(target))
        write_file(home + "/.local/share/kate/sessions/dap.katesession", session)
        os.makedirs(home + "/run", mode=0o700)
        self.source, self.parts = source, []
        self.around = {**os.environ, "HOME": home, "XDG_RUNTIME_DIR": home + "/run", "LANG": "C.UTF-8", "QT_QPA_PLATFORM": "xcb"}
        for name in ("XDG_CONFIG_HOME", "XDG_DATA_HOME", "XDG_CACHE_HOME", "WAYLAND_DISPLAY", "DBUS_SESSION_BUS_ADDRESS"):
            self.around.pop(name, None)

    def __enter__(self):
        reading, writing = os.pipe()
        screen = "%dx%dx24" % (WIDTH, HEIGHT)
        self.parts.append(subprocess.Popen(["Xvfb", "-displayfd", str(writing), "-screen", "0", screen], pass_fds=[writing], stderr=subprocess.DEVNULL))
        os.close(writing)
        with os.fdopen(reading) as told:
            self.around["DISPLAY"] = ":" + told.readline().strip()
        quiet = {"stdin": subprocess.DEVNULL, "stdout": subprocess.DEVNULL, "stderr": subprocess.DEVNULL}
        self.parts.append(subprocess.Popen(["kate", "-s", "dap", "-n", self.source], env=self.around, **quiet))
        return self

    def __exit__(self, *_):
        for part in reversed(self.parts):
            part.terminate()
            part.wait(20)

    def keys(self, *words):
        """Does something with keys or the mouse."""
        subprocess.run(["xdotool", *words], env=self.around, check=True, timeout=20, stdout=subprocess.DEVNULL)

    def begin(self):
        """Waits for the window, and starts the debugger."""
        title = os.path.basename(self.source)
        words = ["xdotool", "search", "--sync", "--onlyvisible", "--name", title]
        found = subprocess.run(words, env=self.around, check=True, timeout=60, stdout=subprocess.PIPE).stdout.split()
        window = found[0].decode()
        self.keys("windowmove", window, "0", "0", "windowsize", window, str(WIDTH), str(HEIGHT))
        time.sleep(2)
        self.keys("mousemove", "600", "200", "click", "1")
        self.keys("key", "ctrl+F7")
        self.wait_for_text(lambda text: "waiting for user actions" in text)
        for place in CONTINUE:
            self.keys("mousemove", *place, "click", "1")
        return self.wait_for_text(lambda text: "Current frame" in text)

    def read_text(self):
        """The text that the panel shows: it is marked with the mouse."""
        corners = [str(TEXT_RIGHT), str(TEXT_BOTTOM)], [str(TEXT_LEFT), str(TEXT_TOP)]
        self.keys("mousemove", *corners[0], "mousedown", "1", "mousemove", "500", "600", "mousemove", *corners[1], "mouseup", "1")
        time.sleep(0.2)
        words = ["xclip", "-o", "-selection", "primary", "-t", "UTF8_STRING"]
        return subprocess.run(words, env=self.around, timeout=20, stdout=subprocess.PIPE, stderr=subprocess.DEVNULL).stdout.decode()

    def wait_for_text(self, holds, seconds=20):
        """The text, once something holds of it."""
        end = time.monotonic() + seconds
        while True:
            text = self.read_text()
            if holds(text):
                return text
            if time.monotonic() > end:
                raise ValueError("Kate shows no more than %r" % text)
            time.sleep(0.2)

    def tell(self, command, pattern):
        """Writes a command into the line: the text that follows it, once it has a pattern."""
        before = self.read_text()
        self.keys("mousemove", "600", str(LINE), "click", "1", "type", command)
        self.keys("key", "Return")

        def is_answered(text):
            said = text.rpartition(PROMPT)[2]
            return text != before and said.startswith(command + "\n") and re.search(pattern, said)

        return self.wait_for_text(is_answered).rpartition(PROMPT)[2]

    def picture(self, path):
        """Keeps a picture of the screen, where there is a tool that makes one."""
        if shutil.which("import"):
            subprocess.run(["import", "-window", "root", path], env=self.around, check=False, timeout=20)
