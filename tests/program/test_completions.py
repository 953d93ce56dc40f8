"""Tests completions: each test types lines into a shell, each followed by the tab key."""

import contextlib
import os
import pty
import re
import select
import shutil
import signal
import subprocess
import tempfile
import time

import pytest

from serving import ROOT, WAIT

TOOLS = os.path.join(ROOT, "tools")
COMPLETIONS = os.path.join(TOOLS, "completions")
# The completions run these tools to read their help.
PATH = f"{TOOLS}:{os.environ['PATH']}"
FILES = ["faults.script", "first.bench", "run.rec", "out.txt", "my faults.script", "logs/kept.rec"]
# The typed characters, and the characters that the tab key adds.
TYPED = [
    ("canbusd ben", "ch "),
    ("canbusd bit", "s "),
    ("canbusd help ser", "ve "),
    ("canbusd dum", "p "),
    ("canbusd help resta", "rt "),
    ("canbusd report ru", "n.rec "),
    ("canbusd dump --pcapng ou", "t.txt "),
    ("canbusd extcap --ins", "tall "),
    ("canbusd audit ru", "n.rec "),
    ("canbusd audit lo", "gs/"),
    ("canbusd audit --c", "ut "),
    ("canbusd audit --cut ru", "n.rec "),
    ("canbusd audit --cut logs/kept.rec ru", "n.rec "),
    ("canbusd audit --events --bitrate 500000 ru", "n.rec "),
    ("canbusd audit --faults can0,can1@fau", "lts.script "),
    ("canbusd audit --faults can0@faults.script ru", "n.rec "),
    ("canbusd bench --ack pe", "ers "),
    ("canbusd bench --ack=pe", "ers "),
    ("canbusd bench --ack=always --rep", "ort "),
    ("canbusd bench --record ru", "n.rec "),
    ("canbusd bench --record=ru", "n.rec "),
    ("canbusd bench --log ou", "t.txt "),
    ("canbusd bench --log=ou", "t.txt "),
    ("canbusd bench --str", "ict "),
    ("canbusd bench --sho", "w-faults "),
    ("canbusd serve --out=lo", "gs/"),
    ("canbusd serve --out lo", "gs/"),
    ("canbusd serve --until", "-eof "),
    ("canbusd serve --verb", "ose "),
    ("canbusd serve --auto-restart 5 --until", "-eof "),
    ("canbusd bench can0,can1@fau", "lts.script "),
    ("canbusd bench can0@logs/", "kept.rec "),
    ("canbusd serve can0@faults.script can1@my", "\\ faults.script "),
    ("canbusd bench can0,can1 < fir", "st.bench "),
    ("canbusd bench can0,can1 <fir", "st.bench "),
    ("canbusd bench can0@faults.script < first.bench > ou", "t.txt "),
    ("canbusd bench can0 >> ou", "t.txt "),
    ("canbusd bench can0 2> ou", "t.txt "),
    ("canbusd serve can0 >ou", "t.txt "),
    ("candump2bench ru", "n.rec "),
    ("candump2bench --lis", "ten "),
    ("canbusd bench --until", ""),
    ("canbusd serve --lo", ""),
    ("canbusd serve --str", ""),
]
# The beginning of an option that takes a value, and the rest of the option's name. Each shell adds its own separator
# after the name.
OPTIONS = [
    ("canbusd bench --lo", "g"),
    ("canbusd bench --rec", "ord"),
    ("canbusd bench --li", "mit"),
    ("canbusd bench --bitr", "ate"),
    ("canbusd bench --db", "itrate"),
    ("canbusd serve --lis", "ten"),
    ("canbusd serve --bitr", "ate"),
    ("canbusd serve --db", "itrate"),
    ("canbusd serve --auto-restart=5 --pa", "ce"),
    ("canbusd audit --bitr", "ate"),
    ("canbusd audit --db", "itrate"),
    ("canbusd audit --fau", "lts"),
    ("canbusd bits --bitr", "ate"),
    ("canbusd bits --db", "itrate"),
]


@contextlib.contextmanager
def folder_of_files():
    with tempfile.TemporaryDirectory() as folder:
        os.mkdir(os.path.join(folder, "logs"))
        for name in FILES:
            with open(os.path.join(folder, name), "w", encoding="ascii"):
                pass
        yield folder


class Shell:
    """A shell in a separate terminal. Ctrl-T shows the line that is being typed, and discards it."""

    def __init__(self, words, folder):
        try:
            self.child, self.terminal = pty.fork()
        except OSError as fault:
            pytest.skip(f"no terminal can be had, such as without /dev/pts: {fault}")
        if self.child == 0:
            os.chdir(folder)
            environment = {"PATH": PATH, "TERM": "dumb", "HOME": folder, "COLUMNS": "200", "LC_ALL": "C.UTF-8"}
            os.execvpe(words[0], words, environment)

    def until(self, pattern):
        """Waits until the terminal shows output that matches this pattern; returns the match."""
        end, text = time.monotonic() + WAIT, ""
        while time.monotonic() < end:
            if select.select([self.terminal], [], [], 0.1)[0]:
                text += os.read(self.terminal, 4096).decode("utf-8", "replace")
            found = re.search(pattern, text, re.S)
            if found:
                return found
        pytest.fail(f"no {pattern} in {text!r}")

    def write(self, text):
        os.write(self.terminal, text.encode())

    def completed(self, typed):
        """Types these characters and the tab key; returns the line after that."""
        self.write(typed + "\t\x14")
        return self.until("LINE\\[(.*?)\\]")[1].replace("\r\n", "")

    def close(self):
        os.kill(self.child, signal.SIGKILL)
        os.waitpid(self.child, 0)
        os.close(self.terminal)


def typed_with(sign):
    """Returns pairs of typed characters and the characters that the tab key adds, for a shell that puts this separator
    after an option."""
    return TYPED + [(typed, rest + sign) for typed, rest in OPTIONS]


def completes(words, sign, *commands):
    """Checks the completion of each line in a shell, after running commands that prepare the shell."""
    if not shutil.which(words[0]):
        pytest.skip(f"{words[0]} is not installed")
    with folder_of_files() as folder, contextlib.closing(Shell(words, folder)) as shell:
        for command in commands:
            shell.write(command + "\n")
        shell.write("echo rea''dy\n")
        shell.until("ready\r?\n")
        lines = typed_with(sign)
        for typed, wanted in lines:
            line = shell.completed(typed)
            assert line == typed + wanted, f"`{typed}` becomes `{line}`"


BASH_LINE = [
    "show_line() { printf 'LINE[%s]\\n' \"$READLINE_LINE\"; READLINE_LINE=; }",
    "bind -x '\"\\C-t\": show_line'",
]


def test_completion_in_bash():
    """Completion works in bash without further settings."""
    completes(["bash", "--norc", "--noprofile", "-i"], " ", f"source {COMPLETIONS}/canbusd.bash", *BASH_LINE)


def test_completion_in_bash_with_other_words():
    """Completion works in bash if neither `=` nor `@` separates words."""
    completes(
        ["bash", "--norc", "--noprofile", "-i"],
        " ",
        f"source {COMPLETIONS}/canbusd.bash",
        "COMP_WORDBREAKS=${COMP_WORDBREAKS//[=@]}",
        *BASH_LINE,
    )


def test_completion_in_zsh():
    """Completion works with the completion system of zsh, which finds the file by its name."""
    completes(
        ["zsh", "-f", "-i"],
        "=",
        "mkdir functions",
        f"cp {COMPLETIONS}/canbusd.zsh functions/_canbusd",
        "fpath=($PWD/functions $fpath)",
        "autoload -Uz compinit",
        "compinit -u -D",
        "unsetopt zle_bracketed_paste automenu autolist",
        'show-line() { zle -I; print -r -- "LINE[$BUFFER]"; BUFFER=; }',
        "zle -N show-line",
        "bindkey '^T' show-line",
        "bindkey '^I' complete-word",
    )


def test_completion_in_fish():
    """fish offers the right completions for each line."""
    if not shutil.which("fish"):
        pytest.skip("fish is not installed")
    with folder_of_files() as folder:
        lines = typed_with("")
        for typed, wanted in lines:
            done = subprocess.run(
                ["fish", "--no-config", "-c", f'source {COMPLETIONS}/canbusd.fish; complete --do-complete "{typed}"'],
                cwd=folder,
                env={**os.environ, "HOME": folder, "PATH": PATH},
                capture_output=True,
                text=True,
                timeout=60,
                check=False,
            )
            offers = [line.split("\t")[0] for line in done.stdout.splitlines()]
            word = re.split("[ <>]", typed)[-1] + wanted.rstrip(" ").replace("\\", "")
            assert offers == ([word] if wanted else []), f"`{typed}` is offered {offers} {done.stderr}"
