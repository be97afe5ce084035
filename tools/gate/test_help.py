"""What --help says of options is so, and the manual pages and the completions have the same options.

bash is asked for completions. The file for zsh must have the same commands, and zsh must parse it.
"""
import os
import re
import shlex
import shutil
import subprocess
from pathlib import Path

import pytest

from lldpa import __version__

TOP = Path(__file__).resolve().parents[2]
PROGRAM = Path(os.environ.get("LLDPA") or TOP / "crates/lldpa/out/lldpa")
IN_BASH, IN_ZSH = TOP / "share/bash-completion/lldpa", TOP / "share/zsh/_lldpa"
LIBRARY = Path("/usr/share/bash-completion/bash_completion")
NATIVE = ("lldpa-live", "lldpa-ctl", "lldpctl")
PROGRAMS = ("lldpa", *NATIVE, "lldpa-audit", "lldpa-capture")
COMMANDS = {"lldpa-ctl": r"^  ([a-z]+) ", "lldpctl": r"^  (show|watch|configure|update)\b"}
# A bash script that prints the completions of the first word after a program's name.
COMPLETE = f"""
. {LIBRARY}
. {shlex.quote(str(IN_BASH))}
lldpa() {{ {shlex.quote(str(PROGRAM))} "$@"; }}
COMP_WORDS=("$@") COMP_CWORD=1 COMP_LINE="$*" COMP_POINT=${{#COMP_LINE}}
call=$(complete -p "$1" | sed 's/.*-F \\([^ ]*\\).*/\\1/')
"$call" "$1" "$2" "$1" 2> /dev/null
printf '%s\\n' "${{COMPREPLY[@]}}"
"""
NUMBERS_OF_THE_AGENT = (("--max-neighbors", 128, 32), ("--tx-credit-max", 10, 5), ("--tx-fast-init", 8, 4),
                        ("--reinit-delay", 10, 2))
# Programs, options, values that each takes and refuses, and what --help says of them. An argument that a program
# needs is missing in each run, so a value is taken if the program says the same as without the option.
VALUES = [
    *((program, option, ["1", str(most)], ["0", str(most + 1), "x"], f"1 to {most} [default: {default}]")
      for program in ("lldpa", "lldpa-model")
      for option, most, default in (*NUMBERS_OF_THE_AGENT, ("--connections", 65535, 1))),
    *(("lldpa-live", f"-- {option}", ["1", str(most)], ["0", str(most + 1), "x"], "")
      for option, most, _ in NUMBERS_OF_THE_AGENT),
    ("lldpa", "--mac", ["02:00:00:00:00:01"], ["02:00"], "[default: 02:00:00:00:00:01]"),
    ("lldpa", "--hostname", ["", "a" * 255], [], "up to 255 octets [default: localhost]"),
    ("lldpa", "--management", ["0.0.255.255"], ["192.0.2", "192.0.2.256"], "Management address"),
    ("lldpa", "--role", ["station", "bridge", "router"], ["switch"], "station, bridge or router [default: station]"),
    ("lldpa", "--listen", ["1", "65535"], ["0", "65536"], "this port of 127.0.0.1"),
    ("lldpa-ctl", "record --most", ["1", "1000000"], ["0", "1000001"], "megabytes of a file (default 64)"),
    ("lldpa-ctl", "record --keep", ["1", "1000000"], ["0", "1000001"], "megabytes of all files (default 1024)"),
    ("lldpa-live", "--once", ["1", "86400"], ["0", "86401"], "at most N seconds"),
    ("lldpa-live", "--management-pattern", ["192.0.2.*,!172.17.*"], ["eth*"], "as '192.0.2.*,!172.17.*'; '!' excludes"),
    ("lldpa-live", "--control", ["/nowhere"], [], "(default /run/lldpa/control)"),
    ("lldpa-live", "--user", [], [], "(default _lldpa if there is such a user, else nobody)"),
    ("lldpa-ctl", "--control", [], [], "(default /run/lldpa/control)"),
    ("lldpctl", "-u", [], [], "(default /run/lldpa/control)"),
    *(("lldpa-live", option, [], ["1"], "")
      for option in ("--no-domain", "-- --listen", "-- --connections", "-- --help", "-- --version")),
    ("lldpa-audit", "--stale-after", ["90", "15m", "12h", "1d"], ["1w", "-1"], "TIME: 90 (seconds), 15m, 12h, 1d"),
    ("lldpa-audit", "--wait", ["90", "15m", "12h", "1d"], ["1w", "-1"], "with --live, wait up to TIME"),
    ("lldpa-audit", "--columns", ["host=device,port=interface,peer=to,peer_port=to_port"], ["a=b"],
     "as host=device,port=interface,peer=to,peer_port=to_port"),
    ("lldpa-audit", "--host", ["leaf1"], [], "(default: the system's name)"),
    ("lldpa-capture", "--port", ["eth0", "swp1=eth0"], [], "(default: the interface's name in a pcapng file, or eth0)"),
]


def ran(program: str, *words: str) -> "subprocess.CompletedProcess[str]":
    if program in NATIVE and not (TOP / "rust/live/out" / program).exists():
        pytest.skip(f"cargo: {program}, which tools/release/live.sh builds")
    path = PROGRAM if program == "lldpa" else TOP / "bin" / program
    return subprocess.run([path, *words], stdin=subprocess.DEVNULL, capture_output=True, text=True, timeout=60)


def help_of(program: str) -> str:
    return ran(program, "--help").stdout


def options_of(program: str) -> "set[str]":
    return set(re.findall(r"^  +(?:-\w, )?(--[a-z-]+)", help_of(program), re.M))


def commands_of(program: str) -> "set[str]":
    return set(re.findall(COMMANDS[program], help_of(program).partition("ommands")[2], re.M))


def offered(program: str, begun: str) -> "set[str]":
    """Returns what bash offers for a first argument that begins like this."""
    path = f"{TOP / 'bin'}{os.pathsep}{os.environ['PATH']}"
    told = subprocess.run(["bash", "-c", COMPLETE, "bash", program, begun], env={**os.environ, "PATH": path},
                          stdout=subprocess.PIPE, text=True, check=True)
    return set(told.stdout.split())


@pytest.mark.parametrize("program,option,taken,refused,text", VALUES, ids=[f"{row[0]} {row[1]}" for row in VALUES])
def test_values(program, option, taken, refused, text):
    *before, name = option.split()
    said = re.search(rf"^  +{name}\b(.*?)(?=^  +-|^\S|\Z)", help_of(program), re.M | re.S)
    assert text in re.sub(r"\s+", " ", said[1] if said else "")
    if not taken + refused:
        return
    without = ran(program, *before)
    assert without.returncode == 2 and without.stderr
    for value in taken:
        assert ran(program, *before, f"{name}={value}").stderr == without.stderr, value
    for value in refused:
        told = ran(program, *before, f"{name}={value}")
        assert told.returncode == 2 and told.stderr not in ("", without.stderr), value


@pytest.mark.parametrize("program", PROGRAMS)
def test_version(program):
    for option in re.search(r"(-\w), (--version)", help_of(program)).groups():
        assert ran(program, option).stdout == f"{program} {__version__}\n"


@pytest.mark.parametrize("program", PROGRAMS)
def test_manual_page(program):
    """The manual page lists each option."""
    pages = [*TOP.glob(f"man/{program}.[1-8]"), *TOP.glob(f"audit/{program}.1")]
    items = "\n".join(re.findall(r"^\.It .*", "\n".join(page.read_text() for page in pages), re.M)).replace("\\-", "-")
    options = options_of(program)
    assert options and {one for one in options if not re.search(rf" {one[1:]}(?![\w-])", items)} == set()


@pytest.mark.skipif(not LIBRARY.exists(), reason="bash-completion: completions for bash")
@pytest.mark.parametrize("program", PROGRAMS)
def test_bash(program):
    assert offered(program, "--") >= options_of(program)
    if program in COMMANDS:
        assert offered(program, "") == commands_of(program) | set(os.listdir("/sys/class/net"))


@pytest.mark.parametrize("program", COMMANDS)
def test_zsh(program):
    found = re.search(rf"^    1{program}\) commands=\((.*)\)", IN_ZSH.read_text(), re.M)
    assert found and set(found[1].split()) == commands_of(program)


@pytest.mark.skipif(not shutil.which("zsh"), reason="zsh: whether it reads its file")
def test_zsh_reads_its_file():
    subprocess.run(["zsh", "-n", IN_ZSH], check=True)
