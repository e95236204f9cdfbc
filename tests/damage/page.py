"""The commands of docs/RUNBOOK.md, and a shell that runs them beside the folders DIR and BACKUP."""
import os
import re
import subprocess

from lib.counting import TOP

# What the page calls a log that only seems torn, late updates, a log that was copied as text, a part that a gap needs, and no logs.
TORN, LATE, AS_TEXT, BROKEN, NO_LOGS = "1 log torn", "3 updates late", "was it copied as text?", "it is broken", "no logs"


def codes_in(cell):
    return re.findall(r"`([^`]+)`", cell)


def name_of(fault):
    """Returns `record`, or the last word of a fault: of a block's, `checksum`."""
    word = fault.split(": ")[-1]
    return "record" if ": record " in fault and word != "checksum" else word


def read_page():
    """Returns the page's first commands, how it moves a file away, and what it has for each fault, and for zeros at the end."""
    page, ways = (TOP / "docs/RUNBOOK.md").read_text(), {}
    for line in page.splitlines():
        if line.startswith(tuple("|`" + fault for fault in ("log ", TORN, LATE, AS_TEXT, BROKEN, NO_LOGS))):
            cells = re.findall(r"\|((?:`[^`]*`|[^|`])*)", line)
            ways["zeros" if "`zeros=`" in cells[0] else name_of(codes_in(cells[0])[0])] = codes_in(cells[2])
    move = re.search(r"To move F away, call `([^`]+)`", page)[1]
    return page.split("```\n")[1], move, ways


FIRST, MOVE, WAYS = read_page()


def shell(work, command):
    """Runs commands of the page, none of which may take long, or fill the disk. Returns the status, and what they said on standard
    error."""
    env = {**os.environ, "PATH": f"{work}/bin:{os.environ['PATH']}"}
    limited = f"ulimit -f 200000; {command}"
    ran = subprocess.run(["sh", "-c", limited], cwd=work, capture_output=True, text=True, env=env, timeout=60)
    return ran.returncode, ran.stderr


def lines_of(printed, name):
    """Returns the fields of the lines that begin with this one, up to a blank in one."""
    lines = [line for line in printed.decode().splitlines() if line.startswith(name + "=")]
    return [dict(re.findall(r"(\w+)=(\S*)", line)) for line in lines]
