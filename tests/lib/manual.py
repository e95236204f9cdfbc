"""Whether manual pages and completions say what the programs take."""
import re
import shutil
import subprocess
import sys

from lib.counting import TOP

COMPLETIONS = TOP / "tools/completions"
# What bash completes after a word of mtrecover and a `--`.
IN_BASH = f'. "{COMPLETIONS}/mtrecover.bash"; COMP_WORDS=(mtrecover "$1" --) COMP_CWORD=2; _mtrecover; echo "${{COMPREPLY[@]}}"'


def lines_of(*words):
    ran = subprocess.run(words, capture_output=True, text=True, timeout=60)
    return (ran.stdout + ran.stderr).splitlines()


def options_of(*words):
    """Returns the options that a help lists."""
    return {found[1] for line in lines_of(*words, "--help") if (found := re.match(r" {2,6}(?:-\w, )?(--[a-z][\w-]*)", line))}


def options_named(page):
    """Returns the options that a page names."""
    text = re.sub(r"\\f[BIR]", "", page.read_text()).replace("\\-", "-")
    return set(re.findall(r"(?<![\w-])--[a-z][\w-]*", text))


def completed(command):
    """Returns the options of a command that each shell completes: bash as it does, zsh and fish as their files say."""
    of_zsh = re.search(rf"^            {command}\)\n(.*?);;", (COMPLETIONS / "_mtrecover").read_text(), flags=re.M | re.S)
    in_fish = (COMPLETIONS / "mtrecover.fish").read_text()
    return {
        "bash": set(lines_of("bash", "-c", IN_BASH, "-", command)[0].split()),
        "zsh": set(re.findall(r"'(--[\w-]+)=?\[", of_zsh[1] if of_zsh else "")),
        "fish": {"--" + name for name in re.findall(rf"from {command}' .*?-l (\S+)", in_fish)},
    }


def checks(programs):
    """Yields what is checked, each with what is wrong."""
    mtrecover = programs["mtrecover"]
    commands = {found[1] for line in lines_of(mtrecover, "--help") if (found := re.match(r"  ([a-z]\w*)  ", line))} - {"help"}
    taken = {f"mtrecover-{command}": options_of(mtrecover, command) for command in sorted(commands)}
    for command in sorted(commands):
        for shell, found in completed(command).items():
            yield f"{shell}, {command}, not the options of its help", sorted(found ^ taken[f"mtrecover-{command}"])
    others = {"mtdump": programs["mtdump"]} | {name: TOP / "tools" / name for name in ("mtdraw", "mtrecover-torture")}
    taken |= {name: options_of(path) for name, path in others.items()}
    known = set().union(*taken.values())
    pages = {page.stem: page for page in sorted((TOP / "man").iterdir())}
    yield "no page", sorted(taken.keys() - pages.keys())
    for name, page in pages.items():
        named = options_named(page)
        yield f"{page.name} lacks", sorted(taken.get(name, set()) - named)
        yield f"{page.name} names what no command takes", sorted(named - known)
        if shutil.which("groff"):
            yield f"{page.name}, groff", lines_of("groff", "-man", "-Tutf8", "-ww", "-z", page)
    yield "pages", lines_of(sys.executable, TOP / "tools/pages", "--check", mtrecover, programs["mtdump"])
