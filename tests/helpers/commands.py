"""The commands of a document, with what it says that they print."""
import os
import re
import subprocess

from . import SECONDS, TOP


def of_section(name: str, heading: str) -> list[tuple[str, int, str]]:
    """Returns each command of a section's blocks with the status in the comment after it, and the output below it. A line that ends with a
    backslash goes on in the next one."""
    with open(os.path.join(TOP, "docs", name), encoding="utf-8") as file:
        section = file.read().split(f"\n## {heading}\n")[1].split("\n## ")[0]
    found: list[tuple[str, int, str]] = []
    for block in re.findall(r"^ *```\n(.*?)^ *```$", section, re.DOTALL | re.MULTILINE):
        for each in re.split(r"^ *\$ ", block, flags=re.MULTILINE)[1:]:
            command, _, output = re.sub(r"\\\n\s*", "", each).partition("\n")
            status = re.search(r" # status (\d+)", command)
            found.append((command, int(status[1]) if status else 0, output))
    return found


def checkout(place: str, program: str):
    """Fills a folder with links, so that a command of a document runs in it as at the top of the repository, and measures with a program."""
    for name in os.listdir(TOP):
        if name not in ("rim", ".git"):
            os.symlink(os.path.join(TOP, name), os.path.join(place, name))
    os.symlink(program, os.path.join(place, "rim"))


def run_in(place: str, command: str, program: str, **environment: str) -> tuple[int, str]:
    """Runs a command by bash, and returns its status and what it printed on both outputs."""
    ran = subprocess.run(["bash", "-c", command], cwd=place, stdout=subprocess.PIPE, stderr=subprocess.STDOUT, text=True, timeout=SECONDS,
                         stdin=subprocess.DEVNULL, env=os.environ | {"RIM": program} | environment, check=False)
    return ran.returncode, ran.stdout
