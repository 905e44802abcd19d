"""README's commands and programs, done as a reader would, and what it says they print: the program on its own sheet and on a typed one, then, in a
folder of one's own, the programs in other languages. The gate (`rt ci`) is left to .ci/run: readme.py FOLDER"""
import os
import re
import subprocess
import sys
from pathlib import Path

ROOT = Path(__file__).resolve().parent.parent
FOLDER = Path(sys.argv[1]).resolve()


def blocks(title):
    text = (ROOT / "README.md").read_text()
    return re.findall(r"^```(\w*)\n(.*?)^```$", text[text.index(title) :].split("\n## ")[0], re.M | re.S)


def script():
    """The commands and files in the order of the page, and what they print; the commands up to the installation are the repository's."""
    lines, printed = [f"cd '{ROOT}'"], []
    for language, block in blocks("## Two commands") + blocks("## From C, C++, Rust and Python"):
        if language == "sh":
            lines += [line for line in block.splitlines() if not line.startswith("rt ci")]
            if "./install.sh" in block:
                lines += [f"cd '{FOLDER}'"]
        elif language:
            name = re.match(r"(?:/\*|//|#) ([\w./]+)", block).group(1)
            lines += [f"cat > {name} <<'END OF FILE'", block.rstrip("\n"), "END OF FILE"]
        else:
            printed += block.splitlines()
    return "\n".join(lines), printed


commands, expected = script()
commands = commands.replace("$HOME/taxolbin", f"{FOLDER}/prefix")
run = subprocess.run(["sh", "-ec", commands], stdout=subprocess.PIPE, text=True, check=False, env={**os.environ, "PKG_CONFIG_PATH": ""})
got = [line for line in run.stdout.splitlines() if not line.startswith("installed ")]
print("\n".join(got))
sys.exit(0 if run.returncode == 0 and got == expected and len(expected) == 14 else f"ended with {run.returncode}; README says: {expected}")
