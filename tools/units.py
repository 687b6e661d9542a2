#!/usr/bin/env python3
"""The units for systemd that `make install` installs: `systemd-analyze verify` finds no fault in them, and the programs take the words of their
`ExecStart`. Units that are wrong must be found. Where there is no systemd this is not tried.

Usage: units.py BIN     BIN is the folder with `ocadev` and `ocapanel`

The last line is 'N passed, M failed'."""
import os
import re
import shutil
import subprocess
import sys
import tempfile
from pathlib import Path

from checks import Checks, Serving, free_port
from tables import TOP

UNITS = ("ocadev", "ocapanel")
# What is wrong with a unit in which the second of these stands in place of the first.
WRONG = [("bin/ocadev ", "bin/none "), ("Restart=on-failure", "Restart=of-failure"), ("[Service]", "[Servis]")]


def faults_of(folder, unit):
    """What systemd says of this text of a unit."""
    file = Path(folder, "tried.service")
    file.write_text(unit)
    run = subprocess.run(["systemd-analyze", "verify", "--man=no", file], capture_output=True, text=True, timeout=60)
    return "".join(line for line in run.stderr.splitlines(True) if "tried.service" in line) + f"status {run.returncode}" * (run.returncode != 0)


def verified(checks, folder, units):
    if shutil.which("systemd-analyze") is None:
        print("NOT TRIED: systemd is not installed")
        return
    for name, unit in units.items():
        checks.same(f"{name}.service: what systemd says of it", faults_of(folder, unit), "")
    for there, other in WRONG:
        checks.finds(" of ocadev.service", units["ocadev"], there, other, lambda unit: faults_of(folder, unit))


def begun(folder, unit):
    """The words that a unit starts, with what it sets and with these folders."""
    settings = dict(it.split("=", 1) for it in re.search(r"(?m)^Environment=(.*)$", unit)[1].split())
    settings |= {"OCADEV_PORT": "0", "OCAPANEL_LISTEN": "127.0.0.1:0", "OCAPANEL_DEVICE": f"127.0.0.1:{free_port()}"}
    line = re.search(r"(?m)^ExecStart=(.*)$", unit)[1].replace("%S", folder).replace("%d", folder)
    return re.sub(r"\$\{?(\w+)\}?", lambda it: settings[it[1]], line).replace("--port 65010", f"--port {free_port()}").split()


def main():
    checks = Checks(os.path.abspath(sys.argv[1]))
    with tempfile.TemporaryDirectory() as folder:
        os.symlink(checks.folder, f"{folder}/bin")
        units = {name: (TOP / f"systemd/{name}.service.in").read_text().replace("@PREFIX@", folder) for name in UNITS}
        verified(checks, folder, units)
        os.mkdir(f"{folder}/ocadev")
        Path(folder, "token").write_text("0123456789abcdef0123456789abcdef\n")
        for name, unit in units.items():
            with Serving(*begun(folder, unit)) as device:
                checks.same(f"{name}.service: what it starts listens", device.port > 0, True)
    return checks.verdict()


if __name__ == "__main__":
    sys.exit(main())
