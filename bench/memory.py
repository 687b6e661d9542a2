#!/usr/bin/env python3
"""Bytes of memory that `ocadev replay` and `ocactl replay` ask for in all, by size, over an empty script (valgrind).

Usage: memory.py BIN     BIN is the folder with the two programs

The last column says what is more than in the row of the least size, for how many commands, peers or objects."""
import re
import subprocess
import sys


def asked_for(words):
    """The bytes, or None where the program does not know the words."""
    run = subprocess.run(["valgrind", *words], stdin=subprocess.DEVNULL, stdout=subprocess.DEVNULL,
                         stderr=subprocess.PIPE, text=True)
    found = re.search(r"total heap usage: .*?([\d,]+) bytes allocated", run.stderr)
    return int(found[1].replace(",", "")) if found and run.returncode == 0 else None


def row(name, bytes_, least, count, of_what):
    if bytes_ is None:
        print(f"{name:38}           -")
        return
    more = f"  {(bytes_ - least) / count:9.0f} bytes more for each of {count} more {of_what}" if count else ""
    print(f"{name:38} {bytes_:11,}{more}", flush=True)


def main():
    device, link = [f"{sys.argv[1]}/ocadev", "replay"], [f"{sys.argv[1]}/ocactl", "replay", "--device", "127.0.0.1:1",
                                                         "--first-handle", "1"]
    print("what                                         bytes")
    least = asked_for([*device, "--window", "1"])
    row("device, window 1, 16 peers", least, least, 0, "")
    row("device, window 64, 16 peers", asked_for([*device, "--window", "64"]), least, 63 * 16, "commands kept")
    row("device, window 32, 16 peers (as it is)", asked_for(device), least, 0, "")
    fewest = asked_for([*device, "--window", "32", "--peers", "1"])
    row("device, window 32, 1 peer", fewest, fewest, 0, "")
    row("device, window 32, 64 peers", asked_for([*device, "--peers", "64"]), fewest, 63, "peers")
    row("device, 1,000 channels", asked_for([*device, "--channels", "1000"]), asked_for(device), 4000, "objects")
    least = asked_for([*link, "--span", "1"])
    row("link, span 1", least, least, 0, "")
    row("link, span 32", asked_for([*link, "--span", "32"]), least, 31, "commands under way")


if __name__ == "__main__":
    main()
