#!/usr/bin/env python3
"""Requests over loopback, in turns with bare loops, the medians of some runs.

Usage: sockets.py BIN [REQUESTS] [ROUNDS]     BIN is the folder with `ocadev` and `ocactl`

servers: requests a second and a processor second of `ocadev serve`, beside a bare loop of receive and send in C
(`echo.c`); `load.c` asks. clients: commands a second that `ocactl run` has answered by `ocadev serve`, beside a bare
client in C (`load.c`), one at a time and with 16 under way; its time has the program's start and end in it."""
import os
import statistics
import subprocess
import sys
import tempfile
import time
from pathlib import Path

HERE = Path(__file__).resolve().parent
sys.path.insert(0, str(HERE.parent / "tools"))
from checks import Serving

FOREVER = "4000000000"
LINE = "4097 4 1 0 -\n"


class Server(Serving):
    """A server, and the processor time that it took until it was stopped."""

    def stop(self):
        self.process.kill()
        used = os.wait4(self.process.pid, 0)[2]
        self.process.returncode = 0
        self.process.stderr.close()
        return used.ru_utime + used.ru_stime


def served(words, load, requests, outstanding):
    """The seconds that the requests took, and the processor seconds of the server; None where a datagram was lost."""
    server = Server(*words)
    took = subprocess.run([load, str(server.port), str(requests), str(outstanding)], capture_output=True, text=True)
    used = server.stop()
    return (float(took.stdout), used) if took.returncode == 0 else None


def asked(server, words, lines):
    """The seconds that a client takes from its start to its end, or None where it failed."""
    start = time.monotonic()
    with open(lines) as script:
        run = subprocess.run(words, stdin=script, stdout=subprocess.DEVNULL, stderr=subprocess.DEVNULL, timeout=600)
    return time.monotonic() - start if run.returncode == 0 else None


def medians(runs):
    """The medians of the values of the runs that went well."""
    return [statistics.median(values) for values in zip(*(run for run in runs if run))]


def servers(folder, echo, load, requests, rounds):
    print("servers       outstanding  requests/s  bare loop  requests/processor-s  bare loop  ratio  goal: 0.92")
    for outstanding in (1, 16):
        device, bare = [], []
        for _ in range(rounds):
            device.append(served([f"{folder}/ocadev", "serve", "--port", "0", "--turns", FOREVER], load, requests,
                                 outstanding))
            bare.append(served([echo, FOREVER], load, requests, outstanding))
        lost = device.count(None) + bare.count(None)
        (a, a_used), (b, b_used) = medians(device), medians(bare)
        print(f"ocadev serve  {outstanding:11}  {requests / a:10.0f}  {requests / b:9.0f}  {requests / a_used:20.0f}  "
              f"{requests / b_used:9.0f}  {b_used / a_used:5.3f}" + (f"  ({lost} runs lost a datagram)" if lost
                                                                     else ""), flush=True)


def clients(folder, load, work, requests, rounds):
    print("clients       under way    commands/s  bare client  ratio  goal: 0.6      microseconds a command")
    for ahead in (1, 16):
        server = Server(f"{folder}/ocadev", "serve", "--port", "0", "--turns", FOREVER)
        words = [f"{folder}/ocactl", "run", "--device", f"127.0.0.1:{server.port}", "--first-handle"]
        more = ["--ahead", "16"] if ahead > 1 else []
        lines, first, own, bare = f"{work}/lines", 1, [], []

        def run(count):
            nonlocal first
            with open(lines, "w") as script:
                script.write(LINE * count)
            first += count
            took = asked(server, words + [str(first - count)] + more, lines)
            return took and (took / count,)

        begun = run(100)  # a client that sleeps between commands is asked for fewer of them
        count = requests if begun and begun[0] < 0.001 else 100
        for _ in range(rounds if begun else 0):
            own.append(run(count))
            took = subprocess.run([load, str(server.port), str(requests), str(ahead)], capture_output=True, text=True)
            bare.append((float(took.stdout) / requests,) if took.returncode == 0 else None)
        server.stop()
        if not any(own) or not any(bare):
            print(f"ocactl run    {ahead:9}    failed")
            continue
        (a,), (b,) = medians(own), medians(bare)
        print(f"ocactl run    {ahead:9}    {1 / a:10.0f}  {1 / b:11.0f}  {b / a:5.3f}  {1e6 * a:37.1f}", flush=True)


def main():
    folder = os.path.abspath(sys.argv[1])
    requests = int(sys.argv[2]) if len(sys.argv) > 2 else 50000
    rounds = int(sys.argv[3]) if len(sys.argv) > 3 else 7
    with tempfile.TemporaryDirectory() as made:
        echo, load = (os.path.join(made, name) for name in ("echo", "load"))
        for program in (echo, load):
            subprocess.run(["gcc", "-O2", "-o", program, HERE / f"{os.path.basename(program)}.c"], check=True)
        servers(folder, echo, load, requests, rounds)
        clients(folder, load, made, requests, rounds)


if __name__ == "__main__":
    main()
