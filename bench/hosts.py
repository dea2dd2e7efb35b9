#!/usr/bin/env python3
"""Audits a store by four hosts with a worker each, a network with a delay between them: hosts.py STORE [--delay 1] [--lose]

The hosts are network namespaces of this machine. Each has a device whose packets go through this program, which hands each
on after the delay, in milliseconds. With --lose a host is gone for good as soon as some parts are done: no packet of it
or to it is handed on any more. Prints what the run says, and whether each tile stands in the results once. Wants root and
iproute2. The modules libmvt and mvt_tools have to be found (PYTHONPATH)."""

import argparse
import ctypes
import fcntl
import heapq
import json
import os
import select
import sqlite3
import struct
import subprocess
import sys
import tempfile
import threading
import time
from pathlib import Path

HOSTS = 4
NETWORK = "10.77.0"
# Of the device in this program's own namespace, where the scheduler and the client are.
HERE = 254
TUNSETIFF, IFF_TUN, IFF_NO_PI, CLONE_NEWNET = 0x400454CA, 0x0001, 0x1000, 0x40000000
LIBC = ctypes.CDLL(None, use_errno=True)
# A scheduler takes a worker for lost when it said nothing for so long.
LOST_AFTER = "15s"


def ran(*words):
    subprocess.run(words, check=True)


def enter(path):
    """Has this thread be in a network namespace."""
    with open(path) as file:
        if LIBC.setns(file.fileno(), CLONE_NEWNET):
            raise OSError(ctypes.get_errno(), f"{path}: {os.strerror(ctypes.get_errno())}")


def device(name):
    """A device of the namespace that this thread is in, as a file of packets."""
    file = os.open("/dev/net/tun", os.O_RDWR)
    fcntl.ioctl(file, TUNSETIFF, struct.pack("16sH", name.encode(), IFF_TUN | IFF_NO_PI))
    return file


class Network:
    """Hands packets from device to device, each after the delay."""

    def __init__(self, delay):
        self.delay, self.lost, self.devices = delay, set(), {}
        self.names = [f"mvt-host-{number}" for number in range(1, HOSTS + 1)]
        home = f"/proc/{os.getpid()}/ns/net"
        with open(home) as kept:
            for number, name in enumerate(self.names, 1):
                ran("ip", "netns", "add", name)
                enter(f"/var/run/netns/{name}")
                self.devices[number] = device("net0")
                if LIBC.setns(kept.fileno(), CLONE_NEWNET):
                    raise OSError("can't come back")
                inside = ["ip", "netns", "exec", name, "ip"]
                ran(*inside, "addr", "add", f"{NETWORK}.{number}/24", "dev", "net0")
                ran(*inside, "link", "set", "net0", "up")
                ran(*inside, "link", "set", "lo", "up")
        self.devices[HERE] = device("mvt-net0")
        ran("ip", "addr", "add", f"{NETWORK}.{HERE}/24", "dev", "mvt-net0")
        ran("ip", "link", "set", "mvt-net0", "up")
        threading.Thread(target=self.hand_on, daemon=True).start()

    def hand_on(self):
        senders = {file: number for number, file in self.devices.items()}
        waiting, count = [], 0
        while True:
            left = max(0, waiting[0][0] - time.monotonic()) if waiting else None
            for file in select.select(senders, [], [], left)[0]:
                packet = os.read(file, 65536)
                if len(packet) >= 20 and packet[0] >> 4 == 4 and packet[19] in self.devices:
                    if not {senders[file], packet[19]} & self.lost:
                        count += 1
                        heapq.heappush(waiting, (time.monotonic() + self.delay, count, packet[19], packet))
            while waiting and waiting[0][0] <= time.monotonic():
                _, _, to, packet = heapq.heappop(waiting)
                os.write(self.devices[to], packet)

    def close(self):
        for name in self.names:
            subprocess.run(["ip", "netns", "del", name], check=False)


def main():
    words = argparse.ArgumentParser(description=__doc__.split("\n\n", maxsplit=1)[0])
    words.add_argument("store")
    words.add_argument("--delay", type=float, default=1)
    words.add_argument("--lose", action="store_true")
    given = words.parse_args()
    network, programs = Network(given.delay / 1000), []
    env = dict(os.environ, DASK_DISTRIBUTED__SCHEDULER__WORKER_TTL=LOST_AFTER, DASK_LOGGING__DISTRIBUTED="critical")
    quiet = {"stdout": subprocess.DEVNULL, "stderr": subprocess.DEVNULL, "env": env}
    address = f"tcp://{NETWORK}.{HERE}:8786"
    try:
        scheduler = [
            sys.executable,
            "-m",
            "distributed.cli.dask_scheduler",
            "--no-dashboard",
            "--host",
            f"{NETWORK}.{HERE}",
        ]
        programs.append(subprocess.Popen(scheduler, **quiet))
        time.sleep(3)
        for number, name in enumerate(network.names, 1):
            worker = [
                sys.executable,
                "-m",
                "distributed.cli.dask_worker",
                address,
                "--nthreads",
                "1",
                "--no-nanny",
                "--no-dashboard",
            ]
            programs.append(
                subprocess.Popen(["ip", "netns", "exec", name, *worker, "--host", f"{NETWORK}.{number}"], **quiet)
            )
        time.sleep(6)
        with tempfile.TemporaryDirectory() as room:
            audited(given, network, address, room, env)
    finally:
        for program in programs:
            program.kill()
        network.close()


def audited(given, network, address, room, env):
    command = [sys.executable, "-m", "mvt_tools.audit", given.store, "--into", room, "--scheduler", address, "--json"]
    run = subprocess.Popen(command, stdout=subprocess.PIPE, env=env)
    while given.lose and run.poll() is None and not network.lost:
        time.sleep(0.05)
        try:
            with sqlite3.connect(f"file:{Path(room, 'audit.sqlite')}?mode=ro", uri=True) as database:
                done = database.execute("select count(*) from parts").fetchone()[0]
        except sqlite3.Error:
            continue
        if done >= 10:
            network.lost = {HOSTS}
            print(f"host {HOSTS} is gone, after {done} parts")
    found = json.loads(run.communicate()[0])
    with sqlite3.connect(Path(room, "audit.sqlite")) as database:
        rows, places = database.execute(
            "select count(*), count(distinct (z << 50) | (x << 25) | y) from tiles"
        ).fetchone()
    print(
        f"{HOSTS} hosts, {given.delay:g} ms: {found['tiles']:,} tiles in {found['seconds']['work']} s, {found['tiles_a_second']:,} a second,"
        f" the client {1e6 * found['seconds']['client'] / found['tiles']:.1f} µs a tile; status {run.returncode}, unfinished {len(found['unfinished'])}, {rows:,} rows of {places:,} places"
    )


main()
