"""Machines that can be cut off from all others: a namespace of the network for each, on a bridge. Root alone may make them."""

import os
import shutil
import subprocess
import unittest

# The machines' addresses. Two tests at a time have other ones.
NET = f"10.231.{os.getpid() % 250}"


def run(*words):
    subprocess.run(["ip", *words], check=True, capture_output=True)


def can_cut():
    """Whether namespaces can be made here."""
    if os.geteuid() != 0 or not shutil.which("ip"):
        return False
    name = f"wfx{os.getpid()}"
    try:
        run("netns", "add", name)
        run("link", "add", name, "type", "bridge")
        run("link", "del", name)
        run("netns", "del", name)
    except subprocess.CalledProcessError:
        return False
    return True


needs_network = unittest.skipUnless(can_cut(), "no namespaces of the network can be made here: as root, with iproute2")


class Machine:
    """What runs here has its own network, with one address."""

    def __init__(self, number):
        self.name, self.host = f"wf{os.getpid()}n{number}", f"{NET}.{number + 2}"
        self.words = ["ip", "netns", "exec", self.name]

    def cut(self):
        """Has nothing come from it or to it any more."""
        run("link", "set", self.name, "down")

    def mend(self):
        run("link", "set", self.name, "up")


class Network:
    """So many machines, and an address of this one that they know."""

    def __init__(self, count):
        self._bridge, self.host, self.machines = f"wfb{os.getpid()}", f"{NET}.1", []
        run("link", "add", self._bridge, "type", "bridge")
        run("addr", "add", f"{self.host}/24", "dev", self._bridge)
        run("link", "set", self._bridge, "up")
        for number in range(count):
            self.machines.append(self._machine(number))

    def _machine(self, number):
        machine = Machine(number)
        name, inside = machine.name, f"{machine.name}i"
        run("netns", "add", name)
        run("link", "add", name, "type", "veth", "peer", "name", inside)
        run("link", "set", inside, "netns", name)
        run("link", "set", name, "master", self._bridge)
        run("link", "set", name, "up")
        for words in (["addr", "add", f"{machine.host}/24", "dev", inside], ["link", "set", inside, "up"], ["link", "set", "lo", "up"]):
            run("-n", name, *words)
        return machine

    def close(self):
        for machine in self.machines:
            run("link", "del", machine.name)
            run("netns", "del", machine.name)
        run("link", "del", self._bridge)
