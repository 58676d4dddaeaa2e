"""A Linux kernel's client whose connections are cut again and again (`linux_client.py`, `cutting_proxy.py`)."""

import linux_client
from cutting_proxy import Proxy

PROGRAMS, PACKAGES = linux_client.PROGRAMS, linux_client.PACKAGES
CHECKS = ("mounts", "changes_through_cuts", "removes_all")
# How many files and directories are made, renamed and removed, and how many seconds a check may take.
SIZES = {"changes": 2000, "limit": 300}
# At least so many calls that are done once have to be cut off from their replies, so that something is tried.
FEWEST_LOST = 20


def names():
    return CHECKS


def try_server(server, folder):
    """Puts the client through its checks: how many passed, and what failed."""
    proxy = Proxy(server.port)
    passed, failures = linux_client.try_server(proxy, folder, CHECKS, SIZES)
    proxy.end()
    print(f"{proxy.cuts} connections cut, {proxy.lost} of them behind a call that is done once")
    if proxy.lost < FEWEST_LOST:
        failures.append(f"of {proxy.cuts} cuts {proxy.lost} come behind a call that is done once")
    return passed, failures
