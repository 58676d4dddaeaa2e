"""A Linux kernel's client whose root isn't root at the server (`linux_client.py`)."""

import linux_client

PROGRAMS, PACKAGES = linux_client.PROGRAMS, linux_client.PACKAGES
OPTIONS = ("--squash", "root")
CHECKS = ("mounts", "root_is_nobody_there")


def names():
    return CHECKS


def try_server(server, folder):
    """Puts the client through its checks: how many passed, and what failed."""
    return linux_client.try_server(server, folder, CHECKS)
