"""Debian's packages of what trials need beside the kit."""

import os
import shutil
import subprocess

INSTALL_SECONDS = 300


def install(packages):
    """Installs packages, as root where there is a packet manager; else, or where it fails,
    nothing comes of it."""
    if os.geteuid() != 0 or not shutil.which("apt-get"):
        return
    environment = dict(os.environ, DEBIAN_FRONTEND="noninteractive")
    for words in (["update", "-q"], ["install", "-q", "-y", "--no-install-recommends", *packages]):
        try:
            subprocess.run(
                ["apt-get", *words],
                env=environment,
                stdin=subprocess.DEVNULL,
                stdout=subprocess.DEVNULL,
                stderr=subprocess.DEVNULL,
                timeout=INSTALL_SECONDS,
            )
        except subprocess.TimeoutExpired:
            return
