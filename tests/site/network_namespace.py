"""A network of its own for a process, if the system allows one: only loopback, and no other programs."""

import fcntl
import os
import socket
import struct
import subprocess
import sys

WAYS = (["unshare", "--user", "--map-root-user", "--net"], ["unshare", "--net"])
SET_FLAGS, UP_AND_RUNNING = 0x8914, 0x41
MARK = "IS_IN_A_NETWORK_OF_ITS_OWN"


def way():
    """Returns the words before a command that give it such a network; none if none can be made."""
    for words in WAYS:
        try:
            done = subprocess.run([*words, "true"], stderr=subprocess.DEVNULL, check=False)
        except FileNotFoundError:
            return []
        if done.returncode == 0:
            return words
    return []


def enter(*more):
    """Begins this script anew in such a network, once. The words in front of it may have more with them."""
    words = [] if os.environ.get(MARK) else way()
    if words:
        os.environ[MARK] = "yes"
        os.execvp(words[0], [*words, *more, sys.executable, *sys.argv])
    if os.environ.get(MARK):
        bring_up()


def bring_up():
    """Makes loopback work in the network."""
    with socket.socket(socket.AF_INET, socket.SOCK_DGRAM) as any_socket:
        fcntl.ioctl(any_socket, SET_FLAGS, struct.pack("16sH14x", b"lo", UP_AND_RUNNING))
