"""Calls moi_edit, the proved program."""

import os
import subprocess

BESIDE = os.path.join(os.path.dirname(os.path.dirname(os.path.abspath(__file__))), "moi_edit")


class Missing(Exception):
    """The program can't be started, or ended in no way of its own."""


class Program:
    """The program at a path: bin/moi_edit, which builds it where it is missing, unless another is named."""

    def __init__(self, path=None):
        self.path = path or os.environ.get("MOI_EDIT") or BESIDE

    def answer(self, arguments, script=b""):
        """The lines that the program prints for these arguments and this script, and its exit status."""
        try:
            done = subprocess.run([self.path, *arguments], input=script, stdout=subprocess.PIPE, check=False)
        except OSError as fault:
            raise Missing(f"{self.path} can't be started: {fault.strerror}") from fault
        if not 0 <= done.returncode <= 6:
            raise Missing(f"{self.path} ended with status {done.returncode}, which is none of moi_edit's")
        return done.stdout.decode("utf-8", "replace").split("\n")[:-1], done.returncode
