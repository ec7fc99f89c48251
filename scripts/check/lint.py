"""What lintian says of the Debian packages."""

import os
import re
import shutil
import subprocess

from .harness import Skipped, same, within
from .packages import built


@within(300)
def lint(place):
    """lintian finds no error and no warning in the packages"""
    if not shutil.which("lintian"):
        raise Skipped("there is no lintian, of Debian's package lintian")
    folder = built(place)
    words = ["lintian", "--fail-on", "error,warning", *(os.path.join(folder, it) for it in sorted(os.listdir(folder)))]
    ran = subprocess.run(words, stdout=subprocess.PIPE, stderr=subprocess.STDOUT, text=True, timeout=290 * place.options.patience, check=False)
    same((ran.returncode, re.findall(r"^[EW]: .*$", ran.stdout, re.M)), (0, []), ran.stdout)
    return f"{len(os.listdir(folder))} packages"
