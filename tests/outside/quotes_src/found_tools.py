"""The programs that speak to a software TPM, from PATH or as Debian's packages, and the variables that they run with."""
import glob
import os
import shutil
import subprocess

from packages import Packages

TOOLS = ["openssl", "swtpm", "tpm2_quote"]
PACKAGES = ["swtpm", "tpm2-tools"]


def environment(folder):
    """The variables that programs run with, and what couldn't be found."""
    found, missing = dict(os.environ), []
    if folder:
        packages = Packages(os.path.abspath(folder))
        missing += [f"the package {name}" for name in packages.fetch(PACKAGES)]
        # swtpm has libraries of its own in a folder of this name.
        own = glob.glob(f"{packages.root}/usr/lib/*/swtpm")
        found["PATH"] = f"{packages.root}/usr/bin:{found['PATH']}"
        found["LD_LIBRARY_PATH"] = ":".join([packages.libraries, *own])
    for tool in TOOLS:
        path = shutil.which(tool, path=found["PATH"])
        words = [path, "version" if tool == "openssl" else "--version"]
        if not path or subprocess.run(words, env=found, capture_output=True, check=False).returncode:
            missing.append(f"a working {tool}")
    return found, missing
