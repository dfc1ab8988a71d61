"""Debian's packages, unpacked in a folder and not installed: rustc, and for its targets compilers and emulators."""
import os
import re
import subprocess

HOST = "x86_64-unknown-linux-gnu"
# For each target Debian's name of the architecture, the prefix of its tools, and qemu's name of it.
TARGETS = {
    HOST: (None, None, None),
    "aarch64-unknown-linux-gnu": ("arm64", "aarch64-linux-gnu", "aarch64"),
    "s390x-unknown-linux-gnu": ("s390x", "s390x-linux-gnu", "s390x"),
    "i686-unknown-linux-gnu": ("i386", "i686-linux-gnu", None),
}
# rustc with the source of its libraries, and what runs programs of other processors.
ALWAYS = ["rustc-web", "rust-web-src", "qemu-user-static"]
# What the machine has to have, with what it depends on. That isn't unpacked.
OF_MACHINE = ["gcc", "libc6-dev"]


def tools_of(target):
    """Returns the packages with the compiler and the library of C for a target, if it isn't the machine's own."""
    architecture, prefix, _ = TARGETS[target]
    return [f"gcc-{prefix}", f"libc6-dev-{architecture}-cross"] if prefix else []


class Packages:
    """Debian's packages in the versions that apt-get offers, unpacked in a folder, by lists of their own."""

    def __init__(self, room):
        self.room, self.root = room, f"{room}/root"
        self.libraries = ":".join(f"{self.root}/{it}/x86_64-linux-gnu" for it in ("usr/lib", "lib"))
        self.source = f"{self.root}/usr/lib/rustlib/src/rust/library"
        for folder in ("lists/partial", "cache/archives/partial", "packages", "root"):
            os.makedirs(f"{room}/{folder}", exist_ok=True)
        self.apt = ["apt-get", "-q", "-o", f"Dir::State::lists={room}/lists", "-o", f"Dir::Cache={room}/cache"]
        if os.listdir(f"{room}/lists") == ["partial"]:
            subprocess.run([*self.apt, "-q", "update"], check=False)
        self.of_machine = self.closure(*OF_MACHINE)

    def closure(self, *names):
        """Returns packages and those that they depend on, each with its version."""
        words = ["-o", "Dir::State::status=/dev/null", "--no-install-recommends", "--simulate", "install", *names]
        ran = subprocess.run([*self.apt, *words], capture_output=True, text=True, check=False)
        return dict(re.findall(r"^Inst (\S+) \((\S+)", ran.stdout, re.M)) if ran.returncode == 0 else {}

    def has(self, name):
        """Whether a package is unpacked, with those that it depends on. What was unpacked before may be in use, and stays."""
        folder = f"{self.room}/packages/{name}"
        mark = f"{folder}.unpacked"
        if not os.path.exists(mark):
            os.makedirs(folder, exist_ok=True)
            needed = [f"{it}={version}" for it, version in self.closure(name).items() if it not in self.of_machine]
            ran = subprocess.run([*self.apt, "download", *needed], cwd=folder, capture_output=True, check=False)
            if not needed or ran.returncode:
                return False
            for file in os.listdir(folder):
                subprocess.run(["dpkg", "-x", f"{folder}/{file}", self.root], check=True)
            open(mark, "w", encoding="ascii").close()
        return True

    def fetch(self, names):
        """Fetches and unpacks packages with those that they depend on, and returns those that it couldn't fetch."""
        return [name for name in names if not self.has(name)]

    def compiler(self):
        """Returns a script that runs the unpacked rustc."""
        path, libraries = f"{self.room}/rustc", self.libraries
        with open(path, "w", encoding="ascii") as file:
            file.write(f'#!/bin/sh\nLD_LIBRARY_PATH={libraries} exec {self.root}/usr/bin/rustc "$@"\n')
        os.chmod(path, 0o755)
        return path
