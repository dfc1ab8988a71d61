"""A root of Debian 13 by debootstrap, whose cargo and rustc are the oldest that compile the packages."""
import os
import shutil
import subprocess

import rustc
from listings import TOP
from telling import tells

SUITE = "trixie"
PACKAGES = ["cargo", "rustc", "gcc", "libc6-dev"]
# Where the root has a copy of rust/, and what cargo makes.
COPY, MADE = "/ralimovus", "/made"
# What is run there, in the folder rust/. The test of refused allocations reads golden cases, by python3.
RUNS = [
    ("the tests of the library pass", ["cargo", "test"]),
    ("the tests of the programs pass", ["cargo", "test", "--package", "uefi-tools", "--lib", "--test", "programs"]),
    ("the programs are installed", ["cargo", "install", "--path", "programs", "--root", f"{MADE}/installed"]),
    ("the C interface builds", ["cargo", "build", "--manifest-path", "capi/Cargo.toml"]),
]


def lacking():
    """Returns why no root can be made, if none can."""
    if not shutil.which("debootstrap"):
        return "debootstrap isn't installed"
    return "only the user root can make one" if os.geteuid() else None


def root_in(room, packages=PACKAGES):
    """Makes the root with packages in a folder, unless it is there. Returns it, or None if that fails."""
    root = f"{room}/debian"
    if not os.path.exists(f"{root}.made"):
        shutil.rmtree(root, ignore_errors=True)
        words = ["debootstrap", "--variant=minbase", f"--include={','.join(packages)}", SUITE, root]
        if subprocess.run(words, stdout=subprocess.DEVNULL, check=False).returncode:
            return None
        open(f"{root}.made", "w", encoding="ascii").close()
    return root


def copy_into(root):
    """Copies the files of rust/ into the root."""
    shutil.rmtree(f"{root}{COPY}", ignore_errors=True)
    command = ["git", "-C", TOP, "ls-files", "-z", "--cached", "--others", "--exclude-standard", "rust"]
    listed = subprocess.run(command, stdout=subprocess.PIPE, text=True, check=True).stdout
    for path in filter(None, listed.split("\0")):
        os.makedirs(os.path.dirname(f"{root}{COPY}/{path}"), exist_ok=True)
        shutil.copy2(f"{TOP}/{path}", f"{root}{COPY}/{path}")


def call(root, *words):
    """Runs a command in the root, in its copy of rust/, with its own programs alone and without a network. Returns the
    status, and what was printed."""
    environment = {"HOME": "/root", "PATH": "/usr/sbin:/usr/bin:/sbin:/bin", "CARGO_TARGET_DIR": f"{MADE}/target", "CARGO_NET_OFFLINE": "true"}
    # rustc finds its libraries, and a test the program that it is, by /proc, which is there for the command alone.
    script = f'mount -t proc proc "$0/proc" && exec chroot "$0" sh -c \'cd {COPY}/rust && exec "$0" "$@"\' "$@"'
    command = ["unshare", "--mount", "sh", "-c", script, root, *words]
    ran = subprocess.run(command, env=environment, stdout=subprocess.PIPE, stderr=subprocess.STDOUT, text=True, check=False)
    return ran.returncode, ran.stdout


def outcomes(room):
    """Whether the packages' tests pass there, and the programs can be installed."""
    why = lacking()
    root = None if why else root_in(room)
    if not root:
        print(f"rust/checks/targets: skipped Debian 13: {why or 'debootstrap fails'}", flush=True)
        return
    copy_into(root)
    version = call(root, "rustc", "--version")[1].strip()
    yield tells(f"Debian 13: {version}, the oldest", rustc.numbers(version), rustc.numbers(rustc.oldest()))
    for name, words in RUNS:
        status, output = call(root, *words[:2], "--locked", *words[2:])
        if status:
            print(output[-3000:])
        yield tells(f"Debian 13: {name}", status, 0)
