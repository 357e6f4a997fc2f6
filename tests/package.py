#!/usr/bin/env python3
"""Makes an unproved package of a given program, and tries it in a fresh root.

package.py [PROGRAM] [--root FOLDER]

It makes the package twice and compares the bytes; installs it by `dpkg --root` in a root that has no more than a shell and the C library;
runs `monitor table`, `init`, `count` and `report` there, and `man`; has `systemd-analyze` look at the units; and removes it again. --root names
a root that debootstrap made, in which apt installs it, with its scripts run by the real shell there. What needs a tool, or rights, that
are not here is skipped with a word. MONITOR_PROGRAM names another program.
Last line: package: N passed, M failed
"""

from __future__ import annotations

import argparse
import hashlib
import os
import pathlib
import re
import shutil
import subprocess
import sys
import tempfile

# No folder is made in the checkout.
sys.dont_write_bytecode = True

from trial import PROGRAM, TOP, Trial

NAME = "monitor-unproved"
TABLE = "samples 9 used 9 missing 0 refused 0\nrainflow\n9.0 0.5\n8.0 1.0\n6.0 0.5\n4.0 1.5\n3.0 0.5\n"
FOLDERS = ["var/lib/dpkg/info", "var/lib/dpkg/updates", "var/lib/dpkg/triggers", "tmp", "etc", "usr/bin", "usr/sbin", "dev"]


def run(*words: object, **more: object) -> subprocess.CompletedProcess[str]:
    """Runs a command, and returns its status and what it wrote."""
    return subprocess.run([str(it) for it in words], stdin=subprocess.DEVNULL, capture_output=True, text=True, **more)  # type: ignore[call-overload,no-any-return]


def skipped(why: str) -> None:
    print(f"package: skipped: {why}")


def made(program: pathlib.Path, folder: pathlib.Path) -> dict[str, str]:
    """Makes a package, and returns the digest of each file."""
    done = run("sh", TOP / "package", "--unproved", program, "-o", folder)
    if done.returncode:
        sys.exit(f"package: {done.stderr}")
    return {it.name: hashlib.sha256(it.read_bytes()).hexdigest() for it in sorted(folder.iterdir())}


def try_files(trial: Trial, program: pathlib.Path, folder: pathlib.Path) -> pathlib.Path:
    """Two packages are equal, and say that they aren't proved. Returns the package."""
    version = (TOP / "VERSION").read_text().strip()
    base = f"{NAME}_{version}_amd64"
    first, second = made(program, folder / "first"), made(program, folder / "second")
    trial.check("the files", sorted(first), [f"{base}.deb", f"{base}.sha256", f"{base}.tar.gz"])
    trial.check("a second package", second, first)
    digests = "".join(f"{first[name]}  {name}\n" for name in (f"{base}.deb", f"{base}.tar.gz"))
    trial.check("the digests", (folder / "first" / f"{base}.sha256").read_text(), digests)
    deb = folder / "first" / f"{base}.deb"
    told = run("dpkg-deb", "--field", deb, "Package", "Version", "Description", "Depends").stdout
    trial.check("the name", f"Package: {NAME}\nVersion: {version}\n" in told, True)
    trial.check("that it isn't proved", "NOT PROVED" in told, True)
    trial.check("the C library", bool(re.search(r"^Depends: libc6 \(>= 2\.\d+\)(, libgcc-s1)?$", told, re.M)), True)
    tree, unpacked = folder / "tree", folder / "unpacked"
    run("dpkg-deb", "--extract", deb, tree)
    unpacked.mkdir()
    run("tar", "-xzf", deb.with_suffix(".tar.gz"), "-C", unpacked)
    trial.check("the tar file's content", run("diff", "-r", "--no-dereference", tree, unpacked / base).stdout, "")
    listed = run("dpkg-deb", "--contents", deb).stdout
    trial.check("owners", {line.split()[1] for line in listed.splitlines()}, {"root/root"})
    trial.check("rights", {line.split()[0] for line in listed.splitlines()} - {"-rwxr-xr-x", "-rw-r--r--", "drwxr-xr-x", "lrwxrwxrwx"}, set())
    return deb


def try_refusals(trial: Trial) -> None:
    """What `package` refuses before it makes anything."""
    with tempfile.TemporaryDirectory() as folder:
        for words, due in (
            (["--unproved", f"{folder}/none"], "is no program"),
            (["--unproved"], "needs a word behind it"),
            (["--proved", "x"], "there is no --proved"),
        ):
            done = run("sh", TOP / "package", "-o", folder, *words)
            trial.check(f"package {words}", (done.returncode, due in done.stderr, os.listdir(folder)), (1, True, []))


def try_units(trial: Trial, tree: pathlib.Path) -> None:
    """systemd's own look at the units."""
    if not shutil.which("systemd-analyze"):
        return skipped("there is no systemd-analyze")
    units = tree / "usr/lib/systemd/system"
    for target in ("sysinit", "basic", "timers", "shutdown", "multi-user"):
        (units / f"{target}.target").write_text("[Unit]\n")
    for folder in ("system.slice", "-.slice", "tmp.mount", "-.mount"):
        section = "Mount]\nWhat=x\nWhere=" + ("/tmp" if folder[0] == "t" else "/") if folder.endswith("mount") else "Slice]"
        (units / folder).write_text(f"[{section}\n")
    (tree / "bin").mkdir(exist_ok=True)
    names = ["monitor@north.service", "monitor@north.timer", "monitor-fault@north.service"]
    done = run("systemd-analyze", "verify", f"--root={tree}", "--man=no", *(f"/usr/lib/systemd/system/{it}" for it in names))
    trial.check("systemd-analyze verify", (done.returncode, done.stdout + done.stderr), (0, ""))
    done = run("systemd-analyze", "security", "--offline=true", units / "monitor@.service")
    found = re.search(r"Overall exposure level for \S+: ([\d.]+)", done.stdout)
    trial.check("systemd-analyze security", found is not None and float(found[1]) < 1, True)
    if found:
        print(f"package: systemd-analyze security says {found[0]}")


def fresh_root(root: pathlib.Path, program: pathlib.Path) -> None:
    """A root with a shell, and the libraries of the shell, the program and the few tools that a site needs."""
    for folder in FOLDERS:
        (root / folder).mkdir(parents=True)
    (root / "var/lib/dpkg/status").touch()
    tools = [shutil.which(it) for it in ("sh", "cat", "find", "sed", "grep", "touch", "mv", "rm", "sync", "ls")]
    for file in [program, *(pathlib.Path(it) for it in tools if it)]:
        for library in re.findall(r"(/\S+) \(0x", run("ldd", file).stdout):
            target = root / library[1:]
            target.parent.mkdir(parents=True, exist_ok=True)
            shutil.copy(library, target)
        if file != program:
            shutil.copy(file, root / "usr/bin")
    (root / "bin").symlink_to("usr/bin")
    (root / "dev/null").touch()


def files_of(root: pathlib.Path) -> set[str]:
    """The names of all files and links of a root but for dpkg's own."""
    return {str(it.relative_to(root)) for it in root.rglob("*") if not it.is_dir() and "var/lib/dpkg" not in str(it)}


def dpkg(root: pathlib.Path, *words: object) -> subprocess.CompletedProcess[str]:
    # (the root has the libraries, but no packages of them)
    return run("dpkg", f"--root={root}", "--force-script-chrootless", "--ignore-depends=libc6,libgcc-s1", *words)


def try_commands(trial: Trial, root: pathlib.Path) -> None:
    """A site in the root, by the program that was installed there."""
    inside = [shutil.which("chroot") or "/usr/sbin/chroot", root, "/bin/sh", "-c"]
    example = f"/usr/share/doc/{NAME}/examples"
    done = run(*inside, f"monitor table {example}/standard.sgrc", env={"PATH": "/usr/bin"})
    trial.check("monitor table", (done.returncode, done.stdout), (0, TABLE))
    site = "cd /var/lib/monitor/north && monitor init && monitor count >first && monitor report >second && /usr/lib/monitor/monitor-site && ls"
    shutil.copytree(root / example[1:] / "bridge", root / "var/lib/monitor/north")
    done = run(*inside, site, env={"PATH": "/usr/bin"})
    folder = root / "var/lib/monitor/north"
    trial.check("init, count, report, monitor-site", (done.returncode, "report.txt" in done.stdout), (0, True))
    texts = [(folder / it).read_text() for it in ("first", "second", "report.txt")]
    trial.check("reports", (texts[0] == texts[1] == texts[2], texts[0].startswith("gauge span2-flange\nsamples 12000")), (True, True))


def try_manuals(trial: Trial, root: pathlib.Path) -> None:
    if not shutil.which("man"):
        return skipped("there is no man")
    for section, page in (("1", "monitor"), ("5", "monitor.toml")):
        done = run("man", "--warnings", "-M", root / "usr/share/man", section, page, env={**os.environ, "LC_ALL": "C.UTF-8", "MANWIDTH": "100"})
        text = re.sub(".\b", "", done.stdout)
        trial.check(f"man {page}", (done.returncode, done.stderr, f"{page} - " in text), (0, "", True))


def try_root(trial: Trial, deb: pathlib.Path, folder: pathlib.Path, program: pathlib.Path) -> None:
    """Installs, uses and removes the package in a fresh root."""
    if os.geteuid():
        return skipped("only root may install in a fresh root and run what is there")
    root = folder / "root"
    fresh_root(root, program)
    before = files_of(root)
    done = dpkg(root, "-i", deb)
    trial.check("dpkg -i", (done.returncode, (root / "usr/bin/monitor").is_file()), (0, True))
    if shutil.which("systemd-sysusers"):
        trial.check("the user", "monitor:" in (root / "etc/passwd").read_text(), True)
    try_commands(trial, root)
    try_manuals(trial, root)
    (root / "usr/lib/monitor/companion/monitor_companion/__pycache__").mkdir()
    wants = root / "etc/systemd/system/timers.target.wants"
    wants.mkdir(parents=True)
    (wants / "monitor@north.timer").symlink_to("/usr/lib/systemd/system/monitor@.timer")
    done = dpkg(root, "--purge", NAME)
    trial.check("dpkg --purge", done.returncode, 0)
    left = {it for it in files_of(root) - before if not it.startswith("var/lib/monitor/north/")}
    accounts = {it for it in left if re.fullmatch(r"etc/(passwd|group|shadow|gshadow|\.pwd\.lock)-?", it)}
    trial.check("what is left beside the site and the user", left - accounts, set())
    trial.check("the site", (root / "var/lib/monitor/north/monitor.store").is_file(), True)


def try_debian(trial: Trial, deb: pathlib.Path, root: pathlib.Path) -> None:
    """Installs, uses and removes the package by the tools of a whole Debian."""
    # (chroot begins in the root's own top folder)
    shutil.copy(deb, root / deb.name)
    inside = [shutil.which("chroot") or "/usr/sbin/chroot", root]
    trial.check("apt-get install", run(*inside, "apt-get", "install", "-y", "--no-install-recommends", f"./{deb.name}").returncode, 0)
    try_commands(trial, root)
    done = run(*inside, "sh", "-c", "command -v man >/dev/null || exit 99; man monitor | head -n 1; man 5 monitor.toml | head -n 1")
    if done.returncode == 99:
        skipped("that root has no man")
    else:
        trial.check("man", [line.split()[0] for line in done.stdout.splitlines()], ["MONITOR(1)", "MONITOR.TOML(5)"])
    trial.check("apt-get purge", run(*inside, "apt-get", "purge", "-y", NAME).returncode, 0)
    left = run("find", root, "-xdev", "-name", "*monitor*", "-not", "-path", "*/var/lib/monitor*", "-newer", root / deb.name, "-path", "*/usr/*").stdout
    trial.check("what is left in /usr", left, "")


def try_processor(trial: Trial, program: pathlib.Path) -> None:
    """The program runs on the first processors of the level that it names, and below it says what it lacks."""
    if not shutil.which("qemu-x86_64"):
        return skipped("there is no qemu-x86_64, so no older processor was tried")
    words = (program, "table", TOP / "examples/standard.sgrc")
    found = sorted(set(re.findall(rb"x86-64-v[0-9]", program.read_bytes())))
    trial.check("the level of processor that it names", found[-1:] in ([], [b"x86-64-v2"]), True)
    done = run("qemu-x86_64", "-cpu", "Nehalem", *words)
    trial.check("on a processor of level 2", (done.returncode, done.stdout), (0, TABLE))
    done = run("qemu-x86_64", "-cpu", "qemu64,-pni,-cx16,-svm", *words)
    due = (127, "") if found else (0, TABLE)
    trial.check("on a processor with SSE2 alone", (done.returncode, done.stdout), due)


def main() -> int:
    words = argparse.ArgumentParser(usage=__doc__)
    words.add_argument("program", nargs="?", default=PROGRAM)
    words.add_argument("--root", type=pathlib.Path)
    given = words.parse_args()
    program = pathlib.Path(given.program).resolve()
    if not program.is_file():
        skipped("the program isn't built (./monitor builds it)")
        return 0
    missing = [it for it in ("git", "dpkg-deb", "readelf", "tar", "gzip") if not shutil.which(it)]
    if missing:
        skipped(f"there is no {', '.join(missing)}")
        return 0
    trial = Trial("package")
    with tempfile.TemporaryDirectory() as name:
        folder = pathlib.Path(name).resolve()
        deb = try_files(trial, program, folder)
        try_refusals(trial)
        try_units(trial, folder / "tree")
        try_root(trial, deb, folder, program)
        try_processor(trial, program)
        if given.root:
            try_debian(trial, deb, given.root.resolve())
    return trial.end()


if __name__ == "__main__":
    sys.exit(main())
