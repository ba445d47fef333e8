#!/usr/bin/env python3
"""Installs the program into a folder of its own, runs what stands there, and takes it away; and makes a package of it.

    python3 tests/installing.py
"""
import gzip
import os
import re
import shutil
import subprocess
import tempfile

from support.program import EXAMPLES, HANGS, ROOT, Outcome, Tests, build, run

INSTALL = os.path.join(ROOT, "tools", "install")
FILES = {
    "bin/plinq",
    "bin/plinq-check",
    "bin/plinq-explain",
    "lib/plinq/plinq",
    "share/bash-completion/completions/plinq",
    "share/fish/vendor_completions.d/plinq.fish",
    "share/man/man1/plinq-check.1",
    "share/man/man1/plinq-explain.1",
    "share/man/man1/plinq.1",
    "share/plinq/plinq.schema.json",
    "share/zsh/site-functions/_plinq",
}
PROGRAMS = {"bin/plinq", "bin/plinq-check", "bin/plinq-explain", "lib/plinq/plinq"}


def files(folder):
    return {os.path.relpath(os.path.join(at, it), folder) for at, _, names in os.walk(folder) for it in names}


def calls(*words, **how):
    return subprocess.run([INSTALL, *words], capture_output=True, text=True, timeout=HANGS, **how)


def answers(tests, name, prefix):
    """The program answers from its place, through the PATH and through a link, under a limit, and nothing of the repository."""
    with open(os.path.join(EXAMPLES, "add-one.json"), "rb") as file:
        document = file.read()
    wanted = Outcome(0, b"4\n2\n5\nend\n", b"")
    os.symlink(f"{prefix}/bin/plinq", f"{prefix}/linked")
    for program, how in ((f"{prefix}/bin/plinq", {}), (f"{prefix}/linked", {}), ("plinq", {"env": {"PATH": f"{prefix}/bin:/usr/bin:/bin"}})):
        if "env" in how:
            program = shutil.which("plinq", path=how["env"]["PATH"])
        seen = run(["run", "--merge", "not"], document, program, cwd="/", **how)
        tests.check(f"{name}: {program} answers", seen == wanted, seen)
    seen = run(["plinq", "run", "--merge", "not"], document, "/bin/sh", cwd=f"{prefix}/bin")
    tests.check(f"{name}: the start script answers by its name alone", seen == wanted, seen)
    seen = run(["--version"], b"", f"{prefix}/bin/plinq", cwd="/")
    tests.check(f"{name}: its version", seen == Outcome(0, f"plinq {version()[0]}\n".encode(), b""), seen)
    os.remove(f"{prefix}/linked")
    hungry = b'{"version":1,"source":{"range":[0,1099511627776]},"query":[["as_ordered"]]}'
    seen = run(["run", "--merge", "full"], hungry, f"{prefix}/bin/plinq", env=os.environ | {"PLINQ_MEMORY": "200000000"})
    tests.check(f"{name}: within PLINQ_MEMORY", seen == Outcome(5, b"", b"plinq: out of memory\n"), seen)
    seen = run([], b"[", f"{prefix}/bin/plinq-check")
    tests.check(f"{name}: plinq-check checks", seen.status == 2 and seen.errors.startswith(b"plinq-check: not JSON: line 1, column 2: "), seen)
    seen = run([], document, f"{prefix}/bin/plinq-explain", cwd="/", env={"PATH": "/usr/bin:/bin"})
    tests.check(f"{name}: plinq-explain explains", (seen.status, seen.errors) == (0, b"") and b"4 workers take chunks" in seen.output, seen)


def prefixes(tests, folder):
    prefix = f"{folder}/a prefix"
    os.makedirs(f"{prefix}/share/plinq")
    with open(f"{prefix}/share/plinq/mine", "w", encoding="utf-8"):
        pass
    for time in ("first", "second"):
        seen = calls(prefix)
        tests.check(f"installs a {time} time", (seen.returncode, seen.stdout) == (0, ""), seen)
    tests.check("what stands where", files(prefix) == FILES | {"share/plinq/mine"}, files(prefix))
    modes = {it: os.stat(f"{prefix}/{it}").st_mode & 0o777 for it in FILES}
    tests.check("what can be run", modes == {it: 0o755 if it in PROGRAMS else 0o644 for it in FILES}, modes)
    answers(tests, "a prefix", prefix)
    seen = calls("--uninstall", prefix)
    tests.check("takes all away, and nothing else", (seen.returncode, files(prefix)) == (0, {"share/plinq/mine"}), (seen, files(prefix)))
    tests.check("its folder goes", not os.path.exists(f"{prefix}/lib/plinq"))
    for words, status in ((["--help"], 0), (["--some"], 2)):
        seen = calls(*words)
        tests.check(f"{words}", seen.returncode == status and "tools/install [PREFIX]" in seen.stdout, seen)
    for words in ([prefix, "b"], ["--uninstall", prefix, "b"], ["--deb", prefix, "b"]):
        seen = calls(*words)
        is_refused = (seen.returncode, seen.stdout) == (2, "") and seen.stderr.startswith("tools/install: more than one folder: ")
        tests.check(f"{words}", is_refused and files(prefix) == {"share/plinq/mine"}, seen)
    for words in ([""], ["--uninstall", ""], ["--deb", ""]):
        seen = calls(*words)
        tests.check(f"{words}", (seen.returncode, seen.stdout, seen.stderr) == (2, "", "tools/install: a folder without a name\n"), seen)


def version():
    """The first version that CHANGES.md has, and its day."""
    with open(os.path.join(ROOT, "CHANGES.md"), encoding="utf-8") as file:
        return re.search(r"^## ([\d.]+), (\d{4}-\d\d-\d\d)$", file.read(), re.M).groups()


def versions():
    with open(os.path.join(ROOT, "CHANGES.md"), encoding="utf-8") as file:
        return re.findall(r"^## ([\d.]+), ", file.read(), re.M)


def pages(tests):
    for name in ("plinq.1", "plinq-check.1", "plinq-explain.1"):
        with open(os.path.join(ROOT, "share", name), encoding="utf-8") as file:
            head = file.readline()
        number, day = version()
        tests.check(f"{name} has the version and its day", f' {day} "Vondalj {number}" ' in head, head)


def package(tests, folder):
    # (a folder that isn't there is made)
    folder = f"{folder}/packages/new"
    seen = calls("--deb", folder)
    (made,) = (it for it in os.listdir(folder) if it.endswith(".deb"))
    tests.check("says which package it made", (seen.returncode, seen.stdout) == (0, f"{folder}/{made}\n"), seen)
    number, _ = version()
    tests.check("its name has the version", re.fullmatch(rf"plinq_{re.escape(number)}(\+\d{{8}}\.\d+\.\w+)?_amd64\.deb", made), made)
    listed = subprocess.check_output(["dpkg-deb", "--contents", f"{folder}/{made}"], text=True)
    wanted = {f"usr/{it}".replace("site-functions", "vendor-completions") + ".gz" * it.endswith(".1") for it in FILES}
    wanted.add("usr/share/doc/plinq/changelog.gz")
    names = {it.split("./", 1)[1] for it in listed.splitlines() if not it.endswith("/")}
    tests.check("what the package has", names == wanted, names)
    tests.check("all of it is root's", all(it.split()[1] == "root/root" for it in listed.splitlines()), listed)
    fields = subprocess.check_output(["dpkg-deb", "--field", f"{folder}/{made}"], text=True)
    subprocess.run(["dpkg-deb", "--extract", f"{folder}/{made}", f"{folder}/taken"], check=True)
    program = f"{folder}/taken/usr/lib/plinq/plinq"
    linked = re.findall(r"GLIBC_([\d.]+)", subprocess.check_output(["objdump", "-T", program], text=True))
    newest = max(linked, key=lambda it: [int(part) for part in it.split(".")])
    is_so = f"Depends: libc6 (>= {newest})" in fields.splitlines() and "rt" not in fields.split()
    tests.check("it needs no rt, and the C library that it links", is_so, (newest, fields))
    sections = subprocess.check_output(["objdump", "-h", program], text=True)
    tests.check("the program is stripped", ".symtab" not in sections and ".debug_info" not in sections, sections)
    with gzip.open(f"{folder}/taken/usr/share/doc/plinq/changelog.gz", "rt") as file:
        log = file.read()
    read_by = shutil.which("dpkg-parsechangelog")
    parsed = subprocess.run([read_by, "--all", "-l-"], input=log, capture_output=True, text=True) if read_by else None
    tests.check("its changelog has each version", re.findall(r"^plinq \(([\d.]+)\) unstable; urgency=medium$", log, re.M) == versions(), log[:300])
    tests.check("each is signed with its day", len(re.findall(r"^ -- .+ <\S+>  \w{3}, \d\d \w{3} \d{4} 00:00:00 \+0000$", log, re.M)) == len(versions()), log[:300])
    tests.check("Debian reads it", parsed is None or parsed.returncode == 0 and "warning" not in parsed.stderr, parsed)
    answers(tests, "the package", f"{folder}/taken/usr")
    seen = subprocess.run(["apt-get", "install", "--simulate", f"{folder}/{made}"], capture_output=True, text=True, timeout=HANGS)
    tests.check("apt-get takes it", seen.returncode == 0 and re.search(r"^Inst plinq ", seen.stdout, re.M), seen)
    linted(tests, f"{folder}/{made}")
    fresh_root(tests, folder, made)
    if os.getuid() == 0:
        made_by_another(tests, made)


def made_by_another(tests, made):
    """A user to whom the clone doesn't belong makes the same package, if it can be read."""
    nobody = ["setpriv", "--reuid", "65534", "--regid", "65534", "--clear-groups"]
    if subprocess.run([*nobody, "test", "-r", INSTALL], stderr=subprocess.DEVNULL).returncode:
        print("(another user can't read this clone)", flush=True)
        return
    with tempfile.TemporaryDirectory() as folder:
        os.chown(folder, 65534, 65534)
        seen = subprocess.run([*nobody, INSTALL, "--deb", folder], stdin=subprocess.DEVNULL, capture_output=True, text=True, timeout=HANGS)
        tests.check("another user's package", (seen.returncode, seen.stdout) == (0, f"{folder}/{made}\n"), seen)


def linted(tests, path):
    """What lintian says is wrong, if it is there: only that no licence has been chosen."""
    if not shutil.which("lintian"):
        print("left out: lintian isn't installed")
        return
    seen = subprocess.run(["lintian", "--allow-root", path], capture_output=True, text=True, timeout=HANGS)
    errors = [it for it in seen.stdout.splitlines() if it.startswith("E: ")]
    tests.check("lintian has one error", errors == ["E: plinq: no-copyright-file"], (errors, seen.stderr[-300:]))


def fresh_root(tests, folder, made):
    """The package in a Debian of its own, which has nothing but what each Debian has."""
    if os.geteuid() != 0 or not shutil.which("debootstrap"):
        print("left out: a fresh Debian: root and debootstrap are wanted")
        return
    root = f"{folder}/root"
    try:
        subprocess.run(["debootstrap", "--variant=minbase", "bookworm", root], capture_output=True, check=True, timeout=2 * HANGS)
    except (subprocess.CalledProcessError, subprocess.TimeoutExpired) as why:
        print(f"left out: a fresh Debian: {why}")
        return
    shutil.copy(f"{folder}/{made}", root)
    with open(os.path.join(EXAMPLES, "add-one.json"), "rb") as file:
        document = file.read()
    line = f"dpkg --install /{made} >/dev/null 2>&1 && plinq run --workers auto --merge not"
    ran = subprocess.run(["chroot", root, "sh", "-c", line], input=document, capture_output=True, timeout=HANGS)
    seen = Outcome(ran.returncode, ran.stdout, ran.stderr)
    tests.check("it is installed into a fresh Debian, and answers there", seen == Outcome(0, b"4\n2\n5\nend\n", b""), seen)


def main():
    build()
    tests = Tests()
    pages(tests)
    with tempfile.TemporaryDirectory() as folder:
        prefixes(tests, folder)
    with tempfile.TemporaryDirectory() as folder:
        package(tests, folder)
    tests.end()


if __name__ == "__main__":
    main()
