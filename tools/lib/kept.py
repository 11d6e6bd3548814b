"""Executables that are compiled without a proof, and kept in crates/NAME/out by the sums of their sources and the kit.

Beside an executable NAME are NAME.sums, with what it was made of, and NAME.lock, so that of two builds at the same time the
second waits and uses what the first made. NAME.other-kit has the name of a kit that compiles in another way. The first line of
NAME.sums shows the kit at a glance, and its time is that of the sources: where that line is right and no source has a later
time of change, as ./scp looks, no file needs to be read. (rt ci removes all of out/.)"""
import contextlib
import fcntl
import hashlib
import os
import pathlib
import shutil
import tempfile
import time

import kit

ROOT = pathlib.Path(__file__).resolve().parent.parent.parent
# The tool that compiles, a source of each executable.
HOW = ROOT / "tools/lib/kit.py"


# How often a build begins anew because a source changed meanwhile.
MOST_BUILDS = 3


class NotKept(Exception):
    """There is no executable: why, in a line, or what the compiler said."""


def crates_below(name):
    """The lines of crates.txt for a crate and those below it, by their names."""
    lines = (ROOT / "crates.txt").read_text().splitlines()
    uses = {line.split(":")[0].split()[0]: line for line in lines if ":" in line and not line.startswith("#")}
    found, names = {}, [name]
    for name in names:
        if name in uses and name not in found:
            found[name] = uses[name]
            names += uses[name].partition(":")[2].split()
    return found


def sum_of(path):
    return hashlib.sha256(path.read_bytes()).hexdigest()


def sources_of(crate):
    """What an executable of this crate is made of: a line for each crate and each file."""
    below = crates_below(crate)
    files = sorted(it for name in below for it in (ROOT / "crates" / name / "src").rglob("*") if it.is_file())
    return [*sorted(below.values()), *(f"{sum_of(it)} {it.relative_to(ROOT)}" for it in files)]


def last_change(crate):
    """When a source of this crate was last changed, moved or removed, in nanoseconds."""
    folders = [ROOT / "crates" / name / "src" for name in crates_below(crate)]
    paths = [HOW, ROOT / "crates.txt", *folders, *(it for folder in folders for it in folder.rglob("*"))]
    return max(it.lstat().st_ctime_ns for it in paths)


class Kept:
    """An executable: the program of a crate, or its tests. `say` gets a line for each step of a build."""

    def __init__(self, crate, name, say, *, tests=False, level="-O0", is_checked=False):
        self.say, self.how = say, {"tests": tests, "level": level, "is_checked": is_checked}
        self.crate, self.made_by = crate, f"how {sum_of(HOW)}{' tests' * tests} {level}{' checked' * is_checked}"
        self.folder = ROOT / "crates" / crate
        self.out = self.folder / "out"
        self.program, self.sums, self.lock = (self.out / f"{name}{end}" for end in ("", ".sums", ".lock"))
        self.other = self.out / f"{name}.other-kit"

    def said(self):
        """The lines of NAME.sums: the kit at a glance, the executable's own sum, the kit's name, how it was compiled, and its
        sources. None if the executable isn't the one that was kept."""
        try:
            lines = self.sums.read_text().splitlines()
            return lines if lines[1] == f"own {sum_of(self.program)}" else []
        except (OSError, IndexError):
            return []

    def write(self, lines, moment):
        """Writes NAME.sums, as old as the moment at which the sources were read."""
        new = self.sums.with_suffix(".new")
        try:
            new.write_text("".join(f"{line}\n" for line in lines))
            os.utime(new, ns=(moment, moment))
            new.replace(self.sums)
        finally:
            new.unlink(missing_ok=True)

    @contextlib.contextmanager
    def locked(self):
        """Holds the lock."""
        self.out.mkdir(exist_ok=True)
        with open(self.lock, "w") as held:
            try:
                fcntl.flock(held, fcntl.LOCK_EX | fcntl.LOCK_NB)
            except BlockingIOError:
                self.say("another build is under way; waiting for it")
                fcntl.flock(held, fcntl.LOCK_EX)
            yield

    def look(self):
        """A moment just before now, by the clock of the files, and the sources as they are."""
        return time.time_ns() - 20_000_000, [self.made_by, *sources_of(self.crate)]

    def need(self):
        """Has the executable be there, and gives its path."""
        try:
            with self.locked():
                self.renew()
        except OSError as error:
            raise NotKept(f"{os.path.relpath(error.filename or self.out, ROOT)}: {error.strerror}") from error
        return self.program

    def renew(self):
        """Builds it if it isn't right. Without `rt` any kit's is."""
        rt, said = kit.rt_here(), self.said()
        if said:
            moment, sources = self.look()
            glance, name = (kit.state_of(rt), f"kit {kit.name_of(rt)}") if rt else (said[0], said[2])
            if said[2:] == [name, *sources]:
                # (on a full disk the sums are read again next time)
                with contextlib.suppress(OSError):
                    self.write([glance, *said[1:]], moment)
                return
        if not rt:
            raise NotKept(kit.NO_RT)
        kit.kit_of(rt)
        # (a kit that was found to have no way has none)
        if self.other.exists() and self.other.read_text() == kit.name_of(rt):
            raise kit.NoWay
        try:
            self.build(rt)
        except kit.NoWay:
            self.other.write_text(kit.name_of(rt))
            raise

    def build(self, rt):
        """Compiles it, again if a source changed meanwhile, and writes NAME.sums."""
        for it in self.out.glob(f"{self.program.name}.build.*"):
            shutil.rmtree(it, ignore_errors=True)
        free = shutil.disk_usage(self.out).free
        if free < kit.ROOM:
            needed = f"{free >> 20} MB are free, and a build takes up to {kit.ROOM >> 20}"
            raise NotKept(f"{self.out.relative_to(ROOT)}: {needed}")
        self.say("compiling without a proof, in a minute or two; it is kept until a source changes")
        for _ in range(MOST_BUILDS):
            moment, sources = self.look()
            prefix = f"{self.program.name}.build."
            with tempfile.TemporaryDirectory(dir=self.out, prefix=prefix, ignore_cleanup_errors=True) as room:
                made = self.compile(rt, pathlib.Path(room))
                if last_change(self.crate) <= moment:
                    # (no sums of another executable may be beside it)
                    self.sums.unlink(missing_ok=True)
                    made.replace(self.program)
                    self.write([kit.state_of(rt), f"own {sum_of(self.program)}", f"kit {kit.name_of(rt)}", *sources], moment)
                    return
            self.say("a source changed meanwhile; once more")
        raise NotKept("its sources change all the time")

    def compile(self, rt, room):
        """Compiles it in an empty folder, and gives its path there."""
        try:
            return kit.compile(rt, self.folder, room, tell=lambda step, took: self.say(f"{step}, {took:.0f} s"), **self.how)
        except kit.Refused as refused:
            free = shutil.disk_usage(self.out).free
            why = " (is memory short?)" * ("SIGKILL" in str(refused))
            why += f" ({free >> 20} MB are free in {self.out.relative_to(ROOT)})" * (free < kit.ROOM // 4)
            raise NotKept(f"not compiled{why}: {refused}") from refused
