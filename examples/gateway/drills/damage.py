"""Ten kinds of damaged files, and single changed digits: what the takeover does with each (see `drill`)."""
import glob
import os
import shutil
import signal

EVERY, FIRST, MORE, UNSEEN = 15, 40, 10, 3


def read(name):
    with open(name, "rb") as f:
        return f.read()


def write(name, octets):
    with open(name, "wb") as f:
        f.write(octets)


def torn(newest, before):
    write(newest + "journal", read(newest + "journal") + b"0329000000")


def empty_image(newest, before):
    write(newest + "image", b"")


def cut_image(newest, before):
    write(newest + "image", read(newest + "image")[:-4])


def older_image(newest, before):
    write(newest + "image", read(before + "image"))


def missing_line(newest, before):
    lines = read(newest + "journal").splitlines(True)
    write(newest + "journal", b"".join(lines[:2] + lines[3:]))


def cr_lf(newest, before):
    write(newest + "journal", read(newest + "journal").replace(b"\n", b"\r\n"))


def zeros_behind(newest, before):
    for kind in ("journal", "sums"):
        write(newest + kind, read(newest + kind) + bytes(8192))


GOES_ON = (torn, empty_image, cut_image, older_image, zeros_behind)
STOPS = (missing_line, cr_lf)


class Case:
    """A session that ran, its folder, and a host that has not got its last answers."""

    def __init__(self, drill, host_type, frames):
        self.drill, self.folder = drill, drill.fresh()
        lives = [frames(drill.draw, FIRST)]
        self.host = host_type(lives)
        assert self.host.talk(drill.start(self.folder, EVERY)) == 0
        lives[0] += frames(drill.draw, MORE)
        self.expected = drill.unbroken(lives)
        del self.host.answers[0][-UNSEEN:]
        found = sorted(glob.glob(os.path.join(self.folder, "*.sums")))
        self.newest, self.before = found[-1][:-4], found[-2][:-4]

    def takeover(self):
        """Goes on in the newest journal, so that the next takeover reads it again."""
        process = self.drill.start(self.folder, 1000)
        status = self.host.talk(process)
        return status, process.stderr.read().replace(self.host.life, "LIFE").strip()

    def goes_on(self, name):
        status, said = self.takeover()
        assert status == 0, (name, status, said)
        self.drill.finish(self.host, self.expected, name, self.folder)
        return "goes on, each answer once" + (": " + said if said else "")

    def stops(self, name, expected):
        kept = {f: read(f) for f in glob.glob(os.path.join(self.folder, "*"))}
        had = [list(a) for a in self.host.answers]
        status, said = self.takeover()
        assert status == expected and said and self.host.answers == had, (name, status, said)
        assert kept == {f: read(f) for f in glob.glob(os.path.join(self.folder, "*"))}, name
        return "stops with %d, files untouched: %s" % (status, said)

    def starts_anew(self, name):
        """A reset leads out of every stop."""
        self.host.place, self.host.answers = -1, [[]]
        status, said = self.takeover()
        assert status == 0, (name, status, said)
        self.drill.finish(self.host, self.expected, name, self.folder)
        shutil.rmtree(self.folder)


def disk_full(case):
    process = case.drill.start(case.folder, 1000, limit=os.path.getsize(case.newest + "journal") + 30)
    status = case.host.talk(process)
    said = process.stderr.read().replace(case.host.life, "LIFE").strip()
    assert status == 3, (status, said)
    return "stops with 3: %s; then %s" % (said, case.goes_on("disk full"))


def two_writers(case):
    first = case.drill.start(case.folder, EVERY)
    first.stdin.write(case.host.first())
    first.stdin.flush()
    while case.host.take(first.stdout.readline()) is None:
        pass
    second = case.drill.start(case.folder, EVERY)
    _, said = second.communicate("RESET\n")
    assert second.returncode == 4, said
    first.send_signal(signal.SIGKILL)
    first.wait()
    words = said.strip().replace(case.folder, "FOLDER")
    return "the second stops with 4: %s; then %s" % (words, case.goes_on("two writers"))


def two_lives(case, other):
    """The journal of another life, and that life's host."""
    write(case.newest + "journal", read(other.newest + "journal"))
    said = case.stops("two lives", 1)
    case.host.life, life = other.host.life, case.host.life
    status, words = case.takeover()
    assert status == 1, words
    case.host.life = life
    return said + "; that life's host: " + words.replace(life, "OTHER")


def changed_digits(drill, host_type, frames):
    """Each digit of the newest journal and of the newest image changed by one, one at a time."""
    case = Case(drill, host_type, frames)
    whole, had = case.folder + "-whole", [list(a) for a in case.host.answers]
    shutil.copytree(case.folder, whole)
    counts = {}
    for kind in ("journal", "image"):
        text = read(case.newest + kind)
        for at in (i for i, octet in enumerate(text) if octet != 10):
            shutil.rmtree(case.folder)
            shutil.copytree(whole, case.folder)
            digit = b"123456789ABCDEF0"[int(text[at:at + 1], 16):][:1]
            write(case.newest + kind, text[:at] + digit + text[at + 1:])
            case.host.answers = [list(a) for a in had]
            if kind == "journal":
                case.stops("digit %d of the journal" % at, 1)
            else:
                assert case.goes_on("digit %d of the image" % at).endswith("the one before is taken")
            counts[kind] = counts.get(kind, 0) + 1
    return counts


def damage(drill, host_type, frames):
    print("| Damage | What the takeover does |\n|---|---|")
    for kind in GOES_ON:
        print("| %s | %s |" % (kind.__name__.replace("_", " "), run(kind, Case(drill, host_type, frames))))
    for kind in STOPS:
        case = Case(drill, host_type, frames)
        kind(case.newest, case.before)
        print("| %s | %s |" % (kind.__name__.replace("_", " "), case.stops(kind.__name__, 1)))
        case.starts_anew(kind.__name__)
    case = Case(drill, host_type, frames)
    print("| files of two lives | %s |" % two_lives(case, Case(drill, host_type, frames)))
    case.starts_anew("two lives")
    for kind in (disk_full, two_writers):
        print("| %s | %s |" % (kind.__name__.replace("_", " "), kind(Case(drill, host_type, frames))))
    counts = changed_digits(drill, host_type, frames)
    print("| one digit of the journal changed, %d times | each stops with 1 |" % counts["journal"])
    print("| one digit of the image changed, %d times | each goes on from the image before |" % counts["image"])


def run(kind, case):
    kind(case.newest, case.before)
    return case.goes_on(kind.__name__)
