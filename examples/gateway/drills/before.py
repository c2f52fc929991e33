"""What goes wrong around the engine without this gateway's order and files (see `drill`): failures 1 to 5, counted. The
program `standby` is given files as a gateway would leave them that just appends, numbers on and passes all on."""
import os
import signal
import subprocess

CUTS, LINES = 2000, 30


def replayed(standby, folder, image, lines):
    """What standby writes for an image and a journal: events, image, and the refusal or None."""
    names = [os.path.join(folder, "image"), os.path.join(folder, "journal")]
    for name, text in zip(names, (image, lines)):
        with open(name, "w") as f:
            f.write(text)
    said = subprocess.run([standby, *names], capture_output=True, text=True, check=False).stdout.splitlines()
    stopped = said.pop() if said and len(said[-1]) < 3 else None
    return [s for s in said if s[:1] != "A"], "\n".join(s for s in said if s[:1] == "A") + "\n", stopped


def numbered(frames, first=1):
    return [f[:2] + n.to_bytes(4, "little").hex().upper() + f[2:] + "\n" for n, f in enumerate(frames, first)]


def torn(standby, folder, draw, fresh, frames):
    """A torn last line, and a journal that goes on behind it. How many lose their rest; how many run what never was."""
    lost = other = 0
    for _ in range(CUTS):
        lines = numbered(frames(draw, LINES))
        at = draw.randrange(len(lines))
        kept, piece = "".join(lines[:at]), lines[at][:draw.randrange(1, len(lines[at]))]
        on = "".join(numbered(draw.sample(frames(draw, LINES), LINES), at + 1))
        prefix, whole, cut = (replayed(standby, folder, fresh, t) for t in (kept, kept + on, kept + piece + on))
        lost += cut[2] is not None and cut[1] == prefix[1]
        other += cut[1] not in (prefix[1], whole[1])
    return lost, other


def reset(standby, folder, draw, fresh, frames):
    """An image of the life before a reset, and the journal of the one after it, shorter and longer."""
    old = replayed(standby, folder, fresh, "".join(numbered(frames(draw, LINES))))[1]
    counts = []
    for more in (LINES // 2, 2 * LINES):
        lines = numbered(frames(draw, more))
        events, image, stopped = replayed(standby, folder, old, "".join(lines))
        right = replayed(standby, folder, fresh, "".join(lines))
        counts.append((stopped is None, image == old, image == right[1]))
    return counts


def again(standby, folder, draw, fresh, frames):
    """A standby that passes on all that replay writes: events that the host has twice."""
    lines = numbered(frames(draw, LINES))
    image = replayed(standby, folder, fresh, "".join(lines[:10]))[1]
    had = replayed(standby, folder, fresh, "".join(lines[:25]))[0]
    seen = replayed(standby, folder, fresh, "".join(lines[:10]))[0]
    return len(had) - len(seen), len(replayed(standby, folder, image, "".join(lines))[0])


def shown_first(drill, host_type, frames):
    """A gateway that shows the answer before it writes the journal, killed before each call: the host ahead of it."""
    lives = [frames(drill.draw, LINES)]
    ahead = kills = 0
    for die in range(1, drill.calls(lives, 1000) + 1):
        host, folder = host_type(lives), drill.fresh()
        kills += host.talk(drill.start(folder, 1000, die)) == -signal.SIGKILL
        if host.place >= 0:
            process = drill.start(folder, 1000)
            ahead += host.talk(process) == 1 and "the host has answer" in process.stderr.read()
    return ahead, kills


def changed(standby, folder, draw, fresh, frames):
    """Each digit of a journal changed by one: how many are not refused."""
    text = "".join(numbered(frames(draw, LINES)))
    places = [i for i, c in enumerate(text) if c != "\n"]
    digit = lambda c: "123456789ABCDEF0"[int(c, 16)]
    said = [replayed(standby, folder, fresh, text[:i] + digit(text[i]) + text[i + 1:])[2] for i in places]
    return said.count(None), len(places)


def before(drill, wrong, host_type, frames, standby):
    fresh = "A000000000001EFC024D53\nAF0000\n"
    words = (standby, drill.folder, drill.draw, fresh, frames)
    print("1. torn and appended to: of %d cuts %d lose the rest, %d run a frame that never was" % (CUTS, *torn(*words)))
    for (through, nothing, right), name in zip(reset(*words), ("shorter", "longer")):
        print("2. image before a reset, journal after it, %s: exit 0 %s, nothing executed %s, the right state %s"
              % (name, through, nothing, right))
    print("3. passed on whole: %d events again of %d" % again(*words))
    print("4. shown before it is written: the host ahead of the journal after %d of %d kills" %
          shown_first(wrong, host_type, frames))
    print("5. one digit of a journal changed: %d of %d pass without a refusal" % changed(*words))
