#!/usr/bin/env python3
"""Damages an image and counts what vmimage tells: python3 bench/images.py [IMAGE [PROGRAM]], run by hand; or times it on a
large one: python3 bench/images.py speed [N [PROGRAM]]; or saves what scripts leave and compares: python3 bench/images.py
saves [N [PROGRAM]]; or runs scripts over images and compares: python3 bench/images.py runs [N [PROGRAM]].

The image is examples/fruit.image and the program bin/vmimage where none is named. Each byte in turn becomes up to three
others, and each word of four bytes up to five other numbers; then the file is cut at each of its bytes. It prints how many
damaged images are sound and how many are refused for which part. A status other than 0 and 1, a line that doesn't go with
it, or a check of more than ten seconds ends it, and leaves the damaged image.

The large one is of a set of N objects, 300,000 where N isn't named, of 40 bytes each. It prints the seconds of dtrun on the
script that makes them, of vmimage save on the same, and of vmimage check and show on the image; then those of a copy of the
image's bytes in memory. Each is the least of three.

The scripts are N random ones, 1,000 where N isn't named, of one or two regions and up to six dictionaries of any method and
kind, with views, turns and refusals. What vmimage save prints is what dtrun prints, the image is sound, and what vmimage show
prints of it is what stat, segments, blocks and walk reply at the script's end, but for the names of blocks. The first script
where that fails is printed, and ends it with status 1.

Scripts that are run over images are such ones of one region, cut into two to four pieces. Each piece is run by vmimage run over
the image that the one before it left, under the names that the image gives, and every reply is that of dtrun to the script
in one go.
"""
import collections
import ctypes
import os
import random
import re
import subprocess
import sys
import tempfile
import time

HERE = os.path.dirname(os.path.abspath(__file__))


def damaged(image):
    """Pairs of a kind of damage and an image."""
    for at, byte in enumerate(image):
        for other in {0, byte ^ 1, byte ^ 255} - {byte}:
            yield "a byte", image[:at] + bytes([other]) + image[at + 1 :]
    for at in range(8, len(image) - 3, 4):
        word = image[at : at + 4]
        number = int.from_bytes(word, "little")
        for other in {0, 32, number + 1, number + 32, 2**32 - 1}:
            changed = (other % 2**32).to_bytes(4, "little")
            if changed != word:
                yield "a word", image[:at] + changed + image[at + 4 :]
    for end in range(len(image)):
        yield "a cut", image[:end]


def told(program, path):
    """What vmimage says of the file, or why that is wrong."""
    run = subprocess.run([program, "check", path], capture_output=True, timeout=10)
    out, err = run.stdout.decode(), run.stderr.decode()
    if (run.returncode, out, err) == (0, "sound\n", ""):
        return "sound"
    line = "vmimage: unsound: "
    if run.returncode == 1 and out == "" and err.startswith(line) and err.endswith("\n"):
        return err[len(line) : -1]
    sys.exit(f"status {run.returncode}, out {out!r}, err {err!r}: {path} is left")


def least(run):
    """The least time of three runs, in seconds."""
    times = []
    for _ in range(3):
        began = time.perf_counter()
        run()
        times.append(time.perf_counter() - began)
    return min(times)


def speed(count, program):
    """The time of each task on an image of so many objects."""
    folder = tempfile.mkdtemp()
    script, path = os.path.join(folder, "script"), os.path.join(folder, "image")
    with open(script, "w", encoding="ascii") as file:
        file.write("open r best 9\ndict d set r 1\n")
        for n in range(count):
            file.write(f"insert d {n * 7919 % count:040}\n")
    dtrun = os.path.join(os.path.dirname(program), "dtrun")

    def task(words, source=os.devnull):
        with open(source, "rb") as file:
            subprocess.run(words, stdin=file, stdout=subprocess.DEVNULL, check=True)

    rows = [
        ("dtrun", least(lambda: task([dtrun], script))),
        ("vmimage save", least(lambda: task([program, "save", path], script))),
        ("vmimage check", least(lambda: task([program, "check", path]))),
        ("vmimage show", least(lambda: task([program, "show", path]))),
    ]
    size = os.path.getsize(path)
    one, other = (ctypes.create_string_buffer(b"x" * size) for _ in range(2))
    rows.append(("a copy in memory", least(lambda: ctypes.memmove(one, other, size))))
    print(f"{count} objects, {size} bytes")
    for name, seconds in rows:
        print(f"{name}: {seconds:.3f} seconds, {size / seconds / 1e6:.0f} million bytes a second")
    for name in (script, path):
        os.remove(name)
    os.rmdir(folder)


METHODS = ["set", "bag", "oset", "obag", "list", "stack", "queue"]


def line_of(rng):
    """A random line."""
    d, e = (f"d{rng.randrange(6)}" for _ in range(2))
    x = rng.choice("xyz") + str(rng.randrange(9))
    word = "".join(rng.choice("aAbBc") for _ in range(rng.randrange(1, 5))) + rng.choice(["", "", "%00q", "%41"])
    object_line = rng.choice("insert insert insert append attach delete detach search next prev match".split())
    return rng.choice(
        [f"{object_line} {d} {word * rng.choice([1, 1, 1, 9])}"] * 12
        + [
            f"dict {d} {rng.choice(METHODS)} {rng.choice('rrrs')} {rng.randrange(1, 7)}",
            f"method {d} {rng.choice(METHODS)}",
            f"view {d} {e}",
            f"view {d} -",
            f"delete {d}",
            f"alloc {rng.choice('rrs')} {x} {rng.choice([1, 40, 500, 5000])}",
            f"resize r {x} {rng.choice([1, 90, 3000])} {rng.choice(['move', 'fixed'])}",
            f"free {rng.choice('rrs')} {x}",
            f"write r {x} 0 ab",
            rng.choice([f"first {d}", f"last {d}", f"walk {d}", "stat r"]),
            rng.choice([f"shut {d}", f"empty {d}", "compact r"] + [f"search {d} a"] * 4),
        ]
    )


def saved_alike(rng, save, path):
    """Whether a random script is saved as it should be, and the script. `save` names vmimage."""
    dtrun = os.path.join(os.path.dirname(save), "dtrun")

    def run(words, lines):
        return subprocess.run(words, input="\n".join(lines) + "\n", capture_output=True, text=True, timeout=20)

    lines = [f"open r best {rng.randrange(1, 19)}", f"open s {rng.choice(['best', 'pool'])} {rng.randrange(1, 19)}"]
    lines += [line_of(rng) for _ in range(rng.randrange(5, 200))]
    replies = run([dtrun], lines).stdout.split("\n")
    there = []
    for line, reply in zip(lines, replies):
        words = line.split()
        if words[0] == "dict" and reply == f"{words[1]} open":
            there.append((words[1], words[3]))
        if words[0] == "shut" and reply == f"{words[1]} shut":
            there = [other for other in there if other[0] != words[1]]
    ends = [f"view {d} -" for d, _ in there]
    asks = ["stat r", "segments r", "blocks r"] + [f"walk {d}" for d, region in there if region == "r"]
    wanted = run([dtrun], lines + ends + asks).stdout.split("\n")[len(lines) + len(ends) :]
    saved = run([save, "save", path], lines)
    judged = run([save, "check", path], [])
    shown = run([save, "show", path], []).stdout.split("\n")
    wanted[2] = re.sub(r" [^*@ ]+@", " #@", wanted[2])
    shown[2:3] = [re.sub(r" [0-9]+@", " #@", line) for line in shown[2:3]]
    alike = (saved.returncode, saved.stdout.split("\n"), judged.stdout, shown) == (0, replies, "sound\n", wanted)
    return alike, lines


def renamed(text, names):
    """A text with other names, by a table of them."""
    return re.sub(r"[a-z][a-z0-9]*", lambda word: names.get(word[0], word[0]), text)


def continued_alike(rng, program, path):
    """Whether a random script in pieces, each run over the image that the one before it left, is answered as in one go, and the
    script. A name is that of the script in one go, or over an image the one that it has there."""
    dtrun = os.path.join(os.path.dirname(program), "dtrun")

    def run(words, lines):
        text = "".join(line + "\n" for line in lines)
        return subprocess.run(words, input=text, capture_output=True, text=True, timeout=20).stdout.split("\n")[:-1]

    def placed(reply):
        return {place: name for name, place in re.findall(r" ([^*@ ]+)@([0-9:]+)", reply)}

    done, names, dicts = ["open r best 1"], {}, []
    run([program, "save", path], done)
    for _ in range(rng.randrange(2, 5)):
        # Names of dictionaries begin with e, so that none is one of an image; no other region is open.
        piece = [re.sub(r"\bd([0-5])\b", r"e\1", line_of(rng)) for _ in range(rng.randrange(1, 60))]
        piece = [line for line in piece if not re.search(r"\bs\b", line)]
        replies = run([dtrun], done + piece)[len(done) :]
        for line, reply in zip(piece, replies):
            words = line.split()
            if words[0] == "dict" and reply == f"{words[1]} open":
                dicts.append(words[1])
            if words[0] == "shut" and reply == f"{words[1]} shut":
                dicts.remove(words[1])
        # Views aren't saved.
        piece += [f"view {d} -" for d in dicts]
        replies = run([dtrun], done + piece)[len(done) :]
        there = run([program, "run", path], [renamed(line, names) for line in piece])
        back = {other: name for name, other in names.items()}
        done += piece
        if [renamed(reply, back) for reply in there] != replies:
            return False, done
        blocks = placed(run([dtrun], done + ["blocks r"])[-1])
        tags = placed(run([program, "show", path], [])[2])
        names = {blocks[place]: f"b{tag}" for place, tag in tags.items()}
        names.update({d: f"d{n + 1}" for n, d in enumerate(dicts)})
    return True, done


def runs(count, program):
    """Runs random scripts in pieces over images."""
    folder = tempfile.mkdtemp()
    path = os.path.join(folder, "image")
    for seed in range(count):
        alike, lines = continued_alike(random.Random(seed), program, path)
        if not alike:
            print("\n".join(lines))
            sys.exit(f"script {seed} isn't run over images as in one go: {path} is left")
        os.remove(path)
    os.rmdir(folder)
    print(f"{count} scripts: each is answered over images as in one go")


def saves(count, program):
    """Saves what random scripts leave."""
    folder = tempfile.mkdtemp()
    path = os.path.join(folder, "image")
    for seed in range(count):
        alike, lines = saved_alike(random.Random(seed), program, path)
        if not alike:
            print("\n".join(lines))
            sys.exit(f"script {seed} isn't saved as it should be: {path} is left")
        os.remove(path)
    os.rmdir(folder)
    print(f"{count} scripts: each image is sound, and shows what the script left")


def main():
    words = sys.argv[1:] + [None, None, None]
    if words[0] in ("saves", "runs"):
        check = saves if words[0] == "saves" else runs
        return check(int(words[1] or 1000), words[2] or os.path.join(HERE, "..", "bin", "vmimage"))
    if words[0] == "speed":
        return speed(int(words[1] or 300_000), words[2] or os.path.join(HERE, "..", "bin", "vmimage"))
    source = words[0] or os.path.join(HERE, "..", "examples", "fruit.image")
    program = words[1] or os.path.join(HERE, "..", "bin", "vmimage")
    with open(source, "rb") as file:
        image = file.read()
    counts = collections.Counter()
    folder = tempfile.mkdtemp()
    path = os.path.join(folder, "image")
    for kind, other in damaged(image):
        with open(path, "wb") as file:
            file.write(other)
        counts[kind, told(program, path)] += 1
    os.remove(path)
    os.rmdir(folder)
    for (kind, part), count in sorted(counts.items()):
        print(f"{kind}: {part}: {count}")


main()
