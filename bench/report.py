#!/usr/bin/env python3
"""Make tables and a picture of what bench/run has measured. The tables are printed and put into docs/BENCH.md, between the marks
there; the picture is docs/bench.svg."""

import datetime
import math
import os
import re

os.chdir(os.path.join(os.path.dirname(os.path.abspath(__file__)), ".."))


def measured(name):
    with open(f"target/bench/{name}") as f:
        return f.read()


def rows(name):
    return [line.split("\t") for line in measured(name).splitlines()]


def table(head, lines):
    return "\n".join("| " + " | ".join(map(str, line)) + " |" for line in [head, ["---"] * len(head)] + lines)


def machine():
    with open("/proc/cpuinfo") as f:
        model = re.search(r"model name\s*: (.*)", f.read())
    return f"{datetime.date.today()}, {os.cpu_count()} cores, {model[1] if model else os.uname().machine}"


def when():
    return f"Measured: {machine()}."


def methods():
    lines = [[name, status, *times, f"{float(times[0]) / float(times[2]):.2f}", f"{float(times[0]) / float(times[4]):.2f}"]
             for name, status, *times in rows("methods")]
    pairs, second = (max(lines, key=lambda line: float(line[k])) for k in (-2, -1))
    head = ["call", "status", "proved, least", "median", "over pairs, least", "median", "second, least", "median", "proved / over pairs",
            "proved / second"]
    return table(head, lines) + f"\n\nThe largest ratios are {pairs[-2]} ({pairs[0]}) and {second[-1]} ({second[0]})."


def sound_times():
    """For each sort and number of records the microseconds of the proved test, the one by hand and the second implementation's."""
    return {(sort, int(n)): [float(time) for time in times] for sort, n, *times in rows("sound")}


def sound():
    times = sound_times()
    sorts = list(dict.fromkeys(sort for sort, _ in times))
    sizes = sorted({n for _, n in times})

    def cell(sort, n):
        proved, by_hand, second = times[sort, n]
        return f"{proved:.2f}, {proved / by_hand:.2f}, {proved / second:.2f}"

    full = {sort: times[sort, sizes[-1]] for sort in sorts if not sort.startswith("unsound")}
    refused = next(times[sort, sizes[-1]] for sort in sorts if sort.startswith("unsound"))
    by_hand, second = (max(t[0] / t[k] for t in full.values()) for k in (1, 2))
    return (table(["records"] + sorts, [[n] + [cell(sort, n) for sort in sorts] for n in sizes])
            + f"\n\nThe largest ratios over sound stores of {sizes[-1]} records are {by_hand:.2f} and {second:.2f}; the dearest is that of"
            + f" {max(full, key=lambda sort: full[sort][0])}. The unsound one is refused after {refused[0]:.2f} microseconds, {refused[0] / refused[1]:.2f} and"
            + f" {refused[0] / refused[2]:.2f} times as long.")


def hashes():
    without = {(message, which): speeds for message, which, *speeds in rows("hash-without")}
    lines = []
    for message, which, proved, plain, *crypto in rows("hash"):
        library = without[message, which][2:] + crypto if crypto else ["-", "-"]
        lines.append([f"{message}, {which}", proved, plain] + library + [f"{float(proved) / float(plain):.2f}"])
    return table(["message", "proved", "plain C", "library, no SHA instructions", "library", "proved / plain C"], lines)


def deepest_path():
    """The most stack that a path of calls from sks_call takes, by the machine code: each function's return address, pushes and frame. One
    that calls nothing may use 128 bytes more below its stack pointer without moving it."""
    frames, calls, function = {}, {}, None
    code = measured("code").splitlines()
    for line, following in zip(code, code[1:]):
        room = re.search(r"\tsub +\$0x([0-9a-f]+),%rsp$", line)
        if start := re.match(r"[0-9a-f]+ <(.+)>:$", line):
            function = start[1]
            frames[function], calls[function] = 8, set()
        elif called := re.search(r"R_X86_64_PLT32\s+(?:\.text\.)?(\S+?)[-+]0x[0-9a-f]+$", line):
            calls[function].add(called[1])
        elif room:
            frames[function] += int(room[1], 16)
        elif "\tpush" in line:
            frames[function] += 8
        # No frame whose size is found only at run time, and no call by a pointer.
        assert room or not re.search(r"\t(sub|and|mov|lea) .*,%rsp$", line), line
        assert "\tcall" not in line or "R_X86_64_PLT32" in following, line

    def depth(name, above=()):
        assert name not in above, f"{name} calls itself"
        # memcpy and memset are not in the archive: a return address for them.
        return frames.get(name, 8) + max((depth(callee, above + (name,)) for callee in calls.get(name, ())), default=128)

    return depth("sks_call")


def stack():
    lines = rows("stack")
    most, calls = max(int(line[2]) for line in lines), sum(int(line[1]) for line in lines)
    return (table(["method", "calls", "bytes, most"], lines)
            + f"\n\nThe most over these {calls:,} calls is {most:,} bytes, the bound by the machine code {deepest_path():,} bytes.")


def size_of(name):
    code, data, zeroed = map(int, measured(f"size-{name}").splitlines()[1].split()[:3])
    undefined = sorted(set(re.findall(r"\bU (\S+)", measured(f"undefined-{name}"))))
    return (f"lib{name}.a has {code:,} bytes of code and constants, {data} of data, {zeroed} of zeroed data (`size`)."
            f" Of others it needs (`nm -u`): {', '.join(undefined)}.")


def size():
    return size_of("token")


def issuer():
    lines = [[*line, f"{float(line[3]) / float(line[5]):.2f}"] for line in rows("issue")]
    head = ["call", "bytes", "proved, least", "median", "builder, least", "median", "proved / builder, medians"]
    return table(head, lines) + "\n\n" + size_of("issuer")


def proofs():
    """Crates by seconds, where the log has them all."""
    log = measured("proofs")
    seconds = {name: int(n) for name, n in re.findall(r"rt: (\S+) proved \((\d+) s\)", log)}
    edits = {}
    for name, n in re.findall(r"rt: must-fail (\S+?)/.*\b(\d+) s\)$", log, re.M):
        edits.setdefault(name, []).append(int(n))
    with open("crates.txt") as f:
        missing = [name for name in re.findall(r"^(\w+):", f.read(), re.M) if name not in seconds]
    if missing:
        print(f"\nThe log has no seconds of proof for {len(missing)} crates ({missing[0]}, ..); that table stays as it is.")
        return None
    lines = [[name, seconds[name], len(edits.get(name, [])), sum(edits.get(name, []))] for name in sorted(seconds, key=seconds.get, reverse=True)]
    total = ["together"] + [sum(line[k] for line in lines) for k in (1, 2, 3)]
    columns = 4 if edits else 2  # a log of the proofs alone
    return table(["crate", "seconds", "must-fail edits", "their seconds"][:columns], [line[:columns] for line in lines + [total]])


# ---- the picture

PROVED, BY_HAND, SECOND = "#246", "#c84", "#9bd"


def text(x, y, words, anchor="start"):
    return f'<text x="{x:.0f}" y="{y:.0f}" text-anchor="{anchor}">{words}</text>'


def bars(x, y, width):
    found = [(name, [float(time) for time in times[::2]]) for name, _, *times in rows("methods")]
    scale = width / max(max(times) for _, times in found)
    out = [text(20, y, "A call on 256 records, microseconds: proved (dark), the second implementation with soundness over pairs (brown), and as it is (light)")]
    for i, (name, times) in enumerate(found):
        top = y + 14 + 24 * i
        out.append(text(x - 8, top + 13, name, "end"))
        for k, (time, colour) in enumerate(zip(times, (PROVED, BY_HAND, SECOND))):
            out.append(f'<rect x="{x}" y="{top + 6 * k}" width="{time * scale:.1f}" height="5" fill="{colour}"/>')
        out.append(text(x + 8 + max(times) * scale, top + 13, ", ".join(f"{time:.1f}" for time in times)))
    return out


def growth(x, y, width, height):
    times = sound_times()
    low, high = min(map(min, times.values())), max(map(max, times.values()))

    def across(n):
        return x + width * (math.log2(n) - 1) / 7

    def down(time):
        return y + height - height * math.log(time / low) / math.log(high / low)

    out = [text(20, y - 16, "The soundness test on six sorts of store, microseconds by records:"
                " proved (dark), by hand over pairs (brown), second (light)")]
    for sort in dict.fromkeys(sort for sort, _ in times):
        for k, colour in ((1, BY_HAND), (2, SECOND), (0, PROVED)):
            points = " ".join(f"{across(n):.1f},{down(t[k]):.1f}" for (its_sort, n), t in times.items() if its_sort == sort)
            out.append(f'<polyline points="{points}" fill="none" stroke="{colour}" stroke-width="1.5"/>')
    out += [text(across(2 ** k), y + height + 16, 2 ** k, "middle") for k in range(1, 9)]
    return out + [text(x - 8, down(time) + 4, f"{time:.3g}", "end") for time in (low, 1, 10, 100, high)]


def picture():
    body = [text(20, 24, machine())] + bars(200, 52, 500) + growth(60, 480, 800, 260)
    return ('<svg xmlns="http://www.w3.org/2000/svg" width="900" height="780" font-family="sans-serif" font-size="12">\n'
            '<rect width="900" height="780" fill="white"/>\n' + "\n".join(body) + "\n</svg>\n")


def main():
    with open("docs/BENCH.md") as f:
        page = f.read()
    for part in (when, methods, issuer, sound, hashes, stack, size, proofs):
        name, words = part.__name__, part()
        if words is None:
            continue
        print(f"\n{name}\n\n{words}")
        page, found = re.subn(rf"(<!-- {name} -->\n).*?(<!-- end -->)", lambda mark: mark[1] + words + "\n" + mark[2], page, flags=re.S)
        assert found == 1, f"docs/BENCH.md has no mark {name}"
    with open("docs/BENCH.md", "w") as f:
        f.write(page)
    with open("docs/bench.svg", "w") as f:
        f.write(picture())


if __name__ == "__main__":
    main()
