"""Prints the bench's table; bench/run calls it. Each engine solves each week in a process of its own, one after the other."""
import argparse
import math
import re
import subprocess
import sys
from pathlib import Path


def call(options, program, *arguments, limit):
    """What a program of the bench prints, as words; None where it does not end in time."""
    command = ([options.run] if options.run else []) + [str(program), *map(str, arguments)]
    try:
        done = subprocess.run(command, capture_output=True, text=True, timeout=limit, check=True)
    except subprocess.TimeoutExpired:
        return None
    return done.stdout.split()


def tried_by(week, limit):
    """How many partial orders the proved solve tries on a week, as the program `tried` prints it."""
    try:
        with open(week, "rb") as file:
            done = subprocess.run(["bin/run", "crates/tried/out/tried"], stdin=file, capture_output=True, text=True, timeout=limit, check=True)
    except subprocess.TimeoutExpired:
        return None
    return int(done.stdout)


def recorded(week):
    """What solve must give for a week, if it is recorded beside it."""
    for suffix, before in ((".plan", ""), (".order", "plan ")):
        beside = week.with_suffix(suffix)
        if beside.exists():
            return before + beside.read_text().splitlines()[0]
    return None


def numbers_of(week):
    """n, a and b, as the first bytes of the block file have them."""
    content = week.read_bytes()[4:7]
    return content[0], content[1], content[2]


def shown(seconds, limit):
    return f"> {limit} s" if seconds is None else f"{seconds * 1000:.3f}"


def measure(options, week):
    """One line of the table."""
    limit = options.limit * 2
    proved = call(options, options.out / "solve", "proved", week, limit=limit)
    plain = call(options, options.out / "solve", "plain", week, limit=limit)
    line = {"week": week.stem, "numbers": numbers_of(week), "notes": []}
    line["proved"] = float(proved[0]) if proved else None
    line["plain"] = float(plain[0]) if plain else None
    line["plain tried"] = int(plain[2]) if plain else None
    line["proved tried"] = tried_by(week, limit) if proved else None
    answer = " ".join(proved[3:]) if proved else None
    line["answer"] = answer
    if proved is None or line["proved"] > options.limit:
        line["notes"].append("TOO SLOW")
    if proved and plain and (proved[1] != plain[1] or proved[3:] != plain[3:]):
        line["notes"].append("PLAIN DIFFERS")
    if answer and recorded(week) not in (None, answer):
        line["notes"].append("WRONG")
    line["peer"] = None
    if options.peer:
        peer = call(argparse.Namespace(run=""), options.peer, week, limit=options.peer_limit)
        line["peer"] = float(peer[0]) if peer else None
        if peer and answer and " ".join(peer[1:]) != answer:
            line["notes"].append("PEER DIFFERS")
    return line


HEAD = f"{'week':24} {'n a b':7} {'answer':10} {'proved ms':>12} {'plain ms':>12} {'ratio':>6} {'proved tried':>13} {'plain tried':>13} {'CaDiCaL ms':>12}"


def put_line(options, line):
    ratio = f"{line['proved'] / line['plain']:.2f}" if line["proved"] and line["plain"] else "-"
    peer = shown(line["peer"], options.peer_limit) if options.peer else "-"
    answer = {None: "-"}.get(line["answer"], (line["answer"] or "").split(" ")[0])
    answer = line["answer"] if answer == "refused" else answer
    print(
        f"{line['week']:24} {' '.join(map(str, line['numbers'])):7} {answer:10} {shown(line['proved'], options.limit):>12} {shown(line['plain'], options.limit):>12}"
        f" {ratio:>6} {line['proved tried'] if line['proved tried'] is not None else '-':>13} {line['plain tried'] if line['plain tried'] is not None else '-':>13} {peer:>12} {' '.join(line['notes'])}".rstrip(),
        flush=True,
    )


def put_sums(options, lines):
    both = [line for line in lines if line["proved"] is not None and line["plain"] is not None]
    proved, plain = sum(line["proved"] for line in both), sum(line["plain"] for line in both)
    long = [line for line in both if line["plain"] >= 0.001]
    print(f"total: proved {proved:.3f} s, plain {plain:.3f} s, ratio {proved / plain:.2f}; slowest proved {max(line['proved'] for line in both):.3f} s; {len(lines) - len(both)} not ended")
    if long:
        worst = max(long, key=lambda line: line["proved"] / line["plain"])
        print(f"worst ratio among weeks of 1 ms and more in C: {worst['proved'] / worst['plain']:.2f} ({worst['week']})")
    if options.peer:
        ahead = sum(1 for line in lines if line["proved"] is not None and (line["peer"] is None or line["proved"] < line["peer"]))
        print(f"ahead of CaDiCaL on {ahead} of {len(lines)} weeks; behind on: {' '.join(line['week'] for line in lines if line['proved'] is None or (line['peer'] is not None and line['peer'] <= line['proved'])) or 'none'}")
    print(f"notes: {sum(len(line['notes']) for line in lines)}")


def put_growth(lines):
    """The generated families by number of lots: the mean (geometric) of the proved times."""
    table = {}
    for line in lines:
        name = re.fullmatch(r"([a-z]+)_(\d\d)_(\d\d)_\d+", line["week"])
        if name and line["proved"]:
            table.setdefault((name[1], name[3]), {}).setdefault(int(name[2]), []).append(line["proved"])
    print("\nHow cost grows: ms of the proved solve, geometric mean over a family's weeks, by number of lots")
    sizes = sorted({size for row in table.values() for size in row})
    print(f"{'family ab':16}" + "".join(f"{size:>12}" for size in sizes))
    for (family, ab), row in sorted(table.items()):
        means = [math.exp(sum(map(math.log, row[size])) / len(row[size])) * 1000 if size in row else None for size in sizes]
        print(f"{family + ' ' + ab:16}" + "".join(f"{mean:12.3f}" if mean is not None else f"{'-':>12}" for mean in means))


def put_calls(options, weeks):
    print("\nSingle calls at 24 lots: microseconds proved, plain")
    for week in weeks:
        words = call(options, options.out / "calls", week, limit=120)
        for i in range(0, len(words or []), 4):
            print(f"{week.stem:24} {words[i]:8} {float(words[i + 1]):12.1f} {float(words[i + 2]):12.1f}")


def put_stack(options, weeks):
    used = {week.stem: int(call(options, options.out / "stack", week, limit=options.limit * 2)[0]) for week in weeks}
    most = max(used, key=used.get)
    print(f"\nStack of solve: at most {used[most]} bytes over {len(used)} weeks ({most})")


def main():
    parser = argparse.ArgumentParser()
    parser.add_argument("folders", nargs="+", type=Path)
    parser.add_argument("--run", default="")
    parser.add_argument("--out", type=Path)
    parser.add_argument("--peer", default="")
    parser.add_argument("--limit", type=int)
    parser.add_argument("--peer-limit", type=int)
    options = parser.parse_args()
    ended, solved, every = [], [], []
    for folder in options.folders:
        weeks = sorted(folder.glob("*.blk"))
        if not weeks:
            sys.exit(f"bench: no block files in '{folder}'")
        print(f"\n{folder.name}: {len(weeks)} weeks\n{HEAD}")
        lines = []
        for week in weeks:
            line = measure(options, week)
            lines.append(line)
            put_line(options, line)
            if line["proved"] is not None:
                ended.append(week)
                if line["numbers"][0] == 24 and line["answer"].startswith("plan"):
                    solved.append(week)
        put_sums(options, lines)
        every += lines
    put_growth(every)
    put_calls(options, solved[:: max(1, len(solved) // 8)])
    put_stack(options, ended)
    if any(line["notes"] for line in every):
        sys.exit(1)


if __name__ == "__main__":
    main()
