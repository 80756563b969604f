"""The block files of crates/plans/data and what the printing program must print for each, crates/plans/stdout.

Written from document 01 alone: nothing here is taken from the library. Weeks of up to 4 lots are solved by trying every order;
the weeks of 24 lots made here have no ties, so that their plans are known without a search. Those of weeks/ come with their plans.

    python3 tests/make_plans.py          writes the files
    python3 tests/make_plans.py --check  compares them with what stands there; the last line is 'N passed, M failed'
"""
import itertools
import os
import sys

ROOT = os.path.join(os.path.dirname(os.path.abspath(__file__)), "..")
HOME = os.path.join(ROOT, "crates", "plans")


class Week:
    """The six numbers and the tables of a week. `may(p, v, q, w)`, p < q, says which slots may stand together."""

    def __init__(self, a, b, domain, loss=None, give=None, may=None, alternative=0, gap=0, helper=0):
        self.n, self.a, self.b, self.alternative, self.gap, self.helper = len(domain), a, b, alternative, gap, helper
        self.domain, self.loss, self.give = domain, loss or domain, give or domain
        self.may = may or (lambda p, v, q, w: True)

    def together(self, p, v, q, w):
        return self.may(p, v, q, w) if p < q else self.may(q, w, p, v)


def slots_of(word):
    return [v for v in range(16) if word >> v & 1]


def word_of(slots):
    return sum(1 << v for v in slots)


# The block file


def fnv1a(data):
    value = 2166136261
    for byte in data:
        value = (value ^ byte) * 16777619 % 2**32
    return value


def content_of(week):
    content = [week.n, week.a, week.b, week.alternative, week.gap, week.helper]
    words = week.domain + week.loss + week.give
    for p, q in itertools.combinations(range(week.n), 2):
        for v in range(16):
            fits = v in slots_of(week.domain[p])
            words = words + [word_of(w for w in slots_of(week.domain[q]) if fits and week.may(p, v, q, w))]
    for word in words:
        content += [word % 256, word // 256]
    return bytes(content)


def block(number, content):
    body = number.to_bytes(4, "little") + content.ljust(504, b"\0")
    return body + fnv1a(body).to_bytes(4, "little")


def blocks(content):
    return b"".join(block(i, content[i * 504 : i * 504 + 504]) for i in range((len(content) + 503) // 504))


def file_of(week):
    return blocks(content_of(week))


def with_byte(content, place, byte):
    """The content with one byte changed, or put behind its end."""
    content = bytearray(content.ljust(place + 1, b"\0"))
    content[place] = byte
    return bytes(content)


# The meaning of a super solution


def keeps(week, order):
    return all(week.together(p, order[p], q, order[q]) for p, q in itertools.combinations(range(week.n), 2))


def orders(week):
    """Every order that keeps the rules, the first one first."""
    return [order for order in itertools.product(*map(slots_of, week.domain)) if keeps(week, order)]


def is_repair(week, order, lost, other):
    moved = 0
    for p, (old, new) in enumerate(zip(order, other)):
        if p in lost:
            if new == old or (week.alternative == 1 and not old + week.gap < new):
                return False
        elif new != old:
            moved += 1
            if old not in slots_of(week.give[p]):
                return False
        if week.helper == 1 and new < old:
            return False
    return moved <= week.b


def sets_of(week):
    """The sets of the rows: single lots ascending, then pairs."""
    return [lost for size in range(1, week.a + 1) for lost in itertools.combinations(range(week.n), size)]


def row(week, order, lost, kept):
    """The row of a set: the order where the set is no break, else the first repair, or None."""
    if any(order[p] not in slots_of(week.loss[p]) for p in lost):
        return order
    return next((other for other in kept if is_repair(week, order, lost, other)), None)


def solved(week):
    """The first super solution and its rows, or None."""
    kept = orders(week)
    for order in kept:
        rows = [row(week, order, lost, kept) for lost in sets_of(week)]
        if None not in rows:
            return order, rows
    return None


# What is printed


def numbers(values):
    return "".join(f" {value}" for value in values)


def text(week, order, rows):
    lines = ["plan" + numbers(order)]
    lines += ["lost" + numbers(lost) + " :" + numbers(found) for lost, found in zip(sets_of(week), rows)]
    return "\n".join(lines) + "\n"


def refused(number):
    return f"refused {number}\n"


def plan(week):
    """The text of a small week, by trying every order."""
    answer = solved(week)
    return text(week, *answer) if answer else refused(5)


def shown(week, order, *rows):
    """The text of a worked week of document 01, which must be what trying every order gives."""
    told = text(week, tuple(order), rows)
    assert told == plan(week), (told, plan(week))
    return told


# The weeks


def week_f(a, b, **rules):
    """Week F: lot 0 <= lot 1 and lot 1 <= lot 2; lots 0 and 2 are not tied."""
    return Week(a, b, [14, 14, 14], may=lambda p, v, q, w: v <= w or (p, q) == (0, 2), **rules)


def two_lots(b):
    """Source 001: together only 2 2, 1 2, 2 1."""
    return Week(1, b, [6, 6], may=lambda p, v, q, w: (v, w) != (1, 1))


def apart(a, b, **rules):
    """Four lots, no two in one slot; the slots reach 15."""
    wide = word_of([3, 8, 9, 10, 12, 15])
    return Week(a, b, [wide] * 4, may=lambda p, v, q, w: v != w, **rules)


SPREAD = [p % 14 for p in range(24)]
HIGH = [10 + p % 4 for p in range(24)]


def free(order):
    """24 lots without ties, each with the order's slot and the two behind it."""
    return Week(2, 0, [word_of([v, v + 1, v + 2]) for v in order])


def free_text(order):
    """The first order takes every first slot, and a lost lot its second one."""
    return text(free(order), order, [[v + (p in lost) for p, v in enumerate(order)] for lost in sets_of(free(order))])


def given(name):
    """A dyehouse week of 24 lots and its plan, as they stand in weeks/."""
    paths = [os.path.join(ROOT, "weeks", name + end) for end in (".blk", ".plan")]
    return [open(path, "rb").read() for path in paths]


def cases():
    """Name, file and text of each case, in the order in which crates/plans prints them."""
    f = week_f(1, 0)
    later = dict(alternative=1, gap=0)
    content = content_of(f)
    large = file_of(free(SPREAD))
    yield "f_00", file_of(week_f(0, 0)), shown(week_f(0, 0), [1, 1, 1])
    yield "f_10", file_of(f), shown(f, [1, 2, 2], [2, 2, 2], [1, 1, 2], [1, 2, 3])
    yield "f_11", file_of(week_f(1, 1)), shown(week_f(1, 1), [1, 1, 2], [2, 2, 2], [1, 2, 2], [1, 1, 1])
    yield "f_12", file_of(week_f(1, 2)), shown(week_f(1, 2), [1, 1, 1], [2, 2, 2], [1, 2, 2], [1, 1, 2])
    six = [2, 2, 3], [1, 1, 3], [1, 2, 2], [2, 3, 3], [2, 2, 2], [1, 1, 1]
    yield "f_20", file_of(week_f(2, 0)), shown(week_f(2, 0), [1, 2, 3], *six)
    yield "f_later", file_of(week_f(1, 0, **later)), refused(5)
    firm = week_f(1, 0, loss=[14, 14, 0], **later)
    yield "f_later_firm", file_of(firm), shown(firm, [1, 2, 3], [2, 2, 3], [1, 3, 3], [1, 2, 3])
    yield "one_lot", file_of(Week(1, 0, [8])), refused(5)
    yield "one_lot_firm", file_of(Week(1, 0, [8], loss=[0])), shown(Week(1, 0, [8], loss=[0]), [3], [3])
    yield "two_lots_10", file_of(two_lots(0)), shown(two_lots(0), [2, 2], [1, 2], [2, 1])
    yield "two_lots_11", file_of(two_lots(1)), shown(two_lots(1), [1, 2], [2, 1], [2, 1])
    both = Week(2, 0, [word_of([11, 12])])
    yield "one_lot_two_slots", file_of(both), shown(both, [11], [12])
    yield "four_apart_20", file_of(apart(2, 0)), plan(apart(2, 0))
    yield "four_apart_23", file_of(apart(2, 3, helper=1)), plan(apart(2, 3, helper=1))
    yield "four_apart_gap", file_of(apart(1, 1, alternative=1, gap=2)), plan(apart(1, 1, alternative=1, gap=2))
    yield "free_spread", large, free_text(SPREAD)
    yield "free_high", file_of(free(HIGH)), free_text(HIGH)
    for name in "g1easy_23_s0", "g1later_21_s0":
        data, told = given(name)
        yield name, data, told.decode()
    yield "empty", b"", refused(15)
    yield "short", file_of(f)[:511], refused(15)
    yield "long", large + b"\0", refused(15)
    yield "block_missing", large[:-512], refused(15)
    yield "block_too_many", file_of(f) + block(1, b""), refused(15)
    yield "check", file_of(f)[:100] + bytes([file_of(f)[100] ^ 1]) + file_of(f)[101:], refused(16)
    yield "number", block(1, content), refused(17)
    yield "number_last", large[:-512] + block(16, content_of(free(SPREAD))[17 * 504 :]), refused(17)
    for name, place, byte in ("n_0", 0, 0), ("n_25", 0, 25), ("a_3", 1, 3), ("b_4", 2, 4), ("alternative_2", 3, 2), ("gap_alone", 4, 1), ("helper_2", 5, 2):
        yield name, blocks(with_byte(content, place, byte)), refused(1)
    yield "gap_16", file_of(week_f(1, 0, alternative=1, gap=16)), refused(1)
    yield "filling", blocks(with_byte(content, 503, 1)), refused(18)
    yield "domain_empty", file_of(Week(1, 0, [14, 0, 14], loss=[14, 0, 14], give=[14, 0, 14])), refused(3)
    yield "loss_outside", file_of(week_f(1, 0, loss=[14, 30, 14])), refused(3)
    yield "give_outside", file_of(week_f(1, 0, give=[14, 14, 15])), refused(3)
    yield "tie_outside_own", blocks(with_byte(content, 6 + 18, 2)), refused(4)
    yield "tie_outside_other", blocks(with_byte(content, 6 + 18 + 2, 15)), refused(4)


def main():
    wanted, out = {}, ""
    for name, data, told in cases():
        wanted[os.path.join(HOME, "data", name + ".blk")] = data
        out += name + ".blk\n" + told
    wanted[os.path.join(HOME, "stdout")] = out.encode()
    if sys.argv[1:] == ["--check"]:
        wrong = [path for path, data in wanted.items() if not os.path.exists(path) or open(path, "rb").read() != data]
        for path in wrong:
            print("differs:", os.path.relpath(path))
        print(f"{len(wanted) - len(wrong)} passed, {len(wrong)} failed")
        sys.exit(1 if wrong else 0)
    os.makedirs(os.path.join(HOME, "data"), exist_ok=True)
    for path, data in wanted.items():
        with open(path, "wb") as file:
            file.write(data)


main()
