"""The worked cases of each command, made of the examples: a certificate and a ticket are those that the program itself writes."""
import os

from survey import ran

NAMES = ["one-way", "round-trip", "two-carriers"]
LATER = b'{"actions":[{"put_fare":{"carrier":"QX","from":"LON","to":"NYC","basis":"Y1","class":"Y","kind":"O","amount":15000,"rule":0}}]}\n'


def search_case(top, name):
    with open(f"{top}/examples/{name}.case", "rb") as held:
        return held.read()


def with_section(case, name, lines):
    """The case with one section more at its end."""
    return case.removesuffix(b"#end\n") + b"#" + name + b"\n" + b"".join(line + b"\n" for line in lines) + b"#end\n"


def certificate(program, case):
    lines = ran(program, ["search"], case)[0].splitlines()
    return lines[next(at for at, line in enumerate(lines) if line.startswith(b"certificate ")) :]


def check_case(program, case):
    return with_section(case, b"certificate", certificate(program, case))


def first_ticket(program, case):
    """The lines of the first ticket that is found, as a verdict reads them."""
    lines = []
    for line in ran(program, ["search", "--best", "1"], case)[0].splitlines():
        words = line.split(b" ")
        if words[0] == b"component":
            lines.append(b" ".join([b"component", words[3], *words[6:10]]))
        elif words[0] == b"flight":
            lines.append(b" ".join([b"flight", *words[1:5]]))
    return lines


def verdict_case(program, case):
    return with_section(case, b"ticket", first_ticket(program, case))


def two_desks(top):
    """The one-way case with a filing more that is made while two desks search."""
    lines = search_case(top, "one-way").replace(b"#request\n", b"#later\n" + LATER + b"#request\n")
    return with_section(lines, b"script", [b"desks 2", b"1 search 1", b"2 wait 1", b"2 search 1"])


def two_desks_texts(program, top):
    """What `serve` may write for it: the first desk answers by either version, the second by the later one."""
    filed = search_case(top, "one-way").replace(b"#request\n", LATER + b"#request\n")

    def reply(number, desk, version):
        answer = ran(program, ["search", "--at", str(version)], filed)[0].split(b"certificate ")[0].split(b"\n", 1)[1]
        return b"reply %d desk %d version %d\n" % (number, desk, version) + answer

    history = b"history 2\nentry 1 filing 1\nentry 2 later 1\n"
    return [history + reply(1, 1, version) + reply(3, 2, 2) for version in (1, 2)]


def worked(program, top):
    """Names, words and inputs of all commands on the worked cases."""
    cases = [(name, search_case(top, name)) for name in NAMES]
    return [
        *((f"search-{name}", ["search"], case) for name, case in cases),
        *((f"check-{name}", ["check"], check_case(program, case)) for name, case in cases),
        *((f"calendar-{name}", ["calendar", "--outs", "2", "--backs", "2"], case) for name, case in cases[1:]),
        *((f"verdict-{name}", ["verdict"], verdict_case(program, case)) for name, case in cases),
        ("verdict-breaches", ["verdict"], search_case(top, "verdict-stays")),
        ("refusal", ["calendar", "--outs", "2", "--backs", "1"], cases[0][1]),
        ("too-large", ["search", "--budget", "2"], cases[1][1]),
        ("no", ["check", "--best", "2"], check_case(program, cases[1][1])),
        ("usage", ["search", "search"], b""),
        ("make", ["make", "--seed", "7", "--size", "2"], b""),
        ("make-summary", ["make", "--seed", "7", "--size", "2", "--summary"], b""),
        ("serve-two-desks", ["serve"], two_desks(top)),
    ]


def examples(top):
    """Names, words and inputs of all examples that stand in a file."""
    folder = f"{top}/examples"
    for name in sorted(os.listdir(folder)):
        if name.endswith(".case"):
            stem = name.removesuffix(".case")
            words = ["search"]
            if os.path.exists(f"{folder}/{stem}.words"):
                with open(f"{folder}/{stem}.words") as held:
                    words = held.read().split()
            yield stem, words, search_case(top, stem)
