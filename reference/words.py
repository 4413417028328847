"""The program's words: docs/FORMATS.md, 'The words'."""
import re

OPTIONS = {
    "search": {"best": (1, 1000), "budget": (1, 1000000), "at": (0, 1000000)},
    "check": {"best": (1, 1000), "at": (0, 1000000)},
    "make": {"seed": (0, 4294967295), "size": (1, 100), "summary": None},
    "calendar": {"outs": (1, 31), "backs": (1, 31), "budget": (1, 1000000), "at": (0, 1000000)},
    "verdict": {"at": (0, 1000000)},
    "serve": {"best": (1, 1000), "budget": (1, 1000000)},
}
REQUIRED = {"make": ["seed", "size"], "calendar": ["outs", "backs"]}
USAGE = "usage: lowfare search|check|make|serve|calendar|verdict\n"


def command_line(words):
    """FORMATS, 'The words': the command and its values by name, or None where the words are no command line."""
    named, others = split(words)
    if named is None or len(others) != 1 or others[0] not in OPTIONS:
        return None
    command, values = others[0], {}
    for name, text in named.items():
        if name not in OPTIONS[command]:
            return None
        values[name] = True if text is None else value(text, *OPTIONS[command][name])
        if values[name] is None:
            return None
    return None if any(name not in values for name in REQUIRED.get(command, [])) else (command, values)


def split(words):
    """FORMATS, 'The words': an option is `--name value` or `--name=value`, before or after the command, each at most once; after a word
    `--` no word is an option. The texts of the options by name, and the other words; or None where an option isn't right."""
    named, others, at = {}, [], 0
    while at < len(words):
        word = words[at]
        at += 1
        if word == "--":
            return named, others + words[at:]
        if not word.startswith("-"):
            others.append(word)
            continue
        name, equals, text = word[2:].partition("=")
        takes_value = name != "summary"
        if not word.startswith("--") or name in named or not any(name in of for of in OPTIONS.values()):
            return None, others
        if not takes_value and equals:
            return None, others
        if takes_value and not equals:
            if at == len(words) or words[at].startswith("-"):
                return None, others
            text = words[at]
            at += 1
        named[name] = text if takes_value else None
    return named, others


def value(text, low, high):
    """FORMATS, 'The words': a value is one to ten decimal digits."""
    if not re.fullmatch("[0-9]{1,10}", text) or not low <= int(text) <= high:
        return None
    return int(text)
