"""What is told of words that name no command, by a plain reference: the words are read from the left, then options that stand twice are
looked for, then the other words, then the port of `serve`, then values."""

import re

NAME = "1 to 64 bytes of letters, digits, spaces and _ - ."


def number(low, high):
    return f"a number from {low} to {high}", lambda text: re.fullmatch("[0-9]{1,19}", text) and low <= int(text) <= high


def filled(what):
    return what, lambda text: text != ""


HOST = ("1 to 255 letters, digits, dots, hyphens and colons", lambda text: re.fullmatch(r"[A-Za-z0-9.:-]{1,255}", text))
PATH = (
    "1 to 512 bytes without a question mark, control bytes and .isml/",
    lambda text: 1 <= len(text.encode()) <= 512 and not re.search(r"[?\x00-\x1f\x7f]", text) and ".isml/" not in text,
)
STREAM = (NAME, lambda text: re.fullmatch(r"[A-Za-z0-9 _.-]{1,64}", text))
LAST = 2**63 - 1
PORT, STORE = number(1, 65535), filled("a folder")

OPTIONS = {
    "--port": PORT,
    "--ladder": None,
    "--turns": number(1, LAST),
    "--bind": filled("an address"),
    "--journal": filled("a file"),
    "--players": number(1, 16),
    "--from": number(0, LAST),
    "--count": number(1, 1000000),
    "--tries": number(1, 16),
    "--refresh": number(1, 10000),
    "--rounds": number(1, 1000000),
}
TO = [("HOST", HOST), ("PORT", PORT), ("PATH", PATH)]
# the words of each command, its options, and how it is used
COMMANDS = {
    "serve": (
        [("STORE", STORE)],
        ["--port", "--ladder", "--turns", "--bind", "--journal", "--players"],
        "serve STORE --port N [--bind ADDRESS] [--ladder] [--journal FILE] [--turns N] [--players N]",
    ),
    "list": ([("STORE", STORE)], [], "list STORE"),
    "push": (TO + [("ID", STREAM)], [], "push HOST PORT PATH ID < PUSH"),
    "play": (
        TO + [("STREAM", STREAM)],
        ["--from", "--count", "--tries", "--refresh"],
        "play HOST PORT PATH STREAM... [--from N] [--count N] [--tries N] [--refresh N]",
    ),
    "relay": (
        TO + [("STORE", STORE)],
        ["--rounds", "--tries", "--journal"],
        "relay HOST PORT PATH STORE [--rounds N] [--tries N] [--journal FILE] < LADDER",
    ),
    "standby": (
        TO + [("STORE", STORE)],
        ["--rounds", "--tries", "--journal"],
        "standby HOST PORT PATH STORE [--rounds N] [--tries N] [--journal FILE] < LADDER",
    ),
    "pick": ([("TRACK", number(1, 2**32 - 1)), ("TIME", number(0, LAST))], [], "pick TRACK TIME < PUSH > FRAGMENT"),
    "export": (
        [("STORE", STORE), ("NAME", STREAM), ("BITRATE", number(0, 2**32 - 1))],
        [],
        "export STORE NAME BITRATE < HEADER > FILE",
    ),
    "rehearse": ([("NUMBER", number(0, 2**31 - 1)), ("SIZE", number(0, 2000))], [], "rehearse NUMBER SIZE"),
}
ALL = "COMMAND [WORDS], and one of\n    serve list push play relay standby pick export rehearse help version"


class Wrong(Exception):
    pass


def read(options, words):
    """The options with their values, and the other words."""
    given, others, waits, is_bare = [], [], None, False
    for word in words:
        name, has_value, value = word.partition("=")
        if is_bare:
            others.append(word)
        elif waits:
            if word.startswith("-"):
                raise Wrong(f"{waits} wants {OPTIONS[waits][0]} behind it")
            given.append((waits, word))
            waits = None
        elif word == "--":
            is_bare = True
        elif not word.startswith("-"):
            others.append(word)
        elif name not in options:
            raise Wrong(f"{word} is no option of this command")
        elif OPTIONS[name] is None:
            if has_value:
                raise Wrong(f"{name} takes no value")
            given.append((name, ""))
        elif not has_value:
            waits = name
        elif value.startswith("-"):
            raise Wrong(f"{name} wants {OPTIONS[name][0]} behind it")
        else:
            given.append((name, value))
    if waits:
        raise Wrong(f"{waits} wants {OPTIONS[waits][0]} behind it")
    return given, others


def of_command(command, words):
    parts, options, _ = COMMANDS[command]
    given, others = read(options, words)
    for name in options:
        if [it for it, _ in given].count(name) > 1:
            raise Wrong(f"{name} stands twice")
    for at, (part, (wants, fits)) in enumerate(parts):
        if at == len(others):
            raise Wrong(f"{part} is missing")
        if not fits(others[at]):
            raise Wrong(f"{part} wants {wants}")
    for word in others[len(parts) :]:
        if command != "play":
            raise Wrong(f"{word} is one word too many")
        if not STREAM[1](word):
            raise Wrong(f"STREAM wants {NAME}")
    if command == "play" and len(others) > 19:
        raise Wrong("STREAM stands more than 16 times")
    values = dict(given)
    if command == "serve" and "--port" not in values:
        raise Wrong("--port is missing")
    for name in options:
        if name in values and OPTIONS[name] and not OPTIONS[name][1](values[name]):
            raise Wrong(f"{name} wants {OPTIONS[name][0]}")
    if "--players" in values and int(values["--port"]) == 65535:
        raise Wrong("--port wants a number from 1 to 65534 with --players")


def look(words):
    if not words:
        raise Wrong("COMMAND is missing")
    command, *words = words
    if command in COMMANDS:
        of_command(command, words)
    elif command == "help":
        if len(words) > 1:
            raise Wrong(f"{words[1]} is one word too many")
        if words and words[0] not in COMMANDS:
            raise Wrong(f"{words[0]} is no command")
    elif command not in ("--help", "version", "--version"):
        raise Wrong(f"{command} is no command")
    elif words:
        raise Wrong(f"{words[0]} is one word too many")


def told(words):
    """What is told of words that name no command."""
    usage = COMMANDS[words[0]][2] if words and words[0] in COMMANDS else ALL
    try:
        look(words)
        wrong = ""
    except Wrong as it:
        wrong = f"{it}\n"
    return f"error: words\n{wrong}usage: smooth {usage}\n"
