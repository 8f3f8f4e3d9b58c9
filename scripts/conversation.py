"""Conversations as texts, for cases of transcripts, and the rows of scripts/check_cases.txt.

A conversation is words with a blank between them, each a message:

    >threads  <runInTerminal:{"cwd":"/"}   a request of the client, one of the adapter
    <+threads:{"threads":[]}  <-next       a success, a failure
    <*output:{"output":"a"}                an event
    >5threads  <0+initialize/1             with a number of its own; and to the request of that number
    >{"seq":1,"type":"x"}                  the message itself

Behind the colon are the arguments or the body, without blanks. A message has the number after that of its side's last one. A
response is to the last request of the other side with its command. `-` is an empty line of the transcript.
"""
import json
import os
import re

TABLE = os.path.join(os.path.dirname(os.path.abspath(__file__)), "check_cases.txt")
WORD = re.compile(r"([<>])(\d*)([-+*]?)([^/:]*)(?:/(\d+))?(?::(.+))?")


def compact(value):
    return json.dumps(value, separators=(",", ":"))


def lines_of(text):
    """The lines of the transcript that a conversation is. `$NAME` stands for what the file says of that name."""
    last, asked, lines = {">": 0, "<": 0}, {}, []
    for word in replaced(text).split():
        message = None if word == "-" else json.loads(word[1:]) if word[1] == "{" else message_of(word, last, asked)
        if message:
            last[word[0]] = message["seq"]
            if message["type"] == "request":
                asked[word[0], message["command"]] = message["seq"]
        lines.append(f"{word[0]} {json.dumps(message)}" if message else "")
    return lines


def message_of(word, last, asked):
    side, seq, kind, name, request_seq, body = WORD.fullmatch(word).groups()
    sort = {"": "request", "*": "event"}.get(kind, "response")
    message = {"seq": int(seq) if seq else last[side] + 1, "type": sort}
    if sort == "response":
        message["request_seq"] = int(request_seq) if request_seq else asked["<" if side == ">" else ">", name]
        message["success"] = kind == "+"
    message["event" if sort == "event" else "command"] = name
    if body is not None:
        message["arguments" if sort == "request" else "body"] = json.loads(body)
    return message


def replaced(text):
    return re.sub(r"\$(\w+)", lambda found: NAMES[found[1]], text)


# Of each section of the file its rows, as lists of cells; and what the names stand for.
NAMES, ROWS = {}, {}


def read_rows():
    with open(TABLE, encoding="utf-8") as file:
        for line in file.read().splitlines():
            if line.startswith("["):
                section = ROWS.setdefault(line.strip("[]"), [])
            elif line.startswith("$"):
                name, _, text = line[1:].partition("=")
                NAMES[name.strip()] = replaced(text.strip())
            elif line and not line.startswith("#"):
                section.append(line.split(" | "))


read_rows()
