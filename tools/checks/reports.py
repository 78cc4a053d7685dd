"""Reads a page of `whylens report` as a browser does, and compares it with the source, and with what `whyline why` and `whylens slice` wrote.
Called by reports.sh: PAGE SOURCE WHY SLICE [EVENT SOURCES]..; each SOURCES has what `sources` of explore says of an event"""
import re
import sys
from html.parser import HTMLParser

TAGS = {"html", "head", "meta", "title", "style", "body", "h1", "h2", "p", "span", "table", "tr", "td", "a"}


class Page(HTMLParser):
    """The title and the heading of a page, and its rows, each with its place, its class, the text of each cell, and its links with their texts."""

    def __init__(self):
        super().__init__(convert_charrefs=True)
        self.rows, self.row, self.title, self.heading, self.inside, self.link = [], None, "", "", [], None
        self.anchors, self.links, self.policy = [], [], None

    def handle_starttag(self, tag, attributes):
        given = dict(attributes)
        assert tag in TAGS, tag
        assert set(given) <= {"id", "class", "href", "lang", "charset", "http-equiv", "name", "content"}, given
        if tag != "meta":
            self.inside.append(tag)
        if "http-equiv" in given:
            self.policy = (given["http-equiv"], given["content"])
        if "id" in given:
            self.anchors.append(given["id"])
        if "href" in given:
            assert given["href"].startswith("#"), given
            self.links.append(given["href"][1:])
        if tag == "tr":
            self.row = {"id": given["id"], "class": given.get("class", ""), "cells": [], "links": []}
        elif tag == "td":
            self.row["cells"].append("")
        elif tag == "a":
            self.link = [given.get("href", "")[1:], ""]

    def handle_endtag(self, tag):
        assert self.inside.pop() == tag
        if tag == "tr":
            self.rows.append(self.row)
            self.row = None
        elif tag == "a":
            self.row["links"].append(tuple(self.link))
            self.link = None

    def handle_data(self, data):
        if self.inside[-1:] == ["h1"]:
            self.heading += data
        if self.inside[-1:] == ["title"]:
            self.title += data
        if self.row is not None and self.row["cells"]:
            self.row["cells"][-1] += data
        if self.link is not None:
            self.link[1] += data


def shown(text):
    return "".join(" " if c < " " and c != "\t" else c for c in text)


def main(page, source, why, sliced, *sources):
    with open(page, encoding="utf-8", newline="") as file:
        text = file.read()
    with open(source, encoding="utf-8", newline="") as file:
        lines = re.split("\r\n|\r|\n", file.read())
    with open(why) as file:
        events = file.read().splitlines()
    with open(sliced) as file:
        marks = {int(row[:6]): row[7] for row in file.read().splitlines() if row[:6].strip().isdigit()}
    read = Page()
    read.feed(text)
    read.close()
    style = text[text.index("<style>") : text.index("</style>")]
    assert not read.inside and "url(" not in style and "@import" not in style
    numbers = [int(re.match(r"#(\d+) ", event)[1]) for event in events]
    assert read.title == read.heading == re.sub(r" \*$", "", events[-1]), (read.title, read.heading)
    assert read.policy == ("Content-Security-Policy", "default-src 'none'; style-src 'unsafe-inline'"), read.policy
    assert read.anchors == [f"L{k + 1}" for k in range(len(lines))] + [f"e{n}" for n in numbers]
    assert set(read.links) <= set(read.anchors)
    for k, (line, row) in enumerate(zip(lines, read.rows), 1):
        mark = marks.get(k)
        assert row["cells"] == [str(k), {None: "", " ": "-", "*": "*"}[mark], shown(line)], row
        assert row["class"] == {None: "", " ": "other", "*": "data"}[mark], row
    told = dict(zip(map(int, sources[::2]), sources[1::2]))
    for event, row in zip(events, read.rows[len(lines) :]):
        assert row["cells"][0] == event and row["class"] == ("data" if event.endswith(" *") else "other"), row
        place = re.match(r"#(\d+) (?:line (\d+))?", event)
        assert row["links"][0] == (f"L{place[2]}" if place[2] else "", event), row
        of = re.findall(r"^(data|choice|control) #(\d+) ", told.get(int(place[1]), ""), re.M)
        if int(place[1]) in told:
            assert row["links"][1:] == [(f"e{n}", f"{role} #{n}") for role, n in of], (row, of)


main(*sys.argv[1:])
