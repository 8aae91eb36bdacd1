#!/usr/bin/env python3
"""Loads the pages of the real group in Chromium, checks what the browser has of them, and makes screenshots to look at.

    service/tests/browser.py FOLDER

FOLDER takes the screenshots. A second group has a name that is markup. The browser has to show it as text, and to run nothing.
"""
import argparse
import html.parser
import json
import os
import shutil
import subprocess
import tempfile
import urllib.parse

import common
import follow

MARKUP = "<script>document.title='changed'</script><img src=x onerror=\"document.title='changed'\">"


class Page(html.parser.HTMLParser):
    """What a browser has of a page: the title, the text, and how often each element is there."""

    def __init__(self, source):
        super().__init__()
        self.title, self.text, self.count, self.inside = "", "", {}, ""
        self.feed(source)

    def handle_starttag(self, tag, attrs):
        self.inside = tag
        self.count[tag] = self.count.get(tag, 0) + 1

    def handle_endtag(self, tag):
        self.inside = ""

    def handle_data(self, data):
        if self.inside == "title" and not self.title:
            self.title = data
        elif self.inside != "style":
            self.text += " " + " ".join(data.split())


def chromium(*words):
    name = shutil.which("chromium") or shutil.which("google-chrome")
    if name is None:
        raise SystemExit("there is no Chromium here")
    with tempfile.TemporaryDirectory() as home:
        done = subprocess.run([name, "--headless=new", "--no-sandbox", "--disable-gpu", "--hide-scrollbars", f"--user-data-dir={home}", *words],
                              stdout=subprocess.PIPE, stderr=subprocess.DEVNULL, text=True, check=True, timeout=300)
    return done.stdout


def main():
    parser = argparse.ArgumentParser()
    parser.add_argument("folder")
    parser.add_argument("--program", default=common.PROGRAM)
    args = parser.parse_args()
    os.makedirs(args.folder, exist_ok=True)
    service = common.Service(os.path.join(tempfile.mkdtemp(), "groups.db"), program=args.program)
    service.start()
    info = common.read(os.path.join(follow.REAL, "epoch-1.info"))
    messages = list(common.records(common.read(os.path.join(follow.REAL, "handshakes.log"))))
    for name in ("real", MARKUP):
        path = "/v1/groups/" + urllib.parse.quote(name, safe="")
        common.insist(service.url, "PUT", path + "?lifetimes=ignored", info)
        for message in messages:
            common.insist(service.url, "POST", path + "/handshakes", follow.forged(message))
            common.insist(service.url, "POST", path + "/handshakes", message)
    while len(json.loads(common.insist(service.url, "GET", "/v1/groups/real/refusals"))["refusals"]) < len(messages):
        pass  # nobody waits for them to be stored
    common.insist(service.url, "POST", "/v1/groups/real/undo?sequence=10")
    quoted = urllib.parse.quote(MARKUP, safe="")
    for file, path, width in (("groups", "/", 1280), ("group", "/group/real", 1280), ("narrow", "/group/real", 420),
                              ("markup", "/group/" + quoted, 1280), ("none", "/group/none", 1280)):
        chromium(f"--window-size={width},2600", f"--screenshot={os.path.join(args.folder, file)}.png", service.url + path)
    groups = Page(chromium("--dump-dom", service.url + "/"))
    assert groups.title == "Groups · mlscheckd" and " real " in groups.text and MARKUP in groups.text, groups.text
    # Of the first group the commit that began epoch 8 is undone. Epoch 7 has two members, and epoch 8 three, in a tree of four leaves.
    for path, title, epoch, nodes in (("/group/real", "real", 7, 3), ("/group/" + quoted, MARKUP, 8, 7)):
        page = Page(chromium("--dump-dom", service.url + path))
        assert page.title == title + " · mlscheckd", page.title
        assert f"Epoch {epoch}, " in page.text and "7 BadSignature" in page.text and "basic: " in page.text, page.text
        assert page.count["rect"] == nodes and "script" not in page.count and "img" not in page.count, page.count
    assert "No such group" in Page(chromium("--dump-dom", service.url + "/group/none")).text
    print(f"the pages in Chromium are as they should be; screenshots are in {args.folder}")
    assert service.stop() == 0


if __name__ == "__main__":
    main()
