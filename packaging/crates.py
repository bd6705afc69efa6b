#!/usr/bin/env python3
"""Writes the copyright notices of the crates that are compiled into the bench command: which they are, by cargo, and what
Debian's packages of them say. Run by packaging/deb, at the repository's root."""
import json
import os
import subprocess

MACHINE = "x86_64-unknown-linux-gnu"


def output(*words, folder=None):
    return subprocess.run(words, cwd=folder, check=True, capture_output=True, text=True).stdout


def is_macro(package):
    return any("proc-macro" in target["kind"] for target in package["targets"])


def linked(metadata):
    """The packages that the command's own code is linked with: neither macros nor what only builds or tests."""
    packages = {package["id"]: package for package in metadata["packages"]}
    nodes = {node["id"]: node for node in metadata["resolve"]["nodes"]}
    found, todo = set(), [metadata["resolve"]["root"]]
    while todo:
        node = todo.pop()
        if node in found or is_macro(packages[node]):
            continue
        found.add(node)
        todo += [dep["pkg"] for dep in nodes[node]["deps"] if any(kind["kind"] is None for kind in dep["dep_kinds"])]
    return [packages[node] for node in found if packages[node]["source"]]


def notices(packages):
    """What Debian's package of each crate says of its authors and licence, by the crate's file."""
    told = {}
    for line in output("dpkg", "-S", *(package["manifest_path"] for package in packages)).splitlines():
        owner, path = line.split(": ", 1)
        with open(f"/usr/share/doc/{owner.split(':')[0]}/copyright", encoding="utf-8") as file:
            told[path] = file.read()
    return told


def main():
    root = os.path.dirname(os.path.dirname(os.path.abspath(__file__)))
    told = output("cargo", "metadata", "--offline", "--format-version", "1", "--filter-platform", MACHINE,
                  folder=os.path.join(root, "host/bench"))
    packages = sorted(linked(json.loads(told)), key=lambda package: package["name"])
    notice = notices(packages)
    for package in packages:
        print(f"==== {package['name']} {package['version']}, {package['license']}\n\n{notice[package['manifest_path']]}")
    print("==== Rust's standard library, MIT OR Apache-2.0\n\nCopyright: the Rust Project's developers, https://www.rust-lang.org")


main()
