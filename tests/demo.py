#!/usr/bin/env python3
"""Runs ./demo and compares what it printed with the worked example in README.md: the example's lines
stand in the demo's output, one after the other. Each refusal comes with its exit status, and neither folder has what
the other one holds. The demo runs MAZHKURI_PROGRAM, where it is set, else what it proves and builds."""
import pathlib
import subprocess
import sys

ROOT = pathlib.Path(__file__).resolve().parent.parent
section = (ROOT / "README.md").read_text().split("## A worked example\n")[1].split("\n## ")[0].rstrip("\n").split("\n")
start = next(i for i, line in enumerate(section) if line.startswith("    "))
example = [line[4:] for line in section[start:]]
if len(example) < 10:
    sys.exit("tests/demo.py: README.md has no worked example")
run = subprocess.run([ROOT / "demo"], capture_output=True, text=True)
if run.returncode or run.stderr:
    sys.exit(f"tests/demo.py: the demo failed: {run.stdout}{run.stderr}")
shown = run.stdout.split("\n")
if not any(shown[i:i + len(example)] == example for i in range(len(shown))):
    sys.exit("tests/demo.py: README.md's worked example is not what the demo printed:\n" + run.stdout)
refusals = [(line.strip(), after.strip()) for line, after in zip(shown, shown[1:]) if line.startswith("    refused")]
if refusals != [(f"refused {n}", "exit status 1") for n in (3, 6, 15, 16)]:
    sys.exit(f"tests/demo.py: the demo's refusals are {refusals}")
if any(" key" in line for line in shown if line.startswith("server$")) or any(" store" in line for line in shown if line.startswith("office$")):
    sys.exit("tests/demo.py: a command of the demo uses the key at the server, or the store at the office")
print(f"  {len(example)} lines of README's worked example stand in the demo's output")
