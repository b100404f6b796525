#!/usr/bin/env python3
"""learn.py PROGRAM CAPTURE.pcap PLAN EPOCH: reads growing fronts of a capture with `learn`, from the plan without its writers and
readers, and compares all writers and readers that it ever tells with those that the tool `--summary` finds in the whole capture:
all readers of the plan's topics, and the writers that offer at least the durability of their topic, but for those of the
participant in whose place the service stands, which announces nothing to itself. Whoever said farewell is in none of the later
plans, so that one front does not tell all."""
import os
import struct
import subprocess
import sys

program, capture, plan, epoch = sys.argv[1:]
tools = os.path.join(os.path.dirname(os.path.abspath(__file__)), "..", "..", "tools")
KINDS = ["volatile", "transient_local", "transient", "persistent"]
FRONTS = 25


def tool(*words):
    return subprocess.run([sys.executable, os.path.join(tools, "pcap_to_capture.py"), *words], check=True, stdout=subprocess.PIPE, stderr=subprocess.DEVNULL).stdout


def lines(text):
    """The writers and readers of a plan: what each is, its GUID and its topic."""
    words = (line.split(" ") for line in text.decode("ascii").splitlines())
    return {tuple(word[:3]) for word in words if word[0] in ("writer", "reader")}


with open(plan, encoding="ascii") as file:
    topics = [line for line in file if not line.startswith(("writer ", "reader "))]
own = topics[0].split(" ")[1].strip() + f"{int(epoch):08x}"
kinds = {line.split(" ")[1]: line.split(" ")[2] for line in topics if line.startswith("topic ")}
announced = set()
for line in tool("--summary", capture).decode("ascii").splitlines():
    word = line.split(" ")
    if word[0] in ("writer", "reader") and word[2] == "topic" and word[3] in kinds and not word[1].startswith(own):
        if word[0] == "reader" or KINDS.index(word[-1]) >= KINDS.index(kinds[word[3]]):
            announced.add((word[0], word[1], word[3]))
octets = tool(capture)
ends, at = [], 0
while at < len(octets):
    at += 14 + struct.unpack_from("<I", octets, at + 10)[0]
    ends.append(at)
learnt = set()
for front in range(1, FRONTS + 1):
    some = octets[:ends[len(ends) * front // FRONTS - 1]]
    told = subprocess.run([program, "learn", "--epoch", epoch], input="".join(topics).encode("ascii") + some, check=True, stdout=subprocess.PIPE)
    learnt |= lines(told.stdout)
if learnt != announced:
    print("only learnt:", sorted(learnt - announced), "only announced:", sorted(announced - learnt))
    sys.exit(1)
print(len([who for who in learnt if who[0] == "writer"]), "writers and", len([who for who in learnt if who[0] == "reader"]), "readers learnt")
