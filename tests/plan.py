#!/usr/bin/env python3
"""Prints the plan of the description on standard input, read from the scope document alone: the stored plans were made by this script, which shares nothing with the planner."""
import sys
from collections import deque


def refusal(d):
    """The first refusal and its position, or None."""
    if len(d) < 9:
        return 1, 0
    if d[:3] != b"UDR":
        return 2, 0
    version, s, l = (int.from_bytes(d[i : i + 2], "big") for i in (3, 5, 7))
    if version != 1:
        return 3, 0
    if not 1 <= s <= 64:
        return 4, 0
    if l > 384:
        return 5, 0
    if len(d) != 9 + 8 * s + 4 * l:
        return 6, 0
    seen = set()
    for i in range(s):
        record = d[9 + 8 * i : 17 + 8 * i]
        if record[:6] == bytes(6) or record[:6] in seen:
            return 7, i
        seen.add(record[:6])
        if int.from_bytes(record[6:], "big") & ~0x1FFE:
            return 8, i
    used = {(i, p) for i in range(s) for p in range(1, 13) if int.from_bytes(d[15 + 8 * i : 17 + 8 * i], "big") >> p & 1}
    for c in range(l):
        a, p, b, q = d[9 + 8 * s + 4 * c : 13 + 8 * s + 4 * c]
        if a >= s or b >= s:
            return 9, c
        if not (1 <= p <= 12 and 1 <= q <= 12):
            return 10, c
        if a == b:
            return 11, c
        if (a, p) in used or (b, q) in used:
            return 12, c
        used |= {(a, p), (b, q)}
    return None


def plan(d):
    s, l = d[6], int.from_bytes(d[7:9], "big")
    uid = [int.from_bytes(d[9 + 8 * i : 15 + 8 * i], "big") for i in range(s)]
    cables = [tuple(d[9 + 8 * s + 4 * c : 13 + 8 * s + 4 * c]) for c in range(l)]
    near = [[] for _ in range(s)]
    for a, p, b, q in cables:
        near[a].append((b, p))
        near[b].append((a, q))
    order = sorted(range(s), key=lambda i: uid[i])
    number = {i: k + 1 for k, i in enumerate(order)}
    level = {}
    for root in order:  # the lowest UID not reached yet is a root
        if root in level:
            continue
        level[root] = 0
        queue = deque([root])
        while queue:
            i = queue.popleft()
            for j, _ in near[i]:
                if j not in level:
                    level[j] = level[i] + 1
                    queue.append(j)
    lines = [f"plan {s} {l}"]
    for i in order:
        above = [uid[j] for j, _ in near[i] if level[j] == level[i] - 1]
        parent = number[uid.index(min(above))] if level[i] else 0
        lines.append(f"sw {number[i]} {uid[i]:012x} {level[i]} {parent}")
    for c, (a, _, b, _) in enumerate(cables):
        up = min(a, b, key=lambda i: (level[i], uid[i]))
        lines.append(f"ln {c} {number[up]}")
    return lines


def main():
    d = sys.stdin.buffer.read()[:2058]
    wrong = refusal(d)
    lines = [f"refused {wrong[0]} {wrong[1]}"] if wrong else plan(d)
    sys.stdout.write("".join(line + "\n" for line in lines))


main()
