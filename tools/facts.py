#!/usr/bin/env python3
"""facts.py [COMMIT]: the facts that stand in the `requires` of three or more functions of src/, and the groups of three or more parameters that four or
more functions share (docs/DESIGN-PASS.md, point 5). Without a commit the last one is read."""
import collections
import itertools
import re
import subprocess
import sys

commit = sys.argv[1] if len(sys.argv) > 1 else "HEAD"


def git(*args):
    return subprocess.check_output(["git", *args], text=True)


facts = collections.Counter()
where = collections.defaultdict(set)
groups = collections.Counter()
for path in git("ls-tree", "-r", "--name-only", commit, "crates").split("\n"):
    if not re.match(r"crates/[a-z]+/src/.*\.rt$", path):
        continue
    source = git("show", f"{commit}:{path}")
    function = r"fn ([a-z_0-9]+)[^{;]*?\(([^{]*?)\)\s*(->[^{]*?)?((?:\s*(?:requires|ensures)[^\n]*\n)*)\s*\{"
    for m in re.finditer(function, source):
        names = [p.split(":")[0].strip().replace("mut ", "") for p in re.split(r",(?![^<\[]*[>\]])", m.group(2)) if ":" in p]
        for size in range(3, 7):
            for group in itertools.combinations(sorted(set(names)), size):
                groups[group] += 1
        for line in (m.group(4) or "").split("\n"):
            r = re.match(r"\s*requires (?:\w+ )?\{ (.*) \}", line)
            for part in re.split(" × ", r.group(1)) if r else []:
                fact = part.strip().strip("()").replace(".now", "").replace(".old", "")
                facts[fact] += 1
                where[fact].add(path.split("/")[1] + "::" + m.group(1))
for fact, n in facts.most_common():
    if n >= 3:
        print(n, fact, " ".join(sorted(where[fact])))
print()
for group, n in groups.most_common():
    if n >= 4 and not any(set(group) < set(other) and k >= n for other, k in groups.items()):
        print(n, ", ".join(group))
