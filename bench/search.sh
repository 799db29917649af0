#!/usr/bin/env bash
# Times the program on the instances of bench/instances.py, and other solvers of the same job beside it, and prints a table.
#
#   bench/search.sh PROGRAM [PEERS] [WORD]
#
# PEERS is the folder that bench/peers.sh built; without it the program runs alone, and with - for PROGRAM the peers do, on all instances but
# the product lines, which the program draws. WORD takes the instances whose names have it. A run is
# stopped after $SECONDS_EACH seconds (120). Times are of the whole process, the best of $RUNS runs (3; one where it took more than ten
# seconds), reading included. 'Learned' counts the learned clauses in the program's certificate, which shows those of the checks that the
# answer rests on; a limit has none. 'Same' says whether all peers found the program's result, diagnosis, conflict and number of checks.
set -euo pipefail
[ $# -ge 1 ] && { [ -x "$1" ] || [ "$1" = - ]; } || { sed -n '2,12s/^# \{0,1\}//p' "$0" >&2; exit 64; }
here=$(cd "$(dirname "$0")" && pwd)
program=
[ "$1" = - ] || program=$(realpath "$1")
peers=${2:+$(realpath "$2")}
room=$(mktemp -d)
trap 'rm -rf "$room"' EXIT
"$here/instances.py" "$room" ${program:+"$program"} >/dev/null
SEARCH_PROGRAM=$program SEARCH_PEERS=$peers SEARCH_ROOM=$room SEARCH_WORD=${3:-} RUNS=${RUNS:-3} SECONDS_EACH=${SECONDS_EACH:-120} python3 - <<'PYTHON'
import json, os, re, subprocess, sys, time

program, peers, room = (os.environ["SEARCH_" + it] for it in ("PROGRAM", "PEERS", "ROOM"))
runs, most = int(os.environ["RUNS"]), float(os.environ["SECONDS_EACH"])
BACKENDS = ["defhalves", "minisat", "cadical"] if peers else []


def timed(command):
    """The best time, the status and the text; no time where it was stopped."""
    best, done = None, None
    for _ in range(runs):
        begin = time.monotonic()
        try:
            done = subprocess.run(command, stdin=subprocess.DEVNULL, capture_output=True, timeout=most)
        except subprocess.TimeoutExpired:
            return best, done
        took = time.monotonic() - begin
        best = took if best is None else min(best, took)
        if took > 10:
            break
    return best, done


def found_in(report):
    """Result, diagnosis, conflict and number of checks of a report."""
    found, block = {"diagnosis": [], "conflict": []}, None
    for line in report.split("\n"):
        words = line.split()
        if line.startswith("  ") and block in found:
            found[block].append(int(words[0]))
        elif words:
            block = words[0]
            if block in ("result", "checks"):
                found[block] = words[1]
    return found["result"], found["diagnosis"], found["conflict"], int(found["checks"])


def shown(took):
    return "more than %g" % most if took is None else "%.3f" % took


def row(name):
    base = os.path.join(room, name)
    command = [program, "diagnose", base + ".uvl", base + ".conf"]
    took, done = timed(command) if program else (None, None)
    if not program:
        cells, ours = ["", "", "", ""], None
    elif done is None or done.returncode not in (0, 1, 2, 3):
        cells, ours = ["stopped" if done is None else "status %d" % done.returncode, "", "", ""], None
    else:
        ours = found_in(done.stdout.decode())
        learned = ""
        if ours[0] != "limit":
            try:
                text = subprocess.run(command + ["--certify"], stdin=subprocess.DEVNULL, capture_output=True, timeout=2 * most).stdout
                learned = str(len(re.findall(rb"^learn ", text, re.M)))
            except subprocess.TimeoutExpired:
                pass
        cells = [ours[0], str(ours[3]), "%d, %d" % (len(ours[1]), len(ours[2])), learned]
    cells.append(shown(took) if program else "")
    same = ours is not None or not program
    if peers:
        subprocess.run([sys.executable, os.path.join(peers, "gen.py"), "clauses", base + ".uvl", base + ".conf", base], check=True)
    for backend in BACKENDS:
        time_taken, peer = timed([os.path.join(peers, "peer"), backend, "inc", base + ".cnf", base + ".roots"])
        cells.append(shown(time_taken))
        if peer is None or time_taken is None:
            continue
        theirs = json.loads(peer.stdout)
        what = theirs["result"].split()[0]
        if ours is None and not program:
            ours = what, theirs["diagnosis"], theirs["conflict"], theirs["checks"]
            cells[:3] = [what, str(ours[3]), "%d, %d" % (len(ours[1]), len(ours[2]))]
        if backend == "defhalves":
            cells[-1] += " (%d)" % theirs["learned_sum"]
        elif what == "limit" or ours and ours[0] == "limit":
            continue
        same = same and (what, theirs["diagnosis"], theirs["conflict"], theirs["checks"]) == ours or what == "limit" and ours and ours[0] == what
    if peers:
        cells.append("yes" if same else "NO")
    print("| %s | %s |" % (name, " | ".join(cells)), flush=True)
    return same


def order(name):
    return re.sub(r"\d+", lambda it: it.group().zfill(8), name)


columns = ["instance", "result", "checks", "given up, conflict", "learned", "program"] + ["%s" % it for it in BACKENDS] + (["same"] if peers else [])
print("seconds, best of %d, at a load of %.1f" % (runs, os.getloadavg()[0]))
if peers:
    print("in parentheses: how many clauses the definition of the search learns over all checks")
print("\n| %s |\n|%s" % (" | ".join(columns), "---|" * len(columns)))
names = sorted({it.rsplit(".", 1)[0] for it in os.listdir(room) if it.endswith(".uvl")}, key=order)
good = [row(name) for name in names if os.environ["SEARCH_WORD"] in name]
sys.exit(0 if all(good) else 1)
PYTHON
