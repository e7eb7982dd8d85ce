#!/bin/bash
# Feeds `dp check`, `dp account` and `dp replay` 10,000 mutated inputs: bytes flipped, cut, doubled and nested in the
# pipeline, the queries, the data and the draws of the examples. Each run has to end within a second, with a status of
# the program's, with whole lines on the standard output, none where a pipeline is refused, and with the status's line
# and nothing else on the error output. Needs python3. It is no part of the gate. The first word, if there is one, is
# the number of inputs, the second the seed that they are made from. The last line is `N passed, M failed`.
set -u
here=$(cd "$(dirname "$0")/.." && pwd)
# The launcher builds the program where it is not built or is older than a source.
"$here/dp" >/dev/null 2>&1
exec python3 - "$here" "${1:-10000}" "${2:-1}" <<'PY'
import os, random, subprocess, sys, tempfile

here, inputs, seed = sys.argv[1], int(sys.argv[2]), int(sys.argv[3])
dp = here + "/crates/dp/out/dp"
pick = random.Random(seed)

def read(name):
    with open(here + "/examples/" + name, "rb") as file:
        return file.read()

SESSIONS = [
    (read("town.json"), read("town.csv"), read("town-queries.txt"), read("town-draws.txt")),
    (read("visits.json"), read("visits.csv"), read("visits-queries.txt"), b"0 " * 5000),
    (read("census.json"), read("people.csv"), read("queries.txt"), b"0 " * 100),
]
LINES = {
    0: [b""],
    3: [b"dp: pipeline refused %d\n" % number for number in range(1, 10)],
    6: [b"dp: draw fault\n"],
    8: [b"dp: query limit\n"],
}

def mutated(text):
    """The text after one to four changes."""
    for _ in range(pick.randint(1, 4)):
        at = pick.randint(0, len(text))
        end = min(len(text), at + pick.choice([1, 1, 2, 8, 64]))
        piece = text[at:end]
        change = pick.randrange(7)
        if change == 0 and piece:
            text = text[:at] + bytes([piece[0] ^ (1 << pick.randrange(8))]) + text[at + 1:]
        elif change == 1:
            text = text[:at] + text[end:]
        elif change == 2:
            text = text[:at]
        elif change == 3:
            text = text[:end] + piece + text[end:]
        elif change == 4:
            depth = pick.choice([1, 3, 127, 128, 2000])
            text = text[:at] + b"[" * depth + piece + b"]" * depth + text[end:]
        elif change == 5:
            text = text[:at] + bytes(pick.randrange(256) for _ in range(8)) + text[end:]
        else:
            text = text[:at] + pick.choice([b"-1", b"4294967297", b"1e400", b"null", b'"', b"{}", b"\n", b"\\ud800"]) + text[end:]
    return text

passed = failed = 0
statuses = {}
with tempfile.TemporaryDirectory() as work:
    names = [work + "/" + name for name in ("pipeline", "data", "queries", "draws")]
    for number in range(inputs):
        texts = list(pick.choice(SESSIONS))
        command = ("check", "account", "replay")[number % 3]
        parts = {"check": [0], "account": [0, 2], "replay": [0, 1, 2, 3]}[command]
        # A pipeline that is mutated is mostly refused, so of two commands it is in one run of four.
        if command == "check" or pick.randrange(4) == 0:
            texts[0] = mutated(texts[0])
        for part in parts[1:]:
            if pick.randrange(2) == 0:
                texts[part] = mutated(texts[part])
        for name, text in zip(names, texts):
            with open(name, "wb") as file:
                file.write(text)
        words = [command] + [names[part] for part in parts]
        try:
            run = subprocess.run([dp] + words, capture_output=True, stdin=subprocess.DEVNULL, timeout=1)
            status, out, err = run.returncode, run.stdout, run.stderr
            good = err in LINES.get(status, []) and (not out or out.endswith(b"\n")) and (status != 3 or not out)
        except subprocess.TimeoutExpired:
            status, good = "timeout", False
        statuses[status] = statuses.get(status, 0) + 1
        if good:
            passed += 1
        else:
            failed += 1
            print(f"mutate: input {number}, {command}: FAILED, status {status}")
print(", ".join(f"status {status}: {count}" for status, count in sorted(statuses.items(), key=str)))
print(f"{passed} passed, {failed} failed")
sys.exit(failed != 0)
PY
