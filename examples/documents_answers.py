"""Prints what the definitions say of documents.jsonl, line by line: a model, and not the program.

    python3 documents_answers.py < documents.jsonl > documents.answers.jsonl

The log is a list of entries. The live rows at a timestamp are the entries up to it, applied in order. The
hits of a search are the live rows that pass its filter, by Jaccard distance and then by key, the first k.
A row that the log gains joins the tail, which becomes a segment at SEAL_ROWS rows.
"""

import functools
import json
import re
import sys
from fractions import Fraction

SEAL_ROWS = 1024

log = []  # (timestamp, operation, key, row)


def live(upto):
    rows = {}
    for ts, op, key, row in log:
        if ts <= upto:
            if op == "delete":
                rows.pop(key, None)
            elif op == "upsert" or key not in rows:
                rows[key] = row
    return rows


def bits(text):
    return int.from_bytes(bytes.fromhex(text), "big")


def distance(a, b):
    union, common = (a | b).bit_count(), (a & b).bit_count()
    return (union - common, union) if union else (0, 1)


KINDS = {"VARCHAR": str, "INT64": int, "BOOL": bool}
TOKEN = re.compile(r"""\s*(?:(\w+)|(-?\d+)|("[^"]*")|(&&|\|\||==|!=|<=|>=|[()\[\],<>!]))""")
WORDS = {"&&": "and", "||": "or", "!": "not", "true": "True", "false": "False"}


def condition(text, columns):
    """The condition as a function of a row, by Python's own reading of the same operators; None where it
    names no column, or compares a column with a literal of another kind."""
    tokens = ["".join(groups) for groups in TOKEN.findall(text)]
    names = {"key": int} | columns
    written = []
    for at, token in enumerate(tokens):
        if token in ("and", "or", "not", "in", "true", "false") or not token[0].isalpha():
            written.append(WORDS.get(token, token))
        elif token not in names:
            return None
        else:
            written.append(f"row[{token!r}]")
            compared = tokens[at + 2 : at + 3] if tokens[at + 1 : at + 2] != ["in"] else tokens[at + 3 : at + 4]
            if at + 1 < len(tokens) and tokens[at + 1] in ("==", "!=", "<", "<=", ">", ">=", "in"):
                kind = str if compared[0].startswith('"') else bool if compared[0] in ("true", "false") else int
                if kind != names[token]:
                    return None
            elif names[token] != bool:
                return None
    return functools.partial(eval, compile(" ".join(written) or "True", text, "eval"))


def scan(ts, query, k, passes):
    found = []
    for key, row in live(ts).items():
        if passes({"row": row["fields"] | {"key": key}}):
            num, den = distance(query, row["bits"])
            found.append((Fraction(num, den), key, num, den))
    return [[num, den, key] for _, key, num, den in sorted(found)[:k]]


def print_line(answer):
    print(json.dumps(answer, sort_keys=True, separators=(",", ":")))


def main():
    last = 0  # the last number that was drawn; under `--still` all moments are 0
    tick = mine = tail = segments = 0

    def draw():
        nonlocal last
        last += 1
        return last

    header = json.loads(sys.stdin.readline())
    columns = {column["name"]: KINDS[column["type"]] for column in header["fields"]}
    digits = header["dim"] // 4
    print_line({"answer": "created", "line": 1})
    for number, text in enumerate(sys.stdin, 2):
        request = json.loads(text)
        op, answer = request["op"], {"line": number}
        fields = request.get("fields", {})
        passes = condition(request.get("filter", ""), columns)
        if "vector" in request and len(request["vector"]) != digits:
            answer |= {"answer": "refused", "reason": "BadVector"}
        elif op in ("insert", "upsert") and {name: type(value) for name, value in fields.items()} != columns:
            answer |= {"answer": "refused", "reason": "BadFields"}
        elif passes is None:
            answer |= {"answer": "refused", "reason": "BadFilter"}
        elif op == "tick":
            tick = draw()
            answer |= {"answer": "ticked", "ticks": [tick]}
        elif op == "search":
            now = draw()
            guarantee = {"Strong": now, "Session": mine, "Eventually": 0}[request["level"]]
            if tick < guarantee:
                tick = draw()
            hits = scan(tick, bits(request["vector"]), request["k"], passes)
            answer |= {"answer": "hits", "now": now, "guarantee": guarantee, "ts": tick, "hits": hits}
        else:
            key, was = request["key"], request["key"] in live(last)
            mine = draw()
            row = None if op == "delete" else {"bits": bits(request["vector"]), "fields": fields}
            log.append((mine, op, key, row))
            if op == "upsert" or op == "insert" and not was:
                tail += 1
            if tail == SEAL_ROWS:
                tail, segments = 0, segments + 1
            if op == "insert":
                answer |= {"answer": "exists" if was else "ok", "ts": mine}
            else:
                answer |= {"answer": "ok", "ts": mine, "was": was}
        print_line(answer)
    end = draw()
    counts = {"live": len(live(end)), "tail": tail, "waiting": segments, "node_live": 0, "node_rows": 0, "failed": 0}
    print_line({"answer": "end", "ts": end} | counts)


main()
