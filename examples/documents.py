"""Makes documents.jsonl: the paragraphs of documents.txt and changed versions of them as documents.

A shingle of a text is three words that follow each other. The vector of a text has 512 bits, and each
shingle sets one of them, which its hash names. So the Jaccard distance of two vectors is nearly that of
the two sets of shingles: texts that share most of their words in the same order are near.

    python3 documents.py > documents.jsonl
"""

import hashlib
import json
import pathlib
import re

BITS = 512


def shingles(text):
    words = re.findall(r"\w+", text.lower())
    return {" ".join(words[i : i + 3]) for i in range(len(words) - 2)}


def vector(text):
    data = bytearray(BITS // 8)
    for shingle in shingles(text):
        bit = int.from_bytes(hashlib.sha256(shingle.encode()).digest()[:4], "big") % BITS
        data[bit // 8] |= 1 << bit % 8
    return data.hex()


def sentences(text):
    return re.findall(r"[^.]+\.", text)


def paragraphs():
    for part in pathlib.Path(__file__).with_name("documents.txt").read_text().strip().split("\n\n"):
        head, text = part.split("\n", 1)
        lang, year = head.split()
        yield lang, int(year), text


def document(op, key, text, lang, year, draft):
    fields = {"lang": lang, "year": year, "draft": draft}
    return {"op": op, "key": key, "vector": vector(text), "fields": fields}


def search(text, k, level, condition=None):
    request = {"op": "search", "vector": vector(text), "k": k, "level": level}
    return request if condition is None else request | {"filter": condition}


def session():
    columns = [("lang", "VARCHAR"), ("year", "INT64"), ("draft", "BOOL")]
    fields = [{"name": name, "type": kind} for name, kind in columns]
    yield {"op": "create", "dim": BITS, "metric": "JACCARD", "fields": fields}

    # each paragraph as it stands
    texts = list(paragraphs())
    for i, (lang, year, text) in enumerate(texts):
        yield document("insert", 10 * i, text, lang, year, False)
    yield {"op": "tick"}

    # three versions of each: a draft without its last sentence, one with the first two sentences in the
    # other order, and one that goes on with the first sentence of the next paragraph
    for i, (lang, year, text) in enumerate(texts):
        parts = sentences(text)
        following = sentences(texts[(i + 1) % len(texts)][2])
        yield document("insert", 10 * i + 1, "".join(parts[:-1]), lang, year + 1, True)
        yield document("insert", 10 * i + 2, "".join([parts[1], parts[0]] + parts[2:]), lang, year + 1, False)
        yield document("insert", 10 * i + 3, text + " " + following[0], lang, year + 2, False)

    harbour, library, ferry = texts[0][2], texts[3][2], texts[6][2]
    yield search(ferry, 4, "Eventually")
    yield search(ferry, 4, "Strong")
    yield search(ferry, 3, "Eventually", "!draft && key != 60")
    yield search(ferry, 3, "Eventually", "draft")
    yield search(ferry, 2, "Eventually", "year >= 2022 && lang == \"en\"")
    yield search(ferry, 2, "Eventually", "lang in [\"de\", \"fr\"] && (year < 2020 || year > 2023)")
    yield search(ferry, 2, "Eventually", "   ")
    yield search(ferry, 5, "Eventually", "lang == \"it\"")

    # a text that is not stored: two sentences of one paragraph, and one of another
    mixed = "".join(sentences(library)[:2] + sentences(harbour)[2:3])
    yield search(mixed, 6, "Strong")
    yield search(mixed, 6, "Strong", "not draft and year <= 2021")

    # a document is set anew, another goes, and a third is there already
    yield document("upsert", 30, mixed, "en", 2024, False)
    yield {"op": "delete", "key": 0}
    yield document("insert", 33, harbour, "en", 2024, False)
    yield search(mixed, 3, "Session")
    yield search(harbour, 3, "Session", "year != 2024 or key == 30")
    yield search(harbour, 16384, "Eventually", "key >= 180 && key < 200")

    # lines that are refused
    yield search(ferry, 3, "Strong", "language == \"en\"")
    yield search(ferry, 3, "Strong", "year >= \"2020\"")
    yield {"op": "insert", "key": 999, "vector": vector(ferry), "fields": {"lang": "en", "year": 2024}}
    yield {"op": "insert", "key": 999, "vector": vector(ferry)[:-2], "fields": {}}
    yield search(ferry, 1, "Strong", "key == 999")


for line in session():
    print(json.dumps(line, ensure_ascii=False, separators=(",", ":")))
