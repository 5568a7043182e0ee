"""corpus.py FOLDER [HEAD..]: whether a corpus is what it says, and what heads answer to it.

The files of JSON are looked at against their schema, with the frames beside them, and with what follows from the inputs alone:
ids, flags, acceptance. Then each HEAD, a command as the shell reads it, is asked every case that it takes, and everything that
it answers is compared. It ends with 0 if nothing is wrong, with 1 otherwise, and says what.
"""

import copy
import json
import pathlib
import struct
import subprocess
import sys

import schema
import tapes

WORDS = ["number", "start", "end", "message_length", "charged", "result_entries", "result_text"]
BUFFERS = ["result", "message", "counts"]
LEAST = {"result": 12296, "work": 65536, "message": 2048}
OF_RESULT = {"substitute", "expand", "check_library", "judge", "merge", "older", "argument_to_term", "term_to_argument"}
OF_WORK = {"substitute", "expand", "preview", "judge"}
OF_NO_MESSAGE = {"older", "profile", "provider", "argument_to_term", "term_to_argument"}
# The flags of what only heads with a feature take. A head from before weeks is from before `or` was withdrawn too.
FEATURES = {"counts": "counts", "file": "files", "or": "weeks", "sizes": "sizes", "utf8": "utf8", "weeks": "weeks"}
# The roots of results that are tapes.
RESULTS = {
    "substitute": "any",
    "expand": "condition",
    "judge": "condition",
    "merge": 41,
    "older": "any",
    "argument_to_term": "term",
    "term_to_argument": "provider argument",
}


def least_sizes(operation):
    has = {"result": operation in OF_RESULT, "work": operation in OF_WORK, "message": operation not in OF_NO_MESSAGE}
    return {name: size if has[name] else 0 for name, size in LEAST.items()}


def counted(data):
    return struct.pack("<I", len(data)) + data


def request(file, case):
    """The request behind its id."""
    q = case["input"]
    asked = struct.pack("<BIHI", file["number"], q["limit"], q["file"], q["index"])
    asked += struct.pack("<3I", *(q["sizes"][name] for name in LEAST))
    asked += counted(bytes.fromhex(q["counts"])) + bytes([len(q["tapes"])])
    return asked + b"".join(counted(bytes.fromhex(tape)) for tape in q["tapes"])


def response(case):
    a = case["answer"]
    return struct.pack("<7Q", *(a[word] for word in WORDS)) + b"".join(counted(bytes.fromhex(a[name])) for name in BUFFERS)


def digest(data):
    """FNV-1a with 64 bits."""
    value = 0xCBF29CE484222325
    for byte in data:
        value = (value ^ byte) * 0x100000001B3 % 2**64
    return value


def frames(path):
    data, at, found = path.read_bytes(), 0, {}
    while at < len(data):
        (length,) = struct.unpack_from("<I", data, at)
        body = data[at + 4 : at + 4 + length]
        found[struct.unpack_from("<I", body)[0]] = body[4:]
        at += 4 + length
    return found


# ------------------------------------------------------------------ what follows from the inputs


def accepted(operation, case):
    """For each tape its figures, or the number with which it is refused."""
    found = []
    for i, (tape, root) in enumerate(zip(case["input"]["tapes"], tapes.ROOTS[operation])):
        try:
            found.append(tapes.accept(bytes.fromhex(tape), root, tapes.longest_name(operation, i, case["input"]["file"])))
        except tapes.Refused as refused:
            found.append(refused.args[0])
    return found


def result_at_a_figure(operation, case):
    """Whether the result stands exactly at a figure that holds for what is made: entries, text, nesting, calls."""
    if case["answer"]["number"] != 0 or operation not in RESULTS:
        return False
    figures = tapes.accept(result_of(case), RESULTS[operation], 81)
    figures.has_at = False
    return figures.at_a_figure()


def result_of(case):
    """The result's tape, with the zeros at its end that belong to it."""
    tape = bytes.fromhex(case["answer"]["result"])
    tape += bytes(max(0, 8 - len(tape)))
    entries, text = tapes.sizes(tape)
    return tape + bytes(8 + 9 * entries + text - len(tape))


def flags(operation, case):
    q, a = case["input"], case["answer"]
    given, tried = [bytes.fromhex(tape) for tape in q["tapes"]], accepted(operation, case)
    least, is_refused = least_sizes(operation), any(isinstance(one, int) for one in tried)
    charges_all = operation in OF_WORK and a["number"] == 0 and a["charged"] == q["limit"] > 0
    at_a_figure = any(not isinstance(one, int) and one.at_a_figure() for one in tried)
    holds = {
        "acceptance": is_refused and a["number"] in (2, 3),
        "counts": bool(q["counts"] or a["counts"]),
        "figure": a["number"] == 3 or at_a_figure or result_at_a_figure(operation, case),
        "file": q["file"] > 0,
        "limit": a["number"] == 35 or charges_all,
        "or": any(2 in tapes.codes(tape) for tape in given),
        "refusal": a["number"] != 0,
        "shared-buffers": len(set(given)) < len(given),
        "short-buffer": any(q["sizes"][name] < size for name, size in least.items()),
        "sizes": q["sizes"] != least,
        "utf8": any(byte > 0x7F for tape in given for byte in tapes.text(tape)),
        "weeks": any(64 in tapes.codes(tape) for tape in given),
    }
    return [name for name, stands in holds.items() if stands]


def kind(operation, case):
    number = case["answer"]["number"]
    is_refused = any(isinstance(one, int) for one in accepted(operation, case))
    names = {0: "success", 1: "short-buffer", 2: "malformed", 3: "too-large" if is_refused else "made-too-large"}
    return names.get(number, f"refused-{number}")


def of_acceptance(operation, case):
    """What must be answered if a buffer is too short or a tape is not accepted; None where that decides nothing."""
    least = least_sizes(operation)
    if any(case["input"]["sizes"][name] < size for name, size in least.items()):
        return 1
    return next((one for one in accepted(operation, case) if isinstance(one, int)), None)


# ------------------------------------------------------------------ what is wrong with a case


def wrong(file, case):
    """What of a case does not follow from its inputs or contradicts itself."""
    operation, a = file["operation"], case["answer"]
    name = f"{operation}.{kind(operation, case)}.{digest(request(file, case)):016x}"
    if case["id"] != name:
        yield f"the id should be {name}"
    if case["flags"] != flags(operation, case):
        yield f"the flags should be {flags(operation, case)}, and are {case['flags']}"
    if len(case["input"]["tapes"]) != len(file["tapes"]):
        yield "not as many tapes as the operation has"
    number = of_acceptance(operation, case)
    if number is not None and a["number"] != number or number is None and a["number"] in (1, 2):
        yield f"by buffers and tapes the number should be {number}, and is {a['number']}"
    if a["message_length"] != len(bytes.fromhex(a["message"]).decode("utf-8").encode()):
        yield "the message has another length"
    if a["number"] != 0 and a["result"]:
        yield "a refusal with a result"
    if a["number"] == 0 and (a["message"] or a["start"] or a["end"]):
        yield "a success with a message or a span"
    if a["charged"] > case["input"]["limit"]:
        yield "more charged than the limit"
    if a["number"] == 0 and operation in RESULTS:
        try:
            if 2 in tapes.codes(result_of(case)) and operation != "older":
                yield "a result with code 2"
            tapes.accept(result_of(case), RESULTS[operation], 81)
        except tapes.Refused as refused:
            yield f"a result that is refused with {refused.args[0]}"


def wrong_file(file, whole):
    yield from schema.mistakes(file, whole, whole, file.get("operation", "?"))
    for case in file["cases"]:
        yield from (f"{case['id']}: {what}" for what in wrong(file, case))


def wrong_frames(folder, files):
    """The frames have the same cases, inputs and answers, and no others."""
    asked, answered = (frames(folder / name) for name in ("cases.requests", "cases.responses"))
    seen = set()
    for file, case in ((file, case) for file in files for case in file["cases"]):
        frame = case["frame"]
        if frame in seen:
            yield f"{case['id']}: another case has its frame"
        seen.add(frame)
        if asked.get(frame) != request(file, case) or answered.get(frame) != response(case):
            yield f"{case['id']}: its frames are others"
    if not seen == asked.keys() == answered.keys():
        yield "frames without a case"
    if len({case["id"] for file in files for case in file["cases"]}) != len(seen):
        yield "two cases with one id"


# ------------------------------------------------------------------ whether anything would be found


def damaged(file):
    """The file with its first case alone and one thing wrong, in every way that is looked for."""

    def edited(edit):
        other = {**file, "cases": [copy.deepcopy(file["cases"][0])]}
        edit(other, other["cases"][0])
        return other

    yield "a word missing", edited(lambda f, c: c.pop("comment"))
    yield "a word missing in the answer", edited(lambda f, c: c["answer"].pop("work"))
    yield "a word too many", edited(lambda f, c: c.update(other=1))
    yield "another type", edited(lambda f, c: c["input"].update(limit="1"))
    yield "true for a number", edited(lambda f, c: c["input"].update(index=True))
    yield "half a byte", edited(lambda f, c: c["answer"].update(message=c["answer"]["message"] + "0"))
    yield "capital digits", edited(lambda f, c: c["answer"].update(result="AA"))
    yield "a line's end", edited(lambda f, c: c["answer"].update(result=c["answer"]["result"] + "\n"))
    yield "a number that there is not", edited(lambda f, c: c["input"].update(file=65536))
    yield "an unknown flag", edited(lambda f, c: c["flags"].append("other"))
    yield "a flag twice", edited(lambda f, c: c["flags"].extend(["or", "or"]))
    yield "no comment", edited(lambda f, c: c.update(comment=""))
    yield "something in the work buffer", edited(lambda f, c: c["answer"].update(work="01"))
    yield "no tape", edited(lambda f, c: c["input"].update(tapes=[]))
    yield "another form", edited(lambda f, c: f.update(format=2))
    for flag in FEATURES.keys() | {"acceptance", "figure", "limit", "refusal", "shared-buffers", "short-buffer"}:
        yield f"the flag {flag}, there or not", edited(lambda f, c, flag=flag: c.update(flags=sorted({flag} ^ set(c["flags"]))))
    yield "another id", edited(lambda f, c: c.update(id=c["id"][:-1] + ("0" if c["id"][-1] != "0" else "1")))
    yield "another input", edited(lambda f, c: c["input"].update(index=c["input"]["index"] + 1))
    yield "another number", edited(lambda f, c: c["answer"].update(number=0 if c["answer"]["number"] == 1 else 1))


def not_found(file, whole):
    return [f"{file['operation']}: {what} is not found" for what, other in damaged(file) if not any(wrong_file(other, whole))]


# ------------------------------------------------------------------ heads


class Head:
    def __init__(self, command):
        self.process = subprocess.Popen(command, shell=True, stdin=subprocess.PIPE, stdout=subprocess.PIPE)
        hello = self.ask(b"\0")
        (length,) = struct.unpack_from("<I", hello, 56)
        lines = (line.split(" ") for line in hello[60 : 60 + length].decode().splitlines())
        said = {words[0]: words[1:] for words in lines}
        self.operations, self.features = said["operations"], said.get("features", [])

    def ask(self, body):
        self.process.stdin.write(counted(b"\7\0\0\0" + body))
        self.process.stdin.flush()
        (length,) = struct.unpack("<I", self.process.stdout.read(4))
        answer = self.process.stdout.read(length)
        assert answer[:4] == b"\7\0\0\0", "another id"
        return answer[4:]

    def takes(self, file, case):
        wanted = [feature for flag, feature in FEATURES.items() if flag in case["flags"]]
        return file["operation"] in self.operations and all(feature in self.features for feature in wanted)


def answer_of(body):
    """A response by the names of the files."""
    answer, at = dict(zip(WORDS, struct.unpack_from("<7Q", body))), 56
    for name in BUFFERS:
        (length,) = struct.unpack_from("<I", body, at)
        answer[name] = body[at + 4 : at + 4 + length].hex()
        at += 4 + length
    assert at == len(body), "bytes behind the last part"
    return answer


def replayed(command, files):
    """What a head answers otherwise, and how many cases it was asked."""
    head, asked, differences = Head(command), 0, []
    for file, case in ((file, case) for file in files for case in file["cases"]):
        if not head.takes(file, case):
            continue
        asked += 1
        answer = answer_of(head.ask(request(file, case)))
        # The work buffer is no part of a response.
        wanted = {name: value for name, value in case["answer"].items() if name != "work"}
        differences += [
            f"{case['id']}: {name} is {str(answer[name])[:120]}, not {str(wanted[name])[:120]}"
            for name in wanted
            if answer[name] != wanted[name]
        ]
    return asked, differences


def main(folder, *commands):
    folder = pathlib.Path(folder)
    whole = json.loads((folder / "schema.json").read_text("utf-8"))
    schema.known(whole)
    names = {path.stem for path in folder.glob("*.json")} - {"schema"}
    found = [] if names == tapes.ROOTS.keys() else [f"files for {sorted(names)}"]
    files = [json.loads((folder / f"{name}.json").read_text("utf-8")) for name in sorted(names)]
    for file in files:
        found += [f"{file['operation']}: no case"] if not file["cases"] else []
        found += [*wrong_file(file, whole), *not_found(file, whole)]
    found += wrong_frames(folder, files)
    cases = sum(len(file["cases"]) for file in files)
    print(f"{cases} cases in {len(files)} files, {len(found)} mistakes")
    for command in commands:
        asked, differences = replayed(command, files)
        print(f"{asked} of {cases} cases asked, {len(differences)} differences")
        found += differences
    print("\n".join(found[:40]))
    return 1 if found else 0


if __name__ == "__main__":
    sys.setrecursionlimit(10_000)
    sys.exit(main(*sys.argv[1:]))
