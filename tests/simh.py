"""Runs the same tapes on SIMH's pdp8 and on the program of this repository, and compares what they print.

usage: simh.py SIMH PROGRAM FOLDER, where FOLDER has the tape fullest.bin, and the other tapes are made there.
"""
import random
import re
import subprocess
import sys
from pathlib import Path

LEADER = bytes([0o200] * 16)

# Name, profile, and the words from an address on.
PROGRAMS = [
    ("hello", "8i", {0o200: "7300 6046 1222 3010 1223 3224 1410 4214 2224 5206 7402 5200 0000 6041 5215"
                            " 6046 7200 5614 0224 7773 0000 0310 0305 0314 0314 0317"}),
    ("carry", "8i", {0o200: "7300 1204 1204 7402 4000"}),
    ("isz_loop", "8i", {0o200: "7300 2205 5201 1206 7402 7700 1234"}),
    ("auto_index_sum", "8i", {0o010: "0277", 0o200: "7200 1410 2210 5201 7402", 0o210: "7773",
                              0o300: "1111 7777 0003 4000 0070"}),
    ("auto_index_wraps", "8i", {0o017: "7777", 0o000: "0123", 0o200: "7300 1417 1017 7402"}),
    ("argument_after_call", "8i", {0o200: "7300 4210 0005 7402", 0o210: "0000 1610 2210 5610"}),
    ("and_and_deposit", "8i", {0o200: "7340 0210 3211 1211 7041 7402", 0o210: "5252"}),
    ("other_page", "8i", {0o200: "7300 5602 0400", 0o400: "1177 3610 1610 7001 7402", 0o410: "3000",
                          0o177: "2525"}),
    ("switches", "8i", {0o200: "7300 7604 7404 7650 7402 7001 7402"}),
    ("mq", "8e", {0o200: "7300 1210 7421 1211 7501 7521 7002 7402 1234 4321"}),
]

GROUP_1 = [word for word in range(0o7000, 0o7400) if word & 0o14 != 0o14]
GROUP_2 = [word for word in range(0o7400, 0o7777, 2) if not word & 0o2]
GROUP_3 = [0o7421, 0o7501, 0o7521, 0o7621, 0o7701, 0o7721]


def tape(parts):
    """The tape of some words at their addresses, in the format of the Binary Loader."""
    frames = b""
    for at, words in parts.items():
        frames += bytes([0o100 + (at >> 6), at & 0o77])
        for word in words:
            frames += bytes([word >> 6, word & 0o77])
    total = sum(frames) % 4096
    return LEADER + frames + bytes([total >> 6, total & 0o77]) + LEADER


def straight(numbers, index):
    """A program of random operate words, all of which lead on to a HLT."""
    words = [0o7300, 0o1374, 0o7421, 0o1375]
    words += [numbers.choice(numbers.choice([GROUP_1, GROUP_2, GROUP_3])) for _ in range(90)]
    data = [numbers.randrange(4096), numbers.randrange(4096)]
    return f"operates_{index}", "8e", {0o200: words + [0o7402, 0o7402], 0o374: data}


def commands(folder, name):
    """The commands for SIMH that run a tape."""
    clear = ["deposit 0-7777 0"] + [f"deposit {register} 0" for register in ("AC", "L", "MQ", "SR")]
    shown = [f"examine {register}" for register in ("AC", "L", "PC")]
    return [f"echo TAPE {name}", *clear, f"load {folder}/{name}.bin", "run 200", *shown]


def simh(program, lines, folder):
    """What SIMH prints when it is given these lines."""
    script = folder / "script.ini"
    script.write_text("\n".join(["set tto 8b", *lines, "quit"]) + "\n")
    ran = subprocess.run([program, str(script)], stdin=subprocess.DEVNULL, capture_output=True, timeout=300)
    return ran.stdout.decode("latin-1")


def registers_of_simh(text):
    """AC, link and program counter of each tape."""
    found = {}
    for part in text.split("TAPE ")[1:]:
        name = part.split()[0]
        ac, link, pc = (re.search(rf"^{register}:\s*(\d+)", part, re.M).group(1) for register in ("AC", "L", "PC"))
        halted = "HALT instruction" in part
        found[name] = (halted, int(ac, 8), int(link, 8), int(pc, 8))
    return found


def registers_of_run(program, profile, path):
    """What `pdp8 run` says about a tape, and the bytes that it printed."""
    ran = subprocess.run([program, "run", "--profile", profile, path], capture_output=True, text=True, timeout=60)
    end = re.match(r"(\w+) \d+ AC=(\d+) L=(\d) PC=(\d+)", ran.stdout)
    printed = re.search(r"^PRINTED (.*)", ran.stdout, re.M)
    halted = end.group(1) == "HALT"
    bytes_printed = bytes(int(byte, 8) for byte in printed.group(1).split()) if printed else b""
    return (halted, int(end.group(2), 8), int(end.group(3), 8), int(end.group(4), 8)), bytes_printed


def compare_runs(program, simulator, folder):
    """Compares how all programs end; returns how many there are and which differ."""
    numbers = random.Random(8)
    listed = [(name, profile, {at: [int(word, 8) for word in words.split()] for at, words in parts.items()})
              for name, profile, parts in PROGRAMS]
    listed += [straight(numbers, index) for index in range(200)]
    for name, _, parts in listed:
        (folder / f"{name}.bin").write_bytes(tape(parts))
    text = simh(simulator, [line for name, _, _ in listed for line in commands(folder, name)], folder)
    theirs = registers_of_simh(text)
    differ = []
    for name, profile, _ in listed:
        ours, printed = registers_of_run(program, profile, folder / f"{name}.bin")
        # SIMH stops at the HLT before its printer has finished the last byte.
        if ours != theirs[name] or not ours[0] or printed[:-1].decode("latin-1") not in text:
            differ.append(f"{name}: ours {ours} SIMH {theirs[name]}")
    return len(listed), differ


def compare_cells(program, simulator, folder):
    """Compares each cell of the fullest tape."""
    path = folder / "fullest.bin"
    text = simh(simulator, [f"load {path}", "examine 0-7777"], folder)
    theirs = {int(at, 8): int(word, 8) for at, word in re.findall(r"^(\d+):\s*(\d+)", text, re.M)}
    dump = subprocess.run([program, "dump", path], capture_output=True, text=True, timeout=60).stdout
    ours = {int(at, 8): int(word, 8) for at, word in re.findall(r"^(\d{4})\s+(\d{4})", dump, re.M)}
    differ = [f"cell {at:04o}: ours {ours.get(at)} SIMH {theirs.get(at)}"
              for at in range(4096) if ours.get(at) is None or ours.get(at) != theirs.get(at)]
    return len(ours), differ


def main():
    simulator, program, folder = sys.argv[1], sys.argv[2], Path(sys.argv[3])
    runs, differ = compare_runs(program, simulator, folder)
    cells, wrong = compare_cells(program, simulator, folder)
    for line in differ + wrong:
        print(line)
    print(f"{runs} tapes run, {len(differ)} differ; {cells} cells of the fullest tape, {len(wrong)} differ")
    sys.exit(1 if differ or wrong else 0)


main()
