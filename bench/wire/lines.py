"""Writes N deliveries of all eight kinds, a line each, or the replies that the program of bench/wire.sh makes."""
import json
import sys

BASE = "https://forge/c/"
CHANGE_KINDS = ["approved", "withdrawn", "closed"]


def delivery(number):
    said = {"id": f"{number:08x}-0000-4000-8000-000000000000"}
    turn = number % 8
    change = {"change": number % 999_999_999 + 1, "revision": number % 9_999 + 1}
    if turn == 0:
        message = f"Change {number}\n\nWhat it does, and why.\n\nDepends-On: {BASE}{number + 7}\nDepends-On: {BASE}{number + 9}\n"
        said |= {"kind": "revision", "project": "group/lib", "message": message} | change
    elif turn < 4:
        said |= {"kind": CHANGE_KINDS[turn - 1]} | change
    elif turn < 6:
        said |= {"kind": ["landed", "refused"][turn - 4], "order": number + 1}
    elif turn == 6:
        said |= {"kind": "take", "worker": "rack-1/worker-7"}
    else:
        said |= {"kind": "result", "build": number + 1, "outcome": "success"}
    return said


def reply(number):
    turn = number % 4
    if turn == 0:
        return {"reply": "recorded"}
    if turn == 1:
        return {"order": number + 1, "reply": "queued"}
    if turn == 2:
        return {"n": number + 1, "reply": "landed"}
    ahead = [[change, 1] for change in range(1, number % 16 // 4 * 4 + 1)]
    build = {"after": number, "ahead": ahead, "build": number + 1, "change": 102, "job": "unit"}
    return build | {"queue": "core", "reply": "build", "revision": 1}


def main():
    for number in range(int(sys.argv[1])):
        print(json.dumps(delivery(number), separators=(",", ":")))


if __name__ == "__main__":
    main()
