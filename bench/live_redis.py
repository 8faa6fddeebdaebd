#!/usr/bin/env python3
"""The requests of the session `work` for Redis, as bench/live.sh has load.c send them: live_redis.py
SOCKET LINES OUT. Each handler is a Lua script that is loaded once; OUT gets an EVALSHA for each line,
with a byte 0 behind it. All are sent once, and the replies printed as a session writes them, so that
they can be compared; then the tables are emptied."""
import socket
import sys

# A map is a hash, a set a set, and a value its text.
SCRIPTS = {
    "login": """local old = redis.call('HGET', 'seats', ARGV[1]) or 'nil'
redis.call('HSET', 'seats', ARGV[1], ARGV[2])
redis.call('SADD', 'online', ARGV[1])
return redis.status_reply(old)""",
    "logout": """redis.call('HDEL', 'seats', ARGV[1])
redis.call('SREM', 'online', ARGV[1])
return redis.status_reply('nil')""",
    "seen": """local at = redis.call('HGET', 'seats', ARGV[1]) or 'nil'
return redis.status_reply(at .. ' ' .. redis.call('SISMEMBER', 'online', ARGV[1]))""",
    "crowd": "return redis.status_reply(string.format('%d', redis.call('SCARD', 'online')))",
}


def command(*words):
    """A command as Redis reads it."""
    parts = [f"*{len(words)}\r\n"] + [f"${len(word)}\r\n{word}\r\n" for word in words]
    return "".join(parts).encode()


def main():
    """Loads the scripts, writes the requests, and sends them once."""
    place, lines, out = sys.argv[1:]
    with socket.socket(socket.AF_UNIX) as at:
        at.connect(place)
        got = at.makefile("rb")
        names = {}
        for name, script in SCRIPTS.items():
            at.sendall(command("SCRIPT", "LOAD", script))
            got.readline()
            names[name] = got.readline().decode().strip()
        requests = []
        with open(lines, encoding="utf-8") as file:
            for line in file:
                name, *arguments = line.split()
                requests.append(command("EVALSHA", names[name], "0", *arguments))
        with open(out, "wb") as file:
            file.writelines(request + b"\0" for request in requests)
        for first in range(0, len(requests), 100):
            some = requests[first:first + 100]
            at.sendall(b"".join(some))
            for _ in some:
                print(got.readline().decode().strip()[1:])
        at.sendall(command("FLUSHALL"))
        got.readline()


if __name__ == "__main__":
    main()
