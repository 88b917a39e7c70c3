"""Checks of the mode `host` with clients that others wrote, each where it is installed: redis-benchmark, redis-py, and
node-redis. The lines of their connections have to tell how many requests they sent."""
import os
import shutil
import subprocess
import sys

from hosted import SECONDS, hosted, request

TS_ADD = ["ts.add", "sensor:__rand_int__", "*", "20.5", "ON_DUPLICATE", "LAST"]
RECORDED = b"$6\r\nTS.ADD\r\n"
NODE_MODULES = "/usr/share/nodejs"
BENCHMARK, CLIENTS, EACH = 3_200, 50, 20

# Later versions send their name first, unless they are told not to.
POOL = """if True:
    import sys, threading, redis
    named = {"lib_name": None, "lib_version": None} if int(redis.__version__.split(".")[0]) > 4 else {}
    client = redis.Redis(port=int(sys.argv[1]), **named)
    clients, each, right = int(sys.argv[2]), int(sys.argv[3]), []

    def work(place):
        right.append(all(client.execute_command("TS.ADD", "pump:%d" % place, at, at) == at for at in range(each)))

    threads = [threading.Thread(target=work, args=[place]) for place in range(clients)]
    for thread in threads:
        thread.start()
    for thread in threads:
        thread.join()
    client.connection_pool.disconnect()
    print(right == [True] * clients)
"""
GATHER = """if True:
    import asyncio, sys, redis.asyncio
    named = {"lib_name": None, "lib_version": None} if int(redis.__version__.split(".")[0]) > 4 else {}
    clients, each = int(sys.argv[2]), int(sys.argv[3])

    async def main():
        client = redis.asyncio.Redis(port=int(sys.argv[1]), **named)
        right = True
        for at in range(each):
            adds = [client.execute_command("TS.ADD", "pump:%d" % place, at, at) for place in range(clients)]
            right = right and await asyncio.gather(*adds) == [at] * clients
        await client.connection_pool.disconnect()
        print(right)

    asyncio.run(main())
"""
DUPLICATE = """
    const { createClient } = require('redis');
    const [port, clients, each] = process.argv.slice(1).map(Number);
    (async () => {
        const one = createClient({ url: 'redis://127.0.0.1:' + port, disableClientInfo: true });
        const two = one.duplicate();
        await Promise.all([one.connect(), two.connect()]);
        const adds = [];
        for (let at = 0; at < each; at++)
            for (let place = 0; place < clients; place++)
                adds.push((place % 2 ? one : two).sendCommand(['TS.ADD', 'pump:' + place, String(at), String(at)]));
        const replies = await Promise.all(adds);
        await Promise.all([one.quit(), two.quit()]);
        console.log(replies.every((reply, i) => reply === Math.floor(i / clients)) ? 'True' : 'False');
    })();
"""


class Missing(Exception):
    """A client that is not here."""


def benchmark(options, clients, program, folder):
    """redis-benchmark, whose first connection asks for CONFIG twice."""
    name = "redis-benchmark " + " ".join(options)
    if not shutil.which("redis-benchmark"):
        raise Missing(name)
    journal = os.path.join(folder, name.replace(" ", ""))
    with hosted(program, journal) as host:
        words = ["redis-benchmark", "-p", host.address.split(":")[1], "-n", str(BENCHMARK), "-r", "1000", "--csv", *options]
        ran = subprocess.run(words + TS_ADD, stdin=subprocess.DEVNULL, capture_output=True, timeout=SECONDS)
        right = ran.returncode == 0 and len(ran.stdout.splitlines()) == 2
        lines = [line.split() for line in host.lines(clients + 1)]
        told = {int(link): int(executed) for _, link, _, executed, how in lines if how == "ended"}
        right = right and sorted(told) == list(range(1, clients + 2)) and told.pop(1) == 2 and sum(told.values()) == BENCHMARK
    with open(journal, "rb") as file:
        return right and file.read().count(RECORDED) == BENCHMARK and name


def scripted(name, words, script, ends, program, folder):
    """A script with a client of `words`, whose connections execute so many more requests as they end."""
    with hosted(program) as host:
        words = [*words, script, host.address.split(":")[1], str(CLIENTS), str(EACH)]
        ran = subprocess.run(words, stdin=subprocess.DEVNULL, capture_output=True, timeout=SECONDS,
                             env={**os.environ, "NODE_PATH": NODE_MODULES})
        left = CLIENTS * EACH + ends
        while left > 0:
            _, _, _, executed, how = host.line().split()
            left -= int(executed) if how == "ended" else sys.maxsize
        right = (ran.returncode, ran.stdout) == (0, b"True\n") and left == 0
        rows = b"".join(b"*2\r\n:%d\r\n+%d\r\n" % (at, at) for at in range(EACH))
        for place in range(CLIENTS):
            told = host.told(request("TS.RANGE", "pump:%d" % place, "-", "+"))
            right = right and told == b"*%d\r\n" % EACH + rows
    return right and name


def succeeds(words):
    return shutil.which(words[0]) and subprocess.run(words, stdin=subprocess.DEVNULL, capture_output=True, timeout=SECONDS,
                                                     env={**os.environ, "NODE_PATH": NODE_MODULES}).returncode == 0


def python(name, script, program, folder):
    """redis-py of the Python that runs this, or of the system's."""
    for path in (sys.executable, "/usr/bin/python3"):
        if succeeds([path, "-c", "import redis.asyncio"]):
            return scripted(name, [path, "-c"], script, 0, program, folder)
    raise Missing(name)


def node(name, script, program, folder):
    """node-redis, whose two connections end by QUIT."""
    if not succeeds(["node", "-e", "require('redis')"]):
        raise Missing(name)
    return scripted(name, ["node", "-e"], script, 2, program, folder)


def fifty_clients(program, folder):
    return benchmark(["-c", "50"], 50, program, folder)


def many_clients(program, folder):
    return benchmark(["-c", "500"], 500, program, folder)


def pipelines(program, folder):
    return benchmark(["-c", "50", "-P", "16"], 50, program, folder)


def pool(program, folder):
    return python("redis-py with its pool and %d threads" % CLIENTS, POOL, program, folder)


def gather(program, folder):
    return python("redis-py with asyncio.gather of %d" % CLIENTS, GATHER, program, folder)


def duplicate(program, folder):
    return node("node-redis with its duplicate()", DUPLICATE, program, folder)


CHECKS = [fifty_clients, many_clients, pipelines, pool, gather, duplicate]
