"""A channel that `gateway index` made and `gateway serve` gives. The scripts beside it use this."""
import socket
import subprocess
import sys
import time

import side_by_side as bench

PLACE = "bench/linux-64"


def indexed(folder, program, python, size):
    """A channel of this size in a folder: its place, and the names of its shards."""
    place = folder / PLACE
    place.mkdir(parents=True)
    bench.made(place, python, size)
    subprocess.run([program, "index", PLACE], cwd=folder, check=True, stdout=subprocess.DEVNULL)
    return PLACE, sorted(file.name for file in (place / "shards").iterdir())


def free_port():
    """A port of 127.0.0.1 that was free a moment ago."""
    with socket.socket() as listener:
        listener.bind(("127.0.0.1", 0))
        return listener.getsockname()[1]


def until_it_listens(process, port):
    """Waits until a server takes connections."""
    for _ in range(200):
        if process.poll() is not None:
            sys.exit(f"the server ended with status {process.returncode}")
        try:
            socket.create_connection(("127.0.0.1", port), 1).close()
            return
        except OSError:
            time.sleep(0.05)
    sys.exit("the server doesn't listen")


def served(folder, program, wrap=lambda command: command):
    """A server of the channels in a folder, and its port."""
    port = free_port()
    process = subprocess.Popen(wrap([str(program), "serve", f"127.0.0.1:{port}"]), cwd=folder)
    until_it_listens(process, port)
    return process, port
