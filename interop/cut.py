"""Stands between a replica and its upstream: the first connection through it is cut after so many
octets of the upstream, and each later one is passed on whole. Says `listening` at first, and `cut`
where it has cut one. It ends after half an hour at the latest.

usage: cut.py PORT UPSTREAM_PORT OCTETS
"""
import socket
import sys
import threading
import time

port, upstream_port, octets = map(int, sys.argv[1:])
# How many seconds it goes on.
LIMIT = 1800


def pass_on(source, target, most=None):
    """Passes on what comes, up to so many octets. Says whether there was more."""
    passed = 0
    try:
        while piece := source.recv(4096):
            if most is not None and passed + len(piece) > most:
                return True
            target.sendall(piece)
            passed += len(piece)
        target.shutdown(socket.SHUT_WR)
    except OSError:
        pass
    return False


def join(client, most):
    """Joins a client to the upstream until one of them ends, or is cut."""
    try:
        upstream = socket.create_connection(("127.0.0.1", upstream_port))
    except OSError:
        client.close()
        return
    threading.Thread(target=pass_on, args=(client, upstream), daemon=True).start()
    if pass_on(upstream, client, most):
        print("cut", flush=True)
    for link in (client, upstream):
        try:
            link.shutdown(socket.SHUT_RDWR)
        except OSError:
            pass
        link.close()


def main():
    door = socket.create_server(("127.0.0.1", port))
    door.settimeout(LIMIT)
    print("listening", flush=True)
    end = time.monotonic() + LIMIT
    most = octets
    while time.monotonic() < end:
        client, _ = door.accept()
        threading.Thread(target=join, args=(client, most), daemon=True).start()
        most = None


main()
