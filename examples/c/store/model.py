#!/usr/bin/env python3
"""What the server and its clients print, whatever the order in which the requests come: tried in random orders. It shares no code with them.

    model.py GUEST"""

import random
import sys

CLIENTS = (1, 2)


def key(client, i):
    return f"key {client}{chr(ord('a') + i)}"


def requests(client):
    yield "hello", "", 0
    for i in range(1, 6):
        yield "set", key(client, i), client * 100 + i * i
        yield "add", "total", i
    for i in range(1, 7):
        yield "get", key(client, i), 0


def carry_out(store, client, request, prints):
    kind, name, value = request
    if kind == "hello":
        prints[client] = [f"client {client}"]
    elif kind == "set":
        store[name] = value
    elif kind == "add":
        store[name] = store.get(name, 0) + value
    elif name in store:
        prints[client].append(f"{name} is {store[name]}")
    else:
        prints[client].append(f"{name} isn't there")


def one_order(chance):
    store, prints, served = {}, {}, dict.fromkeys(CLIENTS, 0)
    left = {client: list(requests(client)) for client in CLIENTS}
    while any(left.values()):
        client = chance.choice([client for client in CLIENTS if left[client]])
        served[client] += 1
        carry_out(store, client, left[client].pop(0), prints)
    prints[0] = [f"client {client}: {served[client]} requests" for client in CLIENTS] + [f"{len(store)} keys, total {store['total']}"]
    return prints


def main():
    consoles = [one_order(random.Random(seed)) for seed in range(100)]
    assert all(prints == consoles[0] for prints in consoles)
    print("\n".join(consoles[0][int(sys.argv[1])]))


if __name__ == "__main__":
    main()
