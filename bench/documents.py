"""Documents of the benchmark, made by rule: the same size gives the same bytes."""

import json

# A body that runs some forty thousand assignments: the greatest product of nested repeats, with forty inside.
HEAVY = (
    "op pay(from:record,to:record,n:number){let x=0;repeat 64{repeat 16{"
    + "x=(x*31+n+7)%1000003;" * 40
    + "}}from=from-n;to=to+n+x-x;}"
)
LIGHT = "op pay(from:record,to:record,n:number){require from>=n;from=from-n;to=to+n;}"

RECORDS_MOST = 4096
TRANSACTIONS_MOST = 4096
CONFIGURATIONS_MOST = 256
EVENTS_MOST = 65536
NODES_MOST = 16
CLIENTS_MOST = 64


def draws(seed):
    """Numbers that look random and are the same each time."""
    x = seed
    while True:
        x = (75 * x + 74) % 65537
        yield x


def record(number):
    return f"r{number:04d}"


def transfer(app, first, second):
    names = sorted({record(first), record(second)})
    return {
        "client": "c1",
        "app": f"a{app}",
        "op": "pay",
        "args": [record(first), record(second), 1],
        "reads": names,
        "writes": names,
    }


def transfers(count, records, apps):
    """Transfers of 1 between records that are drawn, by applications in turn."""
    drawn = draws(count)
    return [
        transfer(1 + i % apps, next(drawn) % records, next(drawn) % records)
        for i in range(count)
    ]


def application(number, nodes, contract, clients, agents):
    """An application whose agents must all agree: so many peers, from the one of its number on."""
    chosen = sorted((number - 1 + i) % nodes for i in range(min(agents, nodes)))
    return {
        "name": f"a{number}",
        "agents": [f"p{1 + agent}" for agent in chosen],
        "tau": len(chosen),
        "clients": [f"c{1 + i}" for i in range(clients)],
        "contract": contract,
    }


def document(stream, *, records, nodes, block, apps=4, contract=LIGHT, clients=1, agents=2, faulty=(), schedule=None):
    return {
        "version": 1,
        "kind": "full",
        "cut": {"txns": block, "bytes": 1048576},
        "records": [[record(i), 1000000] for i in range(records)],
        "orderers": [f"o{1 + i}" for i in range(nodes)],
        "quorum": nodes // 2 + 1,
        "peers": [f"p{1 + i}" for i in range(nodes)],
        "apps": [application(1 + i, nodes, contract, clients, agents) for i in range(apps)],
        "stream": stream,
        "faulty": list(faulty),
        "schedule": [{"do": "all"}] if schedule is None else schedule,
    }


def plain(count, records=256, nodes=4, block=16, contract=LIGHT):
    return document(transfers(count, records, 4), records=records, nodes=nodes, block=block, contract=contract)


def false_messages(count):
    """So many false messages, half of them blocks of 16 transactions and half of them 16 votes, behind 256 transfers in blocks of 16."""
    stream = transfers(256, 256, 4)
    schedule = []
    for i in range(count // 2):
        first = 1 + 16 * i % 256
        schedule.append({
            "do": "block",
            "from": f"o{1 + i % 2}",
            "number": 1 + i // 2,
            "txns": [1 + (first + 2 * k) % 256 for k in range(16)],
        })
        schedule.append({
            "do": "commit",
            "from": f"p{1 + i % 2}",
            "block": 1 + i // 2 % 16,
            "votes": [{"txn": 1 + k, "out": [i, i]} for k in range(16)],
        })
    schedule.append({"do": "all"})
    return document(stream, records=256, nodes=5, block=16, faulty=["o1", "o2", "p1", "p2"], schedule=schedule)


def deliveries(count):
    """So many deliveries of the first messages, again and again, of 64 transfers in blocks of 16."""
    schedule = [{"do": "deliver", "msg": 1 + i % 16, "to": f"p{1 + i // 16 % 4}"} for i in range(count)]
    return document(transfers(64, 256, 4), records=256, nodes=4, block=16, schedule=schedule)


def heavy(count, chained):
    """Transfers with heavy bodies in one block, on records of their own or all on the same two."""
    stream = [
        transfer(1, 0, 1) if chained else transfer(1, 2 * i, 2 * i + 1)
        for i in range(count)
    ]
    return document(stream, records=2 * count, nodes=1, block=256, apps=1, contract=HEAVY)


def at_every_limit():
    """No faulty node, and every other limit that can be met at once: each peer is an agent of each application."""
    stream = transfers(TRANSACTIONS_MOST, RECORDS_MOST, 16)
    for i in range(CONFIGURATIONS_MOST):
        app = 1 + i % 16
        agents = [f"p{1 + peer}" for peer in range(NODES_MOST)]
        stream.insert(17 * i, {"config": f"a{app}", "agents": agents, "tau": NODES_MOST})
    schedule = [
        {"do": "deliver", "msg": 1 + i, "to": f"p{1 + i % 16}"} for i in range(EVENTS_MOST - 1)
    ]
    return document(
        stream, records=RECORDS_MOST, nodes=NODES_MOST, block=1, apps=16,
        clients=CLIENTS_MOST, agents=NODES_MOST, schedule=schedule + [{"do": "all"}],
    )


def text(made):
    return json.dumps(made, separators=(",", ":")).encode()
