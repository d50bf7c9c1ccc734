"""Whose each request on the line is: a client's, by its ticket, or the port's own, where that has Data Storage.

The scripts are such that no row tells: a client asks what a port may ask too, or waits while the port asks, and its
outcome isn't collected. Each has the owners that follow from the rules JOB and STO.
"""
from trace_page import unlike

TABLE = """in order
page 17 2D 11 00 08 12 34 00 01 07
param 64 0 rw 0A
param 65 0 rw 5A
kept 64
kept 65
"""
# A page with one octet on request: a request takes several messages.
NARROW = TABLE.replace("17 2D 11", "17 01 11")
UNIT = TABLE + "param 21 0 ro 53\n"
LARGE = "in order\nparam 3 2 ro 80\nparam 3 3 ro 00000801\nparam 64 0 rw 0A\n"
PORT = "port"
# The state, the size and the checksum, the start, the list, two values, the checksum, the end, and the checksum.
FETCH = [PORT] * 10
FETCHED = "turn 54 / save / turn 20"
SCRIPTS = {
    "a client begins a block, and the port has none": ("off", TABLE, "turn 16 / standing / write 2 0 03 / turn 4", [1]),
    "a client waits for a block": ("off", TABLE, "turn 16 / block plain 64 0 14 / read 65 0 / turn 20", [*[PORT] * 3, 1]),
    "a block ends with its session": (
        "off", TABLE, "turn 16 / block plain 64 0 14 / turn 4 / restart / read 65 0 / turn 25", [PORT, PORT, 3],
    ),
    "a client reads the state, and none is looked at": ("off", TABLE, "set / read 3 2 / turn 19 / read 64 0 / turn 4", [1, 2]),
    "a client reads the state, and Data Storage is off": ("off", TABLE, "turn 16 / standing / read 3 2 / turn 20", [1]),
    "a client waits for a fetch": ("both", TABLE, "read 64 0 / turn 54 / save / turn 20", [*FETCH, 1]),
    "a client waits for a check in service": (
        "both", TABLE, f"{FETCHED} / wire local 64 0 32 / turn 6 / event / read 65 0 / turn 60 / save / turn 20",
        [*FETCH, *FETCH, 11],
    ),
    "a client reads the state behind a fetch": ("both", TABLE, f"{FETCHED} / read 3 2 / read 65 0 / turn 20", [*FETCH, 11, 12]),
    "a client reads the unit behind a fetch": ("both", TABLE, f"{FETCHED} / read 21 0 / turn 20", [*FETCH, 11]),
    "a client waits, and the unit is read": ("own", UNIT, "read 64 0 / turn 57 / save / turn 20", [PORT, *FETCH, 1]),
    "a client waits, and the set is too large": ("both", LARGE, "turn 15 / read 64 0 / turn 20", [PORT, PORT, 1]),
    "a request is cut short": ("both", NARROW, "turn 17 / wire outlost 3 / turn 24", [PORT, PORT]),
}
OWNERS = "page.state.trace.requests.map(({isOwn, ticket}) => (isOwn ? 'port' : ticket?.number ?? 'nobody'))"


def check_owners(room):
    room.open_page()
    for name, (store, table, calls, owners) in SCRIPTS.items():
        room.open_text(room.trace_of(f"store {store}\n{table}{calls.replace(' / ', chr(10))}\n"))
        yield f"{name}: fault", room.fault()
        yield name, unlike(room.window.run(OWNERS), owners)


CHECKS = [check_owners]
