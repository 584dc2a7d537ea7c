"""Prints a diagram of the houses of this repository, as mermaid draws it: each house is a layer of crates, and an arrow goes from a
house to one that its crates stand on. An arrow is left out where others lead the same way. Which crate is in which house stands below;
what each crate stands on is read from crates.txt.

Usage: python3 docs/houses.py

The text stands in docs/ARCHITECTURE.md. The script ends with status 1 where a crate is in no house or in two, or where two houses stand
on each other."""

import pathlib
import sys

HOUSES = {
    "Words": (
        "names, keys, texts, modes, scopes, effects, numbers",
        "enq_base byte_fields mode_rules owner_scope module_effects business_rows number_ranges turn_list",
    ),
    "Devices": (
        "streams, disks, logs, keepers of rows",
        "io_edge bk_disk folder_disk gate_log keeper_api table_reading keeper_sqlite sorted_rows row_tree keeper_wal keeper_mem",
    ),
    "Locks": (
        "the lock table, its backup file, its replica",
        "lock_entry lock_laws lock_objects lock_collector lock_table replica_link lock_index lossy_link backup_file enq_server",
    ),
    "Books": (
        "update units, their marks and rows, levels of intervals",
        "update_records record_laws ledger_steps draw_laws store_reading store_laws posting ledger_laws range_list",
    ),
    "Hall": (
        "the model, and each call as one step of it",
        "hall_model model_laws hall_laws stock_laws hall_calls hall single_calls",
    ),
    "Scripts": (
        "lines and their replies, landscape, monitors",
        "script_lang dialogue_session landscape monitors load_gen script_runner",
    ),
    "Turns": (
        "words that threads change: lock, stock, gauges",
        "seat_sums turn_lock number_stock gauges",
    ),
    "Threads": (
        "a script done by threads, and what its history tells",
        "order_laws past_laws script_actors order_workers whole_script turn_desks caller_laws "
        "actor_threads run_report thread_runner",
    ),
    "Coverage": (
        "what a script lacks in locks",
        "coverage cover_cmd cover_laws cover_example",
    ),
    "Remote calls": (
        "a second system that executes each call once",
        "remote_target remote_sending",
    ),
    "Programs": (
        "enqueue_main, journal_main, enqd, enqd_wal, trfcd",
        "enq_cmd enqd_texts enqd wal_server enqd_wal trfcd_texts trfcd",
    ),
    "Tests and loads": (
        "nothing stands on them",
        "base_tests table_tests wire_tests books_tests "
        "wal_tests journal_tests sqlite_tests device_tests hall_tests script_tests turn_tests thread_tests remote_tests sending_tests script_rows wire_rows coverage_rows "
        "turn_load lock_load run_load",
    ),
}


def read_crates(path):
    """Each crate of crates.txt with the words behind its colon: what it stands on, crates of the kit among them."""
    crates = {}
    for line in path.read_text().splitlines():
        name, colon, rest = line.partition(":")
        if colon:
            crates[name.split()[0]] = rest.split()
    return crates


def place(crates):
    """The house of each crate."""
    house_of = {}
    for house, (_, names) in HOUSES.items():
        for name in names.split():
            if name in house_of or name not in crates:
                sys.exit(f"houses.py: {name} of {house} is in two houses, or isn't in crates.txt")
            house_of[name] = house
    for name in crates:
        if name not in house_of:
            sys.exit(f"houses.py: {name} is in no house")
    return house_of


def below(house, stands_on, above=()):
    """All houses that a house stands on, over others too."""
    if house in above:
        sys.exit(f"houses.py: {house} stands on itself, by way of {', '.join(above)}")
    found = set()
    for other in stands_on[house]:
        found |= {other} | below(other, stands_on, (*above, house))
    return found


def main():
    crates = read_crates(pathlib.Path(__file__).resolve().parent.parent / "crates.txt")
    house_of = place(crates)
    stands_on = {house: set() for house in HOUSES}
    for name, used in crates.items():
        stands_on[house_of[name]] |= {house_of[other] for other in used if other in house_of} - {house_of[name]}
    reach = {house: below(house, stands_on) for house in HOUSES}
    print("flowchart TB")
    for house, (what, names) in reversed(HOUSES.items()):
        count = len(names.split())
        print(f'    {house.split()[0]}["{house}: {count} crate{"" if count == 1 else "s"}<br>{what}"]')
    for house in reversed(HOUSES):
        for other in HOUSES:
            if other in stands_on[house] and not any(other in reach[way] for way in stands_on[house]):
                print(f"    {house.split()[0]} --> {other.split()[0]}")


main()
