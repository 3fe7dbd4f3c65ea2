"""A judge that knows nothing but tiles: no two vehicles are on one tile in one step. It reads the lines `tiles VEHICLE ROW
COL FROM TO` alone, which say that a vehicle is on a tile from one step to another, both included. It owes nothing to the
judge of drives, which knows how vehicles move and looks at neighbours in time only."""


def runs_of(lines):
    """The lines of tiles as numbers: vehicle, row, column, first and last step."""
    runs = [tuple(int(word) for word in line.split(" ")[1:]) for line in lines if line.startswith("tiles ")]
    wrong = next((run for run in runs if len(run) != 5 or run[3] > run[4]), None)
    if wrong:
        raise ValueError(f"no line of tiles: {wrong}")
    return runs


def shared(lines):
    """Says which two vehicles share a tile in a step, or None. The lines are those of one crossing."""
    on_tile = {}
    for vehicle, row, column, first, last in runs_of(lines):
        on_tile.setdefault((row, column), []).append((first, last, vehicle))
    for tile, visits in sorted(on_tile.items()):
        latest = None
        for first, last, vehicle in sorted(visits):
            if latest is not None and first <= latest[0] and vehicle != latest[1]:
                return f"vehicles {latest[1]} and {vehicle} are on tile {tile} in step {first}"
            if latest is None or last > latest[0]:
                latest = last, vehicle
    return None
