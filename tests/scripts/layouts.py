"""The headers of scripts that are made: a small crossing of two lanes, one of twelve lanes, and policies for them."""
CROSSING = """aim {version}
grid 4000 4 100 0 450 4096
times {times}
lanes 2
move 0 straight line 0 1500 4000 1500 40
move 1 straight line 2500 0 2500 4000 40
{policies}
vehicles {vehicles}
begin
"""
LIGHTS = "phase 20 80 0\nphase 20 80 1"
PLAIN_AND_LIGHTS = f"policy plain fcfs\npolicy lights light\n{LIGHTS}\npolicy siren emerg"
TWELVE_LANES = """aim {version}
grid 24000 48 100 250 1200 8192
times {times}
lanes 12
move 0 left curve 0 10500 13500 10500 13500 24000 280
move 1 straight line 0 7500 24000 7500 240
move 2 right curve 0 4500 4500 4500 4500 0 95
move 3 left curve 13500 0 13500 13500 0 13500 280
move 4 straight line 16500 0 16500 24000 240
move 5 right curve 19500 0 19500 4500 24000 4500 95
move 6 left curve 24000 13500 10500 13500 10500 0 280
move 7 straight line 24000 16500 0 16500 240
move 8 right curve 24000 19500 19500 19500 19500 24000 95
move 9 left curve 10500 24000 10500 10500 24000 10500 280
move 10 straight line 7500 24000 7500 0 240
move 11 right curve 4500 24000 4500 19500 0 19500 95
{policies}
vehicles {vehicles}
begin
"""
FOUR_PHASES = "phase 100 160 1 2 7 8\nphase 100 100 0 6\nphase 100 160 4 5 10 11\nphase 100 100 3 9"
LIGHTS_FIRST = f"policy lights light\n{LIGHTS}\npolicy plain fcfs\npolicy siren emerg"
LIGHTS_THAT_YIELD = f"policy both light-emerg\n{LIGHTS}\npolicy siren emerg"
VERSIONS = ((1, PLAIN_AND_LIGHTS), (1, LIGHTS_FIRST), (2, PLAIN_AND_LIGHTS), (2, LIGHTS_FIRST), (3, LIGHTS_THAT_YIELD),
            (3, LIGHTS_FIRST))
TURNS = ("left", "straight", "right")
