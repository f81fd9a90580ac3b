"""Cutting and combining: a pocket with islands, and land less its lakes.

A pocket is milled with a tool of a radius of 3 mm, which has to keep off two islands. Where may its centre be? And of an
island with two lakes: what is dry, and which dry land is within 40 m of the lakes?
"""

from i_overlay_mesh import difference, outline, union

# In millimetres, on one grid of micrometres.
grid = {"scale": 1000, "origin": (0, 0)}
radius = 3
walls = [[0, 0], [120, 0], [120, 80], [0, 80]]
islands = [
    [[[30, 30], [50, 30], [50, 50], [30, 50]]],
    [[[80, 25], [95, 40], [80, 55], [65, 40]]],
]
pocket = outline(walls, -radius, **grid) - outline(islands, radius, **grid)
print(f"The centre stays within {sum(map(len, pocket.polygons))} rings.")

# In metres, on one grid of centimetres.
grid = {"scale": 100, "origin": (0, 0)}
coast = [[0, 0], [900, 60], [1000, 500], [700, 800], [150, 700]]
lakes = [
    [[[300, 200], [450, 220], [400, 330]]],
    # This one is open to the sea.
    [[[850, 400], [1100, 420], [1100, 520], [860, 470]]],
]
land, water = union(coast, **grid), union(lakes, **grid)
dry, wet = land - water, land & water
shore = outline(lakes, 40, **grid) & dry
print(f"Dry land has {len(dry.polygons[0]) - 1} lake of its own, and {len(shore)} shores.")
assert difference(coast, lakes, **grid) == dry
