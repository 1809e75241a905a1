"""Two processes: one writes, both copies get it, and the other one reads it."""
from tellwydar import Front, Read, World, Write, check_points

with World(Front.LINEAR, processes=2, registers=1) as world:
    world.call(0, Write(0, 5))
    world.take(0, 1, 0)
    print("the write:", world.take(1, 0, 1))
    world.call(1, Read(0))
    world.take(1, 0, 2)
    print("the read:", world.take(0, 1, 3))
    check_points(2, 1, world.history(), world.points())
    print("points:", world.points())
