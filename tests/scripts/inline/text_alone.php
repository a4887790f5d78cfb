Hello,
world.
