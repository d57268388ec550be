"""Random guests: their programs, and the machines and plans that they run in."""
