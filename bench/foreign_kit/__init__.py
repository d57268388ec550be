"""What bench/foreign.py needs beside the kit of examples/c: a larger C library, drivers of some programs, and how they are built and compared."""
