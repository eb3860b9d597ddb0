"""A slow, plain second implementation of `balsadbg check` and `balsadbg debug`."""
