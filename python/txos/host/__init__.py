"""What a log of strace says of the host's processes, and the steps that the kernel makes of it."""
