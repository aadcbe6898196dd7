"""The program that the kernel starts for each core (`core_pattern`): a small parent as root, and a worker without rights."""
