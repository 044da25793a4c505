"""The bench tool `ubibench`. What it says of a dump comes from the library libchoduljin, and from nowhere else."""
