"""The operator's tool `pagelogctl`. It needs click and rich; `top`, `metrics` and the archive say what else."""
