"""Measurements and comparisons of the built program; `bench/run` lists them."""
