"""Tests of the tools beside lowfare."""
