"""Tests of the programs while requests for memory are refused, and while calls are interrupted."""
