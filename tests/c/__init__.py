"""Tests of the library for C, called from C, C++, Rust and Python."""
