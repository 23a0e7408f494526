"""Tests that ask all interfaces about the same files: programs, C, Rust and Python."""
