"""Tests of the programs mp4boxes and mp4inspect, each run as a user does."""
