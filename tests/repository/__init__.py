"""Tests of the repository itself: its documents, tables, installation, and the steps for a new box."""
