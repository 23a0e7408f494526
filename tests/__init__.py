"""The tests outside the crates. README.md lists them, with the command that runs each."""
