"""The examples of the folder `examples`, each run as a user does."""
