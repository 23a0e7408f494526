"""Files that tests read: some are stored as text, others are made by hand."""
