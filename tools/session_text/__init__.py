"""Session files of document 01 as text that a person writes and reads, and back."""
