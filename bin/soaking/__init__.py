"""Random scripts, and a session held to what a fresh one prints."""
