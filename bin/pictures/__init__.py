"""Pictures of the bridges and of the crates. They are made by scripts, and aren't proved."""
