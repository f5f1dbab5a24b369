"""Random models, and what moi_relax says of them held to a simplex of its own."""
