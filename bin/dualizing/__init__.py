"""Random models, and what moi_dual says of them held to what moi_edit says."""
