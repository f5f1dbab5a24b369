"""Random models, and what moi_conflict says of them judged by moi_edit."""
