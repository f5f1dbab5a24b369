"""Explains the answers of moi_edit. It isn't proved: bin/moi_explain says what it does."""
