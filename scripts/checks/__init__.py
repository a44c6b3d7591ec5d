"""The checks, which scripts/check runs."""
