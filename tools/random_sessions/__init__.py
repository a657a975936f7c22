"""Random sessions of a standby against a plain evaluation of the definitions (see random_sessions.py above)."""
