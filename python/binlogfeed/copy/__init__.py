"""Copies a server's binary logs from another machine, by MySQL's replication protocol."""
