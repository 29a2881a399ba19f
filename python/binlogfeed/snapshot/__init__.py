"""The first copy of the tables: a server's rows as full lines, all as they are at one place of its log.

It connects to the server by PyMySQL, which nothing else of the package needs.
"""
