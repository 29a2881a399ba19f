"""What happened in logs: how many changes there were of which tables, when, in transactions of which sizes.

Two runs of the program tell it, `read` and `transactions`. Their lines are counted in blocks, and none of them is kept.
"""
