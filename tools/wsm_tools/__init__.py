"""The tools that users run beside `wsm`, each a module whose page is its --help, and what they share.

`telling` has words and statuses, `rows` lines of rows, `asking` what the program says of a query.
"""
