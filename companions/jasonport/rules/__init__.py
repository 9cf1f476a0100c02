"""The rules of the port, by subjects. Each module puts its functions into the tables of table.py, and the rows of its functions into docs/PORT.md."""
from importlib import import_module

# The modules, in the order of the rows of docs/PORT.md.
ORDER = (
    "clauses steps branches forks waiting labels failures generic intentions values functions formulas lists actions decimals chance clock"
    " messages questions names includes patterns"
).split()

for _name in ORDER:
    import_module(f"{__name__}.{_name}")
