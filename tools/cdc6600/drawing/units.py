"""The functional units, and their names in sentences."""

NAMES = {
    "branch": "Branch", "boolean": "Boolean", "shift": "Shift", "add": "Add", "longadd": "Long Add",
    "multiply1": "Multiply 1", "multiply2": "Multiply 2", "divide": "Divide", "increment1": "Increment 1",
    "increment2": "Increment 2",
}
UNITS = tuple(NAMES)
