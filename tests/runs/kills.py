"""Sessions with a journal that are killed at random moments, and ones without room for it: short runs of two tools."""
from steps import tool_ends

CASES = {
    "nothing_lost": [tool_ends("kill-journal", 50, 2)],
    "nothing_lost, without room": [tool_ends("fill-disk", 50, 2)],
}
