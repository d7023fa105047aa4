"""The colours of nodes, which are those of numaplan's own pictures (a test compares them). Not proved."""

# Nodes whose numbers differ by a multiple of 16 share one.
FILLS = ("#2aaa00", "#2a2a80", "#d4d4ff", "#805555", "#ff80ff", "#802a00", "#8080aa", "#aaff00",
         "#552a2a", "#ff00ff", "#00ff80", "#002aff", "#d48080", "#5500aa", "#ffd4d4", "#8055aa")
DARK = {1, 3, 5, 8, 11, 13, 15}  # letters on these are white


def fill_of(node):
    """The colour of a node."""
    return FILLS[node % len(FILLS)]


def ink_of(node):
    """The colour of letters on it."""
    return "#ffffff" if node % len(FILLS) in DARK else "#000000"
