"""How a figure stands to its goal."""


def judge(what, figure, at_most=None, at_least=None):
    """Prints a figure with its goal, which is one of the two limits, and whether it is met."""
    is_met = figure <= at_most if at_least is None else figure >= at_least
    goal = "at most %g" % at_most if at_least is None else "at least %g" % at_least
    print("%s: %.3g (goal: %s): %s" % (what, figure, goal, "met" if is_met else "missed"), flush=True)
