"""What was seen, counted by its kind; differences that are not listed are shown, up to a bound."""
import collections

SHOWN, WIDTH = 10, 150


class Told(collections.Counter):
    unlisted = 0

    def differ(self, what, case, got, wanted):
        self.unlisted += 1
        if self.unlisted <= SHOWN:
            print("  not listed: %s\n    case   %s\n    got    %s\n    wanted %s" % (what, case[:WIDTH], str(got)[:WIDTH], str(wanted)[:WIDTH]))


def lines(path):
    with open(path) as f:
        return f.read().split("\n")[:-1]
