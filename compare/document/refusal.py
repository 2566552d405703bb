"""What is not taken: a number, a place, and "this third number, zero for all other refusals" than 10."""


class Refused(Exception):
    def __init__(self, number, place, part=0):
        super().__init__(number, place, part)
        self.number, self.place, self.part = number, place, part

    def __str__(self):
        return "refused %d %d %d" % (self.number, self.place, self.part)


def fits(stored, room):
    """what is stored, if the lent buffer holds it"""
    if len(stored) > room:
        raise Refused(8, 0)
    return stored
