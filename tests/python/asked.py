"""What a test that others ship has asked the package for, and why a length of its graph was refused."""

import math


class Asked:
    """Since a test began. Where it has ties, predecessors are SciPy's where there are several."""

    ours, refused, has_ties = set(), None, False

    @classmethod
    def begin(cls, has_ties=False):
        cls.ours, cls.refused, cls.has_ties = set(), None, has_ties

    @classmethod
    def look(cls, lengths, *kinds):
        """The unit for these lengths, None where they are whole. Notes what is asked for, and which length will be refused."""
        cls.ours |= {"tree", *kinds}
        for name, is_so in (("below 0", lambda it: it < 0), ("of 0", lambda it: it == 0)):
            if any(map(is_so, lengths)):
                cls.refused = f"lengths {name}, which are refused"
        if all(float(it).is_integer() for it in lengths):
            return None
        # of the powers of ten the least in which the longest is told
        return 10.0 ** math.ceil(math.log10(max(lengths) / 2**31))
