"""Shrinks a case that fails. A case is a list of inputs, which the program reads in this order in one run."""
import time

MOST_RUNS = 500     # how many runs of the program are made for one fault at most
MOST_SECONDS = 60   # how many seconds are spent on one fault at most


class Shrinking:
    """Removes inputs from a case, and then lines and bytes from each input, as long as it still fails in the same way."""

    def __init__(self, fails):
        self.fails, self.runs, self.end = fails, 0, time.monotonic() + MOST_SECONDS

    def is_over(self):
        return self.runs >= MOST_RUNS or time.monotonic() >= self.end

    def least(self, case):
        case = self.without(case, list, 1)
        for number in range(len(case)):
            for between in (b'\n', b''):
                def whole(parts):
                    return case[:number] + [between.join(parts)] + case[number + 1:]
                case = whole(self.without(parts_of(case[number], between), whole, 0))
        return case

    def without(self, parts, case_of, fewest):
        """The parts that are left when no further piece of them can be removed: halves are tried first, then ever smaller pieces."""
        size = max(1, len(parts) // 2)
        while not self.is_over():
            begin, has_gone = 0, False
            while begin < len(parts) and not self.is_over():
                rest = parts[:begin] + parts[begin + size:]
                self.runs += 1
                if len(rest) >= fewest and self.fails(case_of(rest)):
                    parts, has_gone = rest, True
                else:
                    begin += size
            if size == 1 and not has_gone:
                break
            size = max(1, size // 2)
        return parts


def parts_of(data, between):
    """The lines of an input, or its bytes."""
    return data.split(between) if between else [data[at:at + 1] for at in range(len(data))]
