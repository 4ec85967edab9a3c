"""The random generator for random play order: PCG XSH RR 64/32, seeded with one number in the same way as Rust's rand_core does."""

MULTIPLIER = 6364136223846793005
SEED_INCREMENT = 11634580027462260723
MASK = 2**64 - 1


def output(state):
    """The 32 bits that a state gives: its high bits are mixed, and then rotated by the number in the five topmost bits."""
    mixed = (((state >> 18) ^ state) >> 27) & 0xFFFFFFFF
    turns = state >> 59
    return ((mixed >> turns) | (mixed << (32 - turns))) & 0xFFFFFFFF


class Generator:
    def __init__(self, seed):
        words = []
        for _ in range(4):
            seed = (seed * MULTIPLIER + SEED_INCREMENT) & MASK
            words.append(output(seed))
        self.increment = (words[2] | words[3] << 32) | 1
        self.state = ((words[0] | words[1] << 32) + self.increment) & MASK
        self.step()

    def step(self):
        self.state = (self.state * MULTIPLIER + self.increment) & MASK

    def word(self):
        """The next 32 bits."""
        state = self.state
        self.step()
        return output(state)
