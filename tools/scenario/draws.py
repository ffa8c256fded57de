"""The draws of made-up prices: the same on every machine. A state of 32 bits steps by 1,664,525 times itself plus
1,013,904,223, modulo 2^32; a draw is the new state divided by 65,536, whole part."""


class Draws:
    def __init__(self, seed):
        self.state = seed

    def draw(self):
        self.state = (self.state * 1664525 + 1013904223) % 2**32
        return self.state // 65536
