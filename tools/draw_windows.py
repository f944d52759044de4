"""Draws after how long a good call falls, by its window and by the share of damaged headers.

The packets until k of the last n outcomes are failures are computed here from the windows' definition, apart from the
program: the chances of all outcomes are followed packet by packet.
"""

from math import log10

from draw_canvas import Canvas

# The windows, the colours of their lines, and how far their names stand below the ends of these.
WINDOWS = ((4, 8, "#2a7d4f", -2), (3, 5, "#2f6db5", 0), (2, 3, "#b3382f", -4), (2, 5, "#9a6700", 4))
SHARES = (0.1, 0.2, 0.5, 1, 2, 5, 10)
PACKET_MS = 20
# A check of 3 bits finds 7 of 8 damaged headers.
FOUND = 0.875
TIMES = ((1, "1 s"), (60, "1 min"), (3600, "1 hour"), (86400, "1 day"), (2592000, "30 days"), (31536000, "1 year"))
LEFT, RIGHT, TOP, BOTTOM = 110, 720, 60, 380


def mean_packets(failing, k, n):
    """The packets until k of the last n outcomes fail, on average, from an empty window."""
    chances, packets, left, leaving = {0: 1.0}, 0.0, 1.0, 0.0
    for _ in range(1000):
        after, filled = {}, 0.0
        for outcomes, chance in chances.items():
            for failed, share in ((0, chance * (1 - failing)), (1, chance * failing)):
                if failed and outcomes.bit_count() + 1 >= k:
                    filled += share
                else:
                    place = (outcomes * 2 + failed) % 2 ** (n - 1)
                    after[place] = after.get(place, 0.0) + share
        packets += left
        last, leaving, left, chances = leaving, filled / left, sum(after.values()), after
        if leaving and abs(leaving - last) <= leaving * 1e-12:
            break
    return packets + left / leaving


def across(share):
    """Where a share of damaged headers stands."""
    return LEFT + (RIGHT - LEFT) * (log10(share) - log10(SHARES[0])) / (log10(SHARES[-1]) - log10(SHARES[0]))


def down(seconds):
    """Where a time stands."""
    return BOTTOM - (BOTTOM - TOP) * log10(seconds) / log10(TIMES[-1][0])


def windows():
    """After how long a good call falls."""
    c = Canvas("windows", 900, 430)
    c.text(450, 26, "a good call falls after, on average, with a packet every 20 ms", "bold")
    for seconds, name in TIMES:
        c.parts.append(f'<path class="plain" d="M {LEFT} {down(seconds):.1f} L {RIGHT} {down(seconds):.1f}"/>')
        c.text(LEFT - 10, down(seconds), name, "small", "end")
    for share in SHARES:
        c.text(across(share), BOTTOM + 20, f"{share} %", "small")
    c.text((LEFT + RIGHT) / 2, BOTTOM + 40, "damaged headers")
    for k, n, colour, below in WINDOWS:
        times = [mean_packets(share / 100 * FOUND, k, n) * PACKET_MS / 1000 for share in SHARES]
        points = [(across(share), down(seconds)) for share, seconds in zip(SHARES, times) if seconds <= TIMES[-1][0]]
        path = " L ".join(f"{x:.1f} {y:.1f}" for x, y in points)
        c.parts.append(f'<path d="M {path}" fill="none" stroke="{colour}" stroke-width="2.5"/>')
        c.text(RIGHT + 16, down(times[-1]) + below, f"k1/n1 = {k}/{n}", "small", "start")
    return c
