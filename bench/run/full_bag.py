#!/usr/bin/env python3
"""full_bag.py: writes a scenario that fills the bag of packets, nearly, and then loses the first packet 55,000 times.
The lines that fill it are few, since each broadcast of a node with many neighbours sends many packets.
"""

# The nodes, and how many neighbours each may have: each broadcast sends one packet to each neighbour.
NODES, NEIGHBOURS = 32, 16
LOSSES = 55000


def main():
    """Writes the scenario."""
    print(f"params {NEIGHBOURS} 60 6 3 3 4 4")
    print("seed 1")
    print("boot 1")
    for node in range(2, NODES + 1):
        print(f"boot {node} by {node - 1}")
        for _ in range(100):
            print("deliver 0")
    for turn in range(350):
        for _ in range(20):
            print(f"broadcast {turn % NODES + 1} x")
    for _ in range(LOSSES):
        print("lose 0")


if __name__ == "__main__":
    main()
