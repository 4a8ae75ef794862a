#!/usr/bin/env python3
"""Draws how long random plants wait until everybody knows who is dead.

For each size plants are drawn: some boards crash, in the middle of a round, and a bus master drives rounds until every live board suspects exactly
the dead ones. The closed rounds that this took stand beside the most that it can take (vcube.Wait, and one for the round of the crash).

With matplotlib it is drawn into a file; without it, or without --draw, printed as a table.
"""

import argparse
import random
import signal
import sys

import vcube


def everybody_knows(plant):
    dead = set(plant.dead())
    return all({k for k, suspected in enumerate(row) if suspected} == dead for i, row in enumerate(plant.suspicions()) if i not in dead)


def waited(rng, size, wiring):
    """Rounds closed from the crashes of a random plant on until everybody knows, and the most that it can be."""
    plant = vcube.Plant(size, wiring)
    for _ in range(rng.randrange(size)):  # into the round
        plant.last_granted = plant.grant()
        plant.run([(vcube.Kind.TURN, plant.last_granted)])
    dead = rng.sample(range(size), rng.randint(1, size - 2))
    plant.run([(vcube.Kind.CRASH, board) for board in dead])
    most, begin = plant.wait().rounds + 1, plant.rounds
    while not everybody_knows(plant):
        plant.drive()
    return plant.rounds - begin, most


def drawn(sizes, plants, seed, wiring):
    """For each size the rounds of all its plants, and the most."""
    rng = random.Random(seed)
    for size in sizes:
        waits = [waited(rng, size, wiring) for _ in range(plants)]
        yield size, [rounds for rounds, _ in waits], max(most for _, most in waits)


def print_table(rows):
    print('boards  plants  least   mean  greatest  at most')
    for size, rounds, most in rows:
        figures = vcube.figures(rounds)
        print(f'{size:6}  {figures.count:6}  {figures.least:5}  {float(figures.mean):5.2f}  {figures.greatest:8}  {most:7}')


def draw(rows, path):
    import matplotlib
    matplotlib.use('Agg')
    from matplotlib import pyplot

    _, axes = pyplot.subplots(figsize=(10, 5))
    sizes = [size for size, _, _ in rows]
    axes.violinplot([rounds for _, rounds, _ in rows], positions=sizes, widths=2, showmeans=True)
    axes.step(sizes, [most for _, _, most in rows], where='mid', color='black', label='at most')
    axes.set(xlabel='boards', ylabel='closed rounds until everybody knows', title='Waits of random plants')
    axes.legend()
    pyplot.savefig(path)
    print(path)


def main():
    parser = argparse.ArgumentParser(description=__doc__.partition('\n')[0])
    parser.add_argument('--ring', action='store_true', help='the boards are wired as a ring')
    parser.add_argument('--plants', type=int, default=50, metavar='N', help='how many plants of each size (50)')
    parser.add_argument('--seed', type=int, default=1, help='which plants are drawn (1)')
    parser.add_argument('--draw', metavar='FILE', help='draws them into a file, as waits.png')
    chosen = parser.parse_args()
    wiring = vcube.Wiring.RING if chosen.ring else vcube.Wiring.CUBE
    signal.signal(signal.SIGPIPE, signal.SIG_DFL)  # into head
    rows = list(drawn([3, 4, *range(8, 65, 8)], chosen.plants, chosen.seed, wiring))
    if chosen.draw:
        try:
            draw(rows, chosen.draw)
            return
        except ImportError:
            print('matplotlib is not installed: this is the table', file=sys.stderr)
    print_table(rows)


if __name__ == '__main__':
    main()
