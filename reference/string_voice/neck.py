"""01, 'Laying the neck': the height and the stiffness of each point."""

from .ranges import NECK_HEIGHTS, all_in, refuse
from .setup import check_lengths, check_setup


def lay_neck(setup, board, board_stiffness, frets, tip, fret_stiffness, heights, stiffness):
    check_setup(setup)
    check_lengths(setup, board, heights, stiffness)
    refuse(7, not all_in(board, NECK_HEIGHTS))
    refuse(8, len(frets) > 24 or not all_in(frets, setup.places))
    refuse(8, any(fret >= following for fret, following in zip(frets, frets[1:])))
    refuse(9, any(tip > 0 or tip < board[fret - 1] for fret in frets))
    for place in setup.places:
        on_fret = place in frets
        heights[place - 1] = tip if on_fret else board[place - 1]
        stiffness[place - 1] = fret_stiffness if on_fret else board_stiffness


def check_heights(heights):
    """7 for a neck that is lent."""
    refuse(7, not all_in(heights, NECK_HEIGHTS))
