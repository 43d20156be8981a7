"""Who can touch what: a page from the state of a script after one of its events."""
from rehearsal.picture.draw import Drawn, draw
from rehearsal.picture.options import event_index, hidden_range

__all__ = ["Drawn", "draw", "event_index", "hidden_range"]
