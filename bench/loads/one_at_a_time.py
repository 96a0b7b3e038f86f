"""The first of the random puts and gets, each sent once the reply before it has come."""

from . import mixed
from .load import Aim, Load

LOAD = Load(
    "requests, one at a time", 20_000, mixed.write, (Aim(time=1.2, memory=None),), is_one_at_a_time=True
)
