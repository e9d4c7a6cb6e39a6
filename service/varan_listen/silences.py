"""Clients that are silent."""
import asyncio
import collections
import time


class Silences:
    """The clients that haven't sent all, by their numbers. One that is silent for so many seconds is heeded, again after as many, and so on.
    `served_for` is for how long clients have been served without a break: the time before that doesn't count, since a client may have waited for an answer."""

    def __init__(self, patience, served_for, heed):
        self.patience, self.served_for, self.heed = patience, served_for, heed
        self.since = collections.OrderedDict()  # the longest silence first
        self.timer = None

    def __contains__(self, number):
        return number in self.since

    def hear(self, number):
        """The client's silence begins."""
        self.since[number] = time.monotonic()
        self.since.move_to_end(number)
        if self.timer is None:
            self.look_later()

    def end(self, number):
        """The client has sent all. Whether it hadn't before."""
        return self.since.pop(number, None) is not None

    def longest(self):
        """The client that is silent longest, and the seconds that are left to it; or nobody."""
        number, since = next(iter(self.since.items()), (None, 0))
        return number, self.patience - min(time.monotonic() - since, self.served_for())

    def look_later(self):
        number, left = self.longest()
        self.timer = None if number is None else asyncio.get_running_loop().call_later(max(left, 0), self.look)

    def look(self):
        number, left = self.longest()
        if number is not None and left <= 0:
            self.hear(number)
            self.heed(number)
        self.look_later()
